//! Records a sample of the Rust's answers, for a replay without Rust at hand.
//!
//! The file is a sequence of cases, without an end mark. A case is: a byte, the
//! kind (1 digits written, 2 header, 3 rows written, 4 digits read, 5 rows
//! read); the input's length (16 bits, low byte first) and the input; the page
//! length (16 bits; 0 for a reader); a byte, the refusal; the carried number (32
//! bits); the output's length (16 bits) and the output. A writer's output is
//! what it wrote, none after a refusal; a reader's is the 20 cells, all zero
//! after a refusal.

use super::{inputs, judge, Answer, Case, Kind};
use crate::rng::Rng;
use std::collections::{BTreeMap, BTreeSet};
use std::path::Path;

/// Only inputs and pages up to this length are recorded.
const LONGEST: usize = 220;

/// An input above this length counts as long; fewer of those are recorded.
const LONG: usize = 60;

/// How many cases are kept of one bucket.
fn share(kind: Kind, refusal: u64, long: bool) -> usize {
    match (kind, refusal) {
        (Kind::ToPbn, _) => 30,
        (Kind::Header, _) => 20,
        (Kind::Rows, 0) => 8,
        (Kind::Rows, _) => 20,
        (Kind::FromPbn, _) => 27,
        (Kind::FromRows, 0) => 9,
        (Kind::FromRows, _) if long => 2,
        (Kind::FromRows, _) => 14,
    }
}

/// Cases of one kind, with one refusal, long or not, from one group: an even
/// sample of all that went by.
#[derive(Default)]
struct Bucket {
    met: usize,
    kept: Vec<(Case, Answer)>,
}

pub fn run(seed: u64, path: &Path) -> std::io::Result<()> {
    let mut rng = Rng::new(!seed);
    let mut named = Vec::new();
    let mut buckets: BTreeMap<(Kind, u64, bool, &'static str), Bucket> = BTreeMap::new();
    inputs::all(seed, &mut |group, case| {
        if case.input.len() > LONGEST || case.page > LONGEST {
            return true;
        }
        let Some(answer) = judge::answer(&case) else {
            return true;
        };
        if group == inputs::NAMED {
            named.push((case, answer));
            return true;
        }
        let long = case.input.len() > LONG;
        let share = share(case.kind, answer.refusal, long);
        let bucket = buckets
            .entry((case.kind, answer.refusal, long, group))
            .or_default();
        bucket.met += 1;
        if bucket.kept.len() < share {
            bucket.kept.push((case, answer));
        } else {
            let at = rng.below(bucket.met);
            if at < share {
                bucket.kept[at] = (case, answer);
            }
        }
        true
    });

    let mut bytes = Vec::new();
    let mut written = BTreeSet::new();
    let mut counts: BTreeMap<(Kind, u64), usize> = BTreeMap::new();
    let sampled = buckets.into_values().flat_map(|bucket| bucket.kept);
    for (case, answer) in named.into_iter().chain(sampled) {
        if written.insert(case.clone()) {
            *counts.entry((case.kind, answer.refusal)).or_default() += 1;
            push_case(&mut bytes, &case, &answer);
        }
    }
    std::fs::write(path, &bytes)?;
    for ((kind, refusal), count) in counts {
        println!("{count:>6}  {} refusal {refusal}", kind.name());
    }
    println!("record: {} cases, {} bytes", written.len(), bytes.len());
    Ok(())
}

fn push_case(bytes: &mut Vec<u8>, case: &Case, answer: &Answer) {
    let short = |number: usize| u16::try_from(number).expect("short").to_le_bytes();
    bytes.push(case.kind as u8);
    bytes.extend(short(case.input.len()));
    bytes.extend(&case.input);
    bytes.extend(short(case.page));
    bytes.push(u8::try_from(answer.refusal).expect("a refusal"));
    bytes.extend(u32::try_from(answer.carried).expect("small").to_le_bytes());
    bytes.extend(short(answer.output.len()));
    bytes.extend(&answer.output);
}
