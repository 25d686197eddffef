//! What the recordings of editions and of LIN texts share: which texts are
//! recorded, and the file of cases.
//!
//! The file is a sequence of cases, without an end mark. Numbers have their low
//! byte first. A case is: a byte, the group (1 chosen texts, 2 texts of several
//! boards, 3 lent sizes, 4 sampled, 5 damaged); the text's length (16 bits) and
//! the text; the sizes lent (16 bits each); a byte, the refusal; the carried number
//! (16 bits); then what is each recording's own.

use crate::rng::Rng;
use crate::sample::{sample, Share, Texts, LONG};
use std::collections::{BTreeMap, BTreeSet};
use std::path::Path;

/// What each replay program has room for.
const MOST_BYTES: usize = 400_000;

/// The groups of a recorded file.
#[derive(Clone, Copy, PartialEq, Eq, PartialOrd, Ord, Debug)]
pub enum Group {
    Chosen = 1,
    Several = 2,
    Sizes = 3,
    Sampled = 4,
    Damaged = 5,
}

/// Texts of one kind, recorded with what is lent for them.
pub trait Recording {
    /// The name of what is recorded.
    const NAME: &'static str;
    /// The texts of which `share` says how many are sampled.
    const TEXTS: Texts;

    fn share(name: &str) -> Share<Group>;

    fn chosen() -> Vec<Vec<u8>>;

    /// Texts of several boards.
    fn several(seed: u64) -> Vec<Vec<u8>>;

    /// Texts that are lent sizes around each boundary.
    fn sized() -> Vec<Vec<u8>>;

    /// With enough lent, and some more.
    fn record_roomy(file: &mut File, group: Group, text: &[u8], rng: &mut Rng);

    /// With too few of each in turn.
    fn record_short(file: &mut File, group: Group, text: &[u8]);

    /// With sizes around each boundary.
    fn record_around(file: &mut File, text: &[u8]);
}

/// A text and the sizes lent for it.
type Lent = (Vec<u8>, Vec<usize>);

/// The file and what was put into it.
#[derive(Default)]
pub struct File {
    bytes: Vec<u8>,
    written: BTreeSet<Lent>,
    left_out: BTreeSet<Lent>,
    counts: BTreeMap<(Group, u64), usize>,
}

impl File {
    /// Starts a case, up to its carried number. Returns false, and starts none, if
    /// the text was recorded with these sizes before.
    pub fn start(
        &mut self,
        group: Group,
        text: &[u8],
        sizes: &[usize],
        [refusal, carried]: [u64; 2],
    ) -> bool {
        if !self.written.insert((text.to_vec(), sizes.to_vec())) {
            return false;
        }
        *self.counts.entry((group, refusal)).or_default() += 1;
        self.bytes.push(group as u8);
        self.with_length(text);
        for size in sizes {
            self.short(*size as u64);
        }
        self.bytes.push(refusal as u8);
        self.short(carried);
        true
    }

    /// Leaves a case out that the Rust does not judge.
    pub fn leave_out(&mut self, text: &[u8], sizes: &[usize]) {
        self.left_out.insert((text.to_vec(), sizes.to_vec()));
    }

    /// A number of 16 bits.
    pub fn short(&mut self, number: u64) {
        let number = u16::try_from(number).expect("16 bits");
        self.bytes.extend(number.to_le_bytes());
    }

    /// Bytes after their length.
    pub fn with_length(&mut self, bytes: &[u8]) {
        self.short(bytes.len() as u64);
        self.bytes.extend_from_slice(bytes);
    }
}

/// Records to the file at a path.
pub fn run<R: Recording>(seed: u64, path: &Path) -> std::io::Result<()> {
    let mut rng = Rng::new(!seed);
    let mut file = File::default();
    for text in R::chosen() {
        R::record_roomy(&mut file, Group::Chosen, &text, &mut rng);
    }
    for text in R::several(seed) {
        R::record_roomy(&mut file, Group::Several, &text, &mut rng);
        R::record_short(&mut file, Group::Several, &text);
    }
    for text in R::sized() {
        R::record_around(&mut file, &text);
    }
    let sampled = sample(seed, &mut rng, R::TEXTS, R::share);
    for (number, (group, text)) in sampled.iter().enumerate() {
        R::record_roomy(&mut file, *group, text, &mut rng);
        if number % 8 == 0 && text.len() <= LONG {
            R::record_short(&mut file, Group::Sizes, text);
        }
    }

    assert!(file.bytes.len() <= MOST_BYTES, "{}", file.bytes.len());
    std::fs::write(path, &file.bytes)?;
    for ((group, refusal), count) in &file.counts {
        println!("{count:>6}  {group:?} refusal {refusal}");
    }
    let (cases, bytes) = (file.written.len(), file.bytes.len());
    let left_out = file.left_out.len();
    println!(
        "record: {cases} {}, {bytes} bytes; {left_out} left out",
        R::NAME
    );
    Ok(())
}

/// Texts as bytes.
pub fn bytes_of(texts: impl IntoIterator<Item = impl AsRef<str>>) -> Vec<Vec<u8>> {
    let texts = texts.into_iter();
    texts
        .map(|text| text.as_ref().as_bytes().to_vec())
        .collect()
}
