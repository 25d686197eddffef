//! How fast editions are written: by the unchanged `write_pbn` of boards already
//! read, by `read_pbn` and `write_pbn` together, and by the product, which reads
//! and writes; and how the time grows on hostile records.

use super::generate::{called, noted, supplemental};
use super::Edition;
use crate::clock::{milliseconds, ratio, speed, Clock};
use crate::read::bench::{LENGTHS, RUNS};
use crate::read::generate::plain_edition;
use bridge_encodings::pbn::{read_pbn, write_pbn};
use std::hint::black_box;
use std::time::Duration;

const HOSTILE_RUNS: usize = 5;

/// The times of what is measured, each for one edition.
struct Times {
    write_rust: Duration,
    both_rust: Duration,
    read: Duration,
    write: Duration,
}

/// Measures all in turn.
fn measure(edition: &Edition, runs: usize, times: usize) -> Clock<4> {
    let text = std::str::from_utf8(edition.text).expect("an edition of UTF-8");
    let mut cards = vec![0u32; edition.reading.cards.len()];
    let mut entries = vec![0u32; edition.reading.entries.len()];
    let mut page = vec![0u8; edition.page.len()];
    let boards = read_pbn(text).expect("it never refuses");
    let mut clock = Clock::new(times);
    for _ in 0..runs {
        clock.run(0, || {
            black_box(write_pbn(black_box(&boards)));
        });
        clock.run(1, || {
            let boards = read_pbn(black_box(text)).expect("it never refuses");
            black_box(write_pbn(&boards));
        });
        clock.run(2, || {
            let text = black_box(text.as_bytes());
            let refusal = golavimes::read(text, &mut cards, &mut entries, &mut [0; 5]);
            assert_eq!(refusal, 0);
            black_box((&cards, &entries));
        });
        clock.run(3, || {
            let text = black_box(text.as_bytes());
            let mut answer = [0; 4];
            let refusal = golavimes::write(text, &mut cards, &mut entries, &mut page, &mut answer);
            assert_eq!(refusal, 0, "answer {answer:?}");
            black_box((&cards, &entries, &page));
        });
    }
    assert!(page == edition.page, "the page is not the model's");
    clock
}

impl Times {
    fn of([write_rust, both_rust, read, write]: [Duration; 4]) -> Self {
        Times {
            write_rust,
            both_rust,
            read,
            write,
        }
    }
}

/// Prints both tables.
pub fn run(seed: u64) {
    println!("| Edition | Bytes read | Bytes written | read_pbn and write_pbn, MB/s | golavimes_write, MB/s | Ratio | write_pbn alone, MB/s | golavimes_write without reading, MB/s | Ratio |");
    println!("|---|---|---|---|---|---|---|---|---|");
    for (name, length, times) in LENGTHS {
        let text = plain_edition(seed, length);
        let edition = Edition::new(&text);
        let took = Times::of(measure(&edition, RUNS, times).medians());
        // What the product takes beyond reading alone.
        let alone = took.write.saturating_sub(took.read);
        let speed = |time: Duration| speed(text.len(), time);
        println!(
            "| {name} | {} | {} | {:.1} | {:.1} | {:.2} | {:.1} | {:.1} | {:.2} |",
            edition.text.len(),
            edition.page.len(),
            speed(took.both_rust),
            speed(took.write),
            ratio(took.both_rust, took.write),
            speed(took.write_rust),
            speed(alone),
            ratio(took.write_rust, alone),
        );
    }
    println!();
    println!("Medians of {RUNS} runs, megabytes of the text that is read. A ratio above 1 means that golavimes_write is faster. It always reads: the last ratio takes what golavimes_read needs away from it.");
    println!();
    growth();
}

/// A kind of record, by how many of something it has.
type Hostile = (&'static str, fn(usize) -> String, [usize; 3]);

const HOSTILE: [Hostile; 9] = [
    (
        "early supplemental tags",
        |n| supplemental(n, true, false),
        [1_000, 2_000, 4_000],
    ),
    (
        "late supplemental tags",
        |n| supplemental(n, false, false),
        [1_000, 2_000, 4_000],
    ),
    (
        "early supplemental tags, a directive and a block each",
        |n| supplemental(n, true, true),
        [1_000, 2_000, 4_000],
    ),
    (
        "tags of one supplemental name",
        |n| "[A \"\"]\n".repeat(n),
        [10_000, 20_000, 40_000],
    ),
    (
        "directives after the last of 256 notes",
        noted,
        [1_000, 2_000, 4_000],
    ),
    (
        "notes of the same number",
        |n| format!("[Auction \"N\"]\nP\n{}", "[Note \"1:n\"]\n".repeat(n)),
        [10_000, 20_000, 40_000],
    ),
    ("calls in one auction", called, [100_000, 200_000, 400_000]),
    (
        "directives and blocks after a tag that is not written",
        |n| format!("[Board \"\"]\n{}", ";d\n{b}\n".repeat(n)),
        [10_000, 20_000, 40_000],
    ),
    (
        "boards of one tag",
        |n| "[A \"\"]\n\n".repeat(n),
        [10_000, 20_000, 40_000],
    ),
];

fn growth() {
    println!("| Record | Number | Bytes read | Bytes written | read_pbn and write_pbn, ms | Growth | golavimes_write, ms | Growth | of it reading, ms |");
    println!("|---|---|---|---|---|---|---|---|---|");
    for (name, text, counts) in HOSTILE {
        let mut before: Option<Times> = None;
        for count in counts {
            let text = text(count);
            let edition = Edition::new(text.as_bytes());
            let took = Times::of(measure(&edition, HOSTILE_RUNS, 1).least());
            let grown = |time: Duration, of: fn(&Times) -> Duration| match &before {
                Some(before) => format!("{:.1}", ratio(time, of(before))),
                None => String::new(),
            };
            println!(
                "| {name} | {count} | {} | {} | {:.2} | {} | {:.2} | {} | {:.2} |",
                edition.text.len(),
                edition.page.len(),
                milliseconds(took.both_rust),
                grown(took.both_rust, |t| t.both_rust),
                milliseconds(took.write),
                grown(took.write, |t| t.write),
                milliseconds(took.read),
            );
            before = Some(took);
        }
    }
    println!();
    println!(
        "The least of {HOSTILE_RUNS} runs. The number doubles from line to line: growth 2 is linear, 4 quadratic."
    );
}
