//! How fast the unchanged `read_pbn` and the product read the same editions.

use super::generate;
use super::model::{self, CARD, ENTRY};
use crate::clock::{speed, Clock};
use bridge_encodings::pbn::read_pbn;
use std::hint::black_box;

/// The editions' lengths, and how often each is read in one of the runs.
pub const LENGTHS: [(&str, usize, usize); 3] = [
    ("1 KB", 1_000, 2_000),
    ("100 KB", 100_000, 40),
    ("10 MB", 10_000_000, 1),
];
pub const RUNS: usize = 15;

/// Prints a table of bytes a second.
pub fn run(seed: u64) {
    println!(
        "| Edition | Bytes | Boards | Entries | read_pbn, MB/s | golavimes_read, MB/s | Ratio |"
    );
    println!("|---|---|---|---|---|---|---|");
    for (name, length, times) in LENGTHS {
        let text = generate::plain_edition(seed, length);
        let text = String::from_utf8(text).expect("an edition of ASCII");
        let need = model::read(text.as_bytes());
        let mut cards = vec![0u32; need.boards() * CARD];
        let mut entries = vec![0u32; need.entry_count() * ENTRY];
        let mut answer = [0; 5];

        let mut clock = Clock::new(times);
        for _ in 0..RUNS {
            clock.run(0, || {
                let boards = read_pbn(black_box(&text)).expect("it never refuses");
                black_box(&boards);
            });
            clock.run(1, || {
                let text = black_box(text.as_bytes());
                let refusal = golavimes::read(text, &mut cards, &mut entries, &mut answer);
                assert_eq!(refusal, 0, "answer {answer:?}");
                black_box((&cards, &entries));
            });
        }
        let [rust, product] = clock.medians().map(|time| speed(text.len(), time));
        println!(
            "| {name} | {} | {} | {} | {rust:.1} | {product:.1} | {:.2} |",
            text.len(),
            need.boards(),
            need.entry_count(),
            product / rust
        );
    }
    println!();
    println!("Medians of {RUNS} runs. A ratio above 1 means that golavimes_read is faster.");
}
