//! How fast LIN texts are converted: by the unchanged `parse_lin_file` and
//! `write_pbn`, and by the product; and how the time grows on hostile texts.

use super::generate::{plain_file, plain_lines, HOSTILE};
use super::{judge, Conversion};
use crate::clock::{milliseconds, ratio, speed, Clock};
use crate::read::bench::{LENGTHS, RUNS};
use bridge_encodings::pbn::write_pbn;
use bridge_types::Board;
use std::hint::black_box;
use std::time::Duration;

const HOSTILE_RUNS: usize = 5;
const HOSTILE_LENGTHS: [usize; 4] = [1_000_000, 2_000_000, 4_000_000, 8_000_000];

/// A kind of texts as they are met: its name, and a text by seed and length.
type Kind = (&'static str, fn(u64, usize) -> Vec<u8>);

const KINDS: [Kind; 2] = [
    ("file with qx", plain_file),
    ("records in lines", plain_lines),
];

/// Measures both in turn. The Rust's page has its plays in its own order.
fn measure(conversion: &Conversion, runs: usize, times: usize) -> Clock<2> {
    let text = std::str::from_utf8(conversion.text).expect("a text of ASCII");
    let mut page = vec![0u8; conversion.page.len()];
    let mut clock = Clock::new(times);
    for _ in 0..runs {
        clock.run(0, || {
            let read = judge::read(black_box(text)).expect("it never refuses");
            let boards: Vec<Board> = read.iter().map(judge::board_of).collect();
            black_box(write_pbn(&boards));
        });
        clock.run(1, || {
            let text = black_box(text.as_bytes());
            let mut answer = [0; 5];
            let refusal = golavimes::lin_to_pbn(text, &mut page, &mut answer);
            assert_eq!(refusal, 0, "answer {answer:?}");
            black_box(&page);
        });
    }
    assert!(page == conversion.page, "the page is not the model's");
    clock
}

/// Prints both tables.
pub fn run(seed: u64) {
    println!("| LIN text | Bytes read | Boards | Bytes written | parse_lin_file and write_pbn, MB/s | golavimes_lin_to_pbn, MB/s | Ratio |");
    println!("|---|---|---|---|---|---|---|");
    for (kind, text) in KINDS {
        for (name, length, times) in LENGTHS {
            let text = text(seed, length);
            let conversion = Conversion::new(&text);
            let [rust, product] = measure(&conversion, RUNS, times).medians();
            println!(
                "| {kind}, {name} | {} | {} | {} | {:.1} | {:.1} | {:.2} |",
                text.len(),
                conversion.boards.len(),
                conversion.page.len(),
                speed(text.len(), rust),
                speed(text.len(), product),
                ratio(rust, product),
            );
        }
    }
    println!();
    println!("Medians of {RUNS} runs, megabytes of the text that is read. A ratio above 1 means that golavimes_lin_to_pbn is faster. The Rust's time includes finding contract and declarer, which the comparison does for it.");
    println!();
    growth();
}

fn growth() {
    println!("| LIN text of many | Bytes read | Bytes written | parse_lin_file and write_pbn, ms | Growth | golavimes_lin_to_pbn, ms | Growth | MB/s | Ratio |");
    println!("|---|---|---|---|---|---|---|---|---|");
    for (name, text) in HOSTILE {
        let mut before: Option<[Duration; 2]> = None;
        for length in HOSTILE_LENGTHS {
            let text = text(length);
            let conversion = Conversion::new(&text);
            let took = measure(&conversion, HOSTILE_RUNS, 1).least();
            let grown = |which: usize| match before {
                Some(before) => format!("{:.1}", ratio(took[which], before[which])),
                None => String::new(),
            };
            println!(
                "| {name} | {} | {} | {:.2} | {} | {:.2} | {} | {:.1} | {:.2} |",
                text.len(),
                conversion.page.len(),
                milliseconds(took[0]),
                grown(0),
                milliseconds(took[1]),
                grown(1),
                speed(text.len(), took[1]),
                ratio(took[0], took[1]),
            );
            before = Some(took);
        }
    }
    println!();
    println!(
        "The least of {HOSTILE_RUNS} runs. The length doubles from line to line: growth 2 is linear, 4 quadratic."
    );
}
