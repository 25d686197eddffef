//! How long finishing takes: beside the unchanged `read_pbn` of both editions and
//! `write_pbn` of the finished boards, and beside planning and writing of the
//! product; and how the time grows with the slips.

use super::answers::{Answers, TABLE};
use super::{judge, Pair};
use crate::clock::{milliseconds, ratio, Clock};
use crate::plan::bench::{changed, pairs, BOARDS};
use crate::plan::generate::{deal_of, random_deal};
use crate::plan::model::FIVE;
use crate::read::bench::{LENGTHS, RUNS};
use crate::read::generate::plain_board;
use crate::rng::Rng;
use bridge_encodings::pbn::{read_pbn, write_pbn};
use bridge_types::DdTable;
use golavimes::Boxes;
use std::hint::black_box;
use std::time::Duration;

const GROWTH_RUNS: usize = 3;

/// The times of what is measured, each for one pair.
struct Times {
    rust: Duration,
    plan: Duration,
    write: Duration,
    finish: Duration,
}

impl Times {
    fn of([rust, plan, write, finish]: [Duration; 4]) -> Self {
        Times {
            rust,
            plan,
            write,
            finish,
        }
    }

    fn both(&self) -> Duration {
        self.plan + self.write
    }
}

/// The tables of the finished boards, to be put into boards just read.
fn tables(old: &str, new: &str, answers: &[u8]) -> Vec<Option<DdTable>> {
    let read = |text| read_pbn(text).expect("it never refuses");
    let mut boards = read(new);
    judge::put_tables(&read(old), &mut boards, answers);
    let tables = boards.iter().map(|board| board.double_dummy_tricks);
    tables.collect()
}

/// Measures all in turn.
fn measure(pair: &Pair, runs: usize, times: usize) -> Clock<4> {
    let plan = &pair.plan;
    let text = |text| std::str::from_utf8(text).expect("an edition of UTF-8");
    let (old, new) = (text(plan.old), text(plan.new));
    let tables = tables(old, new, &pair.answers);
    let mut words = plan.boxes();
    let mut slips = vec![0; FIVE * plan.slips.len()];
    // Writing the new edition as it is needs less of the page.
    let mut page = vec![0; pair.page.len()];
    let mut rust_page = String::new();
    let mut clock = Clock::new(times);
    for _ in 0..runs {
        clock.run(0, || {
            let old = read_pbn(black_box(old)).expect("it never refuses");
            let mut boards = read_pbn(black_box(new)).expect("it never refuses");
            for (board, table) in boards.iter_mut().zip(&tables) {
                board.double_dummy_tricks = *table;
            }
            rust_page = write_pbn(&boards);
            black_box((&old, &rust_page));
        });
        clock.run(1, || {
            let boxes = Boxes::new(words.each_mut().map(|words| &mut words[..]));
            let editions = black_box(plan.editions());
            let refusal = golavimes::plan(editions, boxes, &mut slips, &mut [0; 10]);
            assert_eq!(refusal, 0);
            black_box((&words, &slips));
        });
        clock.run(2, || {
            let [_, _, cards, entries] = &mut words;
            let new = black_box(plan.new);
            let refusal = golavimes::write(new, cards, entries, &mut page, &mut [0; 4]);
            assert_eq!(refusal, 0);
            black_box((&words, &page));
        });
        clock.run(3, || {
            let boxes = Boxes::new(words.each_mut().map(|words| &mut words[..]));
            let editions = black_box(plan.editions());
            let answers = black_box(&pair.answers[..]);
            let refusal = golavimes::finish(editions, boxes, answers, &mut page, &mut [0; 4]);
            assert_eq!(refusal, 0);
            black_box((&words, &page));
        });
    }
    assert!(page == pair.page, "the page is not the model's");
    assert!(rust_page.as_bytes() == page, "the page is not the Rust's");
    clock
}

/// An old edition of about this length, and a copy of it in which one board in
/// sixteen has lost its table and one in sixty-four has a deal of its own.
fn copies(seed: u64, length: usize) -> (String, String) {
    let mut rng = Rng::new(seed);
    let (mut old, mut new) = (String::new(), String::new());
    let mut number = 0;
    while old.len() < length {
        let deal = deal_of(&random_deal(&mut rng));
        let board = changed(&plain_board(&mut rng, number), &deal, true);
        new += &match rng.below(64) {
            0 => changed(&board, &deal_of(&random_deal(&mut rng)), false),
            1..=4 => changed(&board, &deal, false),
            _ => board.clone(),
        };
        old += &board;
        number += 1;
    }
    (old, new)
}

fn line(name: &str, pair: &Pair, took: &Times) {
    println!(
        "| {name} | {} | {} | {} | {} | {:.3} | {:.3} | {:.2} | {:.3} | {:.3} | {:.2} |",
        pair.plan.old.len() + pair.plan.new.len(),
        pair.plan.boards(),
        pair.answers.len() / TABLE,
        pair.page.len(),
        milliseconds(took.rust),
        milliseconds(took.finish),
        ratio(took.rust, took.finish),
        milliseconds(took.plan),
        milliseconds(took.write),
        ratio(took.finish, took.both()),
    );
}

/// Prints both tables.
pub fn run(seed: u64) {
    println!("| Editions | Bytes of both | New boards | To solve | Bytes written | read_pbn of both and write_pbn, ms | golavimes_finish, ms | Ratio | golavimes_plan, ms | golavimes_write, ms | golavimes_finish to both |");
    println!("|---|---|---|---|---|---|---|---|---|---|---|");
    let right = Answers::right(seed);
    for (name, length, times) in LENGTHS {
        let (old, new) = copies(seed, length);
        let pair = Pair::new(old.as_bytes(), new.as_bytes(), right);
        let took = Times::of(measure(&pair, RUNS, times).medians());
        line(
            &format!("{name} each, most with their tables"),
            &pair,
            &took,
        );
    }
    for (name, old, new) in pairs(seed) {
        let pair = Pair::new(old.as_bytes(), new.as_bytes(), right);
        let took = Times::of(measure(&pair, RUNS, 1).medians());
        let name = format!("{BOARDS} boards against {BOARDS}, {name}");
        line(&name, &pair, &took);
    }
    println!();
    println!("Medians of {RUNS} runs. The first ratio is above 1 where golavimes_finish is faster than the Rust, which reads both editions and writes, and is handed the tables: it does not plan. The second is what golavimes_finish takes to what golavimes_plan of both and golavimes_write of the new edition take together.");
    println!();
    growth(seed);
}

/// So many boards with a deal of their own and no table, and as many twins of them
/// from the last to the first.
fn twins(count: usize) -> String {
    let mut rng = Rng::new(count as u64);
    let deals: Vec<String> = (0..count)
        .map(|_| format!("[Deal \"{}\"]\n\n", deal_of(&random_deal(&mut rng))))
        .collect();
    let again: String = deals.iter().rev().map(String::as_str).collect();
    deals.concat() + &again
}

fn growth(seed: u64) {
    println!("| Slips, with a twin each | golavimes_plan, ms | golavimes_write, ms | golavimes_finish, ms | Growth | golavimes_finish to both |");
    println!("|---|---|---|---|---|---|");
    let mut before: Option<Duration> = None;
    for count in [500, 1_000, 2_000] {
        let new = twins(count);
        let pair = Pair::new(b"", new.as_bytes(), Answers::right(seed));
        assert_eq!(pair.plan.slips.len(), count);
        let took = Times::of(measure(&pair, GROWTH_RUNS, 1).least());
        let grown = before.map_or(String::new(), |before| {
            format!("{:.1}", ratio(took.finish, before))
        });
        println!(
            "| {count} | {:.2} | {:.2} | {:.2} | {grown} | {:.2} |",
            milliseconds(took.plan),
            milliseconds(took.write),
            milliseconds(took.finish),
            ratio(took.finish, took.both()),
        );
        before = Some(took.finish);
    }
    println!();
    println!("The least of {GROWTH_RUNS} runs. The number doubles from line to line: growth 4 is quadratic, 8 cubic.");
}
