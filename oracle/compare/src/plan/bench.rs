//! How long planning takes, beside reading the same two editions, and how long the
//! searches take beside planning.

use super::generate::{deal_of, random_deal, Hands};
use super::model::{Plan, FIVE};
use crate::clock::{milliseconds, Clock};
use crate::read::bench::RUNS;
use crate::read::generate::plain_board;
use crate::rng::Rng;
use golavimes::Boxes;
use std::hint::black_box;

/// The boards of each edition.
pub const BOARDS: usize = 2916;

/// A board as producers write it, with another deal and with its table or none.
pub fn changed(board: &str, deal: &str, table: bool) -> String {
    let mut text = String::new();
    let mut in_rows = false;
    for line in board.split_inclusive('\n') {
        // Rows go on to the next line that is none.
        in_rows &= !line.starts_with(['[', '{', '\n']);
        in_rows |= line.starts_with("[OptimumResultTable");
        if line.starts_with("[Deal ") {
            text += &format!("[Deal \"{deal}\"]\n");
        } else if table || !(in_rows || line.starts_with("[DoubleDummyTricks")) {
            text += line;
        }
    }
    text
}

/// The deals of two editions.
#[derive(Clone, Copy)]
enum Deals {
    Different,
    Equal,
    /// All different, and every second one with 12 cards in one of the hands.
    HalfDamaged,
}

impl Deals {
    /// The deal of the board of this number; where all are equal, `one`.
    fn deal(self, rng: &mut Rng, one: &Hands, number: usize) -> String {
        let mut hands = match self {
            Deals::Equal => one.clone(),
            Deals::Different | Deals::HalfDamaged => random_deal(rng),
        };
        if matches!(self, Deals::HalfDamaged) && number % 2 == 1 {
            hands[number / 2 % 4].pop();
        }
        deal_of(&hands)
    }
}

/// What is planned, with the old edition and the new one, in which no board has a
/// table.
pub fn pairs(seed: u64) -> Vec<(&'static str, String, String)> {
    let mut rng = Rng::new(seed);
    let one = random_deal(&mut rng);
    let cases = [
        (
            "all deals different, tables in the old",
            true,
            Deals::Different,
        ),
        ("all deals different, no tables", false, Deals::Different),
        ("all deals equal, tables in the old", true, Deals::Equal),
        ("all deals equal, no tables", false, Deals::Equal),
        (
            "half of the deals damaged, tables in the old",
            true,
            Deals::HalfDamaged,
        ),
    ];
    // Boards as producers write them, with these deals.
    let mut edition = |tables: bool, deals: Deals| -> String {
        let board = |number| {
            let board = plain_board(&mut rng, number);
            changed(&board, &deals.deal(&mut rng, &one, number), tables)
        };
        (0..BOARDS).map(board).collect()
    };
    let pair = |(name, tables, deals)| (name, edition(tables, deals), edition(false, deals));
    cases.into_iter().map(pair).collect()
}

/// The median times of reading both editions, of planning and of the searches.
struct Times {
    reading: f64,
    planning: f64,
    searching: f64,
}

/// Prints a table of planning beside reading and one of the searches beside planning.
pub fn run(seed: u64) {
    let pairs = pairs(seed);
    let planned = pairs.iter().map(|(name, old, new)| {
        let plan = Plan::new(old.as_bytes(), new.as_bytes());
        assert_eq!((plan.olds.boards(), plan.boards()), (BOARDS, BOARDS));
        let times = measure(&plan);
        (name, plan, times)
    });
    let planned: Vec<_> = planned.collect();
    println!("| {BOARDS} boards against {BOARDS} | Bytes | To solve | golavimes_read of both, ms | golavimes_plan, ms | Ratio |");
    println!("|---|---|---|---|---|---|");
    for (name, plan, times) in &planned {
        let bytes = plan.old.len() + plan.new.len();
        let solve = plan.slips.len();
        let Times {
            reading, planning, ..
        } = times;
        let ratio = planning / reading;
        println!("| {name} | {bytes} | {solve} | {reading:.2} | {planning:.2} | {ratio:.2} |");
    }
    println!();
    println!("Medians of {RUNS} runs. Planning reads both editions too: the ratio is what it takes in all to what reading takes.");
    println!();
    println!("| {BOARDS} boards against {BOARDS} | Words compared | golavimes_plan, ms | golavimes_searches, ms | Ratio |");
    println!("|---|---|---|---|---|");
    for (name, plan, times) in &planned {
        let words = plan.searches().total();
        let Times {
            planning,
            searching,
            ..
        } = times;
        let ratio = searching / planning;
        println!("| {name} | {words} | {planning:.2} | {searching:.2} | {ratio:.2} |");
    }
    println!();
    println!("Of the same runs. The words are what golavimes_searches tells; the ratio is what it takes to what golavimes_plan takes.");
}

fn measure(plan: &Plan) -> Times {
    let mut words = plan.boxes();
    let mut slips = vec![0u64; plan.slips.len() * FIVE];
    let mut searches = vec![0u64; plan.boards() * FIVE];
    let mut told = [0; 5];

    let mut clock = Clock::new(1);
    for _ in 0..RUNS {
        clock.run(0, || {
            let [old_cards, old_entries, new_cards, new_entries] = &mut words;
            for (text, cards, entries) in [
                (plan.old, old_cards, old_entries),
                (plan.new, new_cards, new_entries),
            ] {
                let refusal = golavimes::read(black_box(text), cards, entries, &mut [0; 5]);
                assert_eq!(refusal, 0);
                black_box((&cards, &entries));
            }
        });
        clock.run(1, || {
            let boxes = Boxes::new(words.each_mut().map(|words| &mut words[..]));
            let editions = black_box(plan.editions());
            let refusal = golavimes::plan(editions, boxes, &mut slips, &mut [0; 10]);
            assert_eq!(refusal, 0);
        });
        clock.run(2, || {
            let boxes = Boxes::new(words.each_mut().map(|words| &mut words[..]));
            let editions = black_box(plan.editions());
            golavimes::searches(editions, boxes, &mut searches, &mut told);
        });
        assert!(
            slips == plan.slips.concat(),
            "the slips are not the model's"
        );
        let wanted = [0, 0, 0, plan.boards() as u64, plan.searches().total()];
        assert_eq!(told, wanted, "the words are not the model's");
        black_box(&searches);
    }
    let [reading, planning, searching] = clock.medians().map(milliseconds);
    Times {
        reading,
        planning,
        searching,
    }
}
