//! The searches of planning: the hand words that the product says it compares,
//! against a model in plain Rust and against the boards that the unchanged
//! `reader.rs` reads.

mod chosen;
mod generate;

use crate::comparison::{self, Comparison, Met, Report};
use crate::plan::model::{Plan, FIVE};
use crate::plan::product::Product;
use crate::plan::searches::Looks;
use crate::plan::{self, compare_call, compare_rust, each_two, judge, lent_by, pair};
use crate::plan::{Call, Lent, Pairs, OF_EDITIONS};
use crate::read::Checked;
use crate::rng::Rng;
use crate::room::{Room, ENOUGH, ROOMS};

/// The room lent for the old edition's cards and entries and the new one's, and just
/// so many numbers.
#[derive(Clone, Copy, Debug)]
struct Asked {
    boxes: [Room; 4],
    numbers: usize,
}

impl Asked {
    fn lent(&self, plan: &Plan) -> Lent {
        Lent {
            boxes: plan.lent(self.boxes),
            numbers: self.numbers,
        }
    }
}

/// One thing that is checked of a pair.
#[derive(Clone, Copy, Debug)]
enum Check {
    /// The model against the boards of the Rust.
    Rust,
    /// The product against the model.
    Call(Asked),
    /// What holds of the numbers themselves.
    Facts,
}

/// The model against the boards of the Rust. Returns whether it could be asked.
fn by_rust(plan: &Plan) -> Result<bool, String> {
    compare_rust(plan, judge::compare_searches)
}

/// Of a board's numbers by both functions: state and `from` are the same, and no search
/// compares more than eight words for each board that it can meet.
fn fit(board: &[u64], search: &[u64], searched: [usize; 3]) -> bool {
    let few = |(words, boards): (&u64, usize)| *words <= 8 * boards as u64;
    board[..2] == search[..2] && search[2..].iter().zip(searched).all(few)
}

/// With enough lent: each board's numbers fit those of `golavimes_boards`, and the
/// words of all boards are those that are told.
fn compare_facts(product: &mut Product, plan: &Plan) -> Checked {
    let lent = lent_by(plan, Call::Boards, &[Room::Exact; 5]);
    product.call(Call::Boards, plan.editions(), &lent)?;
    let boards = product.numbers().to_vec();
    product.call(Call::Searches, plan.editions(), &lent)?;
    let searches = product.numbers();
    let fives = boards.chunks(FIVE).zip(searches.chunks(FIVE));
    for (index, (board, search)) in fives.enumerate() {
        let searched = [plan.olds.boards(), plan.boards(), index];
        if !fit(board, search, searched) {
            let position = index + 1;
            return Err(format!(
                "board {position}\n  golavimes_boards: {board:?}\n  golavimes_searches: {search:?}"
            ));
        }
    }
    let words: u64 = searches.chunks(FIVE).flat_map(|five| &five[2..]).sum();
    let told = product.answer()[4];
    if words != told {
        return Err(format!("{words} words of all boards, {told} told"));
    }
    Ok(())
}

/// What was met.
#[derive(Default)]
struct Counts {
    pairs: Pairs,
    looks: Looks,
    written_out: u64,
}

struct Run {
    product: Product,
    rng: Rng,
    counts: Counts,
}

impl Run {
    fn call(&mut self, plan: &Plan, asked: Asked) -> Result<(), (Check, String)> {
        compare_call(&mut self.product, plan, Call::Searches, &asked.lent(plan))
            .map_err(|error| (Check::Call(asked), error))?;
        self.counts.pairs.met.call(self.product.answer());
        Ok(())
    }

    /// A length of the numbers around the boundary of a board, mostly the last.
    fn numbers(&mut self, boards: usize) -> usize {
        let some = FIVE * self.rng.below(boards + 1);
        let all = FIVE * boards;
        let around = [some, some, all, all, all, all + FIVE, 0, FIVE];
        let boundary = around[self.rng.below(around.len())];
        match self.rng.below(5) {
            0 => boundary.saturating_sub(1),
            1 => boundary + 1,
            2 => boundary + FIVE - 1,
            _ => boundary,
        }
    }

    fn boxes(&mut self, rooms: &[Room]) -> [Room; 4] {
        std::array::from_fn(|_| rooms[self.rng.below(rooms.len())])
    }

    /// Each room for each two of the lent boxes; each length of the numbers up to two
    /// boards more than there are.
    fn sizes(&mut self, plan: &Plan) -> Result<(), (Check, String)> {
        for [boxes @ .., numbers] in each_two(5) {
            let numbers = numbers.words(plan.boards(), FIVE);
            self.call(plan, Asked { boxes, numbers })?;
        }
        self.every_length(plan, |_, _| Ok(()))
    }

    /// Makes a call with each length of the numbers, and looks at what it left.
    fn every_length(
        &mut self,
        plan: &Plan,
        left: impl Fn(&Product, usize) -> Checked,
    ) -> Result<(), (Check, String)> {
        for numbers in 0..=FIVE * (plan.boards() + 2) {
            let boxes = [Room::Exact; 4];
            let asked = Asked { boxes, numbers };
            self.call(plan, asked)?;
            left(&self.product, numbers).map_err(|error| (Check::Call(asked), error))?;
        }
        Ok(())
    }

    /// The pairs whose numbers are written out, with each length of the lent ones.
    fn written_out(&mut self) -> Checked {
        for case in &chosen::CASES {
            let [old, new] = case.texts();
            let plan = Plan::new(old.as_bytes(), new.as_bytes());
            let left = |product: &Product, lent| {
                let (answer, numbers) = (product.answer(), product.numbers());
                if answer == case.answer() && numbers == case.left(lent) {
                    return Ok(());
                }
                Err(format!("answer {answer:?}, numbers {numbers:?}"))
            };
            let checked = self.every_length(&plan, left);
            checked.map_err(|(check, error)| {
                let (old, new) = (case.old, case.new);
                format!("old \"{old}\", new \"{new}\", {check:?}: {error}")
            })?;
            self.counts.written_out += 1;
        }
        Ok(())
    }
}

impl Comparison for Run {
    const NAME: &'static str = "searches";
    const TEXTS: &'static [&'static str] = &["old text", "new text"];
    const LONG: &'static str = "numbers written out, and texts of 16777215 bytes and one more";

    type Check = Check;

    fn compare(&mut self, group: &'static str, texts: &[&[u8]]) -> Result<(), (Check, String)> {
        let [old, new] = pair(texts);
        let plan = Plan::new(old, new);
        let by_rust = by_rust(&plan).map_err(|error| (Check::Rust, error))?;
        let counts = &mut self.counts;
        let number = counts.pairs.count(group, &plan, by_rust);
        counts.looks.add(&plan.searches().looks);

        // With enough lent; with any length of the numbers; with any boxes.
        let boxes = self.boxes(&ENOUGH);
        let numbers = FIVE * plan.boards() + self.rng.below(2 * FIVE);
        self.call(&plan, Asked { boxes, numbers })?;
        compare_facts(&mut self.product, &plan).map_err(|error| (Check::Facts, error))?;
        let numbers = self.numbers(plan.boards());
        self.call(&plan, Asked { boxes, numbers })?;
        let boxes = self.boxes(&ROOMS);
        let numbers = self.numbers(plan.boards());
        self.call(&plan, Asked { boxes, numbers })?;
        if self.counts.pairs.is_sized(number, &plan) {
            self.sizes(&plan)?;
        }
        Ok(())
    }

    fn again(&mut self, texts: &[&[u8]], check: Check) -> Checked {
        let [old, new] = pair(texts);
        let plan = Plan::new(old, new);
        match check {
            Check::Rust => by_rust(&plan).map(|_| ()),
            Check::Facts => compare_facts(&mut self.product, &plan),
            Check::Call(asked) => {
                let lent = asked.lent(&plan);
                compare_call(&mut self.product, &plan, Call::Searches, &lent)
                    .map_err(|error| format!("{lent:?}: {error}"))
            }
        }
    }

    fn sides(check: Check) -> &'static str {
        match check {
            Check::Rust => "the model against reader.rs",
            Check::Call(_) => "golavimes against the model",
            Check::Facts => "golavimes_searches against golavimes_boards and itself",
        }
    }

    fn longest(&mut self, seed: u64) -> Checked {
        self.written_out()?;
        plan::longest(seed, &[Call::Searches], &mut |plan, call, rooms| {
            let [boxes @ .., _] = rooms;
            let numbers = lent_by(plan, call, &rooms).numbers;
            self.call(plan, Asked { boxes, numbers })
                .map_err(|(check, error)| format!("{check:?}: {error}"))
        })
    }

    fn met(&self) -> &Met {
        &self.counts.pairs.met
    }

    fn print(&self, report: &mut Report) {
        let counts = &self.counts;
        counts.pairs.print(report);
        let looks = &counts.looks;
        for words in [1, 2, 3, 4, 5, 6, 8] {
            let compared = format_args!("boards compared in {words} of 8 words");
            report.line(looks.compared[words], compared);
        }
        report.line(looks.not_whole, "boards passed over, not whole");
        report.line(looks.no_table, "boards passed over for want of a table");
        report.calls(&counts.pairs.met, &OF_EDITIONS);
        let sized = "pairs with each two boxes around each boundary and each length of the numbers";
        report.line(counts.pairs.sized, sized);
        report.line(counts.written_out, "pairs with numbers written out");
    }
}

/// Compares every pair. Returns whether all agreed.
pub fn run(seed: u64) -> bool {
    let run = Run {
        product: Product::new(),
        rng: Rng::new(seed ^ 0x7365_6172),
        counts: Counts::default(),
    };
    comparison::run(run, seed, |give| generate::all(seed, give))
}

#[cfg(test)]
mod tests {
    use super::*;
    use crate::plan::generate::{deal_of, deal_tag, random_deal, ZEROS};
    use crate::plan::model::State;

    #[test]
    fn numbers_written_out() {
        for case in &chosen::CASES {
            let [old, new] = case.texts();
            let plan = Plan::new(old.as_bytes(), new.as_bytes());
            assert_eq!(by_rust(&plan), Ok(true));
            let numbers = 5 * case.numbers.len() + 3;
            let boxes = [Room::Exact; 4];
            let lent = Asked { boxes, numbers }.lent(&plan);
            let wanted = plan.wanted(Call::Searches, &lent);
            let name = (case.old, case.new);
            assert_eq!(wanted.answer, case.answer(), "{name:?}");
            assert_eq!(wanted.numbers, case.left(numbers), "{name:?}");
        }
    }

    #[test]
    fn refusals_leave_zeros() {
        let [old, new] = chosen::CASES[3].texts();
        let plan = Plan::new(old.as_bytes(), new.as_bytes());
        let told = |boxes: [Room; 4]| {
            let lent = Asked { boxes, numbers: 7 }.lent(&plan);
            let wanted = plan.wanted(Call::Searches, &lent);
            assert_eq!(wanted.numbers, [0; 7]);
            wanted.answer
        };
        let (exact, short) = (Room::Exact, Room::WordLess);
        assert_eq!(told([short; 4]), [2, 1, 2, 0, 0]);
        assert_eq!(told([exact, short, short, short]), [3, 1, 8, 0, 0]);
        assert_eq!(told([exact, exact, short, short]), [2, 2, 1, 0, 0]);
        assert_eq!(told([exact, exact, exact, short]), [3, 2, 2, 0, 0]);
    }

    #[test]
    fn deals_agree_in_just_so_many_words() {
        let mut rng = Rng::new(1);
        for _ in 0..50 {
            let first = random_deal(&mut rng);
            let new = deal_tag(&deal_of(&first));
            for words in generate::AGREEING {
                let near = generate::agreeing(&mut rng, &first, words);
                let near = near.expect("such cards are in most hands");
                let old = deal_tag(&deal_of(&near)) + ZEROS;
                let plan = Plan::new(old.as_bytes(), new.as_bytes());
                assert_eq!(plan.searches().words, [[words as u64 + 1, 0, 0]]);
                assert_eq!(by_rust(&plan), Ok(true));
            }
        }
    }

    #[test]
    fn the_rust_is_asked() {
        let [old, new] = chosen::CASES[4].texts();
        let fails = |spoil: fn(&mut Plan)| {
            let mut plan = Plan::new(old.as_bytes(), new.as_bytes());
            spoil(&mut plan);
            by_rust(&plan).is_err()
        };
        assert!(!fails(|_| {}));
        assert!(fails(|plan| plan.olds.cards[38] = 0));
        assert!(fails(|plan| plan.olds.cards[9] = 2));
        assert!(fails(|plan| plan.news.cards[12] ^= 1));
        assert!(fails(|plan| plan.states[0] = State::Old(4)));
    }
}
