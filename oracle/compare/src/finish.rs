//! Finishing: pairs of editions finished by the product, by a model in plain Rust,
//! and by the unchanged `reader.rs` and `writer.rs` with the tables put in between.

pub mod answers;
pub mod bench;
mod generate;
mod judge;
mod model;
pub mod outside;
mod product;

use crate::comparison::{self, Comparison, Met, Refusal, Report};
use crate::plan::generate::longest;
use crate::plan::model::{has_table, Plan, State, NEAR, OLD};
use crate::plan::{each_two, pair, StateCounts, OF_EDITIONS};
use crate::read::product::Lent as LentBoxes;
use crate::read::{Checked, LONGEST};
use crate::rng::Rng;
use crate::room::{Room, ENOUGH, ROOMS};
use crate::tables::judge::text_in_domain;
use crate::write::generate::{noted_at_length, small_boards};
use crate::write::once::Names;
use crate::write::{compare_written, lines, same_page, PAGE_STEP};
use answers::{Above, Answers, Length, ABOVES, LENGTHS, TABLE};
use golavimes::Boxes;
use product::Product;
use std::collections::HashSet;

/// How many words are lent for each edition, and how many bytes as page.
#[derive(Clone, Copy, Debug)]
pub struct Lent {
    boxes: [LentBoxes; 2],
    page: usize,
}

/// For the old edition's cards and entries, the new one's, and the page.
type Rooms = [Room; 5];

/// How far "one more" and "one less" are from the page's boundary.
const PAGE_STEPS: [usize; 2] = [PAGE_STEP, 4_000];

/// What a call is lent and given.
#[derive(Clone, Copy, Debug)]
struct Call {
    rooms: Rooms,
    page_step: usize,
    answers: Answers,
}

/// A pair, its plan, and the page that the model writes with right answers. With
/// others that are taken the page is as long.
struct Pair<'a> {
    plan: Plan<'a>,
    answers: Vec<u8>,
    page: Vec<u8>,
}

impl<'a> Pair<'a> {
    fn new(old: &'a [u8], new: &'a [u8], answers: Answers) -> Self {
        let plan = Plan::new(old, new);
        let answers = answers.bytes(&plan);
        let page = model::page(&plan, &answers);
        Pair {
            plan,
            answers,
            page,
        }
    }

    fn lent(&self, call: &Call) -> Lent {
        let [boxes @ .., page] = call.rooms;
        Lent {
            boxes: self.plan.lent(boxes),
            page: page.around(self.page.len(), call.page_step),
        }
    }

    /// The model's page against the Rust's with each directive once, where both texts
    /// are in the domain. Returns then whether that is the Rust's own page.
    fn compare_rust(&self) -> Result<Option<Names>, String> {
        let texts = [self.plan.old, self.plan.new].map(text_in_domain);
        let [Some(old), Some(new)] = texts else {
            return Ok(None);
        };
        let rust = judge::page(old, new, &self.answers)?;
        let name = rust.names.judge();
        same_page(name, &rust.page, "the model", &self.page)?;
        Ok(Some(rust.names))
    }

    /// What a call left, against the model.
    fn compare_left(&self, answers: &[u8], lent: &Lent, left: &Left) -> Checked {
        let wanted = model::answer(&self.plan, answers, self.page.len() as u64, lent);
        let taken = wanted[0] == 0;
        if taken && answers != self.answers {
            let page = model::page(&self.plan, answers);
            compare_written(&wanted, &page, left.answer, left.page)?;
        } else {
            compare_written(&wanted, &self.page, left.answer, left.page)?;
        }
        self.plan.compare_boxes(taken, left.boxes)
    }
}

/// What a call left: its answer and all that was lent.
pub struct Left<'a> {
    answer: &'a [u64],
    boxes: [&'a [u32]; 4],
    page: &'a [u8],
}

/// One call, against the model.
fn compare_call(product: &mut Product, pair: &Pair, call: &Call) -> Checked {
    let lent = pair.lent(call);
    let answers = call.answers.bytes(&pair.plan);
    product.call(pair.plan.editions(), &answers, &lent)?;
    pair.compare_left(&answers, &lent, &product.left())
        .map_err(|error| format!("{} bytes of answers, {lent:?}: {error}", answers.len()))
}

/// One thing that is checked of a pair.
#[derive(Clone, Copy, Debug)]
enum Check {
    /// The model's page against that of the Rust, with these answers.
    Rust(Answers),
    /// The product against the model.
    Call(Call),
    /// The directives on the product's page.
    Lines(Call),
}

/// Every so many pairs the rooms and answers around each boundary are tried.
const SIZES_EVERY: u64 = 397;

/// What a pair can hold, and how much of it.
type Held = (&'static str, fn(&Plan) -> usize);

/// What is counted of the pairs that were compared.
const HELD: [Held; 11] = [
    ("blank boards with a table of their own", |plan| {
        let states = plan.states.iter().enumerate();
        let blank = states.filter(|(_, state)| **state == State::Blank);
        let tables = blank.filter(|(index, _)| has_table(model::card(&plan.news, *index)));
        tables.count()
    }),
    ("boards given digits of the old edition", |plan| {
        given(plan, OLD, 1)
    }),
    ("boards given rows of the old edition", |plan| {
        given(plan, OLD, 2)
    }),
    ("boards given digits of the new edition", |plan| {
        given(plan, NEAR, 1)
    }),
    ("boards given rows of the new edition", |plan| {
        given(plan, NEAR, 2)
    }),
    ("pairs with several slips", |plan| {
        usize::from(plan.slips.len() > 1)
    }),
    ("pairs with twins of different slips", |plan| {
        usize::from(twinned(plan).len() > 1)
    }),
    ("twins after another slip than their own", |plan| {
        let mut last = 0;
        let mut after_another = 0;
        for (index, state) in plan.states.iter().enumerate() {
            match state {
                State::Solve => last = index + 1,
                State::Twin(from) => after_another += usize::from(*from != last),
                _ => {}
            }
        }
        after_another
    }),
    ("slips with the hands of another at other seats", |plan| {
        let deals: HashSet<&[u64]> = plan.slips.iter().map(|slip| &slip[1..]).collect();
        let turned = |slip: &&[u64; 5]| {
            let mut turns = (1..4).map(|by| {
                let mut hands = slip[1..].to_vec();
                hands.rotate_left(by);
                hands
            });
            turns.any(|hands| deals.contains(&hands[..]))
        };
        plan.slips.iter().filter(turned).count()
    }),
    ("pairs whose boards want no table", |plan| {
        let want = |state: &State| !matches!(state, State::Blank | State::Own);
        usize::from(plan.boards() > 0 && !plan.states.iter().any(want))
    }),
    ("pairs without a board in the new edition", |plan| {
        usize::from(plan.boards() == 0)
    }),
];

/// How many boards of a state get a table of a kind (1 digits, 2 rows).
fn given(plan: &Plan, state: usize, kind: u32) -> usize {
    let reading = if state == OLD { &plan.olds } else { &plan.news };
    let of_state = plan.states.iter().filter(|of| of.number() == state);
    let of_kind = of_state.filter(|of| model::card(reading, of.from() - 1)[38] == kind);
    of_kind.count()
}

/// The solve boards that have a twin.
fn twinned(plan: &Plan) -> HashSet<usize> {
    let from = |state: &State| match state {
        State::Twin(from) => Some(*from),
        _ => None,
    };
    plan.states.iter().filter_map(from).collect()
}

/// What was met.
#[derive(Default)]
struct Counts {
    met: Met,
    boards: u64,
    written: u64,
    states: StateCounts,
    /// By what `HELD` names.
    held: [u64; HELD.len()],
    /// Calls refused with 5, by `LENGTHS`, and with 6, by `ABOVES`.
    lengths: [u64; LENGTHS.len()],
    aboves: [u64; ABOVES.len()],
    /// Calls whose page was looked at, by `ROOMS`.
    pages: [u64; ROOMS.len()],
    /// Pairs of which the new edition's directives all differ.
    all_differ: u64,
    sized: u64,
}

/// At least so many pairs must have a directive after a name that is written twice.
const LEAST_REPEATED: u64 = 50_000;

/// The refusals that name no edition.
const OF_NONE: [Refusal; 3] = [(5, 0, "answers"), (6, 0, "impossible"), (7, 0, "page full")];

impl Counts {
    fn pair(&mut self, pair: &Pair) {
        self.boards += pair.plan.boards() as u64;
        self.written += pair.page.len() as u64;
        self.states.count_all(&pair.plan.states);
        for (count, (_, held)) in self.held.iter_mut().zip(HELD) {
            *count += held(&pair.plan) as u64;
        }
    }

    fn call(&mut self, call: &Call, answer: &[u64]) {
        self.met.call(answer);
        let Call { rooms, answers, .. } = call;
        let (counts, at) = match answer[0] {
            5 => {
                let of = |(length, _): &(Length, _)| *length == answers.length;
                (&mut self.lengths[..], LENGTHS.iter().position(of))
            }
            6 => {
                let of = |(above, _): &(Above, _)| *above == answers.above;
                (&mut self.aboves[..], ABOVES.iter().position(of))
            }
            0 | 7 => {
                let of = |room: &Room| *room == rooms[4];
                (&mut self.pages[..], ROOMS.iter().position(of))
            }
            _ => return,
        };
        counts[at.expect("it is one of them")] += 1;
    }
}

struct Run {
    product: Product,
    rng: Rng,
    counts: Counts,
}

impl Run {
    fn call(&mut self, pair: &Pair, call: Call) -> Result<(), (Check, String)> {
        compare_call(&mut self.product, pair, &call).map_err(|error| (Check::Call(call), error))?;
        self.counts.call(&call, self.product.left().answer);
        Ok(())
    }

    /// Each directive is one line of the page that the last call left. Nothing was
    /// refused.
    fn lines(&mut self, plan: &Plan) -> Checked {
        let left = self.product.left();
        let page = &left.page[..left.answer[3] as usize];
        let all_differ = lines::check(plan.new, &plan.news, page)?;
        self.counts.all_differ += u64::from(all_differ);
        Ok(())
    }

    fn room(&mut self, rooms: &[Room]) -> Room {
        rooms[self.rng.below(rooms.len())]
    }

    /// Each room for each two of the four boxes and the page, the others just large
    /// enough; each kind of answers with each page; some with each box.
    fn sizes(&mut self, pair: &Pair, right: Answers) -> Result<(), (Check, String)> {
        let exact = Call {
            rooms: [Room::Exact; 5],
            page_step: PAGE_STEP,
            answers: right,
        };
        for rooms in each_two(5) {
            self.call(pair, Call { rooms, ..exact })?;
        }
        for (length, above) in LENGTHS.iter().flat_map(|a| ABOVES.map(|b| (a.0, b.0))) {
            let mut call = exact;
            call.answers.length = length;
            call.answers.above = above;
            for page in ROOMS {
                call.rooms[4] = page;
                self.call(pair, call)?;
            }
            call.rooms[4] = Room::None;
            for one in 0..4 {
                call.rooms[one] = Room::WordLess;
                self.call(pair, call)?;
                call.rooms[one] = Room::Exact;
            }
        }
        Ok(())
    }

    /// A long pair with these answers, with enough lent and a word too few of some.
    fn long_pair(&mut self, pair: &Pair, all: [Answers; 2]) -> Checked {
        let short = [0, 3, 4].map(|at| {
            let mut rooms = [Room::Exact; 5];
            rooms[at] = Room::WordLess;
            rooms
        });
        for rooms in short.into_iter().chain([[Room::Exact; 5]]) {
            for answers in all {
                let call = Call {
                    rooms,
                    page_step: PAGE_STEP,
                    answers,
                };
                let tell = |(check, error)| format!("{check:?}: {error}");
                self.call(pair, call).map_err(tell)?;
            }
        }
        Ok(())
    }

    /// A new edition whose page is very long: it must be refused, with the bytes that
    /// the model counts.
    fn need_told(&mut self, new: &[u8]) -> Checked {
        let plan = Plan::new(b"", new);
        let answers = Answers::right(1).bytes(&plan);
        let need = model::need(&plan, &answers);
        for page in [0, 1, 100_000] {
            let lent = Lent {
                boxes: plan.lent([Room::Exact; 4]),
                page,
            };
            self.product.call(plan.editions(), &answers, &lent)?;
            let wanted = model::answer(&plan, &answers, need, &lent);
            let left = self.product.left();
            compare_written(&wanted, &[], left.answer, left.page)?;
            plan.compare_boxes(false, left.boxes)?;
            self.counts.met.call(left.answer);
        }
        Ok(())
    }

    /// Answers whose length is right when it is cut to 32 bits.
    fn answers_too_long(&mut self, new: &[u8]) -> Checked {
        let plan = Plan::new(b"", new);
        let mut words = plan.boxes();
        let boxes = Boxes::new(words.each_mut().map(|words| &mut words[..]));
        // Zeros take no memory as long as nothing is stored there.
        let answers = vec![0; (1 << 32) + TABLE * plan.slips.len()];
        let (mut page, mut answer) = ([1; 100], [0; 4]);
        golavimes::finish(plan.editions(), boxes, &answers, &mut page, &mut answer);
        let wanted = [5, 0, plan.slips.len() as u64, 0];
        compare_written(&wanted, &[], &answer, &page)?;
        plan.compare_boxes(false, words.each_ref().map(|words| &words[..]))?;
        self.counts.met.call(&answer);
        Ok(())
    }
}

impl Comparison for Run {
    const NAME: &'static str = "finish";
    const TEXTS: &'static [&'static str] = &["old text", "new text"];
    const LONG: &'static str =
        "texts of 16777215 bytes and one more, of very many boards, and with answers too long";

    type Check = Check;

    fn compare(&mut self, group: &'static str, texts: &[&[u8]]) -> Result<(), (Check, String)> {
        let [old, new] = pair(texts);
        let number = self.counts.met.input(group, texts);
        let right = Answers::right(self.rng.next());
        let pair = Pair::new(old, new, right);
        self.counts.pair(&pair);
        let names = pair.compare_rust();
        let names = names.map_err(|error| (Check::Rust(right), error))?;
        self.counts.met.placed(names);

        // With enough lent and right answers; with any page; with answers of any
        // length; with bytes above 13; with anything.
        let enough = Call {
            rooms: std::array::from_fn(|_| self.room(&ENOUGH)),
            page_step: PAGE_STEPS[self.rng.below(PAGE_STEPS.len())],
            answers: right,
        };
        self.call(&pair, enough)?;
        self.lines(&pair.plan)
            .map_err(|error| (Check::Lines(enough), error))?;
        let mut call = enough;
        call.rooms[4] = self.room(&ROOMS);
        self.call(&pair, call)?;
        call.answers = Answers::any(&mut self.rng);
        self.call(&pair, call)?;
        call.answers.length = Length::Right;
        call.answers.above = ABOVES[1 + self.rng.below(ABOVES.len() - 1)].0;
        call.rooms[4] = self.room(&ROOMS);
        self.call(&pair, call)?;
        call.rooms = std::array::from_fn(|_| self.room(&ROOMS));
        call.answers = Answers::any(&mut self.rng);
        self.call(&pair, call)?;
        if number.is_multiple_of(SIZES_EVERY) && old.len() + new.len() < 4000 {
            self.counts.sized += 1;
            self.sizes(&pair, right)?;
        }
        Ok(())
    }

    fn again(&mut self, texts: &[&[u8]], check: Check) -> Checked {
        let [old, new] = pair(texts);
        match check {
            Check::Rust(right) => Pair::new(old, new, right).compare_rust().map(|_| ()),
            Check::Call(call) => {
                let pair = Pair::new(old, new, Answers::right(call.answers.seed));
                compare_call(&mut self.product, &pair, &call)
            }
            Check::Lines(call) => {
                let pair = Pair::new(old, new, call.answers);
                let product = &mut self.product;
                product.call(pair.plan.editions(), &pair.answers, &pair.lent(&call))?;
                match product.left().answer {
                    [0, ..] => self.lines(&pair.plan),
                    _ => Ok(()),
                }
            }
        }
    }

    fn sides(check: Check) -> &'static str {
        match check {
            Check::Rust(_) => "the model against reader.rs and writer.rs, each directive once",
            Check::Call(_) => "golavimes against the model",
            Check::Lines(_) => "the directives on golavimes's page",
        }
    }

    /// Editions as long as can be, and longer, on either side; a very long page, and
    /// answers longer than can be lent.
    fn longest(&mut self, seed: u64) -> Checked {
        let (longest, few) = longest(seed);
        let noted = noted_at_length();
        let mut overlong = longest.clone();
        overlong.push(b'x');
        let right = Answers::right(seed);
        let mut wrong = right;
        wrong.length = Length::ByteMore;
        for (old, new) in [
            (&longest, &few),
            (&few, &longest),
            (&few, &noted),
            (&overlong, &few),
            (&few, &overlong),
            (&overlong, &overlong),
        ] {
            let pair = Pair::new(old, new, right);
            if old.len().max(new.len()) <= LONGEST {
                assert!(pair.compare_rust()?.is_some(), "editions of ASCII");
            }
            self.long_pair(&pair, [right, wrong])?;
        }
        self.need_told(&[&few[..], b"\n", &small_boards()].concat())?;
        self.answers_too_long(b"")?;
        self.answers_too_long(&few)
    }

    fn met(&self) -> &Met {
        &self.counts.met
    }

    fn print(&self, report: &mut Report) {
        let counts = &self.counts;
        report.inputs(&counts.met, "pairs", "reader.rs and writer.rs");
        report.placed(&counts.met, "pairs", LEAST_REPEATED);
        let all_differ = "pairs whose new directives all differ, each one line of golavimes's page";
        report.line(counts.all_differ, all_differ);
        report.say(format_args!(
            "{} bytes read, {} boards in the new editions, {} bytes finished",
            counts.met.bytes, counts.boards, counts.written
        ));
        counts.states.print(report);
        for (count, (name, _)) in counts.held.into_iter().zip(HELD) {
            report.line(count, name);
        }
        report.calls(&counts.met, &OF_EDITIONS);
        for refusal in OF_NONE {
            report.refused(&counts.met, refusal);
        }
        for (count, (_, name)) in counts.lengths.into_iter().zip(LENGTHS).skip(1) {
            report.line(count, format_args!("refused with 5, answers of {name}"));
        }
        for (count, (_, name)) in counts.aboves.into_iter().zip(ABOVES).skip(1) {
            report.line(count, format_args!("refused with 6, {name}"));
        }
        for (count, room) in counts.pages.into_iter().zip(ROOMS) {
            report.line(
                count,
                format_args!("written or refused with 7, page {room:?}"),
            );
        }
        let sized = "pairs with each two boxes and each answers around each boundary";
        report.line(counts.sized, sized);
    }
}

/// Compares every pair. Returns whether all agreed.
pub fn run(seed: u64) -> bool {
    let run = Run {
        product: Product::new(),
        rng: Rng::new(seed ^ 0x6669_6e69),
        counts: Counts::default(),
    };
    comparison::run(run, seed, |give| generate::all(seed, give))
}

#[cfg(test)]
mod tests {
    use super::*;
    use crate::plan::tests::example;

    fn tables(page: &[u8]) -> Vec<String> {
        let page = String::from_utf8(page.to_vec()).expect("text");
        let lines = page.lines().map(str::to_string);
        lines
            .filter(|line| line.starts_with("[DoubleDummyTricks"))
            .collect()
    }

    #[test]
    fn the_listing_example() {
        let (old, new) = example();
        let pair = Pair::new(old.as_bytes(), new.as_bytes(), Answers::right(7));
        assert_eq!(pair.compare_rust(), Ok(Some(Names::Once)));
        let tables = tables(&pair.page);
        assert_eq!(tables.len(), 3);
        assert_eq!(tables[0], "[DoubleDummyTricks \"00000000000000000000\"]");
        assert_ne!(tables[0], tables[1]);
        assert_eq!(tables[1], tables[2]);
    }

    /// A directive after a tag that writing leaves out and finishing writes.
    #[test]
    fn a_table_that_is_given_takes_its_directives() {
        let (_, new) = example();
        let deal = new.lines().next().expect("a deal");
        let new = format!("{deal}\n[DoubleDummyTricks \"bad\"]\n;c\n[Board \"\"]");
        let finished = |new: &str| {
            let pair = Pair::new(b"", new.as_bytes(), Answers::right(7));
            let names = pair.compare_rust().expect("it agrees");
            (names, String::from_utf8(pair.page).expect("text"))
        };
        let (names, page) = finished(&new);
        assert_eq!(names, Some(Names::Once));
        assert!(page.ends_with("\"]\n;c\n") && tables(page.as_bytes()).len() == 1);
        let blank = new.replace(deal, "[Deal \"\"]");
        assert_eq!(finished(&blank).0, Some(Names::Unwritten));
        let notes = "[Auction \"N\"]\n1C\n[Note \"1:a\"]\n[Note \"2:b\"] ;d";
        let (names, page) = finished(&format!("{new}\n{notes}"));
        assert_eq!(names, Some(Names::Repeated));
        assert!(page.ends_with("\n[Note \"1:a\"]\n[Note \"2:b\"]\n;d\n"));
    }

    #[test]
    fn refusals_in_order() {
        let (old, new) = example();
        let pair = Pair::new(old.as_bytes(), new.as_bytes(), Answers::right(7));
        let need = pair.page.len() as u64;
        let told = |rooms: Rooms, answers: &[u8]| {
            let call = Call {
                rooms,
                page_step: PAGE_STEP,
                answers: Answers::right(7),
            };
            model::answer(&pair.plan, answers, need, &pair.lent(&call))
        };
        let (exact, short) = (Room::Exact, Room::WordLess);
        let mut above = [0; 20];
        above[19] = 14;
        above[4] = 255;
        let [none, one, two] = [&[0; 0][..], &[0; 20], &[14; 40]];
        assert_eq!(told([short; 5], none), [2, 1, 1, 0]);
        assert_eq!(
            told([exact, short, short, short, short], none),
            [3, 1, 4, 0]
        );
        assert_eq!(
            told([exact, exact, short, short, short], none),
            [2, 2, 4, 0]
        );
        assert_eq!(
            told([exact, exact, exact, short, short], none),
            [3, 2, 8, 0]
        );
        let page_short = [exact, exact, exact, exact, short];
        assert_eq!(told(page_short, none), [5, 0, 1, 0]);
        assert_eq!(told(page_short, two), [5, 0, 1, 0]);
        assert_eq!(told(page_short, &above), [6, 0, 4, 0]);
        assert_eq!(told(page_short, one), [7, 0, need, 0]);
        assert_eq!(told([exact; 5], one), [0, 0, 0, need]);
    }

    #[test]
    fn a_table_under_another_deal_is_seen() {
        let (old, new) = example();
        let mut pair = Pair::new(old.as_bytes(), new.as_bytes(), Answers::right(7));
        pair.answers[11] = (pair.answers[11] + 1) % 14;
        assert!(pair.compare_rust().is_err());
    }
}
