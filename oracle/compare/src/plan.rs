//! Planning: pairs of editions planned by the product, by a model in plain Rust
//! and from the boards that the unchanged `reader.rs` reads.

pub mod bench;
pub mod generate;
pub mod judge;
pub mod model;
pub mod product;
pub mod searches;
mod stretch;

use crate::comparison::{self, Comparison, Met, Refusal, Report};
use crate::read::product::Lent as LentBoxes;
use crate::read::Checked;
use crate::rng::Rng;
use crate::room::{Room, ENOUGH, ROOMS};
use crate::tables::judge::text_in_domain;
use model::{Plan, State, FIVE, NEAR, STATES};
use product::Product;

/// Which function is called, with the position that is asked for.
#[derive(Clone, Copy, PartialEq, Eq, Debug)]
pub enum Call {
    Plan,
    State(u64),
    RecordBehind(u64),
    Boards,
    Searches,
}

impl Call {
    /// The length of the answer array.
    fn answers(self) -> usize {
        match self {
            Call::Plan => 10,
            Call::State(_) | Call::Searches => 5,
            Call::RecordBehind(_) => 6,
            Call::Boards => 4,
        }
    }

    /// How many things the call needs room for beside cards and entries: slips,
    /// or boards with their five numbers.
    fn numbered(self, plan: &Plan) -> Option<usize> {
        match self {
            Call::Plan => Some(plan.slips.len()),
            Call::Boards | Call::Searches => Some(plan.boards()),
            Call::State(_) | Call::RecordBehind(_) => None,
        }
    }
}

/// How many words are lent for each edition, and how many numbers for slips,
/// boards or searches.
#[derive(Debug)]
pub struct Lent {
    pub boxes: [LentBoxes; 2],
    pub numbers: usize,
}

/// For the old edition's cards and entries, the new one's, and the numbers.
pub type Rooms = [Room; 5];

/// Each room for each two of the first so many, the others just large enough.
pub fn each_two(boxes: usize) -> Vec<Rooms> {
    let mut all = Vec::new();
    for one in 0..boxes {
        for other in 0..one {
            for (room, other_room) in ROOMS.into_iter().flat_map(|a| ROOMS.map(|b| (a, b))) {
                let mut rooms = [Room::Exact; 5];
                rooms[one] = room;
                rooms[other] = other_room;
                all.push(rooms);
            }
        }
    }
    all
}

pub fn lent_by(plan: &Plan, call: Call, rooms: &Rooms) -> Lent {
    let [boxes @ .., numbers] = *rooms;
    Lent {
        boxes: plan.lent(boxes),
        numbers: call
            .numbered(plan)
            .map_or(0, |count| numbers.words(count, FIVE)),
    }
}

/// One thing that is checked of a pair.
#[derive(Clone, Copy, Debug)]
enum Check {
    /// The model against the boards of the Rust.
    Rust,
    /// The promises of editions that are alike but for a stretch.
    Stretch,
    /// The product against the model.
    Call(Call, Rooms),
}

/// One call, against the model: its answer and every lent word.
pub fn compare_call(product: &mut Product, plan: &Plan, call: Call, lent: &Lent) -> Checked {
    product.call(call, plan.editions(), lent)?;
    let wanted = plan.wanted(call, lent);
    if product.answer() != wanted.answer {
        return Err(format!(
            "answer\n  the model: {:?}\n  golavimes: {:?}",
            wanted.answer,
            product.answer()
        ));
    }
    let seen = product.numbers();
    if let Some(at) = (0..seen.len()).find(|at| seen[*at] != wanted.numbers[*at]) {
        let five = at / FIVE;
        let of = |numbers: &[u64]| -> Vec<u64> {
            let fives = numbers.chunks(FIVE).nth(five);
            fives.expect("the number is in one").to_vec()
        };
        return Err(format!(
            "slip or board {five} from 0, hexadecimal\n  the model: {:x?}\n  golavimes: {:x?}",
            of(&wanted.numbers),
            of(seen)
        ));
    }
    plan.compare_boxes(wanted.answer[0] == 0, product.boxes())
}

/// Positions at and around the ends, and in an edition of few boards each. The
/// last but one is, cut to 32 or to 63 bits, that of the first board.
fn positions(boards: usize, rng: &mut Rng) -> Vec<u64> {
    let boards = boards as u64;
    let mut positions: Vec<u64> = if boards <= 16 {
        (0..=boards).collect()
    } else {
        let some = (0..4).map(|_| 1 + rng.next() % boards);
        [0, 1, 2, boards - 1, boards]
            .into_iter()
            .chain(some)
            .collect()
    };
    positions.push(boards + 1);
    positions.push([(1 << 32) + 1, (1 << 63) + 1][rng.below(2)]);
    positions.push(u64::MAX);
    positions
}

/// Every so many pairs the rooms around each boundary are tried.
const SIZES_EVERY: u64 = 397;

/// Every so many pairs each position is asked for, of the others one.
const POSITIONS_EVERY: u64 = 5;

/// What is counted of pairs that are planned.
#[derive(Default)]
pub struct Pairs {
    pub met: Met,
    boards: u64,
    states: StateCounts,
    pub sized: u64,
}

impl Pairs {
    /// Counts a pair, and who judged it. Returns its number in its group, from 1.
    pub fn count(&mut self, group: &'static str, plan: &Plan, by_rust: bool) -> u64 {
        self.met.judged(by_rust);
        self.boards += plan.boards() as u64;
        self.states.count_all(&plan.states);
        self.met.input(group, &[plan.old, plan.new])
    }

    /// Whether the rooms around each boundary are tried with the pair of this number.
    pub fn is_sized(&mut self, number: u64, plan: &Plan) -> bool {
        let short = plan.old.len() + plan.new.len() < 4000;
        let sized = short && number.is_multiple_of(SIZES_EVERY);
        self.sized += u64::from(sized);
        sized
    }

    pub fn print(&self, report: &mut Report) {
        report.inputs(&self.met, "pairs", "reader.rs");
        let (bytes, boards) = (self.met.bytes, self.boards);
        report.say(format_args!("{bytes} bytes, {boards} boards"));
        self.states.print(report);
    }
}

/// What was met.
#[derive(Default)]
struct Counts {
    pairs: Pairs,
    alike: u64,
    tabled: u64,
    listing: u64,
}

/// How many boards have each state.
#[derive(Default)]
pub struct StateCounts {
    states: [u64; 6],
    /// Near boards whose source stands before them, and after them.
    near: [u64; 2],
}

impl StateCounts {
    /// Counts the board at an index, by the numbers of its state and its source.
    pub fn count(&mut self, index: usize, state: usize, from: usize) {
        self.states[state] += 1;
        if state == NEAR {
            self.near[usize::from(from > index + 1)] += 1;
        }
    }

    pub fn count_all(&mut self, states: &[State]) {
        for (index, state) in states.iter().enumerate() {
            self.count(index, state.number(), state.from());
        }
    }

    pub fn print(&self, report: &mut Report) {
        for (count, name) in self.states.into_iter().zip(STATES) {
            report.line(count, format_args!("boards {name}"));
        }
        report.line(self.near[0], "near boards after their source");
        report.line(self.near[1], "near boards before their source");
    }
}

/// The refusals of editions, with the editions that they name.
pub const OF_EDITIONS: [Refusal; 6] = [
    (1, 1, "overlong, old"),
    (2, 1, "box full, old"),
    (3, 1, "list full, old"),
    (1, 2, "overlong, new"),
    (2, 2, "box full, new"),
    (3, 2, "list full, new"),
];

struct Run {
    product: Product,
    rng: Rng,
    counts: Counts,
}

impl Run {
    fn call(&mut self, plan: &Plan, call: Call, rooms: Rooms) -> Result<(), (Check, String)> {
        let lent = lent_by(plan, call, &rooms);
        compare_call(&mut self.product, plan, call, &lent)
            .map_err(|error| (Check::Call(call, rooms), error))?;
        self.counts.pairs.met.call(self.product.answer());
        Ok(())
    }

    /// Each room for each two of the lent boxes.
    fn sizes(&mut self, plan: &Plan, call: Call) -> Result<(), (Check, String)> {
        let boxes = if call.numbered(plan).is_some() { 5 } else { 4 };
        for rooms in each_two(boxes) {
            self.call(plan, call, rooms)?;
        }
        Ok(())
    }
}

impl Comparison for Run {
    const NAME: &'static str = "plan";
    const TEXTS: &'static [&'static str] = &["old text", "new text"];
    const LONG: &'static str = "texts of 16777215 bytes and one more";

    type Check = Check;

    fn compare(&mut self, group: &'static str, texts: &[&[u8]]) -> Result<(), (Check, String)> {
        let [old, new] = pair(texts);
        let plan = Plan::new(old, new);
        let by_rust = compare_rust(&plan, judge::compare);
        let by_rust = by_rust.map_err(|error| (Check::Rust, error))?;
        let counts = &mut self.counts;
        let number = counts.pairs.count(group, &plan, by_rust);
        let shown = stretch::compare(&plan).map_err(|error| (Check::Stretch, error))?;
        counts.alike += u64::from(shown.alike);
        counts.tabled += u64::from(shown.tabled);
        counts.listing += u64::from(shown.listed > 0);

        let enough = std::array::from_fn(|_| ENOUGH[self.rng.below(ENOUGH.len())]);
        self.call(&plan, Call::Plan, enough)?;
        self.call(&plan, Call::Boards, enough)?;
        let positions = positions(plan.boards(), &mut self.rng);
        if number.is_multiple_of(POSITIONS_EVERY) {
            for position in &positions {
                self.call(&plan, Call::State(*position), enough)?;
                self.call(&plan, Call::RecordBehind(*position), enough)?;
            }
        }
        let position = positions[self.rng.below(positions.len())];
        let calls = [
            Call::Plan,
            Call::Boards,
            Call::State(position),
            Call::RecordBehind(position),
        ];
        let told = calls[2 + self.rng.below(2)];
        self.call(&plan, told, enough)?;
        let any = std::array::from_fn(|_| ROOMS[self.rng.below(ROOMS.len())]);
        self.call(&plan, Call::Plan, any)?;
        let other = calls[1 + self.rng.below(3)];
        self.call(&plan, other, any)?;
        if self.counts.pairs.is_sized(number, &plan) {
            for call in calls {
                self.sizes(&plan, call)?;
            }
        }
        Ok(())
    }

    fn again(&mut self, texts: &[&[u8]], check: Check) -> Checked {
        let [old, new] = pair(texts);
        let plan = Plan::new(old, new);
        match check {
            Check::Rust => compare_rust(&plan, judge::compare).map(|_| ()),
            Check::Stretch => stretch::compare(&plan).map(|_| ()),
            Check::Call(call, rooms) => {
                // A call with a position is made with each.
                let positions = positions(plan.boards(), &mut Rng::new(0));
                let calls: Vec<Call> = match call {
                    Call::Plan | Call::Boards | Call::Searches => vec![call],
                    Call::State(_) => positions.into_iter().map(Call::State).collect(),
                    Call::RecordBehind(_) => {
                        positions.into_iter().map(Call::RecordBehind).collect()
                    }
                };
                for call in calls {
                    let lent = lent_by(&plan, call, &rooms);
                    compare_call(&mut self.product, &plan, call, &lent)
                        .map_err(|error| format!("{call:?}, {lent:?}: {error}"))?;
                }
                Ok(())
            }
        }
    }

    fn sides(check: Check) -> &'static str {
        match check {
            Check::Rust => "the model against reader.rs",
            Check::Stretch => "the model against what is promised of a stretch",
            Check::Call(..) => "golavimes against the model",
        }
    }

    fn longest(&mut self, seed: u64) -> Checked {
        let every = [
            Call::Plan,
            Call::State(1),
            Call::RecordBehind(1),
            Call::Boards,
        ];
        longest(seed, &every, &mut |plan, call, rooms| {
            self.call(plan, call, rooms)
                .map_err(|(check, error)| format!("{check:?}: {error}"))
        })
    }

    fn met(&self) -> &Met {
        &self.counts.pairs.met
    }

    fn print(&self, report: &mut Report) {
        let counts = &self.counts;
        let pairs = &counts.pairs;
        pairs.print(report);
        report.calls(&pairs.met, &OF_EDITIONS);
        report.refused(&pairs.met, (4, 0, "slips short"));
        let sized = "pairs with each two boxes around each boundary";
        report.line(pairs.sized, sized);
        let alike = "pairs alike but for a stretch, with boards outside it";
        report.line(counts.alike, alike);
        report.line(counts.tabled, "of these with a table for each old deal");
        report.line(counts.listing, "of these listing a deal");
    }
}

/// Makes a call with editions as long as can be, and longer, on either side: each of
/// the calls, but the first alone where the new edition is as long as can be.
pub fn longest(
    seed: u64,
    calls: &[Call],
    make: &mut dyn FnMut(&Plan, Call, Rooms) -> Checked,
) -> Checked {
    let (longest, few) = generate::longest(seed);
    let mut overlong = longest.clone();
    overlong.push(b'x');
    let exact = [Room::Exact; 5];
    let [mut no_old_cards, mut no_new_entries] = [exact; 2];
    no_old_cards[0] = Room::None;
    no_new_entries[3] = Room::None;
    let all_rooms = [exact, no_old_cards, no_new_entries];

    let plan = Plan::new(&longest, &few);
    assert!(compare_rust(&plan, judge::compare)?, "editions of ASCII");
    let is_late = |state: &&State| matches!(state, State::Old(from) if *from > 5000);
    let late = plan.states.iter().filter(is_late).count();
    assert!(late > 1, "the few boards are not the last of the longest");

    let mut cases: Vec<(Plan, &[Rooms], &[Call])> = vec![
        (plan, &all_rooms[..1], calls),
        (Plan::new(&few, &longest), &all_rooms[..1], &calls[..1]),
    ];
    for (old, new) in [
        (&overlong, &few),
        (&few, &overlong),
        (&overlong, &overlong),
        (&overlong, &longest),
    ] {
        cases.push((Plan::new(old, new), &all_rooms, calls));
    }
    for (plan, rooms, calls) in cases {
        for (rooms, call) in rooms.iter().flat_map(|a| calls.iter().map(move |b| (a, b))) {
            let lengths = (plan.old.len(), plan.new.len());
            make(&plan, *call, *rooms)
                .map_err(|error| format!("texts of {lengths:?} bytes: {error}"))?;
        }
    }
    Ok(())
}

/// The two texts of a pair.
pub fn pair<'a>(texts: &[&'a [u8]]) -> [&'a [u8]; 2] {
    texts.try_into().expect("a pair has two texts")
}

/// The model against the boards of the Rust, by one of the judge's comparisons, where
/// both texts are in the domain. Returns whether they are.
pub fn compare_rust(plan: &Plan, by: fn(&Plan, &str, &str) -> Checked) -> Result<bool, String> {
    match (text_in_domain(plan.old), text_in_domain(plan.new)) {
        (Some(old), Some(new)) => by(plan, old, new).map(|()| true),
        _ => Ok(false),
    }
}

/// Compares every pair. Returns whether all agreed.
pub fn run(seed: u64) -> bool {
    let run = Run {
        product: Product::new(),
        rng: Rng::new(seed ^ 0x706c_616e),
        counts: Counts::default(),
    };
    comparison::run(run, seed, |give| generate::all(seed, give))
}

#[cfg(test)]
pub mod tests {
    use super::*;
    use crate::read::generate::DEAL;
    use crate::read::model::CARD;

    const TABLE: &str = "[DoubleDummyTricks \"00000000000000000000\"]\n";

    fn deal(first: &str) -> String {
        format!("[Deal \"{}\"]\n", DEAL.replacen('N', first, 1))
    }

    /// The example of the listing program.
    pub fn example() -> (String, String) {
        let (a, b) = (deal("N"), deal("E"));
        let old = format!("{a}{TABLE}");
        (old, format!("{a}\n{b}\n{b}\n[Event \"x\"]\n"))
    }

    #[test]
    fn the_listing_example() {
        let (old, new) = example();
        let plan = Plan::new(old.as_bytes(), new.as_bytes());
        let states = [State::Old(1), State::Solve, State::Twin(2), State::Blank];
        assert_eq!(plan.states, states);
        assert_eq!(plan.slips.len(), 1);
        assert_eq!(plan.slips[0][0], 2);
        let lent = lent_by(&plan, Call::Plan, &[Room::Exact; 5]);
        let wanted = plan.wanted(Call::Plan, &lent);
        assert_eq!(wanted.answer, [0, 0, 0, 4, 1, 0, 1, 0, 1, 1]);
        let short = lent_by(&plan, Call::Plan, &[Room::WordLess; 5]);
        assert_eq!(plan.wanted(Call::Plan, &short).answer[..3], [2, 1, 1]);
    }

    #[test]
    fn the_rust_is_asked() {
        let (old, new) = example();
        let fails = |spoil: &dyn Fn(&mut Plan)| {
            let mut plan = Plan::new(old.as_bytes(), new.as_bytes());
            spoil(&mut plan);
            judge::compare(&plan, &old, &new).is_err()
        };
        assert!(!fails(&|_| {}));
        assert!(fails(&|plan| plan.states[2] = State::Solve));
        assert!(fails(&|plan| plan.slips[0][0] = 3));
        assert!(fails(&|plan| plan.slips[0].swap(1, 2)));
        assert!(fails(&|plan| plan.slips.push(plan.slips[0])));
        assert!(fails(&|plan| plan.olds.cards[38] = 0));
    }

    #[test]
    fn a_deal_listed_outside_is_seen() {
        let (a, b, c) = (deal("N"), deal("E"), deal("S"));
        let old = format!("{a}{TABLE}\n{b}{TABLE}\n{a}\n");
        let new = format!("{a}{TABLE}\n{c}\n{a}\n");
        let mut plan = Plan::new(old.as_bytes(), new.as_bytes());
        let shown = stretch::compare(&plan).expect("the promise holds");
        assert!(shown.alike && shown.tabled);
        assert_eq!(shown.listed, 1);
        let card = &plan.news.cards[2 * CARD..];
        let [n, e, s, w] = model::hands(card);
        plan.slips.push([3, n, e, s, w]);
        assert!(stretch::compare(&plan).is_err());
    }
}
