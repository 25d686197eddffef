//! The answers that a call is given: right ones, ones of a wrong length, ones with
//! bytes above 13.

use crate::plan::model::Plan;
use crate::rng::Rng;

/// The bytes of a slip's answer.
pub const TABLE: usize = 20;

/// How long the answers are.
#[derive(Clone, Copy, PartialEq, Eq, Debug)]
pub enum Length {
    Right,
    Empty,
    ByteLess,
    ByteMore,
    SlipLess,
    SlipMore,
    /// A byte for each slip.
    Slips,
    /// An answer for each board.
    Boards,
    Long,
}

pub const LENGTHS: [(Length, &str); 9] = [
    (Length::Right, "the right length"),
    (Length::Empty, "no byte"),
    (Length::ByteLess, "a byte less"),
    (Length::ByteMore, "a byte more"),
    (Length::SlipLess, "a slip less"),
    (Length::SlipMore, "a slip more"),
    (Length::Slips, "a byte for each slip"),
    (Length::Boards, "twenty bytes for each board"),
    (Length::Long, "thousands of bytes more"),
];

/// Where bytes above 13 stand.
#[derive(Clone, Copy, PartialEq, Eq, Debug)]
pub enum Above {
    Nowhere,
    First,
    Middle,
    Last,
    Several,
}

pub const ABOVES: [(Above, &str); 5] = [
    (Above::Nowhere, "no byte above 13"),
    (Above::First, "a byte above 13 at the start"),
    (Above::Middle, "a byte above 13 in the middle"),
    (Above::Last, "a byte above 13 at the end"),
    (Above::Several, "several bytes above 13"),
];

#[derive(Clone, Copy, Debug)]
pub struct Answers {
    pub length: Length,
    pub above: Above,
    pub seed: u64,
}

impl Answers {
    pub fn right(seed: u64) -> Self {
        Answers {
            length: Length::Right,
            above: Above::Nowhere,
            seed,
        }
    }

    /// Some of a wrong length or with bytes above 13, or right ones after all.
    pub fn any(rng: &mut Rng) -> Self {
        Answers {
            length: LENGTHS[rng.below(LENGTHS.len())].0,
            above: ABOVES[rng.below(ABOVES.len())].0,
            seed: rng.next(),
        }
    }

    fn length(self, plan: &Plan) -> usize {
        let slips = plan.slips.len();
        let right = TABLE * slips;
        match self.length {
            Length::Right => right,
            Length::Empty => 0,
            Length::ByteLess => right.saturating_sub(1),
            Length::ByteMore => right + 1,
            Length::SlipLess => right.saturating_sub(TABLE),
            Length::SlipMore => right + TABLE,
            Length::Slips => slips,
            Length::Boards => TABLE * plan.boards(),
            Length::Long => right + 5_000,
        }
    }

    /// Answers to so many slips, none of them above 13.
    pub fn tables(self, slips: usize) -> Vec<u8> {
        good(&mut Rng::new(self.seed), TABLE * slips)
    }

    pub fn bytes(self, plan: &Plan) -> Vec<u8> {
        let mut rng = Rng::new(self.seed);
        let length = self.length(plan);
        let mut bytes = good(&mut rng, length);
        if length == 0 {
            return bytes;
        }
        let places = match self.above {
            Above::Nowhere => vec![],
            Above::First => vec![0],
            Above::Middle => vec![length / 2],
            Above::Last => vec![length - 1],
            Above::Several => (0..4).map(|_| rng.below(length)).collect(),
        };
        for place in places {
            bytes[place] = [14, 14, 255, 14 + rng.below(242) as u8][rng.below(4)];
        }
        bytes
    }
}

/// So many bytes that a table takes: any, mostly; small ones, zeros or all 13.
fn good(rng: &mut Rng, length: usize) -> Vec<u8> {
    let most = [14, 14, 14, 14, 14, 10, 1, 0][rng.below(8)];
    let cell = |_| match most {
        0 => 13,
        _ => rng.below(most) as u8,
    };
    (0..length).map(cell).collect()
}
