//! One call of the product's planning, through guarded buffers.

use super::{Call, Lent};
use crate::guard::{self, Guarded};
use crate::read::product::{GuardedEdition, Lent as LentBoxes, FILL_ANSWER, MARK_ANSWER};
use crate::read::Checked;
use golavimes::{Boxes, Editions};

/// Two editions, and what is lent for their cards and entries.
pub struct GuardedPair {
    old: GuardedEdition,
    new: GuardedEdition,
}

impl GuardedPair {
    pub fn new() -> Self {
        GuardedPair {
            old: GuardedEdition::new(),
            new: GuardedEdition::new(),
        }
    }

    /// Lends copies of both texts, and words for their cards and entries.
    pub fn lend(&mut self, pair: Editions, lent: [LentBoxes; 2]) -> (Editions<'_>, Boxes<'_>) {
        let [old_lent, new_lent] = lent;
        let (old, old_cards, old_entries) = self.old.lend(pair.old, old_lent);
        let (new, new_cards, new_entries) = self.new.lend(pair.new, new_lent);
        let boxes = Boxes::new([old_cards, old_entries, new_cards, new_entries]);
        (Editions { old, new }, boxes)
    }

    pub fn untouched(&self, pair: Editions) -> Checked {
        let tell = |edition: &'static str| move |error| format!("{error} of the {edition} edition");
        self.old.untouched(pair.old).map_err(tell("old"))?;
        self.new.untouched(pair.new).map_err(tell("new"))
    }

    /// The cards and entries of the old edition, then those of the new one.
    pub fn boxes(&self) -> [&[u32]; 4] {
        let (old, new) = (&self.old, &self.new);
        [old.cards(), old.entries(), new.cards(), new.entries()]
    }
}

/// The buffers, kept between calls.
pub struct Product {
    pair: GuardedPair,
    /// Slips, or the numbers of boards.
    numbers: Guarded<u64>,
    answer: Guarded<u64>,
}

impl Product {
    pub fn new() -> Self {
        Product {
            pair: GuardedPair::new(),
            numbers: Guarded::new(MARK_ANSWER),
            answer: Guarded::new(MARK_ANSWER),
        }
    }

    /// Calls and looks for damage. What was answered is then in `answer`,
    /// `boxes` and `numbers`.
    pub fn call(&mut self, call: Call, pair: Editions, lent: &Lent) -> Checked {
        let (editions, boxes) = self.pair.lend(pair, lent.boxes);
        let numbers = self.numbers.lend(lent.numbers, FILL_ANSWER);
        let answer = self.answer.lend(call.answers(), FILL_ANSWER);
        let size = "the call's own size";
        let returned = match call {
            Call::Plan => golavimes::plan(editions, boxes, numbers, answer.try_into().expect(size)),
            Call::State(position) => {
                golavimes::state(editions, boxes, position, answer.try_into().expect(size))
            }
            Call::RecordBehind(position) => {
                golavimes::record_behind(editions, boxes, position, answer.try_into().expect(size))
            }
            Call::Boards => {
                golavimes::boards(editions, boxes, numbers, answer.try_into().expect(size))
            }
            Call::Searches => {
                golavimes::searches(editions, boxes, numbers, answer.try_into().expect(size))
            }
        };
        self.pair.untouched(pair)?;
        guard::untouched(&[(
            self.numbers.is_intact(),
            "numbers around the slips or boards",
        )])?;
        guard::answered(returned, &self.answer)
    }

    pub fn answer(&self) -> &[u64] {
        self.answer.lent()
    }

    pub fn boxes(&self) -> [&[u32]; 4] {
        self.pair.boxes()
    }

    pub fn numbers(&self) -> &[u64] {
        self.numbers.lent()
    }
}
