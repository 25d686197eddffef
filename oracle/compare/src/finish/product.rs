//! One call of the product's finishing, through guarded buffers.

use super::{Left, Lent};
use crate::guard::{self, Guarded};
use crate::plan::product::GuardedPair;
use crate::read::product::{FILL_ANSWER, MARK_ANSWER};
use crate::read::Checked;
use crate::write::product::{FILL_PAGE, MARK_PAGE};
use golavimes::Editions;

/// What may stand around the answers: bytes that a table takes, and ones that it
/// does not.
const AROUND: [u8; 4] = [0, 13, 14, 255];

/// The buffers, kept between calls.
pub struct Product {
    pair: GuardedPair,
    answers: Guarded<u8>,
    page: Guarded<u8>,
    answer: Guarded<u64>,
}

impl Product {
    pub fn new() -> Self {
        Product {
            pair: GuardedPair::new(),
            answers: Guarded::new(AROUND[0]),
            page: Guarded::new(MARK_PAGE),
            answer: Guarded::new(MARK_ANSWER),
        }
    }

    /// Calls and looks for damage. What the call left is then in `left`.
    pub fn call(&mut self, pair: Editions, answers: &[u8], lent: &Lent) -> Checked {
        let (editions, boxes) = self.pair.lend(pair, lent.boxes);
        let sum: usize = answers.iter().map(|cell| usize::from(*cell)).sum();
        let around = AROUND[sum % AROUND.len()];
        let given = &*self.answers.lend_copy(answers, around);
        let page = self.page.lend(lent.page, FILL_PAGE);
        let answer = self.answer.lend(4, FILL_ANSWER);
        let answer = answer.try_into().expect("four numbers");
        let returned = golavimes::finish(editions, boxes, given, page, answer);
        self.pair.untouched(pair)?;
        guard::untouched(&[
            (self.answers.lent() == answers, "the answers"),
            (self.answers.is_intact(), "bytes around the answers"),
            (self.page.is_intact(), "bytes around the page"),
        ])?;
        guard::answered(returned, &self.answer)
    }

    pub fn left(&self) -> Left<'_> {
        Left {
            answer: self.answer.lent(),
            boxes: self.pair.boxes(),
            page: self.page.lent(),
        }
    }
}
