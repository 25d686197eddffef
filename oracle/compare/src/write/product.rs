//! One call of the product's writer, through guarded buffers.

use super::{Left, Lent};
use crate::guard::{self, Guarded};
use crate::read::product::{GuardedEdition, FILL_ANSWER, MARK_ANSWER};
use crate::read::Checked;

/// What the bytes of the page are before the call, and what stands around it.
pub const FILL_PAGE: u8 = 0xaa;
pub const MARK_PAGE: u8 = 0x5c;

/// The buffers, kept between calls.
pub struct Product {
    edition: GuardedEdition,
    page: Guarded<u8>,
    answer: Guarded<u64>,
}

impl Product {
    pub fn new() -> Self {
        Product {
            edition: GuardedEdition::new(),
            page: Guarded::new(MARK_PAGE),
            answer: Guarded::new(MARK_ANSWER),
        }
    }

    /// Calls and looks for damage. What the call left is then in `left`.
    pub fn call(&mut self, text: &[u8], lent: &Lent) -> Checked {
        let (given, cards, entries) = self.edition.lend(text, lent.boxes);
        let page = self.page.lend(lent.page, FILL_PAGE);
        let answer = self.answer.lend(4, FILL_ANSWER);
        let answer = answer.try_into().expect("four numbers");
        let returned = golavimes::write(given, cards, entries, page, answer);
        self.edition.untouched(text)?;
        guard::untouched(&[(self.page.is_intact(), "bytes around the page")])?;
        guard::answered(returned, &self.answer)
    }

    pub fn left(&self) -> Left<'_> {
        Left {
            answer: self.answer.lent(),
            cards: self.edition.cards(),
            entries: self.edition.entries(),
            page: self.page.lent(),
        }
    }
}
