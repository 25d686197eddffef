//! One call of the product's reader, through guarded buffers.

use super::model::{CARD, ENTRY};
use super::Checked;
use crate::guard::{self, Guarded};

/// What the words of a lent output are before the call.
pub const FILL: u32 = 0xaaaa_aaaa;
pub const FILL_ANSWER: u64 = 0xaaaa_aaaa_aaaa_aaaa;
/// What stands around a lent output.
pub const MARK_ANSWER: u64 = 0x5c5c_5c5c_5c5c_5c5c;
/// What may stand around a text: what a reader that looks past an end would
/// slip on.
const AROUND: [u8; 8] = [b'\n', b'"', b']', b'}', b'1', 0x80, b' ', b'P'];

/// Which of them stands around this one.
fn around(text: &[u8]) -> u8 {
    let sum: usize = text.iter().map(|b| usize::from(*b)).sum();
    AROUND[sum % AROUND.len()]
}

/// How many words are lent.
#[derive(Clone, Copy, PartialEq, Eq, Debug)]
pub struct Lent {
    pub cards: usize,
    pub entries: usize,
}

impl Lent {
    /// Enough for every text of this length: a board has a tag line of five
    /// bytes and a line's end, and no byte gives more than one entry but for
    /// those of a tag line and an `AP`.
    pub fn generous(length: usize) -> Self {
        Lent {
            cards: CARD * (length / 6 + 2),
            entries: ENTRY * (length + 8),
        }
    }
}

/// A text, and what is lent for its cards and entries.
pub struct GuardedEdition {
    text: Guarded<u8>,
    cards: Guarded<u32>,
    entries: Guarded<u32>,
}

impl GuardedEdition {
    pub fn new() -> Self {
        GuardedEdition {
            text: Guarded::new(0x5c),
            cards: Guarded::new(0x5c5c_5c5c),
            entries: Guarded::new(0x5c5c_5c5c),
        }
    }

    /// Lends a copy of the text, and words for cards and entries.
    pub fn lend(&mut self, text: &[u8], lent: Lent) -> (&[u8], &mut [u32], &mut [u32]) {
        (
            self.text.lend_copy(text, around(text)),
            self.cards.lend(lent.cards, FILL),
            self.entries.lend(lent.entries, FILL),
        )
    }

    /// The text and what stands around all three must be as before the call.
    pub fn untouched(&self, text: &[u8]) -> Checked {
        guard::untouched(&[
            (self.text.lent() == text, "the text"),
            (self.text.is_intact(), "bytes around the text"),
            (self.cards.is_intact(), "words around the cards"),
            (self.entries.is_intact(), "words around the entries"),
        ])
    }

    pub fn cards(&self) -> &[u32] {
        self.cards.lent()
    }

    pub fn entries(&self) -> &[u32] {
        self.entries.lent()
    }
}

/// The buffers, kept between calls.
pub struct Product {
    edition: GuardedEdition,
    answer: Guarded<u64>,
}

impl Product {
    pub fn new() -> Self {
        Product {
            edition: GuardedEdition::new(),
            answer: Guarded::new(MARK_ANSWER),
        }
    }

    /// Calls and looks for damage. What was answered is then in `answer`,
    /// `cards` and `entries`.
    pub fn call(&mut self, text: &[u8], lent: Lent) -> Checked {
        let (given, cards, entries) = self.edition.lend(text, lent);
        let answer = self.answer.lend(5, FILL_ANSWER);
        let answer = answer.try_into().expect("five numbers");
        let returned = golavimes::read(given, cards, entries, answer);
        self.edition.untouched(text)?;
        guard::answered(returned, &self.answer)
    }

    pub fn answer(&self) -> &[u64] {
        self.answer.lent()
    }

    pub fn cards(&self) -> &[u32] {
        self.edition.cards()
    }

    pub fn entries(&self) -> &[u32] {
        self.edition.entries()
    }
}
