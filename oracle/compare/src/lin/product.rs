//! One conversion by the product, through guarded buffers.

use crate::guard::{self, Guarded};
use crate::read::product::{FILL_ANSWER, MARK_ANSWER};
use crate::read::Checked;
use crate::write::product::{FILL_PAGE, MARK_PAGE};

/// What may stand around a text: what a reader that looks past an end would
/// slip on.
const AROUND: [u8; 8] = [b'|', b'\n', b'A', b'S', b'!', 0x80, b' ', b','];

/// The buffers, kept between calls.
pub struct Product {
    text: Guarded<u8>,
    page: Guarded<u8>,
    answer: Guarded<u64>,
}

impl Product {
    pub fn new() -> Self {
        Product {
            text: Guarded::new(MARK_PAGE),
            page: Guarded::new(MARK_PAGE),
            answer: Guarded::new(MARK_ANSWER),
        }
    }

    /// Calls and looks for damage. What was answered is then in `answer` and `page`.
    pub fn call(&mut self, text: &[u8], page: usize) -> Checked {
        let sum: usize = text.iter().map(|b| usize::from(*b)).sum();
        let given = self.text.lend_copy(text, AROUND[sum % AROUND.len()]);
        let page = self.page.lend(page, FILL_PAGE);
        let answer = self.answer.lend(5, FILL_ANSWER);
        let answer = answer.try_into().expect("five numbers");
        let returned = golavimes::lin_to_pbn(given, page, answer);
        guard::untouched(&[
            (self.text.lent() == text, "the text"),
            (self.text.is_intact(), "bytes around the text"),
            (self.page.is_intact(), "bytes around the page"),
        ])?;
        guard::answered(returned, &self.answer)
    }

    pub fn answer(&self) -> &[u64] {
        self.answer.lent()
    }

    pub fn page(&self) -> &[u8] {
        self.page.lent()
    }
}
