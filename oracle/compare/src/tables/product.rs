//! One call of the product, through guarded buffers.

use super::{Answer, Case, Kind};
use crate::guard::Guarded;

/// What the bytes of a lent output are before the call.
const FILL: u8 = 0xaa;
/// What the numbers of the answer array are before the call.
const FILL_WORD: u64 = 0xaaaa_aaaa_aaaa_aaaa;
/// What may stand around an input: a digit, a byte that lengthens a character,
/// white space and an LF. A reader that looks past an end slips on one of them.
const AROUND: [u8; 4] = [b'1', 0x80, b' ', b'\n'];

/// The buffers, kept between calls.
pub struct Product {
    input: Guarded<u8>,
    output: Guarded<u8>,
    answer: Guarded<u64>,
}

/// What was seen after a call.
#[derive(Debug, PartialEq, Eq)]
pub struct Seen {
    pub returned: u64,
    pub answer: Vec<u64>,
    /// The whole lent page or table.
    pub output: Vec<u8>,
    /// What the call touched that it must not touch.
    pub damage: Vec<&'static str>,
}

impl Product {
    pub fn new() -> Self {
        Product {
            input: Guarded::new(AROUND[0]),
            output: Guarded::new(0x5c),
            answer: Guarded::new(0x5c5c_5c5c_5c5c_5c5c),
        }
    }

    pub fn call(&mut self, case: &Case) -> Seen {
        let sum: usize = case.input.iter().map(|b| usize::from(*b)).sum();
        let input = &*self.input.lend_copy(&case.input, AROUND[sum % 4]);
        let returned = if case.kind.writes() {
            let table = input.try_into().expect("a table has 20 bytes");
            let page = self.output.lend(case.page, FILL);
            let answer = self.answer.lend(4, FILL_WORD);
            let answer = answer.try_into().expect("four numbers");
            match case.kind {
                Kind::ToPbn => golavimes::dd_table_to_pbn(table, page, answer),
                Kind::Header => golavimes::optimum_result_table_header(table, page, answer),
                _ => golavimes::optimum_result_table_rows(table, page, answer),
            }
        } else {
            let table = self.output.lend(20, FILL);
            let table = table.try_into().expect("a table has 20 bytes");
            let answer = self.answer.lend(3, FILL_WORD);
            let answer = answer.try_into().expect("three numbers");
            match case.kind {
                Kind::FromPbn => golavimes::dd_table_from_pbn(input, table, answer),
                _ => golavimes::optimum_result_table_from_rows(input, table, answer),
            }
        };

        let mut damage = Vec::new();
        if self.input.lent() != case.input {
            damage.push("the input");
        }
        if !self.input.is_intact() {
            damage.push("bytes around the input");
        }
        if !self.output.is_intact() {
            damage.push("bytes around the lent output");
        }
        if !self.answer.is_intact() {
            damage.push("numbers around the answer array");
        }
        Seen {
            returned,
            answer: self.answer.lent().to_vec(),
            output: self.output.lent().to_vec(),
            damage,
        }
    }
}

/// What should be seen after a call with this answer: the answer array exact,
/// the rest of a page zero, all of it zero after a refusal, nothing else
/// touched.
pub fn wanted(case: &Case, answer: &Answer) -> Seen {
    let mut numbers = vec![answer.refusal, 0, answer.carried];
    let mut output = answer.output.clone();
    if case.kind.writes() {
        numbers.push(output.len() as u64);
        output.resize(case.page, 0);
    }
    Seen {
        returned: answer.refusal,
        answer: numbers,
        output,
        damage: Vec::new(),
    }
}
