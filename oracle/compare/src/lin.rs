//! LIN: texts converted by the product, by a model in plain Rust and by the
//! unchanged `lin/mod.rs` and `writer.rs`.

pub mod bench;
mod chosen;
mod generate;
mod judge;
mod model;
pub mod outside;
mod product;
mod read_back;
pub mod record;

use crate::comparison::{self, Comparison, Met, Refusal, Report};
use crate::read::product::Product as Reader;
use crate::read::{Checked, LONGEST};
use crate::rng::Rng;
use crate::room::{Room, ENOUGH, ROOMS};
use crate::tables::judge::text_in_domain;
use crate::write::{compare_written, same_page, PAGE_STEP};
use model::{Board, Need};
use product::Product;

/// A text, converted by the model.
struct Conversion<'a> {
    text: &'a [u8],
    need: Need,
    boards: Vec<Board>,
    page: Vec<u8>,
}

impl<'a> Conversion<'a> {
    fn new(text: &'a [u8]) -> Self {
        let (boards, page) = model::convert(text);
        let need = model::need(text);
        assert_eq!(need.bytes, page.len() as u64);
        Conversion {
            text,
            need,
            boards,
            page,
        }
    }

    /// The bytes lent as page.
    fn lent(&self, room: Room) -> usize {
        room.around(self.page.len(), PAGE_STEP)
    }

    /// The answer to a call with so many bytes lent as page.
    fn answer(&self, page: usize) -> [u64; 5] {
        answer_for(self.text.len(), &self.need, page)
    }
}

fn answer_for(length: usize, need: &Need, page: usize) -> [u64; 5] {
    if length > LONGEST {
        [1, 0, length as u64, 0, 0]
    } else if need.no_deal {
        [16, 0, 0, 0, 0]
    } else if need.bytes > page as u64 {
        [7, 0, need.bytes, 0, 0]
    } else {
        [0, 0, 0, need.bytes, need.boards]
    }
}

/// The model's boards, refusal and page against the Rust's.
fn compare_rust(conversion: &Conversion, text: &str) -> Checked {
    let rust = judge::read(text)?;
    judge::compare_boards(&rust, &conversion.boards)?;
    let (refused, model) = (judge::no_deal(&rust), conversion.need.no_deal);
    if refused != model {
        return Err(format!(
            "no deal\n  lin/mod.rs: {refused}\n  the model: {model}"
        ));
    }
    let boards: Vec<_> = rust.iter().map(judge::board_of).collect();
    if boards.is_empty() {
        return Ok(());
    }
    let page = judge::page_of(&boards);
    same_page("writer.rs", &page, "the model", &conversion.page)
}

/// What a call left, against the model.
fn compare_left(conversion: &Conversion, answer: &[u64], page: &[u8]) -> Checked {
    let wanted = conversion.answer(page.len());
    compare_written(&wanted, &conversion.page, answer, page)
}

/// One thing that is checked of a text.
#[derive(Clone, Copy, Debug)]
enum Check {
    /// The model against the Rust.
    Rust,
    /// What the model's page reads back as.
    ReadBack,
    /// The product against the model.
    Call(Room),
}

/// Every so many texts the page around each boundary is tried.
const SIZES_EVERY: u64 = 97;

/// What a text can hold, and whether one does.
type Held = (&'static str, fn(&Conversion) -> bool);

/// What is counted of the texts that were compared.
const HELD: [Held; 10] = [
    ("no board", |c| c.boards.is_empty()),
    ("several boards", |c| c.boards.len() > 1),
    ("a page", |c| !c.need.no_deal),
    ("no card", |c| {
        c.boards.iter().all(|b| b.hands.iter().all(Vec::is_empty))
    }),
    ("a bad deal", |c| c.boards.iter().any(Board::has_bad_deal)),
    ("a page with four whole hands", |c| {
        let whole = |b: &Board| b.hands.iter().all(|hand| hand.len() == 13);
        !c.need.no_deal && c.boards.iter().any(whole)
    }),
    ("a page with calls", |c| {
        !c.need.no_deal && c.boards.iter().any(|b| !b.calls.is_empty())
    }),
    ("a page with a contract", |c| {
        !c.need.no_deal && c.boards.iter().any(|b| b.declarer().is_some())
    }),
    ("a page with two tricks", |c| {
        let tricks = |b: &Board| b.opening_leader().is_some() && b.cards.len() > 4;
        !c.need.no_deal && c.boards.iter().any(tricks)
    }),
    ("a page, and cards without a bid", |c| {
        let silent = |b: &Board| b.declarer().is_none() && !b.cards.is_empty();
        !c.need.no_deal && c.boards.iter().any(silent)
    }),
];

/// Every refusal.
const REFUSALS: [Refusal; 3] = [(1, 0, "overlong"), (7, 0, "page full"), (16, 0, "no deal")];

#[derive(Default)]
struct Counts {
    met: Met,
    written: u64,
    boards: u64,
    /// By what `HELD` names.
    held: [u64; HELD.len()],
    sized: u64,
    every_length: u64,
}

struct Run {
    product: Product,
    reader: Reader,
    rng: Rng,
    counts: Counts,
}

impl Run {
    fn count(&mut self, conversion: &Conversion) {
        let counts = &mut self.counts;
        if !conversion.need.no_deal {
            counts.written += conversion.page.len() as u64;
            counts.boards += conversion.boards.len() as u64;
        }
        for (count, (_, holds)) in counts.held.iter_mut().zip(HELD) {
            *count += u64::from(holds(conversion));
        }
    }

    /// One call with so many bytes lent, against the model.
    fn lend(&mut self, conversion: &Conversion, page: usize) -> Checked {
        self.product.call(conversion.text, page)?;
        self.counts.met.call(self.product.answer());
        compare_left(conversion, self.product.answer(), self.product.page())
    }

    fn call(&mut self, conversion: &Conversion, room: Room) -> Result<(), (Check, String)> {
        let page = conversion.lent(room);
        self.lend(conversion, page)
            .map_err(|error| (Check::Call(room), error))
    }

    /// The texts whose pages are written out, with every page length from none to
    /// a few more than needed.
    fn written_out(&mut self) -> Checked {
        for (text, wanted) in chosen::cases() {
            let conversion = Conversion::new(&text);
            let tell = |error| format!("\"{}\": {error}", text.escape_ascii());
            let same = match &wanted {
                None if conversion.need.no_deal => Ok(()),
                None => Err("it is to be refused".to_string()),
                Some(_) if conversion.need.no_deal => Err("it is refused".to_string()),
                Some(boards) => {
                    let page = chosen::page(boards);
                    same_page("as written out", &page, "the model", &conversion.page)
                }
            };
            same.map_err(tell)?;
            for page in 0..conversion.page.len() + 4 {
                self.lend(&conversion, page).map_err(tell)?;
            }
            self.counts.every_length += 1;
        }
        Ok(())
    }

    /// A text whose page is too long to be lent: it must be refused, with the
    /// bytes that the model counts.
    fn too_long_to_lend(&mut self, text: &[u8]) -> Checked {
        let need = model::need(text);
        for page in [0, 1, 100_000] {
            self.product.call(text, page)?;
            let wanted = answer_for(text.len(), &need, page);
            let (answer, left) = (self.product.answer(), self.product.page());
            compare_written(&wanted, &[], answer, left)?;
            self.counts.met.call(answer);
        }
        Ok(())
    }

    /// A text of the most bytes, and ones of one and two more.
    fn around_the_limit(&mut self, text: &mut Vec<u8>) -> Checked {
        text.resize(LONGEST, b'\n');
        let conversion = Conversion::new(text);
        let in_domain = text_in_domain(text).expect("a text of ASCII");
        compare_rust(&conversion, in_domain)?;
        for room in ROOMS {
            self.lend(&conversion, conversion.lent(room))?;
        }
        let need = conversion.page.len();
        for length in [LONGEST + 1, LONGEST + 2] {
            text.resize(length, b'\n');
            // What it would hold does not count.
            let overlong = Conversion {
                text,
                need: Need::default(),
                boards: Vec::new(),
                page: Vec::new(),
            };
            for page in [0, need] {
                self.lend(&overlong, page)?;
            }
        }
        Ok(())
    }
}

impl Comparison for Run {
    const NAME: &'static str = "lin";
    const TEXTS: &'static [&'static str] = &["text"];
    const LONG: &'static str =
        "pages written out, texts of 16777215 bytes and more, and pages too long to lend";

    type Check = Check;

    fn compare(&mut self, group: &'static str, texts: &[&[u8]]) -> Result<(), (Check, String)> {
        let conversion = Conversion::new(texts[0]);
        let number = self.counts.met.input(group, texts);
        self.count(&conversion);
        let in_domain = text_in_domain(conversion.text);
        self.counts.met.judged(in_domain.is_some());
        if let Some(text) = in_domain {
            compare_rust(&conversion, text).map_err(|error| (Check::Rust, error))?;
        }
        read_back::check(&mut self.reader, &conversion)
            .map_err(|error| (Check::ReadBack, error))?;

        let enough = ENOUGH[self.rng.below(ENOUGH.len())];
        self.call(&conversion, enough)?;
        let any = ROOMS[self.rng.below(ROOMS.len())];
        self.call(&conversion, any)?;
        if number.is_multiple_of(SIZES_EVERY) && !conversion.need.no_deal {
            self.counts.sized += 1;
            for room in ROOMS {
                self.call(&conversion, room)?;
            }
        }
        Ok(())
    }

    fn again(&mut self, texts: &[&[u8]], check: Check) -> Checked {
        let conversion = Conversion::new(texts[0]);
        match check {
            Check::Rust => match text_in_domain(conversion.text) {
                Some(text) => compare_rust(&conversion, text),
                None => Ok(()),
            },
            Check::ReadBack => read_back::check(&mut self.reader, &conversion),
            Check::Call(room) => {
                let page = conversion.lent(room);
                self.lend(&conversion, page)
                    .map_err(|error| format!("{page} bytes lent: {error}"))
            }
        }
    }

    fn sides(check: Check) -> &'static str {
        match check {
            Check::Rust => "the model against lin/mod.rs and writer.rs",
            Check::ReadBack => "the model against what its page reads back as",
            Check::Call(_) => "golavimes against the model",
        }
    }

    fn longest(&mut self, seed: u64) -> Checked {
        self.written_out()?;
        for mut text in generate::as_long_as_can_be(seed) {
            self.around_the_limit(&mut text)?;
        }
        for text in generate::needing_most() {
            self.too_long_to_lend(&text)?;
        }
        Ok(())
    }

    fn met(&self) -> &Met {
        &self.counts.met
    }

    fn print(&self, report: &mut Report) {
        let counts = &self.counts;
        report.inputs(&counts.met, "texts", "lin/mod.rs");
        report.written(&counts.met, counts.boards, counts.written);
        report.held("texts", &counts.held, &HELD);
        report.calls(&counts.met, &REFUSALS);
        report.line(counts.sized, "texts with each room for the page");
        report.line(counts.every_length, "texts with every page length");
    }
}

/// Compares every text. Returns whether all agreed.
pub fn run(seed: u64) -> bool {
    let run = Run {
        product: Product::new(),
        reader: Reader::new(),
        rng: Rng::new(seed ^ 0x6c69_6e00),
        counts: Counts::default(),
    };
    comparison::run(run, seed, |give| {
        generate::all(seed, &mut |group, text| give(group, &[text]))
    })
}

#[cfg(test)]
mod tests {
    use super::*;

    #[test]
    fn pages_written_out() {
        for (text, wanted) in chosen::cases() {
            let conversion = Conversion::new(&text);
            if let Some(text) = text_in_domain(&text) {
                compare_rust(&conversion, text).expect("the Rust agrees");
            }
            let page = wanted.map(chosen::page);
            let seen = (!conversion.need.no_deal).then_some(conversion.page);
            assert_eq!(seen, page, "\"{}\"", text.escape_ascii());
        }
    }

    #[test]
    fn answers() {
        let conversion = Conversion::new(b"md|3SA|");
        assert_eq!(conversion.answer(201), [0, 0, 0, 201, 1]);
        assert_eq!(conversion.answer(200), [7, 0, 201, 0, 0]);
        assert_eq!(Conversion::new(b"md|3SAA|").answer(0), [16, 0, 0, 0, 0]);
        let need = Need {
            no_deal: true,
            ..Need::default()
        };
        let overlong = [1, 0, LONGEST as u64 + 1, 0, 0];
        assert_eq!(answer_for(LONGEST + 1, &need, 0), overlong);
    }

    #[test]
    fn damage_is_seen() {
        let text = "md|3SA|mb|1N|pc|D2|pc|DA|pc|D6|pc|D5|pc|S3|";
        let mut reader = Reader::new();
        let mut spoilt = |spoil: &dyn Fn(&mut Conversion)| {
            let mut conversion = Conversion::new(text.as_bytes());
            spoil(&mut conversion);
            let seen = read_back::check(&mut reader, &conversion).is_err();
            (compare_rust(&conversion, text).is_err(), seen)
        };
        assert_eq!(spoilt(&|_| {}), (false, false));
        let last = |conversion: &mut Conversion| {
            let end = conversion.page.len() - 2;
            conversion.page.swap(end, end - 5);
        };
        assert_eq!(spoilt(&last), (true, true));
        assert_eq!(spoilt(&|c| c.boards[0].dealer = 1), (true, true));
        assert_eq!(spoilt(&|c| c.boards[0].calls.push(0)), (true, true));
        assert_eq!(spoilt(&|c| c.need.no_deal = true), (true, false));
    }
}
