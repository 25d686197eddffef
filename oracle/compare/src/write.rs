//! Writing: editions read and written by the product, by a model in plain Rust
//! and by the unchanged `reader.rs` and `writer.rs`.

pub mod bench;
mod chosen;
pub mod generate;
pub mod lines;
pub mod model;
pub mod notes;
pub mod once;
pub mod outside;
pub mod product;
mod read_back;
pub mod record;

use crate::comparison::{self, Comparison, Met, Refusal, Report};
use crate::read::model::{self as reading, Reading, CARD, ENTRY};
use crate::read::product::Lent as LentBoxes;
use crate::read::{compare_box, read_rust, Checked, LONGEST};
use crate::rng::Rng;
use crate::room::{Room, ENOUGH, ROOMS};
use crate::tables::judge::text_in_domain;
use once::{judge, Names};
use product::Product;

/// How many words are lent for cards and entries, and how many bytes as page.
#[derive(Clone, Copy, PartialEq, Eq, Debug)]
pub struct Lent {
    boxes: LentBoxes,
    page: usize,
}

/// An edition, read and written by the models.
struct Edition<'a> {
    text: &'a [u8],
    reading: Reading,
    page: Vec<u8>,
}

/// For the cards, the entries and the page.
type Rooms = [Room; 3];

/// How far "one more" and "one less" are from the page's boundary.
pub const PAGE_STEP: usize = 33;

impl<'a> Edition<'a> {
    fn new(text: &'a [u8]) -> Self {
        let reading = reading::read(text);
        let page = model::write(text, &reading);
        Edition {
            text,
            reading,
            page,
        }
    }

    fn lent(&self, [cards, entries, page]: Rooms) -> Lent {
        Lent {
            boxes: LentBoxes {
                cards: cards.words(self.reading.boards(), CARD),
                entries: entries.words(self.reading.entry_count(), ENTRY),
            },
            page: page.around(self.page.len(), PAGE_STEP),
        }
    }

    /// The answer to a call with what is lent.
    fn answer(&self, lent: &Lent) -> [u64; 4] {
        answer_for(self.text.len(), lent, &self.reading, self.page.len() as u64)
    }
}

fn answer_for(length: usize, lent: &Lent, reading: &Reading, need: u64) -> [u64; 4] {
    match crate::read::answer_for(length, lent.boxes, reading) {
        [0, ..] if need > lent.page as u64 => [7, 0, need, 0],
        [0, ..] => [0, 0, 0, need],
        [refusal, edition, carried, ..] => [refusal, edition, carried, 0],
    }
}

/// The model's page against what the unchanged `write_pbn` writes of what `read_pbn`
/// reads, with each directive once. Returns whether that is the Rust's own page.
fn compare_rust(edition: &Edition, text: &str) -> Result<Names, String> {
    let rust = judge(text, &read_rust(text)?)?;
    let name = rust.names.judge();
    same_page(name, &rust.page, "the model", &edition.page)?;
    Ok(rust.names)
}

/// Two pages. An error shows the first line in which they differ.
pub fn same_page(name: &str, wanted: &[u8], other: &str, seen: &[u8]) -> Checked {
    if wanted == seen {
        return Ok(());
    }
    let at = wanted.iter().zip(seen).position(|(a, b)| a != b);
    let at = at.unwrap_or(wanted.len().min(seen.len()));
    let before = &wanted[..at];
    let start = before
        .iter()
        .rposition(|b| *b == b'\n')
        .map_or(0, |lf| lf + 1);
    let line = before.iter().filter(|b| **b == b'\n').count();
    let show = |page: &[u8]| -> String {
        let rest = &page[start..];
        let end = rest.iter().skip(at - start).position(|b| *b == b'\n');
        let end = end.map_or(rest.len(), |lf| at - start + lf + 1).min(300);
        rest[..end].escape_ascii().to_string()
    };
    Err(format!(
        "page, line {line} from 0, byte {at} of {} and {}\n  {name}: \"{}\"\n  {other}: \"{}\"",
        wanted.len(),
        seen.len(),
        show(wanted),
        show(seen)
    ))
}

/// What a call left: its answer and all that was lent.
pub struct Left<'a> {
    answer: &'a [u64],
    cards: &'a [u32],
    entries: &'a [u32],
    page: &'a [u8],
}

/// What a call left, against the model.
fn compare_left(edition: &Edition, lent: &Lent, left: &Left) -> Checked {
    let wanted = edition.answer(lent);
    compare_written(&wanted, &edition.page, left.answer, left.page)?;
    let taken = wanted[0] == 0;
    let reading = &edition.reading;
    for (what, seen, wanted) in [
        ("cards", left.cards, &reading.cards),
        ("entries", left.entries, &reading.entries),
    ] {
        compare_box(what, seen, if taken { wanted } else { &[] })?;
    }
    Ok(())
}

/// The answer and the page that a call left, against the model's: the text and
/// then zeros, or zeros alone after a refusal.
pub fn compare_written(wanted: &[u64], text: &[u8], answer: &[u64], page: &[u8]) -> Checked {
    if answer != wanted {
        let mut error = format!("answer\n  the model: {wanted:?}\n  golavimes: {answer:?}");
        // Where both wrote, the first difference tells more.
        if let ([0, ..], [0, _, _, length, ..]) = (wanted, answer) {
            let page = page.get(..*length as usize).unwrap_or(page);
            let same = same_page("the model", text, "golavimes", page);
            error += &same.map_or_else(|page| format!("\n{page}"), |()| String::new());
        }
        return Err(error);
    }
    let used = if wanted[0] == 0 { text } else { &[] };
    let (seen, rest) = page.split_at(used.len());
    same_page("the model", used, "golavimes", seen)?;
    match rest.iter().position(|byte| *byte != 0) {
        Some(at) => Err(format!("page: unused byte {at} is {:x}", rest[at])),
        None => Ok(()),
    }
}

/// One call, against the model.
fn compare_call(product: &mut Product, edition: &Edition, lent: &Lent) -> Checked {
    product.call(edition.text, lent)?;
    compare_left(edition, lent, &product.left())
}

/// One thing that is checked of a text.
#[derive(Clone, Copy, Debug)]
enum Check {
    /// The model's page against that of the Rust.
    Rust,
    /// What the model's page reads back as.
    ReadBack,
    /// The directives on the product's page.
    Lines(Rooms),
    /// The product against the model.
    Call(Rooms),
}

/// Every so many texts the rooms around each boundary are tried.
const SIZES_EVERY: u64 = 499;

/// What was met.
#[derive(Default)]
struct Counts {
    met: Met,
    written: u64,
    boards: u64,
    /// By what `HELD` names.
    held: [u64; HELD.len()],
    /// Texts whose directives all differ.
    all_differ: u64,
    sized: u64,
    every_length: u64,
}

/// At least so many texts must have a directive after a name that is written twice.
const LEAST_REPEATED: u64 = 200_000;

/// What a page can hold, and whether one does.
type Held = (&'static str, fn(&Edition) -> bool);

/// What is counted of the editions that were compared.
const HELD: [Held; 9] = [
    ("no board", |e| e.reading.boards() == 0),
    ("several boards", |e| e.reading.boards() > 1),
    ("a header of its own", |e| {
        e.reading.boards() > 0 && !e.page.starts_with(b"% PBN 2.1\n% EXPORT\n\n")
    }),
    ("an auction", |e| has(e, b"[Auction \"")),
    ("notes", |e| has(e, b"[Note \"")),
    ("a play", |e| has(e, b"[Play \"")),
    ("a table", |e| has(e, b"[DoubleDummyTricks \"")),
    ("commentary", |e| {
        e.reading.entries.chunks(ENTRY).any(|entry| entry[0] == 4)
    }),
    ("directives", |e| {
        e.reading.entries.chunks(ENTRY).any(|entry| entry[0] == 3)
    }),
];

fn has(edition: &Edition, start: &[u8]) -> bool {
    let mut lines = edition.page.split(|b| *b == b'\n');
    lines.any(|line| line.starts_with(start))
}

/// Every refusal.
const REFUSALS: [Refusal; 4] = [
    (1, 0, "overlong"),
    (2, 0, "box full"),
    (3, 0, "list full"),
    (7, 0, "page full"),
];

struct Run {
    product: Product,
    rng: Rng,
    counts: Counts,
}

impl Run {
    fn call(&mut self, edition: &Edition, rooms: Rooms) -> Result<(), (Check, String)> {
        let lent = edition.lent(rooms);
        compare_call(&mut self.product, edition, &lent)
            .map_err(|error| (Check::Call(rooms), error))?;
        self.count_call();
        Ok(())
    }

    fn count_call(&mut self) {
        self.counts.met.call(self.product.left().answer);
    }

    /// Each directive is one line of the page that the last call left. Nothing was
    /// refused.
    fn lines(&mut self, edition: &Edition) -> Checked {
        let left = self.product.left();
        let page = &left.page[..left.answer[3] as usize];
        let all_differ = lines::check(edition.text, &edition.reading, page)?;
        self.counts.all_differ += u64::from(all_differ);
        Ok(())
    }

    /// The texts whose pages are written out, with every page length.
    fn written_out(&mut self) -> Checked {
        for (text, wanted) in chosen::placed() {
            let edition = Edition::new(text.as_bytes());
            let tell = |error| format!("\"{}\": {error}", text.escape_debug());
            same_page(
                "as written out",
                wanted.as_bytes(),
                "the model",
                &edition.page,
            )
            .map_err(tell)?;
            for page in 0..wanted.len() + 4 {
                let mut lent = edition.lent([Room::Exact; 3]);
                lent.page = page;
                compare_call(&mut self.product, &edition, &lent).map_err(tell)?;
                self.count_call();
            }
            self.counts.every_length += 1;
        }
        Ok(())
    }

    /// A long edition of ASCII, with these rooms.
    fn long_edition(&mut self, edition: &Edition, all: &[Rooms]) -> Checked {
        let in_domain = text_in_domain(edition.text).expect("an edition of ASCII");
        compare_rust(edition, in_domain)?;
        for rooms in all {
            let tell = |(check, error)| format!("{check:?}: {error}");
            self.call(edition, *rooms).map_err(tell)?;
        }
        Ok(())
    }

    /// A text whose page is very long: it must be refused, with the bytes that the
    /// model counts.
    fn need_told(&mut self, text: &[u8]) -> Checked {
        let reading = reading::read(text);
        let need = model::need(text, &reading);
        for page in [0, 1, 100_000] {
            let lent = Lent {
                boxes: LentBoxes {
                    cards: reading.cards.len(),
                    entries: reading.entries.len(),
                },
                page,
            };
            self.product.call(text, &lent)?;
            let wanted = answer_for(text.len(), &lent, &reading, need);
            let left = self.product.left();
            if left.answer != wanted {
                return Err(format!(
                    "needing {need} bytes\n  the model: {wanted:?}\n  golavimes: {:?}",
                    left.answer
                ));
            }
            let words = left.cards.iter().chain(left.entries);
            if words.into_iter().any(|word| *word != 0) {
                return Err("words that are not zero after page full".into());
            }
            if left.page.iter().any(|byte| *byte != 0) {
                return Err("a page that is not zero after page full".into());
            }
            self.count_call();
        }
        Ok(())
    }
}

impl Comparison for Run {
    const NAME: &'static str = "write";
    const TEXTS: &'static [&'static str] = &["text"];
    const LONG: &'static str =
        "texts written out, of 16777215 bytes and more, and of very many boards";

    type Check = Check;

    fn compare(&mut self, group: &'static str, texts: &[&[u8]]) -> Result<(), (Check, String)> {
        let text = texts[0];
        let edition = Edition::new(text);
        let counts = &mut self.counts;
        let number = counts.met.input(group, texts);
        counts.written += edition.page.len() as u64;
        counts.boards += edition.reading.boards() as u64;
        for (count, (_, holds)) in counts.held.iter_mut().zip(HELD) {
            *count += u64::from(holds(&edition));
        }
        let rust = text_in_domain(text).map(|text| compare_rust(&edition, text));
        let names = rust.transpose().map_err(|error| (Check::Rust, error))?;
        counts.met.placed(names);
        read_back::check(&edition).map_err(|error| (Check::ReadBack, error))?;

        let enough = std::array::from_fn(|_| ENOUGH[self.rng.below(ENOUGH.len())]);
        self.call(&edition, enough)?;
        self.lines(&edition)
            .map_err(|error| (Check::Lines(enough), error))?;
        let [cards, entries, _] = enough;
        let page = ROOMS[self.rng.below(ROOMS.len())];
        self.call(&edition, [cards, entries, page])?;
        if number.is_multiple_of(5) {
            let any = std::array::from_fn(|_| ROOMS[self.rng.below(ROOMS.len())]);
            self.call(&edition, any)?;
        }
        if number.is_multiple_of(SIZES_EVERY) && text.len() < 4000 {
            self.counts.sized += 1;
            for cards in ROOMS {
                for entries in ROOMS {
                    for page in ROOMS {
                        self.call(&edition, [cards, entries, page])?;
                    }
                }
            }
        }
        Ok(())
    }

    fn again(&mut self, texts: &[&[u8]], check: Check) -> Checked {
        let edition = Edition::new(texts[0]);
        match check {
            Check::Rust => match text_in_domain(edition.text) {
                Some(text) => compare_rust(&edition, text).map(|_| ()),
                None => Ok(()),
            },
            Check::ReadBack => read_back::check(&edition),
            Check::Lines(rooms) => {
                self.product.call(edition.text, &edition.lent(rooms))?;
                match self.product.left().answer {
                    [0, ..] => self.lines(&edition),
                    _ => Ok(()),
                }
            }
            Check::Call(rooms) => {
                let lent = edition.lent(rooms);
                compare_call(&mut self.product, &edition, &lent)
                    .map_err(|error| format!("{lent:?}: {error}"))
            }
        }
    }

    fn sides(check: Check) -> &'static str {
        match check {
            Check::Rust => "the model against writer.rs, each directive once",
            Check::ReadBack => "the model against what its page reads back as",
            Check::Lines(_) => "the directives on golavimes's page",
            Check::Call(_) => "golavimes against the model",
        }
    }

    /// Pages written out; editions as long as can be, and longer; a very long page.
    fn longest(&mut self, seed: u64) -> Checked {
        self.written_out()?;
        let [exact, short, none] = [Room::Exact, Room::WordLess, Room::None];
        let pages = [exact, short, none].map(|page| [exact, exact, page]);
        let noted = generate::noted_at_length();
        self.long_edition(&Edition::new(&noted), &pages)?;
        let mut text = crate::read::generate::plain_edition(seed, LONGEST);
        let edition = Edition::new(&text);
        let boxes = [[short; 3], [exact, short, short]];
        self.long_edition(&edition, &[&pages[..], &boxes].concat())?;
        let generous = edition.lent([Room::OneMore; 3]);
        let nothing = Lent {
            boxes: LentBoxes {
                cards: 0,
                entries: 0,
            },
            page: 0,
        };
        for length in [LONGEST + 1, LONGEST + 2] {
            text.resize(length, b'x');
            // What it would hold does not count.
            let edition = Edition {
                text: &text,
                reading: Reading::default(),
                page: Vec::new(),
            };
            for lent in [generous, nothing] {
                compare_call(&mut self.product, &edition, &lent)?;
                self.count_call();
            }
        }
        self.need_told(&generate::small_boards())
    }

    fn met(&self) -> &Met {
        &self.counts.met
    }

    fn print(&self, report: &mut Report) {
        let counts = &self.counts;
        report.inputs(&counts.met, "texts", "writer.rs");
        report.placed(&counts.met, "texts", LEAST_REPEATED);
        let all_differ = "texts whose directives all differ, each one line of golavimes's page";
        report.line(counts.all_differ, all_differ);
        report.written(&counts.met, counts.boards, counts.written);
        report.held("editions", &counts.held, &HELD);
        report.calls(&counts.met, &REFUSALS);
        let sized = "texts with each room for cards, entries and page";
        report.line(counts.sized, sized);
        report.line(
            counts.every_length,
            "texts written out, with every page length",
        );
    }
}

/// Compares every text. Returns whether all agreed.
pub fn run(seed: u64) -> bool {
    let run = Run {
        product: Product::new(),
        rng: Rng::new(seed ^ 0x7772_6974),
        counts: Counts::default(),
    };
    comparison::run(run, seed, |give| {
        generate::all(seed, &mut |group, text| give(group, &[text]))
    })
}

#[cfg(test)]
mod tests {
    use super::*;

    fn page(text: &str) -> String {
        let edition = Edition::new(text.as_bytes());
        compare_rust(&edition, text).expect("the Rust agrees");
        read_back::check(&edition).expect("it reads back");
        String::from_utf8(edition.page).expect("text")
    }

    /// A board with nothing but what is always written.
    const BARE: &str = "[Event \"\"]\n[Site \"\"]\n[Date \"\"]\n[West \"\"]\n[North \"\"]\n\
        [East \"\"]\n[South \"\"]\n[Vulnerable \"None\"]\n[Deal \"N:- - - -\"]\n[Scoring \"\"]\n\
        [Declarer \"\"]\n[Contract \"\"]\n[Result \"\"]\n";
    const HEADER: &str = "% PBN 2.1\n% EXPORT\n\n";

    #[test]
    fn pages() {
        assert_eq!(page(";x\n{c}\n"), HEADER);
        assert_eq!(page("[Event \"\"]"), format!("{HEADER}{BARE}"));
        let two = page("% h\n\n{b}\n[Event \"\"]\n\n;i\n[Event \"\"]");
        assert_eq!(two, format!("% h\n\n{{b}}\n{BARE}\n;i\n{BARE}"));
        let early = page("[B \"1\"]\n[A \"2\"]\n[Deal \"\"]\n[C \"3\"]\n[A \"4\"]\n;d");
        let deal = "[B \"1\"]\n[A \"2\"]\n;d\n[Deal";
        let bare = BARE.replace("[Deal", deal);
        assert_eq!(early, format!("{HEADER}{bare}[C \"3\"]\n"));
        let notes = page("[Auction \"N\"]\n1C=1= AP\n[Note \"2:b\"]\n;d\n{c}\n[Note \"1:a\"]");
        let auction = "[Auction \"N\"]\n1C=1= Pass Pass Pass\n";
        let notes_wanted = "[Note \"1:a\"]\n{c}\n[Note \"2:b\"]\n;d\n";
        assert_eq!(notes, format!("{HEADER}{BARE}{auction}{notes_wanted}"));
        let unwritten = page("[Board \"\"]\n;d\n{b}");
        assert_eq!(unwritten, format!("{HEADER}{BARE}{{b}}\n;d\n"));
    }

    /// The records whose pages are written out, and how often the names are written
    /// that their directives stand after.
    #[test]
    fn pages_written_out() {
        let mut all = Vec::new();
        for (text, wanted) in chosen::placed() {
            assert_eq!(page(text), wanted);
            let edition = Edition::new(text.as_bytes());
            all.push(compare_rust(&edition, text).expect("it agrees"));
            let seen = lines::check(edition.text, &edition.reading, wanted.as_bytes());
            assert_eq!(seen, Ok(true));
        }
        let [notes @ .., unwritten, also, once, once_too] = &all[..] else {
            panic!("more than four");
        };
        assert!(notes.iter().all(|names| *names == Names::Repeated));
        assert_eq!([unwritten, also], [&Names::Unwritten; 2]);
        assert_eq!([once, once_too], [&Names::Once; 2]);
    }

    /// A directive after another note, before the other, or twice.
    #[test]
    fn a_moved_directive_is_seen() {
        let text = "[Auction \"N\"]\n1C\n[Note \"1:a\"]\n;c\n[Note \"2:b\"]\n;d\n%e";
        let right = "[Note \"1:a\"]\n;c\n[Note \"2:b\"]\n;d\n%e\n";
        assert!(page(text).ends_with(right));
        for wrong in [
            "[Note \"1:a\"]\n[Note \"2:b\"]\n;c\n;d\n%e\n",
            "[Note \"1:a\"]\n;c\n;d\n[Note \"2:b\"]\n%e\n",
            "[Note \"1:a\"]\n;c\n[Note \"2:b\"]\n%e\n",
            "[Note \"1:a\"]\n;c\n[Note \"2:b\"]\n;c\n;d\n%e\n",
        ] {
            let mut edition = Edition::new(text.as_bytes());
            edition.page = page(text).replace(right, wrong).into_bytes();
            assert!(compare_rust(&edition, text).is_err(), "{wrong}");
            assert!(read_back::check(&edition).is_err(), "{wrong}");
        }
    }

    #[test]
    fn answers() {
        let edition = Edition::new(b"[Event \"\"]");
        let need = (HEADER.len() + BARE.len()) as u64;
        let answer = |rooms| edition.answer(&edition.lent(rooms));
        assert_eq!(answer([Room::Exact; 3]), [0, 0, 0, need]);
        let exact = Room::Exact;
        for page in [Room::None, Room::OneLess, Room::WordLess] {
            assert_eq!(answer([exact, exact, page]), [7, 0, need, 0]);
        }
        assert_eq!(answer([exact, Room::WordLess, Room::None]), [3, 0, 2, 0]);
        assert_eq!(answer([Room::WordLess; 3]), [2, 0, 1, 0]);
        assert_eq!(model::need(edition.text, &edition.reading), need);
    }

    #[test]
    fn damage_is_seen() {
        let text = "[Event \"x\"] ;c";
        let spoilt = |spoil: &dyn Fn(&mut Edition)| {
            let mut edition = Edition::new(text.as_bytes());
            spoil(&mut edition);
            compare_rust(&edition, text).is_err() && read_back::check(&edition).is_err()
        };
        assert!(!spoilt(&|_| {}));
        assert!(spoilt(&|edition| edition.page[31] = b'y'));
        assert!(spoilt(&|edition| edition.page.insert(34, b'\n')));
        assert!(spoilt(&|edition| edition.page.truncate(34)));
    }

    #[test]
    fn chosen_texts_are_in_the_domain() {
        let placed = chosen::placed()
            .into_iter()
            .map(|(text, _)| text.to_string());
        for text in chosen::texts().into_iter().chain(placed) {
            assert!(text_in_domain(text.as_bytes()).is_some());
        }
    }
}
