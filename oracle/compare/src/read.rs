//! Reading: editions read by the product and by the unchanged `reader.rs`.

pub mod bench;
mod chosen;
pub mod generate;
pub mod judge;
pub mod model;
pub mod outside;
pub mod product;
pub mod record;

use crate::shrink::{shrink, Ways};
use crate::tables::hex;
use crate::tables::judge::text_in_domain;
use bridge_encodings::pbn::read_pbn;
use bridge_types::Board;
use judge::{field_that_differs, Words};
use model::{Reading, CARD, ENTRY};
use product::{Lent, Product};
use std::collections::BTreeMap;

/// The longest edition.
pub const LONGEST: usize = 16_777_215;

/// Where the product departs from what is wanted, in words.
pub type Checked = Result<(), String>;

/// Every so many texts the lent sizes around each boundary are tried.
const SIZES_EVERY: u64 = 97;

/// What a board can hold, and whether a card says that it does.
type Held = (&'static str, fn(&[u32]) -> bool);

/// What is counted of the boards that were compared.
const HELD: [Held; 8] = [
    ("a deal", |card| card[9] == 1),
    ("an unparsed deal", |card| card[9] == 2),
    ("digits", |card| card[38] == 1),
    ("an optimum table", |card| card[38] == 2),
    ("an auction", |card| card[51] > 0),
    ("a play", |card| card[55] > 0),
    ("a number", |card| card[2] == 1),
    ("a result", |card| card[7] == 1),
];

/// Compares one text. Also says whether the Rust was the judge.
fn compare(product: &mut Product, text: &[u8]) -> (bool, Checked) {
    let rust = text_in_domain(text);
    let by_rust = rust.is_some();
    (by_rust, compare_with(product, text, rust, None))
}

fn compare_with(
    product: &mut Product,
    text: &[u8],
    rust: Option<&str>,
    lent: Option<Lent>,
) -> Checked {
    product.call(text, lent.unwrap_or(Lent::generous(text.len())))?;
    let answer = product.answer();
    if answer[..3] != [0, 0, 0] {
        return Err(format!("refused: answer {answer:?}"));
    }
    let (boards, entries) = (answer[3] as usize, answer[4] as usize);
    let (cards_used, entries_used) = (boards * CARD, entries * ENTRY);
    if cards_used > product.cards().len() || entries_used > product.entries().len() {
        return Err(format!("more than was lent: answer {answer:?}"));
    }
    let (cards, cards_rest) = product.cards().split_at(cards_used);
    let (entries, entries_rest) = product.entries().split_at(entries_used);
    for (rest, what) in [(cards_rest, "cards"), (entries_rest, "entries")] {
        if let Some(at) = rest.iter().position(|word| *word != 0) {
            return Err(format!("unused {what}: word {at} is {:x}", rest[at]));
        }
    }
    let words = Words {
        cards,
        entries,
        text,
    };
    words.facts()?;
    if let Some(rust) = rust {
        compare_boards(&words, rust)?;
    }
    compare_words(&words, &model::read(text))
}

/// The boards that the words describe, against the Rust's.
fn compare_boards(words: &Words, text: &str) -> Checked {
    compare_read(words, &read_rust(text)?)
}

/// The boards that the Rust reads.
pub fn read_rust(text: &str) -> Result<Vec<Board>, String> {
    read_pbn(text).map_err(|error| format!("reader.rs refuses: {error}"))
}

/// The boards that the words describe, against these.
pub fn compare_read(words: &Words, rust: &[Board]) -> Checked {
    if rust.len() != words.boards() {
        let seen = words.boards();
        return Err(format!(
            "boards\n  reader.rs: {}\n  golavimes: {seen}",
            rust.len()
        ));
    }
    for (number, rust) in rust.iter().enumerate() {
        let seen = words
            .board(number)
            .map_err(|error| format!("board {number}: {error}"))?;
        if let Some((field, rust, seen)) = field_that_differs(rust, &seen) {
            return Err(format!(
                "board {number}, {field}\n  reader.rs: {rust}\n  golavimes: {seen}"
            ));
        }
    }
    Ok(())
}

/// The words themselves, against the model's.
fn compare_words(words: &Words, model: &Reading) -> Checked {
    for (what, size, seen, wanted) in [
        ("card", CARD, words.cards, &model.cards),
        ("entry", ENTRY, words.entries, &model.entries),
    ] {
        if seen == wanted {
            continue;
        }
        let common = seen.iter().zip(wanted.iter()).position(|(a, b)| a != b);
        let at = common.unwrap_or(seen.len().min(wanted.len())) / size;
        let show = |words: &[u32]| match words.chunks(size).nth(at) {
            Some(chunk) => format!("{chunk:?}"),
            None => "none".to_string(),
        };
        return Err(format!(
            "{what} {at} (all fields agree with reader.rs)\n  the model: {}\n  golavimes: {}",
            show(wanted),
            show(seen)
        ));
    }
    Ok(())
}

/// Lent sizes around each boundary: for the cards with each for the entries.
fn around(wanted: &Reading) -> Vec<Lent> {
    let around_one = |count: usize, size: usize| {
        let words = count * size;
        let mut sizes = vec![0, words, words + 1, words + size - 1, words + size];
        if count > 0 {
            sizes.extend([words - size, words - 1]);
        }
        sizes.sort();
        sizes.dedup();
        sizes
    };
    let mut all = Vec::new();
    for cards in around_one(wanted.boards(), CARD) {
        for entries in around_one(wanted.entry_count(), ENTRY) {
            all.push(Lent { cards, entries });
        }
    }
    all
}

/// Lends sizes around each boundary.
fn compare_sizes(product: &mut Product, text: &[u8]) -> Result<u64, String> {
    let wanted = model::read(text);
    let mut calls = 0;
    for lent in around(&wanted) {
        calls += 1;
        compare_size(product, text, lent, &wanted)
            .map_err(|error| format!("lent {lent:?}: {error}"))?;
    }
    Ok(calls)
}

/// The answer to a call with what is lent, by the numbers that the model counts.
pub fn answer_for(length: usize, lent: Lent, wanted: &Reading) -> [u64; 5] {
    let boards = wanted.boards() as u64;
    let entries = wanted.entry_count() as u64;
    if length > LONGEST {
        [1, 0, length as u64, 0, 0]
    } else if ((lent.cards / CARD) as u64) < boards {
        [2, 0, boards, 0, 0]
    } else if ((lent.entries / ENTRY) as u64) < entries {
        [3, 0, entries, 0, 0]
    } else {
        [0, 0, 0, boards, entries]
    }
}

/// One call with what is lent.
fn compare_size(product: &mut Product, text: &[u8], lent: Lent, wanted: &Reading) -> Checked {
    product.call(text, lent)?;
    let (cards, entries) = (product.cards(), product.entries());
    compare_answer(text.len(), lent, wanted, product.answer(), cards, entries)
}

/// The answer and all lent words, against those of the model.
fn compare_answer(
    length: usize,
    lent: Lent,
    wanted: &Reading,
    seen: &[u64],
    cards: &[u32],
    entries: &[u32],
) -> Checked {
    let answer = answer_for(length, lent, wanted);
    if seen != answer {
        return Err(format!("answer\n  wanted {answer:?}\n  golavimes {seen:?}"));
    }
    let taken = answer[0] == 0;
    compare_box("cards", cards, if taken { &wanted.cards } else { &[] })?;
    compare_box(
        "entries",
        entries,
        if taken { &wanted.entries } else { &[] },
    )
}

/// What a lent box holds, against the words that the model has for it and zeros
/// after them.
pub fn compare_box(what: &str, seen: &[u32], used: &[u32]) -> Checked {
    let (seen, rest) = seen.split_at(used.len());
    if let Some(at) = seen.iter().zip(used).position(|(a, b)| a != b) {
        return Err(format!(
            "{what}: word {at} is {} and not {}",
            seen[at], used[at]
        ));
    }
    if let Some(at) = rest.iter().position(|word| *word != 0) {
        return Err(format!("{what}: unused word {at} is {:x}", rest[at]));
    }
    Ok(())
}

/// Editions as long as can be, and longer.
fn compare_longest(product: &mut Product, seed: u64) -> Result<u64, String> {
    let mut text = generate::plain_edition(seed, LONGEST);
    let wanted = model::read(&text);
    let need = Lent {
        cards: wanted.cards.len() + CARD,
        entries: wanted.entries.len() + ENTRY,
    };
    let rust = text_in_domain(&text);
    compare_with(product, &text, rust, Some(need))?;
    let one_less = Lent {
        cards: wanted.cards.len() - CARD,
        entries: wanted.entries.len() - ENTRY,
    };
    compare_size(product, &text, one_less, &wanted)?;
    let only_entries = Lent {
        cards: wanted.cards.len(),
        entries: wanted.entries.len() - 1,
    };
    compare_size(product, &text, only_entries, &wanted)?;
    let none = Reading::default();
    let nothing = Lent {
        cards: 0,
        entries: 0,
    };
    for _ in 0..2 {
        text.push(b'x');
        compare_size(product, &text, need, &none)?;
        compare_size(product, &text, nothing, &none)?;
    }
    Ok(7)
}

/// Compares every input. Returns whether all agreed.
pub fn run(seed: u64) -> bool {
    let mut product = Product::new();
    let mut counts: BTreeMap<&'static str, u64> = BTreeMap::new();
    let (mut by_rust, mut by_model, mut bytes, mut boards, mut entries) = (0u64, 0, 0, 0, 0);
    let (mut sized, mut size_calls) = (0u64, 0);
    let mut held = [0u64; HELD.len()];
    let mut failed = None;
    generate::all(seed, &mut |group, text| {
        let (rust, checked) = compare(&mut product, text);
        let count = counts.entry(group).or_default();
        *count += 1;
        *(if rust { &mut by_rust } else { &mut by_model }) += 1;
        bytes += text.len() as u64;
        if let Err(error) = checked {
            failed = Some((group, text.to_vec(), error, false));
            return false;
        }
        boards += product.answer()[3];
        entries += product.answer()[4];
        let used = product.answer()[3] as usize * CARD;
        for card in product.cards()[..used].chunks(CARD) {
            for (count, (_, holds)) in held.iter_mut().zip(HELD) {
                *count += u64::from(holds(card));
            }
        }
        if (*count).is_multiple_of(SIZES_EVERY) && text.len() < 4000 {
            sized += 1;
            match compare_sizes(&mut product, text) {
                Ok(calls) => size_calls += calls,
                Err(error) => failed = Some((group, text.to_vec(), error, true)),
            }
        }
        failed.is_none()
    });
    for (group, count) in &counts {
        println!("{count:>9}  {group}");
    }
    println!(
        "read: {} texts compared, {by_rust} with reader.rs, {by_model} outside its domain with the model",
        by_rust + by_model
    );
    println!("read: {bytes} bytes, {boards} boards, {entries} entries");
    for (count, (what, _)) in held.iter().zip(HELD) {
        println!("{count:>9}  boards with {what}");
    }
    println!("read: {size_calls} calls with lent sizes around the boundaries of {sized} texts");
    if let Some((group, text, error, by_size)) = failed {
        println!("read: DIFFERENCE, met in \"{group}\"");
        show(&mut product, &text, &error, by_size);
        return false;
    }
    match compare_longest(&mut product, seed) {
        Ok(calls) => println!("read: {calls} calls with the longest text and longer ones"),
        Err(error) => {
            println!("read: DIFFERENCE, with the longest text or a longer one: {error}");
            return false;
        }
    }
    println!("read: no difference");
    true
}

/// Prints the smallest text found that still shows a difference.
fn show(product: &mut Product, text: &[u8], error: &str, by_size: bool) {
    let (was_rust, _) = compare(product, text);
    let mut check = |candidate: &[u8]| -> Checked {
        if by_size {
            return compare_sizes(product, candidate).map(|_| ());
        }
        let (by_rust, checked) = compare(product, candidate);
        if by_rust == was_rust {
            checked
        } else {
            Ok(())
        }
    };
    let ways = Ways {
        remove: true,
        simpler: b"xN1 \n",
    };
    let small = shrink(text, &ways, &mut |candidate| check(candidate).is_err());
    let judge = if was_rust {
        "reader.rs"
    } else {
        "the model alone"
    };
    println!("judge: {judge}");
    println!("text, {} bytes: {}", small.len(), hex(&small));
    println!("as text: \"{}\"", small.escape_ascii());
    match check(&small) {
        Err(error) => println!("{error}"),
        Ok(()) => println!("(the difference is gone when the call is made again)"),
    }
    if small != text {
        println!("made smaller from {} bytes: {}", text.len(), hex(text));
        println!("as text: \"{}\"", text.escape_ascii());
        println!("there: {error}");
    }
}
