//! Records readings, for a replay without Rust at hand.
//!
//! The words of a reading are those of `model.rs`. A text is recorded only where
//! the boards that these words describe are, field by field, those of the
//! unchanged `read_pbn`; a text of which the two disagree stops the recording.
//!
//! The sizes of a case are the words lent for cards and for entries. Its own are the
//! boards and the entries (16 bits each); the length of the cards' codes (16 bits) and
//! these codes; the same for the entries.
//!
//! The codes give every lent word as it stands after the call, the unused ones
//! too. A byte below 253 is a word; 253 and a byte are that many zeros; 254 and
//! two bytes are a word, as are 255 and four bytes.

use super::chosen;
use super::generate;
use super::judge::Words;
use super::model::{self, Reading};
use super::product::Lent;
use super::{answer_for, around, compare_boards};
use crate::record::{bytes_of, File, Group, Recording};
use crate::rng::Rng;
use crate::sample::{Share, Texts};
use crate::tables::judge::text_in_domain;

/// What the replay program has room for: words of cards and of entries.
const MOST: Lent = Lent {
    cards: 8192,
    entries: 8192,
};

pub struct Readings;

impl Recording for Readings {
    const NAME: &'static str = "readings";
    const TEXTS: Texts = generate::all;

    fn share(group: &str) -> Share<Group> {
        match group {
            "outside the domain" | "long editions" => None,
            "generated editions" => Some((Group::Sampled, [120, 60])),
            "generated plays and auctions" => Some((Group::Sampled, [60, 30])),
            "generated deals and tables" => Some((Group::Sampled, [40, 20])),
            "damaged editions" => Some((Group::Damaged, [200, 70])),
            "values in every tag" => Some((Group::Sampled, [160, 20])),
            "named texts" => Some((Group::Sampled, [150, 30])),
            _ => Some((Group::Sampled, [50, 10])),
        }
    }

    fn chosen() -> Vec<Vec<u8>> {
        bytes_of(chosen::texts())
    }

    fn several(seed: u64) -> Vec<Vec<u8>> {
        let mut editions = bytes_of(chosen::editions());
        editions.push(generate::plain_edition(seed, 4500));
        editions
    }

    fn sized() -> Vec<Vec<u8>> {
        bytes_of(chosen::SIZED)
    }

    fn record_roomy(file: &mut File, group: Group, text: &[u8], rng: &mut Rng) {
        let reading = agreed(text);
        let lent = Lent {
            cards: reading.cards.len() + [0, 0, 1, 63, 64, 130][rng.below(6)],
            entries: reading.entries.len() + [0, 0, 1, 3, 4, 21][rng.below(6)],
        };
        record(file, group, text, lent, &reading);
    }

    fn record_short(file: &mut File, group: Group, text: &[u8]) {
        let reading = agreed(text);
        let (cards, entries) = (reading.cards.len(), reading.entries.len());
        if cards > 0 {
            for (cards, entries) in [(cards - 1, entries), (cards, entries - 1)] {
                record(file, group, text, Lent { cards, entries }, &reading);
            }
        }
    }

    fn record_around(file: &mut File, text: &[u8]) {
        let reading = agreed(text);
        for lent in around(&reading) {
            record(file, Group::Sizes, text, lent, &reading);
        }
    }
}

/// The reading of a text of which the model and the Rust agree.
pub fn agreed(text: &[u8]) -> Reading {
    let rust = text_in_domain(text).expect("a text of the domain");
    let reading = model::read(text);
    let words = Words {
        cards: &reading.cards,
        entries: &reading.entries,
        text,
    };
    let checked = words.facts().and_then(|()| compare_boards(&words, rust));
    if let Err(error) = checked {
        panic!(
            "the words of the model: {error}\n\"{}\"",
            text.escape_ascii()
        );
    }
    reading
}

fn record(file: &mut File, group: Group, text: &[u8], lent: Lent, reading: &Reading) {
    assert!(lent.cards <= MOST.cards && lent.entries <= MOST.entries);
    let [refusal, _, carried, boards, entries] = answer_for(text.len(), lent, reading);
    let sizes = [lent.cards, lent.entries];
    if !file.start(group, text, &sizes, [refusal, carried]) {
        return;
    }
    file.short(boards);
    file.short(entries);
    for (words, lent) in [
        (&reading.cards, lent.cards),
        (&reading.entries, lent.entries),
    ] {
        let mut all = if refusal == 0 { words.clone() } else { vec![] };
        all.resize(lent, 0);
        file.with_length(&codes_of(&all));
    }
}

fn codes_of(words: &[u32]) -> Vec<u8> {
    let mut codes = Vec::new();
    let mut rest = words;
    while let [word, after @ ..] = rest {
        let zeros = rest.iter().take(255).take_while(|word| **word == 0).count();
        if zeros > 2 {
            codes.extend([253, zeros as u8]);
            rest = &rest[zeros..];
            continue;
        }
        match *word {
            0..=252 => codes.push(*word as u8),
            253..=0xffff => {
                codes.push(254);
                codes.extend((*word as u16).to_le_bytes());
            }
            _ => {
                codes.push(255);
                codes.extend(word.to_le_bytes());
            }
        }
        rest = after;
    }
    codes
}

#[cfg(test)]
mod tests {
    use super::*;
    use std::collections::BTreeSet;

    fn words_of(codes: &[u8]) -> Vec<u32> {
        let mut words = Vec::new();
        let mut rest = codes;
        while let [code, after @ ..] = rest {
            let (word, times, size) = match code {
                253 => (0, after[0], 1),
                254 => (u16::from_le_bytes([after[0], after[1]]).into(), 1, 2),
                255 => (u32::from_le_bytes(after[..4].try_into().unwrap()), 1, 4),
                _ => ((*code).into(), 1, 0),
            };
            words.extend(std::iter::repeat_n(word, times.into()));
            rest = &after[size..];
        }
        words
    }

    #[test]
    fn codes_give_the_words() {
        let mut rng = Rng::new(1);
        for _ in 0..2000 {
            let mut words = Vec::new();
            for _ in 0..rng.below(40) {
                match rng.below(3) {
                    0 => words.resize(words.len() + rng.below(600), 0),
                    1 => words.push(rng.below(257) as u32),
                    _ => words.push(rng.next() as u32 >> rng.below(32)),
                }
            }
            assert_eq!(words_of(&codes_of(&words)), words);
        }
    }

    #[test]
    fn chosen_texts_differ() {
        let texts = chosen::texts();
        let all: BTreeSet<&String> = texts.iter().collect();
        assert_eq!(all.len(), texts.len(), "one stands there twice");
        assert!(texts
            .iter()
            .all(|text| text_in_domain(text.as_bytes()).is_some()));
    }
}
