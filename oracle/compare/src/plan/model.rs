//! Planning as docs/FORMAT.md says, in plain Rust of its own, over the cards of
//! `read/model.rs`: states, `from`, totals, slips and the records behind, the
//! answers of the five functions and every number that they store. The searches are
//! in `searches.rs`.
//!
//! In the domain its states, slips and searches are held to what the Rust's boards
//! give (`judge.rs`).

use super::searches::Searches;
use super::{Call, Lent};
use crate::read::model::{self, Reading, CARD, ENTRY};
use crate::read::product::{Lent as LentBoxes, FILL};
use crate::read::{answer_for, compare_box, Checked, LONGEST};
use crate::room::Room;
use golavimes::Editions;
use std::cell::OnceCell;

/// The numbers of a slip, and those that `golavimes_boards` and `golavimes_searches`
/// give a board.
pub const FIVE: usize = 5;

#[derive(Clone, Copy, PartialEq, Eq, Debug)]
pub enum State {
    Blank,
    Own,
    Old(usize),
    Near(usize),
    Twin(usize),
    Solve,
}

/// The states' names, by their numbers.
pub const STATES: [&str; 6] = ["blank", "own", "old", "near", "twin", "solve"];
pub const OLD: usize = 2;
pub const NEAR: usize = 3;

impl State {
    pub fn number(self) -> usize {
        match self {
            State::Blank => 0,
            State::Own => 1,
            State::Old(_) => OLD,
            State::Near(_) => NEAR,
            State::Twin(_) => 4,
            State::Solve => 5,
        }
    }

    pub fn from(self) -> usize {
        match self {
            State::Old(from) | State::Near(from) | State::Twin(from) => from,
            State::Blank | State::Own | State::Solve => 0,
        }
    }
}

/// A part of one of the texts.
#[derive(Clone, Copy, PartialEq, Eq, Hash, Debug)]
pub struct Part {
    /// 1 the old text, 2 the new one, 0 for the empty part.
    pub edition: u64,
    pub start: usize,
    pub end: usize,
}

const EMPTY: Part = Part {
    edition: 0,
    start: 0,
    end: 0,
};

pub type Slip = [u64; FIVE];

/// Two editions, their readings and the plan.
pub struct Plan<'a> {
    pub old: &'a [u8],
    pub new: &'a [u8],
    pub olds: Reading,
    pub news: Reading,
    /// Of the new edition's boards.
    pub states: Vec<State>,
    pub slips: Vec<Slip>,
    /// Counted when they are first asked for.
    searches: OnceCell<Searches>,
}

/// What a call must leave: its answer, and the numbers lent for slips, boards or searches.
/// The boxes hold the readings, or nothing but zeros after a refusal.
pub struct Wanted {
    pub answer: Vec<u64>,
    pub numbers: Vec<u64>,
}

pub fn is_whole(card: &[u32]) -> bool {
    let has_13 = |hand: &u64| hand.count_ones() == 13;
    card[9] == 1 && hands(card).iter().all(has_13)
}

pub fn has_table(card: &[u32]) -> bool {
    card[38] != 0
}

/// The hands N, E, S, W.
pub fn hands(card: &[u32]) -> [u64; 4] {
    [10, 12, 14, 16].map(|low| u64::from(card[low]) + (u64::from(card[low + 1]) << 32))
}

pub fn same_deal(a: &[u32], b: &[u32]) -> bool {
    is_whole(a) && is_whole(b) && a[10..18] == b[10..18]
}

pub fn cards(reading: &Reading) -> Vec<&[u32]> {
    reading.cards.chunks(CARD).collect()
}

/// The state of the new board at this index: the first that fits.
fn state(olds: &[&[u32]], news: &[&[u32]], index: usize) -> State {
    let card = news[index];
    if !is_whole(card) {
        return State::Blank;
    }
    if has_table(card) {
        return State::Own;
    }
    let with_table = |other: &&[u32]| has_table(other) && same_deal(other, card);
    if let Some(at) = olds.iter().position(with_table) {
        return State::Old(at + 1);
    }
    if let Some(at) = news.iter().position(with_table) {
        return State::Near(at + 1);
    }
    let earlier = &news[..index];
    match earlier.iter().position(|other| same_deal(other, card)) {
        Some(at) => State::Twin(at + 1),
        None => State::Solve,
    }
}

/// The reading, of an edition that is not overlong.
fn read(text: &[u8]) -> Reading {
    if text.len() > LONGEST {
        return Reading::default();
    }
    model::read(text)
}

impl<'a> Plan<'a> {
    pub fn new(old: &'a [u8], new: &'a [u8]) -> Self {
        let (olds, news) = (read(old), read(new));
        let (old_cards, new_cards) = (cards(&olds), cards(&news));
        let indices = 0..new_cards.len();
        let states: Vec<State> = indices
            .map(|index| state(&old_cards, &new_cards, index))
            .collect();
        let mut slips = Vec::new();
        for (index, state) in states.iter().enumerate() {
            if *state == State::Solve {
                let [n, e, s, w] = hands(new_cards[index]);
                slips.push([index as u64 + 1, n, e, s, w]);
            }
        }
        Plan {
            old,
            new,
            olds,
            news,
            states,
            slips,
            searches: OnceCell::new(),
        }
    }

    pub fn searches(&self) -> &Searches {
        let count = || Searches::new(&cards(&self.olds), &cards(&self.news));
        self.searches.get_or_init(count)
    }

    /// The five numbers of the searches of the board at an index.
    pub fn search_numbers(&self, index: usize) -> [u64; FIVE] {
        let (state, [old, near, twin]) = (self.states[index], self.searches().words[index]);
        [state.number() as u64, state.from() as u64, old, near, twin]
    }

    pub fn boards(&self) -> usize {
        self.states.len()
    }

    fn total(&self, number: usize) -> u64 {
        let of_number = self.states.iter().filter(|state| state.number() == number);
        of_number.count() as u64
    }

    /// The index of the board at a position.
    fn index(&self, position: u64) -> Option<usize> {
        let boards = self.boards() as u64;
        (1..=boards)
            .contains(&position)
            .then(|| position as usize - 1)
    }

    /// The record behind the board at an index.
    pub fn behind(&self, index: usize) -> Part {
        let record = |edition: u64, reading: &Reading, board: usize| {
            let card = &reading.cards[board * CARD..][..CARD];
            Part {
                edition,
                start: card[60] as usize,
                end: card[61] as usize,
            }
        };
        match self.states[index] {
            State::Old(from) => record(1, &self.olds, from - 1),
            State::Near(from) | State::Twin(from) => record(2, &self.news, from - 1),
            State::Blank | State::Own | State::Solve => record(2, &self.news, index),
        }
    }

    pub fn editions(&self) -> Editions<'a> {
        Editions {
            old: self.old,
            new: self.new,
        }
    }

    /// What is lent of the four boxes: cards and entries of the old edition, then
    /// those of the new one.
    pub fn lent(&self, rooms: [Room; 4]) -> [LentBoxes; 2] {
        let [old_cards, old_entries, new_cards, new_entries] = rooms;
        let by = |reading: &Reading, cards: Room, entries: Room| LentBoxes {
            cards: cards.words(reading.boards(), CARD),
            entries: entries.words(reading.entry_count(), ENTRY),
        };
        [
            by(&self.olds, old_cards, old_entries),
            by(&self.news, new_cards, new_entries),
        ]
    }

    /// Boxes of just the size, with something in them.
    pub fn boxes(&self) -> [Vec<u32>; 4] {
        let (olds, news) = (&self.olds, &self.news);
        let sizes = [&olds.cards, &olds.entries, &news.cards, &news.entries];
        sizes.map(|words| vec![FILL; words.len()])
    }

    /// Refusals 1 to 3, with the edition and the carried number; zeros for none.
    pub fn edition_refusal(&self, lent: [LentBoxes; 2]) -> [u64; 3] {
        for (edition, text, lent, reading) in [
            (1, self.old, lent[0], &self.olds),
            (2, self.new, lent[1], &self.news),
        ] {
            let [refusal, _, carried, ..] = answer_for(text.len(), lent, reading);
            if refusal != 0 {
                return [refusal, edition, carried];
            }
        }
        [0, 0, 0]
    }

    /// Refusal, edition and carried number.
    fn refusal(&self, call: Call, lent: &Lent) -> [u64; 3] {
        match self.edition_refusal(lent.boxes) {
            [0, ..] if call == Call::Plan && lent.numbers / FIVE < self.slips.len() => {
                [4, 0, self.slips.len() as u64]
            }
            refusal => refusal,
        }
    }

    /// The four boxes against the readings, or against zeros after a refusal.
    pub fn compare_boxes(&self, taken: bool, boxes: [&[u32]; 4]) -> Checked {
        let names = ["old cards", "old entries", "new cards", "new entries"];
        let (olds, news) = (&self.olds, &self.news);
        let readings = [&olds.cards, &olds.entries, &news.cards, &news.entries];
        for ((name, seen), reading) in names.into_iter().zip(boxes).zip(readings) {
            compare_box(name, seen, if taken { reading } else { &[] })?;
        }
        Ok(())
    }

    /// What the call must leave.
    pub fn wanted(&self, call: Call, lent: &Lent) -> Wanted {
        let refusal = self.refusal(call, lent);
        let mut answer = refusal.to_vec();
        let mut numbers = Vec::new();
        if refusal[0] == 0 {
            match call {
                Call::Plan => {
                    answer.push(self.boards() as u64);
                    answer.extend((0..STATES.len()).map(|number| self.total(number)));
                    numbers = self.slips.concat();
                }
                Call::State(position) => {
                    let state = self.index(position).map(|index| self.states[index]);
                    let state = state.unwrap_or(State::Blank);
                    answer.extend([state.number() as u64, state.from() as u64]);
                }
                Call::RecordBehind(position) => {
                    let index = self.index(position);
                    let part = index.map_or(EMPTY, |index| self.behind(index));
                    let length = part.end - part.start;
                    answer.extend([part.edition, part.start as u64, length as u64]);
                }
                Call::Boards => {
                    answer.push(self.boards() as u64);
                    for index in 0..self.boards().min(lent.numbers / FIVE) {
                        let (state, part) = (self.states[index], self.behind(index));
                        numbers.extend([state.number() as u64, state.from() as u64]);
                        numbers.extend([part.edition, part.start as u64, part.end as u64]);
                    }
                }
                Call::Searches => {
                    answer.extend([self.boards() as u64, self.searches().total()]);
                    let stored = self.boards().min(lent.numbers / FIVE);
                    numbers.extend((0..stored).flat_map(|index| self.search_numbers(index)));
                }
            }
        }
        answer.resize(call.answers(), 0);
        numbers.resize(lent.numbers, 0);
        Wanted { answer, numbers }
    }
}
