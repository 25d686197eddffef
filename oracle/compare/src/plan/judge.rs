//! The plan as the boards of the unchanged `read_pbn` give it, without cards.
//!
//! It shares nothing with `model.rs`: whether a deal is whole and whether there is
//! a table is taken from the fields of the Rust's `Board`; deals are found again
//! in maps and not by scanning; the slips do not come from the states but from
//! what must hold of them, that a deal is listed exactly when a new board has it
//! and no board of either edition with that deal has a table, and that it is
//! listed once. The words of a search come from the bits in which two hands differ.

use super::model::{Plan, Slip, State, FIVE};
use crate::read::judge::Words;
use crate::read::{compare_read, read_rust, Checked};
use bridge_types::{Board, Deal};
use std::collections::{HashMap, HashSet};

/// Of a long edition the records behind so many boards are read again.
const MOST_RECORDS: usize = 64;

/// The deal of a board, if it is whole.
fn whole_deal(board: &Board) -> Option<Deal> {
    let parsed = board.unparsed_deal.is_none();
    let full = board.deal.hands.iter().all(|hand| hand.len() == 13);
    (parsed && full).then_some(board.deal)
}

/// The deal of each board, where it is whole and the board is wanted.
fn deals(boards: &[Board], wanted: fn(&Board) -> bool) -> Vec<Option<Deal>> {
    let deal = |board| whole_deal(board).filter(|_| wanted(board));
    boards.iter().map(deal).collect()
}

/// The position of the first board with each deal, of those that are wanted.
fn firsts(boards: &[Board], wanted: fn(&Board) -> bool) -> HashMap<Deal, usize> {
    let mut firsts = HashMap::new();
    for (index, deal) in deals(boards, wanted).into_iter().enumerate() {
        if let Some(deal) = deal {
            firsts.entry(deal).or_insert(index + 1);
        }
    }
    firsts
}

fn has_table(board: &Board) -> bool {
    board.double_dummy_tricks.is_some()
}

pub fn states(old: &[Board], new: &[Board]) -> Vec<State> {
    let in_old = firsts(old, has_table);
    let in_new = firsts(new, has_table);
    let any = firsts(new, |_| true);
    let positions = 1..=new.len();
    let state = |(position, board): (usize, &Board)| {
        let Some(deal) = whole_deal(board) else {
            return State::Blank;
        };
        if has_table(board) {
            State::Own
        } else if let Some(from) = in_old.get(&deal) {
            State::Old(*from)
        } else if let Some(from) = in_new.get(&deal) {
            State::Near(*from)
        } else if any[&deal] < position {
            State::Twin(any[&deal])
        } else {
            State::Solve
        }
    };
    positions.zip(new).map(state).collect()
}

fn slips(old: &[Board], new: &[Board]) -> Vec<Slip> {
    let both = old.iter().chain(new);
    let solved: HashSet<Deal> = both
        .filter(|board| has_table(board))
        .filter_map(whole_deal)
        .collect();
    let mut listed = HashSet::new();
    let mut slips = Vec::new();
    for (index, board) in new.iter().enumerate() {
        let Some(deal) = whole_deal(board) else {
            continue;
        };
        if !solved.contains(&deal) && listed.insert(deal) {
            let [n, e, s, w] = deal.hands.map(|hand| hand.bits);
            slips.push([index as u64 + 1, n, e, s, w]);
        }
    }
    slips
}

/// The hand words in which two deals are compared: of each hand the low one and the
/// high one, of 32 bits, up to the first that differs.
fn words_compared(sought: &Deal, other: &Deal) -> u64 {
    let differing = |seat: usize| sought.hands[seat].bits ^ other.hands[seat].bits;
    match (0..4).find(|seat| differing(*seat) != 0) {
        None => 8,
        Some(seat) if differing(seat) as u32 != 0 => 2 * seat as u64 + 1,
        Some(seat) => 2 * seat as u64 + 2,
    }
}

/// The words compared in a search through the boards that have a deal to compare.
fn words_of_all(sought: &Deal, boards: &[Option<Deal>]) -> u64 {
    let compared = boards.iter().flatten();
    compared.map(|deal| words_compared(sought, deal)).sum()
}

/// The five numbers of each board's searches. A search ends at `from`, which comes
/// from the maps.
fn searches(old: &[Board], new: &[Board]) -> Vec<[u64; FIVE]> {
    let (in_old, in_new) = (deals(old, has_table), deals(new, has_table));
    let any = deals(new, |_| true);
    let states = states(old, new);
    let numbers = |(index, state): (usize, &State)| {
        let [olds, news, earlier] = match state {
            State::Blank | State::Own => [0, 0, 0],
            State::Old(from) => [*from, 0, 0],
            State::Near(from) => [old.len(), *from, 0],
            State::Twin(from) => [old.len(), new.len(), *from],
            State::Solve => [old.len(), new.len(), index],
        };
        let words = |boards| any[index].map_or(0, |deal| words_of_all(&deal, boards));
        [
            state.number() as u64,
            state.from() as u64,
            words(&in_old[..olds]),
            words(&in_new[..news]),
            words(&any[..earlier]),
        ]
    };
    states.iter().enumerate().map(numbers).collect()
}

/// Holds the model's searches to the Rust's boards.
pub fn compare_searches(plan: &Plan, old_text: &str, new_text: &str) -> Checked {
    let rust = searches(&read_rust(old_text)?, &read_rust(new_text)?);
    let model: Vec<_> = (0..plan.boards())
        .map(|index| plan.search_numbers(index))
        .collect();
    if rust != model {
        return Err(format!(
            "searches\n  reader.rs: {rust:?}\n  the model: {model:?}"
        ));
    }
    Ok(())
}

/// Holds the model's plan to the Rust's boards: the cards, the states, the slips,
/// and the records behind, each of which the Rust must read as one board, the one
/// that is meant.
pub fn compare(plan: &Plan, old_text: &str, new_text: &str) -> Checked {
    let (old, new) = (read_rust(old_text)?, read_rust(new_text)?);
    for (what, text, reading, boards) in [
        ("old", old_text, &plan.olds, &old),
        ("new", new_text, &plan.news, &new),
    ] {
        let words = Words {
            cards: &reading.cards,
            entries: &reading.entries,
            text: text.as_bytes(),
        };
        words
            .facts()
            .and_then(|()| compare_read(&words, boards))
            .map_err(|error| format!("the model's reading of the {what} edition: {error}"))?;
    }
    let rust = states(&old, &new);
    if rust != plan.states {
        return Err(format!(
            "states\n  reader.rs: {rust:?}\n  the model: {:?}",
            plan.states
        ));
    }
    let rust = slips(&old, &new);
    if rust != plan.slips {
        return Err(format!(
            "slips\n  reader.rs: {rust:x?}\n  the model: {:x?}",
            plan.slips
        ));
    }
    let mut met = HashSet::new();
    for (index, state) in plan.states.iter().enumerate().take(MOST_RECORDS) {
        let (edition, source) = match state {
            State::Old(from) => (1, from - 1),
            State::Near(from) | State::Twin(from) => (2, from - 1),
            State::Blank | State::Own | State::Solve => (2, index),
        };
        let part = plan.behind(index);
        // One that stands behind several boards is read once.
        if !met.insert((part, edition, source)) {
            continue;
        }
        let (text, boards) = [(old_text, &old), (new_text, &new)][edition as usize - 1];
        let record = text.get(part.start..part.end).unwrap_or("");
        let read = read_rust(record)?;
        if part.edition != edition || read != boards[source..=source] {
            let board = &boards[source];
            return Err(format!(
                "the record behind board {}, {part:?}\n  reader.rs, of the edition: {board:?}\n  reader.rs, of the part: {read:?}",
                index + 1
            ));
        }
    }
    Ok(())
}
