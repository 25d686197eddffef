//! What is promised of two editions that are alike but for a stretch.
//!
//! Any two editions are, with a front and a back that may be empty. Here the front
//! is as long as it can be and then the back, or the other way round.

use super::model::{cards, hands, has_table, is_whole, Plan};
use crate::read::model::{Reading, CARD, ENTRY};
use crate::read::Checked;
use std::collections::{HashMap, HashSet};

/// How long the front and the back are.
#[derive(Clone, Copy, PartialEq, Eq, Debug)]
struct Stretch {
    front: usize,
    back: usize,
}

/// What a pair showed of the promises.
#[derive(Clone, Copy, Default)]
pub struct Shown {
    /// Whether both editions have a board outside the stretch.
    pub alike: bool,
    /// Whether, besides, each whole deal of the old edition has a table there.
    pub tabled: bool,
    /// How many deals such a pair lists.
    pub listed: u64,
}

/// The start and the end of the text, and the places just after a blank line that
/// closed a board. A record that no blank line closed ends with the text.
fn seams(text: &[u8], reading: &Reading) -> Vec<usize> {
    let ends = reading.cards.chunks(CARD).map(|card| card[61] as usize);
    let mut seams: Vec<usize> = [0, text.len()].into_iter().chain(ends).collect();
    seams.sort();
    seams.dedup();
    seams
}

/// The longest front of at most `most` bytes.
fn longest_front(plan: &Plan, seams: &[Vec<usize>; 2], most: usize) -> usize {
    let [old, new] = seams;
    let is_front = |front: &&usize| {
        **front <= most
            && new.binary_search(front).is_ok()
            && plan.old[..**front] == plan.new[..**front]
    };
    *old.iter().rev().find(is_front).expect("the empty one")
}

/// The longest back of at most `most` bytes.
fn longest_back(plan: &Plan, seams: &[Vec<usize>; 2], most: usize) -> usize {
    let [old, new] = seams;
    let back = |start: &usize| plan.old.len() - start;
    let is_back = |back: &usize| {
        *back <= most
            && *back <= plan.new.len()
            && new.binary_search(&(plan.new.len() - back)).is_ok()
            && plan.old.ends_with(&plan.new[plan.new.len() - back..])
    };
    let mut backs = old.iter().map(back);
    backs.find(is_back).expect("the empty one")
}

/// Whether a board's record lies in the front or in the back.
fn is_outside(card: &[u32], text: &[u8], stretch: Stretch) -> bool {
    card[61] as usize <= stretch.front || card[60] as usize >= text.len() - stretch.back
}

/// The card and entries of a board, with text places counted from the record's
/// start and entry places from its first entry.
fn counted_from_record(reading: &Reading, card: &[u32]) -> (Vec<u32>, Vec<u32>) {
    let (first, record) = (card[0], card[60]);
    let from = first as usize * ENTRY;
    let mut entries = reading.entries[from..from + card[1] as usize * ENTRY].to_vec();
    for entry in entries.chunks_mut(ENTRY) {
        if entry[0] != 8 {
            entry[1] -= record;
        }
    }
    let mut card = card.to_vec();
    card[0] = 0;
    for word in (39..=50).chain([51, 55]) {
        if card[word] > 0 {
            card[word] -= first;
        }
    }
    card[60] -= record;
    card[61] -= record;
    (card, entries)
}

/// Whether every board outside has a fellow that is read alike: the other
/// edition's board whose record starts at the same place of the front or back.
fn fellows(
    (text, reading): (&[u8], &Reading),
    (other_text, other): (&[u8], &Reading),
    stretch: Stretch,
) -> Checked {
    let with_starts = other.cards.chunks(CARD).map(|card| (card[60], card));
    let by_start: HashMap<u32, &[u32]> = with_starts.collect();
    for (index, card) in cards(reading).into_iter().enumerate() {
        if !is_outside(card, text, stretch) {
            continue;
        }
        let start = if card[61] as usize <= stretch.front {
            card[60] as usize
        } else {
            card[60] as usize + other_text.len() - text.len()
        };
        let alike = |fellow: &&[u32]| {
            counted_from_record(other, fellow) == counted_from_record(reading, card)
        };
        if !by_start.get(&(start as u32)).is_some_and(alike) {
            return Err(format!(
                "board {index} outside {stretch:?} has no fellow that is read alike"
            ));
        }
    }
    Ok(())
}

/// Checks the promises of the longest fronts and backs.
pub fn compare(plan: &Plan) -> Result<Shown, String> {
    let seams = [seams(plan.old, &plan.olds), seams(plan.new, &plan.news)];
    let shorter = plan.old.len().min(plan.new.len());
    let front = longest_front(plan, &seams, shorter);
    let back = longest_back(plan, &seams, shorter);
    let stretches = [
        Stretch {
            front,
            back: longest_back(plan, &seams, shorter - front),
        },
        Stretch {
            front: longest_front(plan, &seams, shorter - back),
            back,
        },
    ];
    let (old, new) = ((plan.old, &plan.olds), (plan.new, &plan.news));
    let mut shown = Shown::default();
    for stretch in stretches {
        fellows(old, new, stretch)?;
        fellows(new, old, stretch)?;
        let new_cards = cards(&plan.news);
        let (outside, inside): (Vec<&[u32]>, Vec<&[u32]>) = new_cards
            .into_iter()
            .partition(|card| is_outside(card, plan.new, stretch));
        if outside.is_empty() {
            continue;
        }
        shown.alike = true;
        let deals = |cards: &[&[u32]]| -> HashSet<[u64; 4]> {
            let whole = cards.iter().filter(|card| is_whole(card));
            whole.map(|card| hands(card)).collect()
        };
        let old_cards = cards(&plan.olds);
        let tabled: Vec<&[u32]> = old_cards
            .iter()
            .copied()
            .filter(|card| has_table(card))
            .collect();
        if deals(&tabled) != deals(&old_cards) {
            continue;
        }
        shown.tabled = true;
        shown.listed = plan.slips.len() as u64;
        let (outside, inside) = (deals(&outside), deals(&inside));
        for [_, n, e, s, w] in &plan.slips {
            let deal = [*n, *e, *s, *w];
            if outside.contains(&deal) || !inside.contains(&deal) {
                return Err(format!(
                    "the deal {deal:x?} is listed and not of a board inside {stretch:?} alone"
                ));
            }
        }
    }
    Ok(shown)
}
