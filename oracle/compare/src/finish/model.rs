//! Finishing in plain Rust of its own, over the plan of `plan/model.rs` and with the
//! page of `write/model.rs`.
//!
//! It judges texts outside the domain. Inside it the page must be that of the
//! unchanged `write_pbn`, of boards into which `judge.rs` puts the tables, with each
//! directive written once.

use super::answers::TABLE;
use super::Lent;
use crate::plan::model::{hands, Plan, State};
use crate::read::model::{Reading, CARD};
use crate::write;

/// The words of a card's cells, and that of its table.
const CELLS: std::ops::Range<usize> = 18..38;
const TABLE_WORD: usize = 38;

pub fn card(reading: &Reading, index: usize) -> &[u32] {
    &reading.cards[index * CARD..][..CARD]
}

/// The cells that the new board at an index is given: those of its source in the
/// old or the new edition, or the answer to the slip that holds its hands.
fn given(plan: &Plan, answers: &[u8], index: usize) -> Option<Vec<u32>> {
    match plan.states[index] {
        State::Blank | State::Own => None,
        State::Old(from) => Some(card(&plan.olds, from - 1)[CELLS].to_vec()),
        State::Near(from) => Some(card(&plan.news, from - 1)[CELLS].to_vec()),
        State::Twin(_) | State::Solve => {
            let deal = hands(card(&plan.news, index));
            let slip = plan.slips.iter().position(|slip| slip[1..] == deal);
            let slip = slip.expect("the deal is listed");
            let answer = &answers[TABLE * slip..][..TABLE];
            Some(answer.iter().map(|cell| u32::from(*cell)).collect())
        }
    }
}

/// The new edition with the tables that its boards are given. The answers are right.
fn finished(plan: &Plan, answers: &[u8]) -> Reading {
    let mut reading = plan.news.clone();
    for index in 0..plan.boards() {
        if let Some(cells) = given(plan, answers, index) {
            let card = &mut reading.cards[index * CARD..][..CARD];
            card[CELLS].copy_from_slice(&cells);
            card[TABLE_WORD] = 1;
        }
    }
    reading
}

/// The finished edition's page. The answers are right.
pub fn page(plan: &Plan, answers: &[u8]) -> Vec<u8> {
    write::model::write(plan.new, &finished(plan, answers))
}

/// The bytes needed for it.
pub fn need(plan: &Plan, answers: &[u8]) -> u64 {
    write::model::need(plan.new, &finished(plan, answers))
}

/// The answer to a call with these answers and with what is lent, where the page
/// needs so many bytes.
pub fn answer(plan: &Plan, answers: &[u8], need: u64, lent: &Lent) -> [u64; 4] {
    let [refusal, edition, carried] = plan.edition_refusal(lent.boxes);
    if refusal != 0 {
        return [refusal, edition, carried, 0];
    }
    if answers.len() != TABLE * plan.slips.len() {
        return [5, 0, plan.slips.len() as u64, 0];
    }
    if let Some(index) = answers.iter().position(|cell| *cell > 13) {
        return [6, 0, index as u64, 0];
    }
    if need > lent.page as u64 {
        return [7, 0, need, 0];
    }
    [0, 0, 0, need]
}
