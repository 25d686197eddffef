//! Readings of texts outside the domain, in memory of exactly the lent size.
//!
//! Made to be run under valgrind, which stops it at an access outside what is
//! lent and at a decision that rests on a word nobody stored. So the text, the
//! cards, the entries and the answer are allocations of their own, of just the
//! size that is lent, and what is lent to be written holds nothing before the
//! call.

use super::model::{self, Reading};
use super::product::Lent;
use super::{answer_for, around, compare_answer, generate, Checked};
use crate::tables::hex;
use crate::tables::judge::text_in_domain;
use std::mem::MaybeUninit;

/// Reads every text with lent sizes around each boundary. Returns whether every
/// answer was the model's.
pub fn run(seed: u64) -> bool {
    let texts = generate::few_outside(seed);
    let (mut outside, mut calls, mut refused) = (0u64, 0u64, [0u64; 4]);
    for text in &texts {
        outside += u64::from(text_in_domain(text).is_none());
        let wanted = model::read(text);
        for lent in around(&wanted) {
            if let Err(error) = call(text, lent, &wanted) {
                println!("outside: DIFFERENCE, lent {lent:?}: {error}");
                println!("text, {} bytes: {}", text.len(), hex(text));
                return false;
            }
            calls += 1;
            refused[answer_for(text.len(), lent, &wanted)[0] as usize] += 1;
        }
    }
    println!(
        "outside: {} texts, {outside} outside the domain, {calls} readings: {} taken, {} box full, {} list full",
        texts.len(),
        refused[0],
        refused[2],
        refused[3]
    );
    true
}

fn call(text: &[u8], lent: Lent, wanted: &Reading) -> Checked {
    let text: Box<[u8]> = text.into();
    let mut cards = Box::new_uninit_slice(lent.cards);
    let mut entries = Box::new_uninit_slice(lent.entries);
    let mut answer = Box::new([MaybeUninit::uninit(); 5]);
    let returned = golavimes::read_fresh(&text, &mut cards, &mut entries, &mut answer);
    // SAFETY: the call stores every word. Where it did not, valgrind says so.
    let (cards, entries) = unsafe { (cards.assume_init(), entries.assume_init()) };
    let answer = answer.map(|number| unsafe { number.assume_init() });
    if returned != answer[0] {
        return Err(format!("returned {returned}, answer {answer:?}"));
    }
    compare_answer(text.len(), lent, wanted, &answer, &cards, &entries)
}
