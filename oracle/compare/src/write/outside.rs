//! Texts outside the domain written in memory of exactly the lent size, as
//! `read/outside.rs` reads them.

use super::{compare_left, Edition, Left, Lent};
use crate::read::generate::few_outside;
use crate::read::Checked;
use crate::rng::Rng;
use crate::room::{Room, ROOMS};
use crate::tables::hex;
use std::mem::MaybeUninit;

/// Writes every text with each room for the page, and with some for all. Returns
/// whether every answer was the model's.
pub fn run(seed: u64) -> bool {
    let mut rng = Rng::new(seed);
    let texts = few_outside(seed);
    let (mut calls, mut refused) = (0u64, [0u64; 8]);
    for text in &texts {
        let edition = Edition::new(text);
        let all = ROOMS.map(|page| [Room::Exact, Room::Exact, page]);
        let some = [(); 4].map(|()| std::array::from_fn(|_| ROOMS[rng.below(ROOMS.len())]));
        for rooms in all.into_iter().chain(some) {
            let lent = edition.lent(rooms);
            if let Err(error) = call(&edition, &lent) {
                println!("outside: DIFFERENCE, lent {lent:?}: {error}");
                println!("text, {} bytes: {}", text.len(), hex(text));
                return false;
            }
            calls += 1;
            refused[edition.answer(&lent)[0] as usize] += 1;
        }
    }
    println!(
        "outside: {calls} writings: {} written, {} box full, {} list full, {} page full",
        refused[0], refused[2], refused[3], refused[7]
    );
    true
}

fn call(edition: &Edition, lent: &Lent) -> Checked {
    let text: Box<[u8]> = edition.text.into();
    let mut cards = Box::new_uninit_slice(lent.boxes.cards);
    let mut entries = Box::new_uninit_slice(lent.boxes.entries);
    let mut page = Box::new_uninit_slice(lent.page);
    let mut answer = Box::new([MaybeUninit::uninit(); 4]);
    let returned = golavimes::write_fresh(&text, &mut cards, &mut entries, &mut page, &mut answer);
    // SAFETY: the call stores every word and byte. Where it did not, valgrind says so.
    let (cards, entries, page) = unsafe {
        (
            cards.assume_init(),
            entries.assume_init(),
            page.assume_init(),
        )
    };
    let answer = answer.map(|number| unsafe { number.assume_init() });
    if returned != answer[0] {
        return Err(format!("returned {returned}, answer {answer:?}"));
    }
    let left = Left {
        answer: &answer,
        cards: &cards,
        entries: &entries,
        page: &page,
    };
    compare_left(edition, lent, &left)
}
