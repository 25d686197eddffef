//! Pairs outside the domain finished in memory of exactly the lent size, as
//! `read/outside.rs` reads them.

use super::answers::Answers;
use super::{Call, Left, Lent, Pair, PAGE_STEP};
use crate::read::generate::{few_outside, DEAL};
use crate::rng::Rng;
use crate::room::{Room, ROOMS};
use crate::tables::hex;
use golavimes::{Boxes, Editions};
use std::mem::MaybeUninit;

/// Finishes every text, and three boards of one deal after it, against the text
/// before it. Returns whether every answer was the model's.
pub fn run(seed: u64) -> bool {
    let mut rng = Rng::new(seed);
    let texts = few_outside(seed);
    let solved = format!("\n}}\n\n{}", format!("[Deal \"{DEAL}\"]\n\n").repeat(3));
    let (mut calls, mut refused) = (0u64, [0u64; 8]);
    for (old, new) in texts.iter().zip(&texts[1..]) {
        let new = [new, solved.as_bytes()].concat();
        let right = Answers::right(rng.next());
        let pair = Pair::new(old, &new, right);
        let pages = ROOMS.map(|page| {
            (
                [Room::Exact, Room::Exact, Room::Exact, Room::Exact, page],
                right,
            )
        });
        let any = [(); 4].map(|()| {
            let rooms = std::array::from_fn(|_| ROOMS[rng.below(ROOMS.len())]);
            (rooms, right)
        });
        let wrong = [(); 3].map(|()| ([Room::Exact; 5], Answers::any(&mut rng)));
        for (rooms, answers) in pages.into_iter().chain(any).chain(wrong) {
            let lent = pair.lent(&Call {
                rooms,
                page_step: PAGE_STEP,
                answers,
            });
            match call(&pair, &answers.bytes(&pair.plan), &lent) {
                Ok(refusal) => refused[refusal as usize] += 1,
                Err(error) => {
                    println!("outside: DIFFERENCE, {answers:?}, lent {lent:?}: {error}");
                    println!("old text, {} bytes: {}", old.len(), hex(old));
                    println!("new text, {} bytes: {}", new.len(), hex(&new));
                    return false;
                }
            }
            calls += 1;
        }
    }
    println!(
        "outside: {calls} finishings: {} written, {} box full, {} list full, {} answers, {} impossible, {} page full",
        refused[0], refused[2], refused[3], refused[5], refused[6], refused[7]
    );
    true
}

/// Returns the refusal that was told.
fn call(pair: &Pair, answers: &[u8], lent: &Lent) -> Result<u64, String> {
    let texts: [Box<[u8]>; 3] = [pair.plan.old, pair.plan.new, answers].map(Box::from);
    let [old, new, answers] = &texts;
    let [old_lent, new_lent] = lent.boxes;
    let words = [
        old_lent.cards,
        old_lent.entries,
        new_lent.cards,
        new_lent.entries,
    ];
    let mut words = words.map(Box::<[u32]>::new_uninit_slice);
    let boxes = Boxes::new(words.each_mut().map(|words| &mut words[..]));
    let mut page = Box::new_uninit_slice(lent.page);
    let mut answer = Box::new([MaybeUninit::uninit(); 4]);
    let editions = Editions { old, new };
    let returned = golavimes::finish_fresh(editions, boxes, answers, &mut page, &mut answer);
    // SAFETY: the call stores every word and byte. Where it did not, valgrind says so.
    let (words, page, answer) = unsafe {
        (
            words.map(|words| words.assume_init()),
            page.assume_init(),
            answer.map(|number| number.assume_init()),
        )
    };
    if returned != answer[0] {
        return Err(format!("returned {returned}, answer {answer:?}"));
    }
    let left = Left {
        answer: &answer,
        boxes: words.each_ref().map(|words| &**words),
        page: &page,
    };
    pair.compare_left(answers, lent, &left)?;
    Ok(returned)
}
