//! LIN texts outside the domain converted in memory of exactly the lent size, as
//! `read/outside.rs` reads editions.

use super::{compare_left, generate, Conversion};
use crate::read::Checked;
use crate::room::ROOMS;
use crate::tables::hex;
use std::mem::MaybeUninit;

/// Converts every text with each room for the page. Returns whether every answer
/// was the model's.
pub fn run(seed: u64) -> bool {
    let (mut calls, mut refused) = (0u64, [0u64; 17]);
    for text in &generate::few_outside(seed) {
        let conversion = Conversion::new(text);
        for page in ROOMS.map(|room| conversion.lent(room)) {
            if let Err(error) = call(&conversion, page) {
                println!("outside: DIFFERENCE, lent {page} bytes: {error}");
                println!("text, {} bytes: {}", text.len(), hex(text));
                return false;
            }
            calls += 1;
            refused[conversion.answer(page)[0] as usize] += 1;
        }
    }
    println!(
        "outside: {calls} conversions of LIN: {} written, {} no deal, {} page full",
        refused[0], refused[16], refused[7]
    );
    true
}

fn call(conversion: &Conversion, page: usize) -> Checked {
    let text: Box<[u8]> = conversion.text.into();
    let mut page = Box::new_uninit_slice(page);
    let mut answer = Box::new([MaybeUninit::uninit(); 5]);
    let returned = golavimes::lin_to_pbn_fresh(&text, &mut page, &mut answer);
    // SAFETY: the call stores every byte and number. Where it did not, valgrind says so.
    let page = unsafe { page.assume_init() };
    let answer = answer.map(|number| unsafe { number.assume_init() });
    if returned != answer[0] {
        return Err(format!("returned {returned}, answer {answer:?}"));
    }
    compare_left(conversion, &answer, &page)
}
