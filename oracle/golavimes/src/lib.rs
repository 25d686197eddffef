//! Safe functions over the C functions of `libgolavimes.a`.
//!
//! Every function fills the answer array and returns its first number:
//! `answer[0]` is the refusal (0 none), `answer[1]` the edition (1 old, 2 new, 0
//! neither), `answer[2]` the number a refusal carries; a writer, of tables or of
//! editions, and finishing add `answer[3]`, the bytes written, converting LIN also
//! `answer[4]`, the boards, and the reader of editions `answer[3]` and `answer[4]`,
//! its boards and entries. What the functions of planning add stands at each. Slices and arrays of the right length are all
//! that the C functions ask for, so nothing here needs a test before the call.
//!
//! Nothing checks these declarations against the library: keep them in step
//! with its sources.

use std::mem::MaybeUninit;

/// A table: 20 bytes, cells N, S, E, W, each NT, S, H, D, C.
pub type Table = [u8; 20];

mod c {
    extern "C" {
        pub fn golavimes_dd_table_to_pbn(
            table: *const u8,
            page: *mut u8,
            page_len: usize,
            answer: *mut u64,
        ) -> u64;
        pub fn golavimes_optimum_result_table_header(
            table: *const u8,
            page: *mut u8,
            page_len: usize,
            answer: *mut u64,
        ) -> u64;
        pub fn golavimes_optimum_result_table_rows(
            table: *const u8,
            page: *mut u8,
            page_len: usize,
            answer: *mut u64,
        ) -> u64;
        pub fn golavimes_dd_table_from_pbn(
            value: *const u8,
            value_len: usize,
            table: *mut u8,
            answer: *mut u64,
        ) -> u64;
        pub fn golavimes_optimum_result_table_from_rows(
            rows: *const u8,
            rows_len: usize,
            table: *mut u8,
            answer: *mut u64,
        ) -> u64;
        pub fn golavimes_read(
            text: *const u8,
            text_len: usize,
            cards: *mut u32,
            cards_len: usize,
            entries: *mut u32,
            entries_len: usize,
            answer: *mut u64,
        ) -> u64;
        pub fn golavimes_lin_to_pbn(
            text: *const u8,
            text_len: usize,
            page: *mut u8,
            page_len: usize,
            answer: *mut u64,
        ) -> u64;
        pub fn golavimes_write(
            text: *const u8,
            text_len: usize,
            cards: *mut u32,
            cards_len: usize,
            entries: *mut u32,
            entries_len: usize,
            page: *mut u8,
            page_len: usize,
            answer: *mut u64,
        ) -> u64;
    }

    /// Declares functions over two editions: both texts, the four boxes, then what is
    /// each one's own.
    macro_rules! over_editions {
        ($($function:ident($($own:ident: $type:ty),*);)*) => {
            extern "C" {
                $(
                    pub fn $function(
                        old: *const u8,
                        old_len: usize,
                        new: *const u8,
                        new_len: usize,
                        old_cards: *mut u32,
                        old_cards_len: usize,
                        old_entries: *mut u32,
                        old_entries_len: usize,
                        new_cards: *mut u32,
                        new_cards_len: usize,
                        new_entries: *mut u32,
                        new_entries_len: usize,
                        $($own: $type),*
                    ) -> u64;
                )*
            }
        };
    }

    over_editions! {
        golavimes_plan(slips: *mut u64, slips_len: usize, answer: *mut u64);
        golavimes_state(position: u64, answer: *mut u64);
        golavimes_record_behind(position: u64, answer: *mut u64);
        golavimes_boards(boards: *mut u64, boards_len: usize, answer: *mut u64);
        golavimes_searches(searches: *mut u64, searches_len: usize, answer: *mut u64);
        golavimes_finish(
            answers: *const u8,
            answers_len: usize,
            page: *mut u8,
            page_len: usize,
            answer: *mut u64
        );
    }
}

/// Writes the table as twenty digits.
pub fn dd_table_to_pbn(table: &Table, page: &mut [u8], answer: &mut [u64; 4]) -> u64 {
    // SAFETY: every pointer comes from a live reference, the lengths are
    // theirs, and the references that are written through are unique.
    unsafe {
        c::golavimes_dd_table_to_pbn(
            table.as_ptr(),
            page.as_mut_ptr(),
            page.len(),
            answer.as_mut_ptr(),
        )
    }
}

/// Writes the header value of the table's OptimumResultTable section.
pub fn optimum_result_table_header(table: &Table, page: &mut [u8], answer: &mut [u64; 4]) -> u64 {
    // SAFETY: as in dd_table_to_pbn.
    unsafe {
        c::golavimes_optimum_result_table_header(
            table.as_ptr(),
            page.as_mut_ptr(),
            page.len(),
            answer.as_mut_ptr(),
        )
    }
}

/// Writes the table's twenty rows, an LF after each.
pub fn optimum_result_table_rows(table: &Table, page: &mut [u8], answer: &mut [u64; 4]) -> u64 {
    // SAFETY: as in dd_table_to_pbn.
    unsafe {
        c::golavimes_optimum_result_table_rows(
            table.as_ptr(),
            page.as_mut_ptr(),
            page.len(),
            answer.as_mut_ptr(),
        )
    }
}

/// Reads a value of twenty digits.
pub fn dd_table_from_pbn(value: &[u8], table: &mut Table, answer: &mut [u64; 3]) -> u64 {
    // SAFETY: as in dd_table_to_pbn.
    unsafe {
        c::golavimes_dd_table_from_pbn(
            value.as_ptr(),
            value.len(),
            table.as_mut_ptr(),
            answer.as_mut_ptr(),
        )
    }
}

/// Reads rows, cut at LF.
pub fn optimum_result_table_from_rows(
    rows: &[u8],
    table: &mut Table,
    answer: &mut [u64; 3],
) -> u64 {
    // SAFETY: as in dd_table_to_pbn.
    unsafe {
        c::golavimes_optimum_result_table_from_rows(
            rows.as_ptr(),
            rows.len(),
            table.as_mut_ptr(),
            answer.as_mut_ptr(),
        )
    }
}

/// Memory that is lent to be written, taken as memory that nothing was stored in
/// yet. Only for the C functions, which store into all of it.
fn fresh<T>(lent: &mut [T]) -> &mut [MaybeUninit<T>] {
    // SAFETY: the layouts are the same, and what is stored is a value of `T`.
    unsafe { &mut *(lent as *mut [T] as *mut [MaybeUninit<T>]) }
}

fn fresh_answer<const N: usize>(answer: &mut [u64; N]) -> &mut [MaybeUninit<u64>; N] {
    // SAFETY: as in fresh.
    unsafe { &mut *(answer as *mut [u64; N]).cast() }
}

/// Calls a function over one edition: its text, the two boxes, then what is its own.
macro_rules! call_over_edition {
    ($function:ident, $text:expr, $cards:expr, $entries:expr, $($own:expr),*) => {
        // SAFETY: as in dd_table_to_pbn; the function writes before it reads.
        unsafe {
            c::$function(
                $text.as_ptr(),
                $text.len(),
                $cards.as_mut_ptr().cast(),
                $cards.len(),
                $entries.as_mut_ptr().cast(),
                $entries.len(),
                $($own),*
            )
        }
    };
}

/// Reads an edition. A card is 64 words, an entry 4.
pub fn read(text: &[u8], cards: &mut [u32], entries: &mut [u32], answer: &mut [u64; 5]) -> u64 {
    read_fresh(text, fresh(cards), fresh(entries), fresh_answer(answer))
}

/// Reads an edition into memory that nothing was stored in yet. The call stores
/// into all of it.
pub fn read_fresh(
    text: &[u8],
    cards: &mut [MaybeUninit<u32>],
    entries: &mut [MaybeUninit<u32>],
    answer: &mut [MaybeUninit<u64>; 5],
) -> u64 {
    call_over_edition!(
        golavimes_read,
        text,
        cards,
        entries,
        answer.as_mut_ptr().cast()
    )
}

/// The texts of two editions.
#[derive(Clone, Copy)]
pub struct Editions<'a> {
    pub old: &'a [u8],
    pub new: &'a [u8],
}

/// What is lent for the cards and entries of both.
pub struct Boxes<'a, Word = u32> {
    pub old_cards: &'a mut [Word],
    pub old_entries: &'a mut [Word],
    pub new_cards: &'a mut [Word],
    pub new_entries: &'a mut [Word],
}

impl<'a, Word> Boxes<'a, Word> {
    /// The cards and entries of the old edition, then those of the new one.
    pub fn new(words: [&'a mut [Word]; 4]) -> Self {
        let [old_cards, old_entries, new_cards, new_entries] = words;
        Boxes {
            old_cards,
            old_entries,
            new_cards,
            new_entries,
        }
    }
}

/// Calls a function over two editions: both texts, the four boxes, then what is its
/// own.
macro_rules! call_over_editions {
    ($function:ident, $editions:expr, $boxes:expr, $($own:expr),*) => {
        // SAFETY: as in call_over_edition.
        unsafe {
            c::$function(
                $editions.old.as_ptr(),
                $editions.old.len(),
                $editions.new.as_ptr(),
                $editions.new.len(),
                $boxes.old_cards.as_mut_ptr().cast(),
                $boxes.old_cards.len(),
                $boxes.old_entries.as_mut_ptr().cast(),
                $boxes.old_entries.len(),
                $boxes.new_cards.as_mut_ptr().cast(),
                $boxes.new_cards.len(),
                $boxes.new_entries.as_mut_ptr().cast(),
                $boxes.new_entries.len(),
                $($own),*
            )
        }
    };
}

/// Plans. The answer goes on with the number of boards, and how many of them are
/// blank, own, old, near, twin and solve. A slip is 5 numbers.
pub fn plan(editions: Editions, boxes: Boxes, slips: &mut [u64], answer: &mut [u64; 10]) -> u64 {
    let (slips, length) = (slips.as_mut_ptr(), slips.len());
    call_over_editions!(
        golavimes_plan,
        editions,
        boxes,
        slips,
        length,
        answer.as_mut_ptr()
    )
}

/// The state of the board at a position from 1. The answer goes on with the state
/// (0 blank, 1 own, 2 old, 3 near, 4 twin, 5 solve) and `from`.
pub fn state(editions: Editions, boxes: Boxes, position: u64, answer: &mut [u64; 5]) -> u64 {
    call_over_editions!(
        golavimes_state,
        editions,
        boxes,
        position,
        answer.as_mut_ptr()
    )
}

/// The record behind the board at a position from 1. The answer goes on with the
/// edition it is part of (0 for the empty part), its start and its length.
pub fn record_behind(
    editions: Editions,
    boxes: Boxes,
    position: u64,
    answer: &mut [u64; 6],
) -> u64 {
    call_over_editions!(
        golavimes_record_behind,
        editions,
        boxes,
        position,
        answer.as_mut_ptr()
    )
}

/// Five numbers a board, as many as fit: state, `from`, and the edition, start and
/// end of the record behind it. The answer goes on with the number of boards.
pub fn boards(editions: Editions, boxes: Boxes, boards: &mut [u64], answer: &mut [u64; 4]) -> u64 {
    let (boards, length) = (boards.as_mut_ptr(), boards.len());
    call_over_editions!(
        golavimes_boards,
        editions,
        boxes,
        boards,
        length,
        answer.as_mut_ptr()
    )
}

/// Five numbers a board, as many as fit: state, `from`, and the hand words compared in
/// the searches for old, near and twin. The answer goes on with the number of boards
/// and the words of all of them.
pub fn searches(
    editions: Editions,
    boxes: Boxes,
    searches: &mut [u64],
    answer: &mut [u64; 5],
) -> u64 {
    let (searches, length) = (searches.as_mut_ptr(), searches.len());
    call_over_editions!(
        golavimes_searches,
        editions,
        boxes,
        searches,
        length,
        answer.as_mut_ptr()
    )
}

/// Reads an edition and writes it to the page.
pub fn write(
    text: &[u8],
    cards: &mut [u32],
    entries: &mut [u32],
    page: &mut [u8],
    answer: &mut [u64; 4],
) -> u64 {
    let (cards, entries) = (fresh(cards), fresh(entries));
    write_fresh(text, cards, entries, fresh(page), fresh_answer(answer))
}

/// Writes with memory that nothing was stored in yet. The call stores into all
/// of it.
pub fn write_fresh(
    text: &[u8],
    cards: &mut [MaybeUninit<u32>],
    entries: &mut [MaybeUninit<u32>],
    page: &mut [MaybeUninit<u8>],
    answer: &mut [MaybeUninit<u64>; 4],
) -> u64 {
    call_over_edition!(
        golavimes_write,
        text,
        cards,
        entries,
        page.as_mut_ptr().cast(),
        page.len(),
        answer.as_mut_ptr().cast()
    )
}

/// Converts a LIN text to a page.
pub fn lin_to_pbn(text: &[u8], page: &mut [u8], answer: &mut [u64; 5]) -> u64 {
    lin_to_pbn_fresh(text, fresh(page), fresh_answer(answer))
}

/// Converts with memory that nothing was stored in yet. The call stores into all
/// of it.
pub fn lin_to_pbn_fresh(
    text: &[u8],
    page: &mut [MaybeUninit<u8>],
    answer: &mut [MaybeUninit<u64>; 5],
) -> u64 {
    // SAFETY: as in call_over_edition.
    unsafe {
        c::golavimes_lin_to_pbn(
            text.as_ptr(),
            text.len(),
            page.as_mut_ptr().cast(),
            page.len(),
            answer.as_mut_ptr().cast(),
        )
    }
}

/// Reads both editions and writes the new one, each whole board with a table. The
/// answers are 20 bytes for each slip of `plan`, in their order.
pub fn finish(
    editions: Editions,
    boxes: Boxes,
    answers: &[u8],
    page: &mut [u8],
    answer: &mut [u64; 4],
) -> u64 {
    let cards_and_entries = [
        boxes.old_cards,
        boxes.old_entries,
        boxes.new_cards,
        boxes.new_entries,
    ];
    let boxes = Boxes::new(cards_and_entries.map(fresh));
    finish_fresh(editions, boxes, answers, fresh(page), fresh_answer(answer))
}

/// Finishes with memory that nothing was stored in yet. The call stores into all
/// of it.
pub fn finish_fresh(
    editions: Editions,
    boxes: Boxes<MaybeUninit<u32>>,
    answers: &[u8],
    page: &mut [MaybeUninit<u8>],
    answer: &mut [MaybeUninit<u64>; 4],
) -> u64 {
    call_over_editions!(
        golavimes_finish,
        editions,
        boxes,
        answers.as_ptr(),
        answers.len(),
        page.as_mut_ptr().cast(),
        page.len(),
        answer.as_mut_ptr().cast()
    )
}
