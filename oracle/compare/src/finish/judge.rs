//! The finished edition as the unchanged Rust writes it: `read_pbn` reads both
//! editions, the tables are put into its boards, and `write_pbn` writes them; each
//! directive is written once (`write/once.rs`).
//!
//! The states come from those boards alone (`plan/judge.rs`). A twin copies the
//! table that its source was given, so no slip is sought by its hands.

use super::answers::TABLE;
use crate::plan::judge::states;
use crate::plan::model::State;
use crate::read::read_rust;
use crate::tables::judge::table_of;
use crate::write::once::{judge, Judged};
use bridge_types::Board;

/// Gives every whole board without a table the answered one or that of its source.
/// The source of a twin stands before it, and is given its own first.
pub fn put_tables(old: &[Board], new: &mut [Board], answers: &[u8]) {
    let mut answered = answers.chunks_exact(TABLE);
    for (index, state) in states(old, new).into_iter().enumerate() {
        new[index].double_dummy_tricks = match state {
            State::Blank | State::Own => continue,
            State::Old(from) => old[from - 1].double_dummy_tricks,
            State::Near(from) | State::Twin(from) => new[from - 1].double_dummy_tricks,
            State::Solve => Some(table_of(answered.next().expect("an answer for each"))),
        };
    }
    assert!(answered.next().is_none(), "more answers than solve boards");
}

/// The page of the finished edition, each directive once. The answers are right.
pub fn page(old: &str, new: &str, answers: &[u8]) -> Result<Judged, String> {
    let (olds, mut news) = (read_rust(old)?, read_rust(new)?);
    put_tables(&olds, &mut news, answers);
    judge(new, &news)
}
