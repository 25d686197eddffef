//! Stand-in for the crate `bridge_types`, whose bodies could not be had.
//!
//! It holds exactly what the original `dd.rs`, `reader.rs`, `writer.rs` and
//! `lin/mod.rs` use, with the meanings that docs/FORMAT.md gives under "Borrowed
//! meanings". Letters and words take either case, ASCII alone.

mod board;
mod call;
mod cards;
mod play;
mod table;

pub use board::{Board, Directive, PlayerNames, Vulnerability};
pub use call::{AnnotatedCall, Auction, Call, Contract, Doubled, SectionEnd};
pub use cards::{Card, Deal, Direction, Hand, Rank, Strain, Suit, DIRECTIONS, RANKS, SUITS};
pub use play::{PlaySequence, Trick};
pub use table::DdTable;

/// White space: bytes 9 to 13 and 32.
pub(crate) fn is_white(byte: u8) -> bool {
    matches!(byte, 9..=13 | 32)
}
