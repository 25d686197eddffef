//! Chosen pairs of editions with the numbers of every board written out by hand.
//!
//! The deals, each hand one suit of 13 cards unless said: `a` N♠ E♥ S♦ W♣, `b` N♣ E♠ S♥
//! W♦, `c` N♠ E♦ S♥ W♣, `d` N♠ E♥ S♣ W♦, `p` N♣ E♥ S♠ W♦, `r` N♣ E♦ S♥ W♠; `e`, `q` and
//! `t` are `a`, `p` and `r` with HA and S2 exchanged; `part` is `a` without C2; `unp` is
//! `a` and then a Deal that does not parse; `ev` has no deal. A `*` stands for a table.

use crate::plan::generate::{deal_tag, ZEROS};
use crate::plan::model::FIVE;

pub struct Case {
    pub old: &'static str,
    pub new: &'static str,
    /// Of each new board: state, `from`, and the words in the searches for old, near
    /// and twin.
    pub numbers: &'static [[u64; FIVE]],
}

const fn case(old: &'static str, new: &'static str, numbers: &'static [[u64; FIVE]]) -> Case {
    Case { old, new, numbers }
}

const BLANK: [u64; FIVE] = [0; FIVE];
const OWN: [u64; FIVE] = [1, 0, 0, 0, 0];

pub const CASES: [Case; 27] = [
    // The search for old.
    case("", "a", &[[5, 0, 0, 0, 0]]),
    case("a*", "a", &[[2, 1, 8, 0, 0]]),
    case("a", "a", &[[5, 0, 0, 0, 0]]),
    case("b* a*", "a", &[[2, 2, 9, 0, 0]]),
    case("c* d* a* a*", "a", &[[2, 3, 16, 0, 0]]),
    case("a b a*", "a", &[[2, 3, 8, 0, 0]]),
    case("part* a*", "a", &[[2, 2, 8, 0, 0]]),
    case("unp* ev*", "a", &[[5, 0, 0, 0, 0]]),
    case("e*", "a", &[[5, 0, 2, 0, 0]]),
    case("q* p*", "p", &[[2, 2, 12, 0, 0]]),
    case("t* r*", "r", &[[2, 2, 14, 0, 0]]),
    // The search for twin, which seeks no table.
    case(
        "",
        "b c a a",
        &[
            [5, 0, 0, 0, 0],
            [5, 0, 0, 0, 1],
            [5, 0, 0, 0, 4],
            [4, 3, 0, 0, 12],
        ],
    ),
    case(
        "",
        "b* d part a",
        &[OWN, [5, 0, 0, 1, 1], BLANK, [5, 0, 0, 1, 6]],
    ),
    // The search for near: the boards of those for old, before the board and after it.
    case("", "b* a* a", &[OWN, OWN, [3, 2, 0, 9, 0]]),
    case("", "a b* a*", &[[3, 3, 0, 9, 0], OWN, OWN]),
    case("", "c* d* a* a* a", &[OWN, OWN, OWN, OWN, [3, 3, 0, 16, 0]]),
    case("", "part* a* a", &[BLANK, OWN, [3, 2, 0, 8, 0]]),
    case("", "unp* ev* a", &[BLANK, BLANK, [5, 0, 0, 0, 0]]),
    case("", "e* a", &[OWN, [5, 0, 0, 2, 2]]),
    case("", "p q* p*", &[[3, 3, 0, 12, 0], OWN, OWN]),
    case("", "t* r r*", &[OWN, [3, 3, 0, 14, 0], OWN]),
    // All three.
    case(
        "e* d* c",
        "q* a d* a",
        &[OWN, [5, 0, 7, 6, 1], OWN, [4, 2, 7, 6, 9]],
    ),
    // Boards of which no words are compared.
    case("a*", "", &[]),
    case("a*", "unp part ev a*", &[BLANK, BLANK, BLANK, OWN]),
    case("a* b*", "part* unp*", &[BLANK, BLANK]),
    // The example of the listing program.
    case(
        "a*",
        "a b b ev",
        &[[2, 1, 8, 0, 0], [5, 0, 1, 0, 1], [4, 2, 1, 0, 9], BLANK],
    ),
    case(
        "",
        "a b a c* c b* b",
        &[
            [5, 0, 0, 4, 0],
            [3, 6, 0, 9, 0],
            [4, 1, 0, 4, 8],
            OWN,
            [3, 4, 0, 8, 0],
            OWN,
            [3, 6, 0, 9, 0],
        ],
    ),
];

impl Case {
    /// The old edition and the new one.
    pub fn texts(&self) -> [String; 2] {
        [self.old, self.new].map(|names| names.split(' ').map(board).collect())
    }

    /// What is answered.
    pub fn answer(&self) -> [u64; 5] {
        let words = self.numbers.iter().flat_map(|five| &five[2..]);
        [0, 0, 0, self.numbers.len() as u64, words.sum()]
    }

    /// What is left in so many numbers that are lent.
    pub fn left(&self, lent: usize) -> Vec<u64> {
        let mut numbers = self.numbers.concat();
        numbers.truncate(lent / FIVE * FIVE);
        numbers.resize(lent, 0);
        numbers
    }
}

/// The deal of a board that has one, by the suits of N, E, S and W.
fn deal(name: &str) -> Option<String> {
    let suits = match name {
        "a" | "e" | "part" | "unp" => "SHDC",
        "b" => "CSHD",
        "c" => "SDHC",
        "d" => "SHCD",
        "p" | "q" => "CHSD",
        "r" | "t" => "CDHS",
        _ => return None,
    };
    let exchanged = ["e", "q", "t"].contains(&name);
    let hand = |suit: char| match suit {
        'S' if exchanged => "AKQJT9876543.A..",
        'H' if exchanged => "2.KQJT98765432..",
        'C' if name == "part" => "...AKQJT9876543",
        'S' => "AKQJT98765432...",
        'H' => ".AKQJT98765432..",
        'D' => "..AKQJT98765432.",
        _ => "...AKQJT98765432",
    };
    let hands: Vec<&str> = suits.chars().map(hand).collect();
    Some(deal_tag(&format!("N:{}", hands.join(" "))))
}

/// A closed board; the empty name is none.
fn board(name: &str) -> String {
    if name.is_empty() {
        return String::new();
    }
    let (name, table) = match name.strip_suffix('*') {
        Some(name) => (name, ZEROS),
        None => (name, ""),
    };
    let deal = deal(name).unwrap_or("[Event \"x\"]\n".to_string());
    let unparsed = if name == "unp" {
        deal_tag("x")
    } else {
        String::new()
    };
    format!("{deal}{unparsed}{table}\n")
}
