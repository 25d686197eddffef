//! The searches for an equal deal behind each board's state, as docs/FORMAT.md says:
//! what each does with each board up to the one found, and how many hand words it
//! compares.

use super::model::{has_table, is_whole, same_deal};

/// The hand words of a card.
const HANDS: std::ops::Range<usize> = 10..18;

/// What a search does with a board.
#[derive(Clone, Copy, PartialEq, Eq, Debug)]
pub enum Look {
    NotWhole,
    NoTable,
    /// So many words are compared.
    Compared(usize),
}

/// Which boards a search takes.
#[derive(Clone, Copy, PartialEq, Eq, Debug)]
pub enum Sought {
    WithTable,
    Any,
}

impl Sought {
    fn lacks(self, board: &[u32]) -> bool {
        self == Sought::WithTable && !has_table(board)
    }
}

fn look(card: &[u32], board: &[u32], sought: Sought) -> Look {
    if !is_whole(board) {
        return Look::NotWhole;
    }
    if sought.lacks(board) {
        return Look::NoTable;
    }
    // A word is compared exactly where all before it are equal.
    let all_before = |word: &usize| board[HANDS.start..*word] == card[HANDS.start..*word];
    Look::Compared(HANDS.filter(all_before).count())
}

/// The search for the deal of a card: what it does with each board up to the one
/// found, or with all, and whether one is found.
fn search(card: &[u32], boards: &[&[u32]], sought: Sought) -> (Looks, bool) {
    let fits = |board: &&[u32]| same_deal(board, card) && !sought.lacks(board);
    let found = boards.iter().position(fits);
    let met = found.map_or(boards, |last| &boards[..=last]);
    let mut looks = Looks::default();
    for board in met {
        looks.count(look(card, board, sought));
    }
    (looks, found.is_some())
}

/// How often a search did what with a board.
#[derive(Clone, Default)]
pub struct Looks {
    pub not_whole: u64,
    pub no_table: u64,
    /// By the words compared.
    pub compared: [u64; 9],
}

impl Looks {
    fn count(&mut self, look: Look) {
        match look {
            Look::NotWhole => self.not_whole += 1,
            Look::NoTable => self.no_table += 1,
            Look::Compared(words) => self.compared[words] += 1,
        }
    }

    pub fn add(&mut self, other: &Looks) {
        self.not_whole += other.not_whole;
        self.no_table += other.no_table;
        for (sum, count) in self.compared.iter_mut().zip(other.compared) {
            *sum += count;
        }
    }

    /// The words of all of them.
    fn words(&self) -> u64 {
        (0..)
            .zip(self.compared)
            .map(|(words, count)| words * count)
            .sum()
    }
}

/// The searches of all boards of a new edition.
pub struct Searches {
    /// For each board the words compared in the searches for old, near and twin, 0
    /// for one that is not made.
    pub words: Vec<[u64; 3]>,
    pub looks: Looks,
}

impl Searches {
    /// One search after the other for each whole board without a table, until one finds
    /// a board. The states are found apart from this (`model.rs`).
    pub fn new(olds: &[&[u32]], news: &[&[u32]]) -> Self {
        let mut looks = Looks::default();
        let mut words = vec![[0; 3]; news.len()];
        for (index, card) in news.iter().enumerate() {
            if !is_whole(card) || has_table(card) {
                continue;
            }
            let searched = [
                (olds, Sought::WithTable),
                (news, Sought::WithTable),
                (&news[..index], Sought::Any),
            ];
            for (of_search, (boards, sought)) in words[index].iter_mut().zip(searched) {
                let (met, found) = search(card, boards, sought);
                *of_search = met.words();
                looks.add(&met);
                if found {
                    break;
                }
            }
        }
        Searches { words, looks }
    }

    /// The words of all boards.
    pub fn total(&self) -> u64 {
        self.words.as_flattened().iter().sum()
    }
}
