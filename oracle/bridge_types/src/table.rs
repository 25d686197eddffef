//! The double-dummy table.

use crate::{Direction, Strain, DIRECTIONS};

const STRAINS: [Strain; 5] = [
    Strain::Clubs,
    Strain::Diamonds,
    Strain::Hearts,
    Strain::Spades,
    Strain::NoTrump,
];

/// Twenty results, all 0 at first. A cell takes any byte.
#[derive(Debug, Clone, Copy, PartialEq, Eq, Default)]
pub struct DdTable {
    tricks: [[u8; 5]; 4],
}

impl DdTable {
    pub fn new() -> Self {
        Self::default()
    }

    pub fn set(&mut self, declarer: Direction, strain: Strain, tricks: u8) {
        self.tricks[declarer.to_index()][strain.to_index()] = tricks;
    }

    pub fn tricks(&self, declarer: Direction, strain: Strain) -> u8 {
        self.tricks[declarer.to_index()][strain.to_index()]
    }

    pub fn cells(&self) -> impl Iterator<Item = (Direction, Strain, u8)> + '_ {
        DIRECTIONS.into_iter().flat_map(move |declarer| {
            STRAINS
                .into_iter()
                .map(move |strain| (declarer, strain, self.tricks(declarer, strain)))
        })
    }
}
