//! How much is lent of one kind, by what is needed.

/// "One" is a card, an entry, a slip or a board's five numbers.
#[derive(Clone, Copy, PartialEq, Eq, Debug)]
pub enum Room {
    None,
    OneLess,
    WordLess,
    Exact,
    WordMore,
    NearlyOneMore,
    OneMore,
}

pub const ROOMS: [Room; 7] = [
    Room::None,
    Room::OneLess,
    Room::WordLess,
    Room::Exact,
    Room::WordMore,
    Room::NearlyOneMore,
    Room::OneMore,
];

/// Those of them that are always enough.
pub const ENOUGH: [Room; 4] = [
    Room::Exact,
    Room::WordMore,
    Room::NearlyOneMore,
    Room::OneMore,
];

impl Room {
    /// The words lent where `needed` things of `size` words are needed.
    pub fn words(self, needed: usize, size: usize) -> usize {
        self.around(needed * size, size)
    }

    /// The words lent around a boundary at `exact`.
    pub fn around(self, exact: usize, size: usize) -> usize {
        match self {
            Room::None => 0,
            Room::OneLess => exact.saturating_sub(size),
            Room::WordLess => exact.saturating_sub(1),
            Room::Exact => exact,
            Room::WordMore => exact + 1,
            Room::NearlyOneMore => exact + size - 1,
            Room::OneMore => exact + size,
        }
    }
}
