//! Tricks and the play of a board.

use crate::{Card, Direction, SectionEnd, Suit};

/// A trick. Slots run clockwise from its own leader.
#[derive(Debug, Clone, PartialEq, Eq)]
pub struct Trick {
    pub leader: Direction,
    pub cards: [Option<Card>; 4],
    pub lead_suit: Option<Suit>,
    pub winner: Option<Direction>,
}

impl Trick {
    pub fn new(leader: Direction) -> Self {
        Trick {
            leader,
            cards: [None; 4],
            lead_suit: None,
            winner: None,
        }
    }

    pub fn is_complete(&self) -> bool {
        self.cards.iter().all(Option::is_some)
    }

    /// The trick goes to its first highest trump, else to the first highest of
    /// slot 0's suit.
    pub fn determine_winner(&mut self, trump: Option<Suit>) {
        let slot = trump
            .and_then(|suit| self.first_highest(suit))
            .or_else(|| self.first_highest(self.cards[0]?.suit));
        self.winner = slot.map(|slot| self.leader.after(slot));
    }

    /// The slot of the first highest card of a suit.
    fn first_highest(&self, suit: Suit) -> Option<usize> {
        let mut best: Option<(usize, Card)> = None;
        for (slot, card) in self.cards.iter().enumerate() {
            let Some(card) = card else { continue };
            if card.suit == suit && best.is_none_or(|(_, held)| card.rank > held.rank) {
                best = Some((slot, *card));
            }
        }
        best.map(|(slot, _)| slot)
    }
}

#[derive(Debug, Clone, PartialEq, Eq)]
pub struct PlaySequence {
    pub opening_leader: Direction,
    pub trump: Option<Suit>,
    pub tricks: Vec<Trick>,
    pub end: SectionEnd,
}

impl PlaySequence {
    pub fn new(opening_leader: Direction, trump: Option<Suit>) -> Self {
        PlaySequence {
            opening_leader,
            trump,
            tricks: Vec::new(),
            end: SectionEnd::default(),
        }
    }

    pub fn start_trick(&mut self, leader: Direction) {
        self.tricks.push(Trick::new(leader));
    }
}
