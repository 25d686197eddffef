//! Seats, suits, ranks, cards, hands and deals.

use crate::is_white;

/// A seat. The order is clockwise: N, E, S, W are 0 to 3.
#[derive(Debug, Clone, Copy, PartialEq, Eq, Hash)]
pub enum Direction {
    North,
    East,
    South,
    West,
}

/// The seats clockwise from North.
pub const DIRECTIONS: [Direction; 4] = [
    Direction::North,
    Direction::East,
    Direction::South,
    Direction::West,
];

impl Direction {
    pub const ALL: [Direction; 4] = DIRECTIONS;

    pub fn from_char(c: char) -> Option<Self> {
        match c.to_ascii_uppercase() {
            'N' => Some(Direction::North),
            'E' => Some(Direction::East),
            'S' => Some(Direction::South),
            'W' => Some(Direction::West),
            _ => None,
        }
    }

    pub fn to_char(self) -> char {
        match self {
            Direction::North => 'N',
            Direction::East => 'E',
            Direction::South => 'S',
            Direction::West => 'W',
        }
    }

    pub fn to_index(self) -> usize {
        self as usize
    }

    /// The seat that many places clockwise.
    pub fn after(self, places: usize) -> Self {
        DIRECTIONS[(self.to_index() + places) % 4]
    }
}

/// A suit. C, D, H, S are 0 to 3.
#[derive(Debug, Clone, Copy, PartialEq, Eq, Hash)]
pub enum Suit {
    Clubs,
    Diamonds,
    Hearts,
    Spades,
}

/// The suits from 0 up.
pub const SUITS: [Suit; 4] = [Suit::Clubs, Suit::Diamonds, Suit::Hearts, Suit::Spades];

impl Suit {
    pub const ALL: [Suit; 4] = SUITS;

    pub fn from_char(c: char) -> Option<Self> {
        match c.to_ascii_uppercase() {
            'C' => Some(Suit::Clubs),
            'D' => Some(Suit::Diamonds),
            'H' => Some(Suit::Hearts),
            'S' => Some(Suit::Spades),
            _ => None,
        }
    }

    pub fn to_char(self) -> char {
        match self {
            Suit::Clubs => 'C',
            Suit::Diamonds => 'D',
            Suit::Hearts => 'H',
            Suit::Spades => 'S',
        }
    }

    pub fn to_index(self) -> usize {
        self as usize
    }
}

/// What a contract is played in: a suit or no trump.
#[derive(Debug, Clone, Copy, PartialEq, Eq, Hash)]
pub enum Strain {
    Clubs,
    Diamonds,
    Hearts,
    Spades,
    NoTrump,
}

impl Strain {
    /// `C`, `D`, `H`, `S`, and `N` or `NT`.
    pub(crate) fn from_token(token: &str) -> Option<Self> {
        match token.to_ascii_uppercase().as_str() {
            "C" => Some(Strain::Clubs),
            "D" => Some(Strain::Diamonds),
            "H" => Some(Strain::Hearts),
            "S" => Some(Strain::Spades),
            "N" | "NT" => Some(Strain::NoTrump),
            _ => None,
        }
    }

    pub(crate) fn token(self) -> &'static str {
        match self {
            Strain::Clubs => "C",
            Strain::Diamonds => "D",
            Strain::Hearts => "H",
            Strain::Spades => "S",
            Strain::NoTrump => "NT",
        }
    }

    pub fn to_index(self) -> usize {
        self as usize
    }
}

/// A rank. 2 is 0, the ace is 12.
#[derive(Debug, Clone, Copy, PartialEq, Eq, PartialOrd, Ord, Hash)]
pub struct Rank(u8);

/// The letters of the ranks from 0 up.
pub const RANKS: [char; 13] = [
    '2', '3', '4', '5', '6', '7', '8', '9', 'T', 'J', 'Q', 'K', 'A',
];

impl Rank {
    pub const ALL: [Rank; 13] = {
        let mut all = [Rank(0); 13];
        let mut at = 0;
        while at < all.len() {
            all[at] = Rank(at as u8);
            at += 1;
        }
        all
    };

    pub fn from_char(c: char) -> Option<Self> {
        let c = c.to_ascii_uppercase();
        let at = RANKS.iter().position(|letter| *letter == c)?;
        Some(Rank(at as u8))
    }

    pub fn to_char(self) -> char {
        RANKS[self.to_index()]
    }

    pub fn to_index(self) -> usize {
        self.0 as usize
    }
}

#[derive(Debug, Clone, Copy, PartialEq, Eq, Hash)]
pub struct Card {
    pub suit: Suit,
    pub rank: Rank,
}

impl Card {
    pub fn new(suit: Suit, rank: Rank) -> Self {
        Card { suit, rank }
    }

    /// The card's place in a hand: 13 × suit + rank.
    pub fn bit(self) -> u32 {
        (13 * self.suit.to_index() + self.rank.to_index()) as u32
    }
}

/// A hand: its cards, a bit each, and how often one was added that was there. A
/// list, but for the order.
#[derive(Debug, Clone, Copy, PartialEq, Eq, Default, Hash)]
pub struct Hand {
    pub bits: u64,
    pub repeats: usize,
}

impl Hand {
    pub fn new() -> Self {
        Self::default()
    }

    /// The hand of these cards, each once.
    pub fn of_bits(bits: u64) -> Self {
        Hand { bits, repeats: 0 }
    }

    /// Adds a card, also one that is there.
    pub fn add_card(&mut self, card: Card) {
        self.repeats += usize::from(self.has_card(card));
        self.bits |= 1 << card.bit();
    }

    pub fn has_card(&self, card: Card) -> bool {
        self.bits >> card.bit() & 1 == 1
    }

    /// How many cards were added.
    pub fn len(&self) -> usize {
        self.bits.count_ones() as usize + self.repeats
    }

    pub fn is_empty(&self) -> bool {
        self.len() == 0
    }

    /// The cards, each once.
    pub fn cards(&self) -> Vec<Card> {
        let pack = SUITS
            .iter()
            .flat_map(|suit| Rank::ALL.map(|rank| Card::new(*suit, rank)));
        pack.filter(|card| self.has_card(*card)).collect()
    }

    /// `-` or four dotted suits S H D C; no card twice, at most 13.
    fn from_pbn(text: &str) -> Option<Self> {
        if text == "-" {
            return Some(Hand::new());
        }
        let suits: Vec<&str> = text.split('.').collect();
        if suits.len() != 4 {
            return None;
        }
        let mut hand = Hand::new();
        for (suit, letters) in SUITS.iter().rev().zip(suits) {
            for letter in letters.chars() {
                let card = Card::new(*suit, Rank::from_char(letter)?);
                if hand.has_card(card) {
                    return None;
                }
                hand.add_card(card);
            }
        }
        (hand.len() <= 13).then_some(hand)
    }

    /// Suits S.H.D.C, high to low; an empty hand is `-`.
    fn to_pbn(self) -> String {
        if self.is_empty() {
            return "-".to_string();
        }
        let suits: Vec<String> = SUITS
            .iter()
            .rev()
            .map(|suit| {
                (0..13)
                    .rev()
                    .map(Rank)
                    .filter(|rank| self.has_card(Card::new(*suit, *rank)))
                    .map(Rank::to_char)
                    .collect()
            })
            .collect();
        suits.join(".")
    }
}

/// The four hands, N E S W.
#[derive(Debug, Clone, Copy, PartialEq, Eq, Default, Hash)]
pub struct Deal {
    pub hands: [Hand; 4],
}

impl Deal {
    pub fn new() -> Self {
        Self::default()
    }

    pub fn hand(&self, seat: Direction) -> &Hand {
        &self.hands[seat.to_index()]
    }

    pub fn set_hand(&mut self, seat: Direction, hand: Hand) {
        self.hands[seat.to_index()] = hand;
    }

    /// A seat letter, `:`, and four hands clockwise from that seat with runs of
    /// white space between them. Outer white space is trimmed; there is none
    /// before or right after the colon. No card twice in the whole deal.
    pub fn from_pbn(text: &str) -> Option<Self> {
        let text = text.trim_matches(|c: char| c.is_ascii() && is_white(c as u8));
        let mut chars = text.chars();
        let first = Direction::from_char(chars.next()?)?;
        let rest = chars.as_str().strip_prefix(':')?;
        if rest.bytes().next().is_none_or(is_white) {
            return None;
        }
        let parts: Vec<&str> = rest
            .split(|c: char| c.is_ascii() && is_white(c as u8))
            .filter(|part| !part.is_empty())
            .collect();
        if parts.len() != 4 {
            return None;
        }
        let mut deal = Deal::default();
        let mut dealt = 0u64;
        for (i, part) in parts.iter().enumerate() {
            let hand = Hand::from_pbn(part)?;
            if dealt & hand.bits != 0 {
                return None;
            }
            dealt |= hand.bits;
            deal.hands[first.after(i).to_index()] = hand;
        }
        Some(deal)
    }

    /// The deal, `first` seat's hand first.
    pub fn to_pbn(&self, first: Direction) -> String {
        let hands: Vec<String> = (0..4)
            .map(|i| self.hands[first.after(i).to_index()].to_pbn())
            .collect();
        format!("{}:{}", first.to_char(), hands.join(" "))
    }
}
