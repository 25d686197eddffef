//! A LIN text converted as docs/FORMAT.md says, in plain Rust of its own, over
//! bytes.
//!
//! It judges texts outside the domain. Inside it the boards must be those of the
//! unchanged `lin/mod.rs`, and the page that of `write_pbn` but for the cards played.

use crate::model::{characters, trim};
use crate::read::model::{call, letter, winning_slot, RANKS};
use crate::write::model as writing;

/// Seats are 0 to 3, N E S W; cards are 13 × suit + rank; calls are codes.
#[derive(Clone, Debug, Default, PartialEq, Eq)]
pub struct Board {
    pub dealer: usize,
    pub vulnerable: usize,
    /// The cards of each hand as listed, repeats too.
    pub hands: [Vec<u32>; 4],
    pub calls: Vec<u32>,
    pub cards: Vec<u32>,
}

/// What a text's boards need, and whether they are refused.
#[derive(Clone, Copy, Debug, Default, PartialEq, Eq)]
pub struct Need {
    pub boards: u64,
    pub bytes: u64,
    pub no_deal: bool,
}

/// What it would take to write the boards of a text.
pub fn need(text: &[u8]) -> Need {
    let mut need = Need::default();
    let (mut dealt, mut bad) = (false, false);
    each_board(text, &mut |board| {
        dealt |= board.hands.iter().any(|hand| !hand.is_empty());
        bad |= board.has_bad_deal();
        put_board(need.boards == 0, board, &mut |piece| {
            need.bytes += piece.len() as u64
        });
        need.boards += 1;
    });
    need.no_deal = bad || !dealt;
    need
}

/// The boards of a text, and their page.
pub fn convert(text: &[u8]) -> (Vec<Board>, Vec<u8>) {
    let (mut boards, mut page) = (Vec::new(), Vec::new());
    each_board(text, &mut |board| {
        put_board(boards.is_empty(), board, &mut |piece| {
            page.extend_from_slice(piece)
        });
        boards.push(board.clone());
    });
    (boards, page)
}

// ---- The text ----

/// A command, trimmed, and its value.
struct Pair<'a> {
    place: usize,
    command: &'a [u8],
    value: &'a [u8],
}

impl Pair<'_> {
    fn is(&self, name: &[u8]) -> bool {
        self.command.eq_ignore_ascii_case(name)
    }
}

/// The pairs of a text, cut at every `|`.
fn pairs(text: &[u8]) -> impl Iterator<Item = Pair<'_>> {
    let mut place = 0;
    let bar = |from: usize| {
        let rest = text.get(from..)?;
        rest.iter().position(|b| *b == b'|').map(|at| from + at)
    };
    std::iter::from_fn(move || {
        let middle = bar(place)?;
        let end = bar(middle + 1).unwrap_or(text.len());
        let pair = Pair {
            place,
            command: trim(&text[place..middle]),
            value: &text[middle + 1..end],
        };
        place = end + 1;
        Some(pair)
    })
}

fn each_board(text: &[u8], take: &mut dyn FnMut(&Board)) {
    if pairs(text).any(|pair| pair.is(b"qx")) {
        each_piece(text, &mut |piece| {
            if pairs(piece).any(|pair| pair.is(b"md")) {
                take(&board(piece));
            }
        });
        return;
    }
    for line in text.split(|b| *b == b'\n').map(trim) {
        if !line.is_empty() {
            take(&board(line));
        }
    }
}

/// The pieces before and from each `qx`, with the `mn` and `pn` right before it.
fn each_piece<'a>(text: &'a [u8], take: &mut dyn FnMut(&'a [u8])) {
    let mut start = 0;
    let mut names = None;
    for pair in pairs(text) {
        if pair.is(b"qx") {
            let cut = names.unwrap_or(pair.place);
            if cut > start {
                take(&text[start..cut]);
                start = cut;
            }
        }
        names = if pair.is(b"mn") || pair.is(b"pn") {
            names.or(Some(pair.place))
        } else {
            None
        };
    }
    take(&text[start..]);
}

fn board(piece: &[u8]) -> Board {
    let mut board = Board::default();
    for pair in pairs(piece) {
        let value = trim(pair.value);
        match &pair.command.to_ascii_lowercase()[..] {
            b"md" => {
                if let Some((dealer, hands)) = deal(value) {
                    board.dealer = dealer;
                    board.hands = hands;
                }
            }
            b"sv" => board.vulnerable = vulnerable(value),
            b"mb" => board.calls.extend(bid(pair.value)),
            b"pc" => board.cards.extend(card(value)),
            _ => {}
        }
    }
    board
}

fn deal(value: &[u8]) -> Option<(usize, [Vec<u32>; 4])> {
    let start = &value[..value.len().min(2)];
    let dealer = letter(characters(start).first()?, b"3412")? as usize;
    let mut hands: [Vec<u32>; 4] = Default::default();
    let mut east_given = false;
    let fields = value[1..].split(|b| *b == b',');
    for (field, seat) in fields.zip([2, 3, 0, 1]) {
        hands[seat] = hand(field);
        east_given |= seat == 1 && !trim(field).is_empty();
    }
    let others = [0, 2, 3].map(|seat: usize| hands[seat].len());
    if !east_given && others == [13; 3] {
        let rest = (0..52).filter(|card| !hands.iter().any(|hand| hand.contains(card)));
        hands[1] = rest.collect();
    }
    Some((dealer, hands))
}

fn hand(field: &[u8]) -> Vec<u32> {
    let mut cards = Vec::new();
    let mut suit = None;
    for character in characters(field) {
        if let Some(named) = letter(character, b"CDHS") {
            suit = Some(named);
        } else if let (Some(suit), Some(rank)) = (suit, letter(character, RANKS)) {
            cards.push(13 * suit + rank);
        }
    }
    cards
}

fn vulnerable(value: &[u8]) -> usize {
    match &value.to_ascii_lowercase()[..] {
        b"n" | b"ns" => 1,
        b"e" | b"ew" => 2,
        b"b" | b"both" | b"all" => 3,
        _ => 0,
    }
}

fn bid(value: &[u8]) -> Option<u32> {
    let mut value = value;
    while let Some(shorter) = value.strip_suffix(b"!") {
        value = shorter;
    }
    match value {
        b"" => None,
        b"d" | b"D" => Some(36),
        b"r" | b"R" => Some(37),
        _ => call(value),
    }
}

fn card(value: &[u8]) -> Option<u32> {
    // Anything longer has a third character, or one of several bytes.
    if value.len() != 2 {
        return None;
    }
    let [suit, rank] = characters(value)[..] else {
        return None;
    };
    Some(13 * letter(suit, b"CDHS")? + letter(rank, RANKS)?)
}

// ---- A board ----

impl Board {
    /// Whether a card is there twice or a hand has more than 13.
    pub fn has_bad_deal(&self) -> bool {
        let mut dealt = [false; 52];
        let mut again = false;
        for card in self.hands.iter().flatten() {
            again |= dealt[*card as usize];
            dealt[*card as usize] = true;
        }
        again || self.hands.iter().any(|hand| hand.len() > 13)
    }

    fn last_bid(&self) -> Option<usize> {
        self.calls.iter().rposition(|code| (1..=35).contains(code))
    }

    /// The contract as written, and its strain: C, D, H, S, NT are 0 to 4.
    pub fn contract(&self) -> Option<(String, u32)> {
        let at = self.last_bid()?;
        let doubled = self.calls[at..].iter().rev();
        let doubled = doubled.copied().find(|code| matches!(code, 36 | 37));
        let text = writing::call(self.calls[at]) + &doubled.map(writing::call).unwrap_or_default();
        Some((text, (self.calls[at] - 1) % 5))
    }

    pub fn declarer(&self) -> Option<usize> {
        let last = self.last_bid()?;
        let strain = |at: usize| (self.calls[at] + 4) % 5;
        let same_side = (last % 2..=last).step_by(2);
        let first = same_side
            .filter(|at| (1..=35).contains(&self.calls[*at]))
            .find(|at| strain(*at) == strain(last))?;
        Some((self.dealer + first) % 4)
    }

    /// The seat that leads, where cards are written.
    pub fn opening_leader(&self) -> Option<usize> {
        let declarer = self.declarer()?;
        (!self.cards.is_empty()).then_some((declarer + 1) % 4)
    }

    /// The cards by seat from the opening leader, a trick in each line.
    fn tricks(&self, trump: u32) -> Vec<[Option<u32>; 4]> {
        let mut leader = 0;
        let mut tricks = Vec::new();
        for cards in self.cards.chunks(4) {
            let mut trick = [None; 4];
            for (slot, card) in cards.iter().enumerate() {
                trick[(leader + slot) % 4] = Some(*card);
            }
            if let Ok(slots) = cards.try_into() {
                leader = (leader + winning_slot(slots, trump) as usize) % 4;
            }
            tricks.push(trick);
        }
        tricks
    }
}

// ---- The page ----

fn put_board(first: bool, board: &Board, put: &mut dyn FnMut(&[u8])) {
    put(if first { writing::HEADER } else { b"\n" });
    for name in ["Event", "Site", "Date", "West", "North", "East", "South"] {
        put_tag(name, b"", put);
    }
    put_seat("Dealer", board.dealer, put);
    let vulnerable: [&[u8]; 4] = [b"None", b"NS", b"EW", b"All"];
    put_tag("Vulnerable", vulnerable[board.vulnerable], put);
    let bits = |hand: &Vec<u32>| hand.iter().fold(0, |bits, card| bits | 1 << card);
    let hands = [0, 1, 2, 3].map(|seat: usize| bits(&board.hands[seat]));
    put_tag("Deal", &writing::deal(board.dealer, hands), put);
    put_tag("Scoring", b"", put);
    match board.declarer() {
        Some(seat) => put_seat("Declarer", seat, put),
        None => put_tag("Declarer", b"", put),
    }
    let (contract, trump) = board.contract().unwrap_or_default();
    put_tag("Contract", contract.as_bytes(), put);
    put_tag("Result", b"", put);
    if !board.calls.is_empty() {
        put_seat("Auction", board.dealer, put);
        for round in board.calls.chunks(4) {
            let words: Vec<String> = round.iter().map(|code| writing::call(*code)).collect();
            put((words.join(" ") + "\n").as_bytes());
        }
    }
    if let Some(leader) = board.opening_leader() {
        put_seat("Play", leader, put);
        for trick in board.tricks(trump) {
            let words = trick.map(|card| match card {
                Some(card) => writing::card(card as usize).to_vec(),
                None => b"-".to_vec(),
            });
            put(&words.join(&b' '));
            put(b"\n");
        }
    }
}

fn put_tag(name: &str, value: &[u8], put: &mut dyn FnMut(&[u8])) {
    put(b"[");
    put(name.as_bytes());
    put(b" \"");
    put(value);
    put(b"\"]\n");
}

fn put_seat(name: &str, seat: usize, put: &mut dyn FnMut(&[u8])) {
    put_tag(name, &writing::SEATS[seat..=seat], put);
}
