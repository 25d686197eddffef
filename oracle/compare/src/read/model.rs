//! An edition read as docs/FORMAT.md says, in plain Rust of its own: every card
//! and every entry, word for word.
//!
//! It judges what the Rust cannot be asked: the entries that no field of a board
//! shows, and texts outside the domain. Inside it the boards that its words
//! describe are held to the Rust's.

use crate::model::{characters, from_digits, from_rows, is_white, trim};

pub const CARD: usize = 64;
pub const ENTRY: usize = 4;

/// The words of an edition's cards and entries.
#[derive(Clone, Default)]
pub struct Reading {
    pub cards: Vec<u32>,
    pub entries: Vec<u32>,
}

impl Reading {
    pub fn boards(&self) -> usize {
        self.cards.len() / CARD
    }

    pub fn entry_count(&self) -> usize {
        self.entries.len() / ENTRY
    }
}

/// A part of the text: where it starts and where it ends.
type Part = (usize, usize);

#[derive(Clone, Copy)]
enum Section {
    None,
    Auction(u32),
    Play(u32),
    Optimum,
}

struct State<'a> {
    text: &'a [u8],
    reading: Reading,
    card: [u32; CARD],
    /// The record's start.
    start: usize,
    tags: u32,
    section: Section,
    /// The data lines of the open section.
    data: Vec<Part>,
}

/// Reads an edition of any length.
pub fn read(text: &[u8]) -> Reading {
    let mut state = State {
        text,
        reading: Reading::default(),
        card: empty_card(),
        start: 0,
        tags: 0,
        section: Section::None,
        data: Vec::new(),
    };
    let mut kept = 0;
    // Where the text of an open commentary block starts.
    let mut block = None;
    let mut at = 0;
    while at < text.len() {
        let lf = text[at..].iter().position(|b| *b == b'\n');
        let end = lf.map_or(text.len(), |lf| at + lf);
        let next = lf.map_or(text.len(), |lf| at + lf + 1);
        let line = state.trim((at, end));
        if block.is_some() || text[line.0..line.1].first() == Some(&b'{') {
            let from = block.unwrap_or(line.0 + 1);
            block = Some(from);
            if let Some(brace) = text[line.0..line.1].iter().rposition(|b| *b == b'}') {
                block = None;
                let to = line.0 + brace;
                if !trim(&text[from..to]).is_empty() {
                    state.part(4, (from, to), state.tags);
                }
            }
        } else if line.0 == line.1 {
            if state.tags > 0 {
                state.close_board(next);
                kept = state.reading.entries.len();
            }
        } else {
            match text[line.0] {
                b';' | b'%' => state.part(3, line, state.tags),
                b'[' => state.tag_line(line),
                _ => state.data_line(line),
            }
        }
        at = next;
    }
    if state.tags > 0 {
        state.close_board(text.len());
        kept = state.reading.entries.len();
    }
    state.reading.entries.truncate(kept);
    state.reading
}

fn empty_card() -> [u32; CARD] {
    let mut card = [0; CARD];
    for word in [4, 6, 53, 57, 59] {
        card[word] = 4;
    }
    card
}

impl State<'_> {
    fn trim(&self, (start, end): Part) -> Part {
        let whole = &self.text[start..end];
        let Some(first) = whole.iter().position(|b| !is_white(*b)) else {
            return (start, start);
        };
        let length = trim(whole).len();
        (start + first, start + first + length)
    }

    fn bytes(&self, (start, end): Part) -> &[u8] {
        &self.text[start..end]
    }

    fn entry(&mut self, words: [u32; ENTRY]) {
        self.reading.entries.extend_from_slice(&words);
    }

    fn part(&mut self, kind: u32, (start, end): Part, last: u32) {
        self.entry([kind, start as u32, (end - start) as u32, last]);
    }

    /// The place of the next entry, plus 1.
    fn next_place(&self) -> u32 {
        self.reading.entry_count() as u32 + 1
    }

    fn close_board(&mut self, end: usize) {
        self.close_section();
        let first = self.reading.cards.chunks(CARD).last();
        let first = first.map_or(0, |card| card[0] + card[1]);
        self.card[0] = first;
        self.card[1] = self.reading.entry_count() as u32 - first;
        self.card[60] = self.start as u32;
        self.card[61] = end as u32;
        self.reading.cards.extend_from_slice(&self.card);
        self.card = empty_card();
        self.start = end;
        self.tags = 0;
    }

    fn data_line(&mut self, line: Part) {
        let number = match self.section {
            Section::None => return,
            Section::Auction(_) => 1,
            Section::Play(_) => 2,
            Section::Optimum => 3,
        };
        self.part(5, line, number);
        self.data.push(line);
    }

    fn tag_line(&mut self, line: Part) {
        let body = line.0 + 1;
        // The closing place: what stands before it, but for white space, ends
        // in a quote.
        let mut quoted = false;
        let mut close = None;
        for at in body..line.1 {
            match self.text[at] {
                b']' if quoted => {
                    close = Some(at);
                    break;
                }
                byte if is_white(byte) => {}
                byte => quoted = byte == b'"',
            }
        }
        let Some(close) = close else { return };
        let Some(length) = self.text[body..close].iter().position(|b| is_white(*b)) else {
            return;
        };
        let name = (body, body + length);
        let rest = self.trim((name.1, close));
        let quotes = self.bytes(rest);
        if quotes.len() < 2 || quotes[0] != b'"' || quotes[quotes.len() - 1] != b'"' {
            return;
        }
        let value = (rest.0 + 1, rest.1 - 1);
        let tail = self.trim((close + 1, line.1));
        let comment = match self.bytes(tail) {
            [b';', ..] => true,
            [b'{', after @ ..] => after.contains(&b'}'),
            _ => false,
        };
        if tail.0 < tail.1 && !comment {
            let quotes = (line.0..line.1).filter(|at| self.text[*at] == b'"');
            let second = quotes.take(2).last().expect("the tag has two quotes");
            let bracket = (second..line.1).find(|at| self.text[*at] == b']');
            if bracket != Some(close) {
                return;
            }
        }
        self.close_section();
        self.tags += 1;
        self.part(1, name, 0);
        let place = self.next_place();
        self.part(2, value, 0);
        self.apply(name, value, place);
        if comment {
            self.part(3, tail, self.tags);
        } else if tail.0 < tail.1 {
            self.data_line(tail);
        }
    }

    fn apply(&mut self, name: Part, value: Part, place: u32) {
        let text = self.text;
        let name = &text[name.0..name.1];
        let value = &text[value.0..value.1];
        let card = &mut self.card;
        let mut replace = |word: usize| {
            if !value.is_empty() {
                card[word] = place;
            }
        };
        match name {
            b"Event" => replace(40),
            b"Site" => replace(41),
            b"Date" => replace(42),
            b"North" => replace(44),
            b"East" => replace(45),
            b"South" => replace(46),
            b"West" => replace(47),
            b"Board" => {
                replace(39);
                let number = number(value, u32::MAX.into());
                card[2] = number.is_some().into();
                card[3] = number.unwrap_or(0) as u32;
            }
            b"Contract" if value == b"?" => {}
            b"Contract" => replace(43),
            b"OptimumScore" => card[49] = place,
            b"ParContract" => card[50] = place,
            b"Dealer" => card[4] = first_seat(value),
            b"Declarer" => card[6] = first_seat(value),
            b"Vulnerable" => {
                card[5] = match &value.to_ascii_uppercase()[..] {
                    b"NS" => 1,
                    b"EW" => 2,
                    b"ALL" | b"BOTH" => 3,
                    _ => 0,
                }
            }
            b"Result" => {
                let result = match value {
                    [b'-', rest @ ..] if rest.first() != Some(&b'+') => {
                        number(rest, 128).map(|n| 128 - n)
                    }
                    _ => number(value, 127).map(|n| 128 + n),
                };
                card[7] = result.is_some().into();
                card[8] = result.unwrap_or(0) as u32;
            }
            b"Deal" => {
                if let Some(hands) = deal(trim(value)) {
                    card[9] = card[9].max(1);
                    for (seat, hand) in hands.iter().enumerate() {
                        card[10 + 2 * seat] = *hand as u32;
                        card[11 + 2 * seat] = (hand >> 32) as u32;
                    }
                } else if !trim(value).is_empty() {
                    card[9] = 2;
                    card[48] = place;
                }
            }
            b"DoubleDummyTricks" if card[38] == 2 => {}
            b"DoubleDummyTricks" => {
                let read = from_digits(value);
                card[38] = read.is_ok().into();
                set_cells(card, &read.unwrap_or([0; 20]));
            }
            b"OptimumResultTable" => self.section = Section::Optimum,
            b"Auction" | b"Play" => {
                let seat = first_seat(value);
                if seat < 4 {
                    self.section = if name == b"Play" {
                        Section::Play(seat)
                    } else {
                        Section::Auction(seat)
                    };
                }
            }
            _ => {}
        }
    }

    fn close_section(&mut self) {
        let data = std::mem::take(&mut self.data);
        match std::mem::replace(&mut self.section, Section::None) {
            Section::Auction(dealer) if !data.is_empty() => self.auction(dealer, &data),
            Section::Play(leader) if !data.is_empty() => self.play(leader, &data),
            Section::Optimum => {
                let rows: Vec<&[u8]> = data.iter().map(|line| self.bytes(*line)).collect();
                if let Ok(cells) = from_rows(&rows.join(&b'\n')) {
                    self.card[38] = 2;
                    set_cells(&mut self.card, &cells);
                }
            }
            _ => {}
        }
    }

    fn tokens(&self, data: &[Part]) -> Vec<Part> {
        let mut found = Vec::new();
        for line in data {
            let mut start = line.0;
            for at in line.0..=line.1 {
                if at == line.1 || is_white(self.text[at]) {
                    if start < at {
                        found.push((start, at));
                    }
                    start = at + 1;
                }
            }
        }
        found
    }

    fn auction(&mut self, dealer: u32, data: &[Part]) {
        let first = self.next_place();
        let mut end = 0;
        let mut calls = 0;
        for token in self.tokens(data) {
            let bytes = self.bytes(token);
            if bytes == b"*" {
                end = 2;
                break;
            }
            if bytes == b"+" {
                end = 1;
            }
            if bytes.eq_ignore_ascii_case(b"AP") {
                for _ in 0..3 {
                    self.part(6, token, 0);
                }
                break;
            }
            let mark = bytes.iter().position(|b| b"=!?$".contains(b));
            let cut = mark.map_or(token.1, |mark| token.0 + mark);
            let front = &bytes[..cut - token.0];
            if front.is_empty() {
                if calls > 0 {
                    self.part(7, token, 0);
                }
            } else if let Some(code) = call(front) {
                calls += 1;
                self.part(6, (token.0, cut), code);
                if mark.is_some() {
                    self.part(7, (cut, token.1), 0);
                }
            }
        }
        self.card[51] = first;
        self.card[52] = self.next_place() - first;
        self.card[53] = dealer;
        self.card[54] = end;
    }

    fn play(&mut self, opening: u32, data: &[Part]) {
        let place = self.card[43] as usize;
        let trump = if place == 0 {
            4
        } else {
            let value = &self.reading.entries[(place - 1) * ENTRY..][..ENTRY];
            let start = value[1] as usize;
            trump_of(self.bytes((start, start + value[2] as usize)))
        };
        // Leader, winner and slots of each trick.
        let mut tricks: Vec<(u32, u32, [u32; 4])> = Vec::new();
        let mut end = 0;
        let mut seat = 0;
        for token in self.tokens(data) {
            if tricks.is_empty() {
                tricks.push((opening, 4, [255; 4]));
            }
            let (leader, winner, _) = tricks[tricks.len() - 1];
            if seat == 4 {
                let next = if winner < 4 { winner } else { leader };
                tricks.push((next, 4, [255; 4]));
                seat = 0;
            }
            let bytes = self.bytes(token);
            match bytes {
                b"*" => {
                    end = 2;
                    break;
                }
                b"+" => {
                    end = 1;
                    seat += 1;
                }
                b"-" => seat += 1,
                _ => {
                    let Some(card) = card_of(bytes) else { continue };
                    let last = tricks.len() - 1;
                    let (leader, winner, slots) = &mut tricks[last];
                    slots[((opening + seat + 4 - *leader) % 4) as usize] = card;
                    seat += 1;
                    if !slots.contains(&255) {
                        *winner = (*leader + winning_slot(slots, trump)) % 4;
                    }
                }
            }
        }
        self.card[55] = self.next_place();
        self.card[56] = tricks.len() as u32;
        self.card[57] = opening;
        self.card[58] = end;
        self.card[59] = trump;
        for (leader, winner, slots) in tricks {
            let slots = slots[0] | slots[1] << 8 | slots[2] << 16 | slots[3] << 24;
            self.entry([8, leader, winner, slots]);
        }
    }
}

fn set_cells(card: &mut [u32; CARD], cells: &[u8; 20]) {
    for (cell, tricks) in cells.iter().enumerate() {
        card[18 + cell] = u32::from(*tricks);
    }
}

/// An optional `+`, then digits, up to `most`.
pub fn number(text: &[u8], most: u64) -> Option<u64> {
    let digits = text.strip_prefix(b"+").unwrap_or(text);
    if digits.is_empty() || !digits.iter().all(u8::is_ascii_digit) {
        return None;
    }
    let value = digits.iter().fold(0u64, |value, digit| {
        (value * 10 + u64::from(digit - b'0')).min(1 << 40)
    });
    (value <= most).then_some(value)
}

pub fn letter(character: &[u8], letters: &[u8]) -> Option<u32> {
    let [byte] = character else { return None };
    let byte = byte.to_ascii_uppercase();
    letters.iter().position(|l| *l == byte).map(|at| at as u32)
}

/// The seat of the first character, or 4.
fn first_seat(value: &[u8]) -> u32 {
    // A character is looked for in the first bytes alone.
    let start = &value[..value.len().min(2)];
    let first = characters(start).first().copied().unwrap_or(b"");
    letter(first, b"NESW").unwrap_or(4)
}

fn strain(text: &[u8]) -> Option<u32> {
    match &text.to_ascii_uppercase()[..] {
        b"C" => Some(0),
        b"D" => Some(1),
        b"H" => Some(2),
        b"S" => Some(3),
        b"N" | b"NT" => Some(4),
        _ => None,
    }
}

pub fn call(text: &[u8]) -> Option<u32> {
    match &text.to_ascii_uppercase()[..] {
        b"PASS" | b"P" | b"-" => Some(0),
        b"X" => Some(36),
        b"XX" => Some(37),
        b"+" => Some(38),
        [level @ b'1'..=b'7', rest @ ..] => Some(5 * u32::from(level - b'1') + strain(rest)? + 1),
        line if line.len() <= 8 && line.iter().all(|b| *b == b'_') => Some(38 + line.len() as u32),
        _ => None,
    }
}

/// The trump suit of a contract, or 4.
fn trump_of(contract: &[u8]) -> u32 {
    let upper = contract.to_ascii_uppercase();
    let doubled = upper.strip_suffix(b"XX").or(upper.strip_suffix(b"X"));
    match doubled.unwrap_or(&upper) {
        [b'1'..=b'7', rest @ ..] => strain(rest).unwrap_or(4),
        _ => 4,
    }
}

pub const RANKS: &[u8] = b"23456789TJQKA";

fn card_of(token: &[u8]) -> Option<u32> {
    // Two characters are looked for in the first three bytes alone.
    let found = characters(&token[..token.len().min(3)]);
    let suit = letter(found.first()?, b"CDHS")?;
    Some(13 * suit + letter(found.get(1)?, RANKS)?)
}

pub fn winning_slot(slots: &[u32; 4], trump: u32) -> u32 {
    let lead = slots[0] / 13;
    let strength = |card: u32| match card / 13 {
        suit if suit == trump => 200 + card % 13,
        suit if suit == lead => 100 + card % 13,
        _ => 0,
    };
    let mut best = 0;
    for slot in 1..4 {
        if strength(slots[slot]) > strength(slots[best]) {
            best = slot;
        }
    }
    best as u32
}

/// The hands N, E, S, W of a trimmed value.
fn deal(value: &[u8]) -> Option<[u64; 4]> {
    let first = letter(value.get(..1)?, b"NESW")? as usize;
    let rest = value[1..].strip_prefix(b":")?;
    if rest.first().is_none_or(|b| is_white(*b)) {
        return None;
    }
    let mut hands = [0; 4];
    let mut dealt = 0;
    let mut count = 0;
    for text in rest.split(|b| is_white(*b)).filter(|t| !t.is_empty()) {
        let hand = hand(text)?;
        if count == 4 || dealt & hand != 0 {
            return None;
        }
        dealt |= hand;
        hands[(first + count) % 4] = hand;
        count += 1;
    }
    (count == 4).then_some(hands)
}

fn hand(text: &[u8]) -> Option<u64> {
    if text == b"-" {
        return Some(0);
    }
    let suits: Vec<&[u8]> = text.split(|b| *b == b'.').collect();
    if suits.len() != 4 {
        return None;
    }
    let mut hand = 0u64;
    for (at, ranks) in suits.iter().enumerate() {
        for rank in ranks.iter() {
            let bit = 1 << (13 * (3 - at as u32) + letter(&[*rank], RANKS)?);
            if hand & bit != 0 {
                return None;
            }
            hand |= bit;
        }
    }
    (hand.count_ones() <= 13).then_some(hand)
}

#[cfg(test)]
mod tests {
    use super::*;

    fn entries(text: &str) -> Vec<Vec<u32>> {
        let read = read(text.as_bytes());
        read.entries.chunks(ENTRY).map(<[u32]>::to_vec).collect()
    }

    /// The examples of docs/FORMAT.md, section 17.
    #[test]
    fn examples() {
        let text = "[Board \"1\"]\n[Dealer \"N\"]\n";
        let wanted = [[1, 1, 5, 0], [2, 8, 1, 0], [1, 13, 6, 0], [2, 21, 1, 0]];
        assert_eq!(entries(text), wanted);
        let mut card = [0; CARD];
        for (word, number) in [(1, 4), (2, 1), (3, 1), (6, 4), (39, 2), (61, 25)] {
            card[word] = number;
        }
        for word in [53, 57, 59] {
            card[word] = 4;
        }
        assert_eq!(read(text.as_bytes()).cards, card);

        let text = "[Auction \"N\"]\n1C=1= AP\n";
        let wanted = [
            [1, 1, 7, 0],
            [2, 10, 1, 0],
            [5, 14, 8, 1],
            [6, 14, 2, 1],
            [7, 16, 3, 0],
            [6, 20, 2, 0],
            [6, 20, 2, 0],
            [6, 20, 2, 0],
        ];
        assert_eq!(entries(text), wanted);
        assert_eq!(read(text.as_bytes()).cards[51..55], [4, 5, 0, 0]);

        let text = "[Play \"N\"]\nS2 S3 S4 S5\nH2 H3 H4 H5";
        let tricks = &entries(text)[4..];
        let first = [8, 0, 3, u32::from_le_bytes([39, 40, 41, 42])];
        let second = [8, 3, 3, u32::from_le_bytes([29, 26, 27, 28])];
        assert_eq!(tricks, [first, second]);
    }
}
