//! What the words of an edition say: facts that hold of all of them, and the
//! boards they describe, to be compared with those of the unchanged `reader.rs`.

use super::model::{CARD, ENTRY};
use crate::model::is_white;
use crate::tables::judge::{SEATS, STRAINS};
use bridge_types::{
    AnnotatedCall, Auction, Board, Call, Card, DdTable, Deal, Direction, Directive, Hand,
    PlaySequence, PlayerNames, Rank, SectionEnd, Strain, Suit, Trick, Vulnerability, DIRECTIONS,
    RANKS, SUITS,
};

/// The tags that `reader.rs` models. Every other is supplemental.
pub const MODELLED: [&str; 21] = [
    "Board",
    "Dealer",
    "Vulnerable",
    "Deal",
    "Event",
    "Site",
    "Date",
    "Declarer",
    "Contract",
    "Result",
    "North",
    "East",
    "South",
    "West",
    "Auction",
    "Play",
    "Note",
    "DoubleDummyTricks",
    "OptimumResultTable",
    "OptimumScore",
    "ParContract",
];

/// The words 39 to 50 and the tag whose value each of them names.
const NAMED: [&str; 12] = [
    "Board",
    "Event",
    "Site",
    "Date",
    "Contract",
    "North",
    "East",
    "South",
    "West",
    "Deal",
    "OptimumScore",
    "ParContract",
];

/// The words of an edition that were used, and its text.
#[derive(Clone, Copy)]
pub struct Words<'a> {
    pub cards: &'a [u32],
    pub entries: &'a [u32],
    pub text: &'a [u8],
}

/// Stops with a message unless the fact holds.
macro_rules! fact {
    ($holds:expr, $($words:tt)*) => {
        if !$holds {
            return Err(format!($($words)*));
        }
    };
}

impl<'a> Words<'a> {
    pub fn boards(&self) -> usize {
        self.cards.len() / CARD
    }

    pub fn card(&self, board: usize) -> &'a [u32] {
        &self.cards[board * CARD..][..CARD]
    }

    fn entry(&self, place: usize) -> &'a [u32] {
        &self.entries[place * ENTRY..][..ENTRY]
    }

    /// The text that an entry of kinds 1 to 7 names.
    fn bytes(&self, place: usize) -> &'a [u8] {
        let entry = self.entry(place);
        &self.text[entry[1] as usize..][..entry[2] as usize]
    }

    // ---- Facts ----

    /// What holds of every edition's words, whatever the text.
    pub fn facts(&self) -> Result<(), String> {
        let (mut record, mut first) = (0, 0);
        for board in 0..self.boards() {
            let card = self.card(board);
            self.board_facts(card, record, first)
                .map_err(|fact| format!("board {board}: {fact}"))?;
            record = card[61];
            first += card[1];
        }
        let entries = (self.entries.len() / ENTRY) as u32;
        fact!(
            first == entries,
            "{entries} entries, the boards have {first}"
        );
        Ok(())
    }

    fn board_facts(&self, card: &[u32], record: u32, first: u32) -> Result<(), String> {
        let entries = self.entries.len() / ENTRY;
        let (from, to) = (card[60], card[61]);
        fact!(from == record, "record starts at {from}, not {record}");
        fact!(from < to, "record from {from} to {to}");
        let end = to as usize;
        fact!(
            end <= self.text.len(),
            "record ends at {end}, past the text"
        );
        let closed = end == self.text.len() || self.text[end - 1] == b'\n';
        fact!(closed, "record ends at {end}, within a line");
        fact!(
            card[0] == first,
            "entries start at {}, not {first}",
            card[0]
        );
        let last = first as usize + card[1] as usize;
        fact!(last <= entries, "entries up to {last}, of {entries}");
        fact!(
            card[62] == 0 && card[63] == 0,
            "words 62, 63: {:?}",
            &card[62..]
        );

        for (word, most) in [
            (2, 1),
            (4, 4),
            (5, 3),
            (6, 4),
            (7, 1),
            (8, 255),
            (9, 2),
            (38, 2),
            (53, 4),
            (54, 2),
            (57, 4),
            (58, 2),
            (59, 4),
        ] {
            fact!(card[word] <= most, "word {word} is {}", card[word]);
        }
        fact!(card[2] == 1 || card[3] == 0, "word 3 without word 2");
        fact!(card[7] == 1 || card[8] == 0, "word 8 without word 7");
        let mut dealt = 0;
        for seat in 0..4 {
            let hand = hand(card, seat).bits;
            fact!(hand < 1 << 52, "hand {seat} is {hand:x}");
            fact!(hand.count_ones() <= 13, "hand {seat} has too many cards");
            fact!(dealt & hand == 0, "hand {seat} has another's card");
            dealt |= hand;
        }
        fact!(card[9] > 0 || dealt == 0, "hands without a deal");
        fact!((card[9] == 2) == (card[48] > 0), "word 48 against word 9");
        let cells = &card[18..38];
        fact!(cells.iter().all(|c| *c <= 13), "a cell above 13: {cells:?}");
        let none = card[38] == 0 && cells.iter().any(|c| *c > 0);
        fact!(!none, "cells without a table: {cells:?}");

        // The entries, one after the other.
        let mut tags = 0;
        let mut reached = from;
        let mut data: Vec<(u32, u32)> = Vec::new();
        for place in first as usize..last {
            let entry = self.entry(place);
            let [kind, start, length, number] = entry else {
                unreachable!()
            };
            let bad = |what: &str| format!("entry {place} {entry:?}: {what}");
            let stop = start.checked_add(*length).unwrap_or(u32::MAX);
            if (1..=7).contains(kind) {
                fact!(
                    from <= *start && stop <= to,
                    "{}",
                    bad("outside the record")
                );
            }
            if (1..=5).contains(kind) {
                fact!(reached <= *start, "{}", bad("before the one before it"));
                reached = stop;
            }
            let at = *start as usize;
            let past = stop as usize;
            let around = |before: &[u8], after: u8| {
                at > 0 && before.contains(&self.text[at - 1]) && self.text.get(past) == Some(&after)
            };
            let is_trimmed = |bytes: &[u8]| {
                bytes.first().is_some_and(|b| !is_white(*b))
                    && bytes.last().is_some_and(|b| !is_white(*b))
                    && !bytes.contains(&b'\n')
            };
            match kind {
                1 => {
                    let next = place + 1 < last && self.entry(place + 1)[0] == 2;
                    fact!(next, "{}", bad("a name without a value"));
                    let bytes = self.bytes(place);
                    let named = at > 0
                        && self.text[at - 1] == b'['
                        && !bytes.iter().any(|b| is_white(*b))
                        && self.text.get(past).is_some_and(|b| is_white(*b));
                    fact!(named && *number == 0, "{}", bad("not a name"));
                    tags += 1;
                }
                2 => {
                    let before = place > first as usize && self.entry(place - 1)[0] == 1;
                    fact!(before, "{}", bad("a value without a name"));
                    let line = !self.bytes(place).contains(&b'\n');
                    let quoted = around(b"\"", b'"') && line && *number == 0;
                    fact!(quoted, "{}", bad("not a value"));
                }
                3 => {
                    let bytes = self.bytes(place);
                    let starts = matches!(bytes.first(), Some(b';' | b'%' | b'{'));
                    let whole = starts && is_trimmed(bytes) && *number == tags;
                    fact!(whole, "{}", bad("not a directive here"));
                }
                4 => {
                    let whole = around(b"{", b'}') && *number == tags;
                    fact!(whole, "{}", bad("not commentary here"));
                }
                5 => {
                    let whole = is_trimmed(self.bytes(place)) && (1..=3).contains(number);
                    fact!(whole, "{}", bad("not a data line"));
                    data.push((*start, stop));
                }
                6 | 7 => {
                    let after = data.partition_point(|d| d.0 <= *start);
                    let within = after > 0 && stop <= data[after - 1].1;
                    let most = if *kind == 6 { 46 } else { 0 };
                    let marked = *kind == 6 || b"=!?$".contains(&self.text[at]);
                    let whole = within && *length > 0 && *number <= most && marked;
                    fact!(whole, "{}", bad("not a call or annotation"));
                }
                8 => {
                    let slots = number.to_le_bytes();
                    let gap = slots.contains(&255);
                    let good = slots.iter().all(|s| *s < 52 || *s == 255);
                    let whole = good && *start < 4 && *length <= 4 && (*length == 4) == gap;
                    fact!(whole, "{}", bad("not a trick"));
                }
                _ => return Err(bad("no kind")),
            }
        }
        fact!(tags > 0, "no tags");

        for (word, name) in (39..).zip(NAMED) {
            let Some(place) = (card[word] as usize).checked_sub(1) else {
                continue;
            };
            let within = first as usize <= place && place < last;
            let value = within && self.entry(place)[0] == 2;
            fact!(value, "word {word} is {}, no value", card[word]);
            let of = self.bytes(place - 1);
            let named = of == name.as_bytes();
            fact!(named, "word {word} is that of {}", of.escape_ascii());
        }
        for (word, kinds, absent) in [(51, [6, 7], 4), (55, [8, 8], 4)] {
            let [place, count, seat, end] = card[word..word + 4] else {
                unreachable!()
            };
            let Some(start) = (place as usize).checked_sub(1) else {
                let none = count == 0 && seat == absent && end == 0;
                fact!(none, "words {word} and on without a section");
                continue;
            };
            let stop = start + count as usize;
            fact!(seat < 4, "word {} without a seat", word + 2);
            let within = first as usize <= start && stop <= last;
            fact!(within, "words {word} and on outside the board");
            let all = (start..stop).all(|at| kinds.contains(&self.entry(at)[0]));
            fact!(all, "words {word} and on name other entries");
            let head = count == 0 || self.entry(start)[0] == kinds[0];
            fact!(head, "word {word} names no first call");
            fact!(word == 51 || count > 0, "a play without tricks");
        }
        fact!(card[55] > 0 || card[59] == 4, "trump without a play");
        Ok(())
    }

    // ---- Boards ----

    fn str(&self, place: usize) -> Result<String, String> {
        match std::str::from_utf8(self.bytes(place)) {
            Ok(text) => Ok(text.to_string()),
            Err(_) => Err(format!("entry {place} cuts a character")),
        }
    }

    /// The board that the words describe. The facts hold.
    pub fn board(&self, board: usize) -> Result<Board, String> {
        let card = self.card(board);
        let first = card[0] as usize;
        let places = first..first + card[1] as usize;
        let of_kind = |kind: u32| {
            places
                .clone()
                .filter(move |place| self.entry(*place)[0] == kind)
        };
        let named = |word: usize| match card[word] as usize {
            0 => Ok(None),
            place => self.str(place - 1).map(Some),
        };

        let mut tag_order = Vec::new();
        let mut extra_tags = Vec::new();
        let mut notes = Vec::new();
        for place in of_kind(1) {
            let name = self.str(place)?;
            let value = self.str(place + 1)?;
            tag_order.push(name.clone());
            if name == "Note" {
                notes.push((place, value));
            } else if !MODELLED.contains(&name.as_str()) {
                extra_tags.push((name, value));
            }
        }

        let mut directives = Vec::new();
        for place in of_kind(3) {
            let after = self.entry(place)[3] as usize;
            directives.push(Directive {
                text: self.str(place)?,
                after_tag: after.checked_sub(1).map(|tag| tag_order[tag].clone()),
            });
        }
        let mut commentary = Vec::new();
        let mut commentary_anchors = Vec::new();
        for place in of_kind(4) {
            commentary.push(self.str(place)?.replace("\r\n", "\n"));
            commentary_anchors.push(self.entry(place)[3] as usize);
        }

        let mut names = PlayerNames::new();
        let mut any_name = false;
        for (seat, word) in DIRECTIONS.into_iter().zip(44..) {
            if let Some(name) = named(word)? {
                names.set(seat, name);
                any_name = true;
            }
        }

        let mut table = DdTable::new();
        for cell in 0..20 {
            table.set(SEATS[cell / 5], STRAINS[cell % 5], card[18 + cell] as u8);
        }

        Ok(Board {
            number: (card[2] == 1).then_some(card[3]),
            board_id: named(39)?,
            dealer: seat(card[4]),
            vulnerable: [
                Vulnerability::None,
                Vulnerability::NorthSouth,
                Vulnerability::EastWest,
                Vulnerability::Both,
            ][card[5] as usize],
            deal: Deal {
                hands: std::array::from_fn(|seat| hand(card, seat)),
            },
            unparsed_deal: named(48)?,
            event: named(40)?,
            site: named(41)?,
            date: named(42)?,
            player_names: any_name.then_some(names),
            declarer: seat(card[6]),
            contract: named(43)?,
            result: (card[7] == 1).then_some((card[8] as i32 - 128) as i8),
            auction: self.auction(card, &notes)?,
            play: self.play(card),
            double_dummy_tricks: (card[38] != 0).then_some(table),
            optimum_score: named(49)?,
            par_contract: named(50)?,
            extra_tags,
            tag_order,
            directives,
            commentary,
            commentary_anchors,
        })
    }

    fn auction(&self, card: &[u32], notes: &[(usize, String)]) -> Result<Option<Auction>, String> {
        let (Some(first), Some(dealer)) = ((card[51] as usize).checked_sub(1), seat(card[53]))
        else {
            return Ok(None);
        };
        let mut auction = Auction::new(dealer);
        auction.end = end(card[54]);
        for place in first..first + card[52] as usize {
            let entry = self.entry(place);
            if entry[0] == 6 {
                auction.calls.push(AnnotatedCall {
                    call: call(entry[3]),
                    annotation: None,
                });
            } else {
                let last = auction.calls.last_mut().expect("a call comes first");
                let annotation = last.annotation.get_or_insert_with(String::new);
                annotation.push_str(&self.str(place)?);
            }
        }
        for (place, value) in notes {
            if *place < first {
                continue;
            }
            if let Some((number, text)) = value.split_once(':') {
                if let Ok(number) = number.trim().parse::<u8>() {
                    auction.add_note(number, text.to_string());
                }
            }
        }
        Ok(Some(auction))
    }

    fn play(&self, card: &[u32]) -> Option<PlaySequence> {
        let first = (card[55] as usize).checked_sub(1)?;
        let mut play = PlaySequence::new(seat(card[57])?, suit(card[59]));
        play.end = end(card[58]);
        for place in first..first + card[56] as usize {
            let entry = self.entry(place);
            let mut trick = Trick::new(seat(entry[1])?);
            trick.winner = seat(entry[2]);
            for (slot, number) in entry[3].to_le_bytes().into_iter().enumerate() {
                if number < 52 {
                    let rank = RANKS[usize::from(number % 13)];
                    let rank = Rank::from_char(rank).expect("a rank");
                    let card = Card::new(SUITS[usize::from(number / 13)], rank);
                    trick.cards[slot] = Some(card);
                }
            }
            trick.lead_suit = trick.cards[0].map(|card| card.suit);
            play.tricks.push(trick);
        }
        Some(play)
    }
}

fn hand(card: &[u32], seat: usize) -> Hand {
    Hand::of_bits(u64::from(card[10 + 2 * seat]) | u64::from(card[11 + 2 * seat]) << 32)
}

fn seat(number: u32) -> Option<Direction> {
    DIRECTIONS.get(number as usize).copied()
}

fn suit(number: u32) -> Option<Suit> {
    SUITS.get(number as usize).copied()
}

fn end(number: u32) -> SectionEnd {
    match number {
        0 => SectionEnd::Unmarked,
        1 => SectionEnd::Continued,
        _ => SectionEnd::Ended,
    }
}

fn call(code: u32) -> Call {
    match code {
        0 => Call::Pass,
        36 => Call::Double,
        37 => Call::Redouble,
        38 => Call::Continue,
        39.. => Call::Blank((code - 38) as u8),
        _ => {
            let strain = [
                Strain::Clubs,
                Strain::Diamonds,
                Strain::Hearts,
                Strain::Spades,
                Strain::NoTrump,
            ][(code - 1) as usize % 5];
            Call::Bid(((code - 1) / 5 + 1) as u8, strain)
        }
    }
}

/// The first field in which two boards differ, with both values.
pub fn field_that_differs(rust: &Board, seen: &Board) -> Option<(&'static str, String, String)> {
    macro_rules! fields {
        ($($field:ident)*) => {
            // Every field is listed: this fails to compile if one is not.
            let Board { $($field: _),* } = rust;
            $(
                if rust.$field != seen.$field {
                    let shown = (format!("{:?}", rust.$field), format!("{:?}", seen.$field));
                    return Some((stringify!($field), shown.0, shown.1));
                }
            )*
        };
    }
    fields!(
        tag_order number board_id dealer vulnerable deal unparsed_deal event site date
        player_names declarer contract result auction play double_dummy_tricks optimum_score
        par_contract extra_tags directives commentary commentary_anchors
    );
    None
}
