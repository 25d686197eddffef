//! An edition written as docs/FORMAT.md, section 14, says, in plain Rust of its
//! own: from the words of a reading and the bytes they name.
//!
//! It judges texts outside the domain. Inside it the page must be that of the
//! unchanged `write_pbn`, with each directive written once (`once.rs`).

use crate::model::trim;
use crate::plan::model::hands;
use crate::read::judge::MODELLED;
use crate::read::model::{number, Reading, CARD, ENTRY, RANKS};
use std::collections::{BTreeMap, HashMap, HashSet};

pub const HEADER: &[u8] = b"% PBN 2.1\n% EXPORT\n\n";
pub const SEATS: &[u8; 4] = b"NESW";
const SUITS: &[u8; 4] = b"CDHS";
const STRAINS: [&str; 5] = ["C", "D", "H", "S", "NT"];
const ENDS: [&[u8]; 3] = [b"", b"+", b"*"];

/// The page of an edition, whatever its length.
pub fn write(text: &[u8], reading: &Reading) -> Vec<u8> {
    let mut page = Vec::new();
    pieces(text, reading, &mut |piece| page.extend_from_slice(piece));
    page
}

/// The bytes needed for it.
pub fn need(text: &[u8], reading: &Reading) -> u64 {
    let mut need = 0;
    pieces(text, reading, &mut |piece| need += piece.len() as u64);
    need
}

/// Gives the page piece by piece.
fn pieces(text: &[u8], reading: &Reading, put: &mut dyn FnMut(&[u8])) {
    let boards = reading.cards.chunks(CARD);
    for (index, card) in boards.enumerate() {
        let board = Board::new(text, card, &reading.entries);
        let header = board.has_header();
        match (index, header) {
            (0, false) => put(HEADER),
            (0, true) => {}
            _ => put(b"\n"),
        }
        board.write(index == 0 && header, put);
    }
    if reading.boards() == 0 {
        put(HEADER);
    }
}

/// A directive or commentary block, and how many tags stand before it.
pub struct Remark<'a> {
    pub tags: usize,
    pub bytes: &'a [u8],
}

pub struct Tag<'a> {
    pub name: &'a [u8],
    pub value: &'a [u8],
    /// The place of its name's entry.
    place: usize,
}

/// A tag to be written.
pub struct Written<'a> {
    pub name: &'a [u8],
    pub value: Vec<u8>,
    data: Vec<Vec<u8>>,
}

pub struct Board<'a> {
    text: &'a [u8],
    card: &'a [u32],
    entries: &'a [u32],
    pub tags: Vec<Tag<'a>>,
    pub directives: Vec<Remark<'a>>,
    pub blocks: Vec<Remark<'a>>,
}

/// The remarks at one place.
#[derive(Default)]
struct Placed<'a> {
    directives: Vec<&'a [u8]>,
    blocks: Vec<&'a [u8]>,
}

/// Where among a board's written tags the first of each name stands, and the first of
/// each name and value.
pub struct Firsts<'w> {
    names: HashMap<&'w [u8], usize>,
    tags: HashMap<[&'w [u8]; 2], usize>,
}

impl<'w> Firsts<'w> {
    pub fn of(written: impl Iterator<Item = [&'w [u8]; 2]>) -> Self {
        let (mut names, mut tags) = (HashMap::new(), HashMap::new());
        for (at, tag) in written.enumerate() {
            names.entry(tag[0]).or_insert(at);
            tags.entry(tag).or_insert(at);
        }
        Firsts { names, tags }
    }

    /// The written tag that a directive follows, by the tag it was anchored to.
    pub fn directive(&self, anchor: &Tag) -> Option<usize> {
        let same = self.tags.get(&[anchor.name, anchor.value]).copied();
        same.or_else(|| self.block(anchor))
    }

    /// The same of a block.
    pub fn block(&self, anchor: &Tag) -> Option<usize> {
        self.names.get(anchor.name).copied()
    }
}

impl<'a> Board<'a> {
    pub fn new(text: &'a [u8], card: &'a [u32], entries: &'a [u32]) -> Self {
        let mut board = Board {
            text,
            card,
            entries,
            tags: Vec::new(),
            directives: Vec::new(),
            blocks: Vec::new(),
        };
        let first = card[0] as usize;
        for place in first..first + card[1] as usize {
            let bytes = || board.bytes(place);
            let tags = board.entry(place)[3] as usize;
            match board.entry(place)[0] {
                1 => {
                    let (name, value) = (bytes(), board.bytes(place + 1));
                    board.tags.push(Tag { name, value, place });
                }
                3 => {
                    let bytes = bytes();
                    board.directives.push(Remark { tags, bytes });
                }
                4 => {
                    let bytes = bytes();
                    board.blocks.push(Remark { tags, bytes });
                }
                _ => {}
            }
        }
        board
    }

    /// Whether it has directives before its first tag.
    pub fn has_header(&self) -> bool {
        self.directives.iter().any(|remark| remark.tags == 0)
    }

    fn entry(&self, place: usize) -> &'a [u32] {
        &self.entries[place * ENTRY..][..ENTRY]
    }

    fn bytes(&self, place: usize) -> &'a [u8] {
        let entry = self.entry(place);
        &self.text[entry[1] as usize..][..entry[2] as usize]
    }

    /// The tag that a remark is anchored to.
    pub fn anchor(&self, remark: &Remark) -> Option<&Tag<'a>> {
        let last = remark.tags.checked_sub(1)?;
        Some(&self.tags[last])
    }

    fn write(&self, blank_after_header: bool, put: &mut dyn FnMut(&[u8])) {
        let tags = self.written();
        let [before, after @ .., end] = &self.placed(&tags)[..] else {
            unreachable!("two more than there are tags");
        };
        write_directives(&before.directives, put);
        if blank_after_header {
            put(b"\n");
        }
        write_blocks(&before.blocks, put);
        for (tag, remarks) in tags.iter().zip(after) {
            for part in [b"[", tag.name, b" \"", &tag.value, b"\"]\n"] {
                put(part);
            }
            for line in &tag.data {
                put(line);
                put(b"\n");
            }
            write_directives(&remarks.directives, put);
            write_blocks(&remarks.blocks, put);
        }
        write_blocks(&end.blocks, put);
        write_directives(&end.directives, put);
    }

    /// The remarks before every tag; those after each written tag; and those at the
    /// board's end.
    fn placed(&self, written: &[Written<'a>]) -> Vec<Placed<'a>> {
        let firsts = Firsts::of(written.iter().map(|tag| [tag.name, &tag.value]));
        let mut placed: Vec<Placed> = Vec::new();
        placed.resize_with(written.len() + 2, Placed::default);
        let place = |at: Option<Option<usize>>| match at {
            Some(tag) => 1 + tag.unwrap_or(written.len()),
            None => 0,
        };
        for remark in &self.directives {
            let at = self.anchor(remark).map(|tag| firsts.directive(tag));
            placed[place(at)].directives.push(remark.bytes);
        }
        for remark in &self.blocks {
            let at = self.anchor(remark).map(|tag| firsts.block(tag));
            placed[place(at)].blocks.push(remark.bytes);
        }
        placed
    }

    /// The tags that are written, in their order.
    pub fn written(&self) -> Vec<Written<'a>> {
        let card = self.card;
        let mut all = Vec::new();
        let mut tag = |name: &'a [u8], value: Vec<u8>, data: Vec<Vec<u8>>| {
            all.push(Written { name, value, data })
        };
        let value = |word: usize| match card[word] as usize {
            0 => Vec::new(),
            place => self.bytes(place - 1).to_vec(),
        };
        let letter = |seat: u32| SEATS.get(seat as usize).map_or(vec![], |l| vec![*l]);
        let none = Vec::new;

        tag(b"Event", value(40), none());
        tag(b"Site", value(41), none());
        tag(b"Date", value(42), none());
        if card[39] > 0 {
            tag(b"Board", value(39), none());
        }
        tag(b"West", value(47), none());
        tag(b"North", value(44), none());
        tag(b"East", value(45), none());
        tag(b"South", value(46), none());
        if card[4] < 4 {
            tag(b"Dealer", letter(card[4]), none());
        }
        let word: &[u8] = [&b"None"[..], b"NS", b"EW", b"All"][card[5] as usize];
        tag(b"Vulnerable", word.to_vec(), none());
        let (early, late) = self.supplemental();
        for early in early {
            tag(early.name, early.value.to_vec(), none());
        }
        if card[48] > 0 {
            tag(b"Deal", value(48), none());
        } else {
            tag(b"Deal", self.deal(), none());
        }
        let scoring = self.tags.iter().find(|tag| tag.name == b"Scoring");
        tag(
            b"Scoring",
            scoring.map_or(&[][..], |tag| tag.value).to_vec(),
            none(),
        );
        tag(b"Declarer", letter(card[6]), none());
        tag(b"Contract", value(43), none());
        let result = (card[7] == 1).then(|| (i64::from(card[8]) - 128).to_string());
        tag(b"Result", result.unwrap_or_default().into_bytes(), none());
        if card[38] > 0 {
            let digits = card[18..38]
                .iter()
                .map(|cell| b"0123456789abcd"[*cell as usize]);
            tag(b"DoubleDummyTricks", digits.collect(), none());
        }
        if card[49] > 0 {
            tag(b"OptimumScore", value(49), none());
        }
        if card[50] > 0 {
            tag(b"ParContract", value(50), none());
        }
        for late in late {
            tag(late.name, late.value.to_vec(), none());
        }
        if card[51] > 0 {
            tag(b"Auction", letter(card[53]), self.auction());
            for (number, text) in self.notes() {
                let value = [number.to_string().as_bytes(), b":", text].concat();
                tag(b"Note", value, none());
            }
        }
        if card[55] > 0 {
            tag(b"Play", letter(card[57]), self.play());
        }
        all
    }

    /// The first supplemental tag of each name but Scoring: those with one ahead
    /// of the first Deal tag, and the others.
    fn supplemental(&self) -> (Vec<&Tag<'a>>, Vec<&Tag<'a>>) {
        let deal = self.tags.iter().position(|tag| tag.name == b"Deal");
        let mut met: HashSet<&[u8]> = HashSet::new();
        let (mut early, mut late) = (Vec::new(), Vec::new());
        for (at, tag) in self.tags.iter().enumerate() {
            let modelled = MODELLED.iter().any(|name| name.as_bytes() == tag.name);
            if !modelled && tag.name != b"Scoring" && met.insert(tag.name) {
                let ahead = deal.is_some_and(|deal| at < deal);
                (if ahead { &mut early } else { &mut late }).push(tag);
            }
        }
        (early, late)
    }

    fn deal(&self) -> Vec<u8> {
        let dealer = self.card[4] as usize;
        deal(if dealer < 4 { dealer } else { 0 }, hands(self.card))
    }

    fn auction(&self) -> Vec<Vec<u8>> {
        let first = self.card[51] as usize - 1;
        let mut calls: Vec<Vec<u8>> = Vec::new();
        let mut last = None;
        for place in first..first + self.card[52] as usize {
            let entry = self.entry(place);
            if entry[0] == 6 {
                last = Some(entry[3]);
                calls.push(call(entry[3]).into_bytes());
            } else {
                let call = calls.last_mut().expect("a call comes first");
                call.extend_from_slice(self.bytes(place));
            }
        }
        let mut lines: Vec<Vec<u8>> = calls.chunks(4).map(|round| round.join(&b' ')).collect();
        if last != Some(38) {
            lines.extend(end(self.card[54]));
        }
        lines
    }

    /// The notes of the auction in force, by number.
    fn notes(&self) -> BTreeMap<u64, &'a [u8]> {
        let first = self.card[51] as usize - 1;
        let mut notes = BTreeMap::new();
        for tag in self.tags.iter().filter(|tag| tag.place >= first) {
            if tag.name != b"Note" {
                continue;
            }
            let colon = tag.value.iter().position(|b| *b == b':');
            let front = colon.map(|colon| trim(&tag.value[..colon]));
            if let (Some(colon), Some(number)) = (colon, front.and_then(|f| number(f, 255))) {
                notes.insert(number, &tag.value[colon + 1..]);
            }
        }
        notes
    }

    fn play(&self) -> Vec<Vec<u8>> {
        let first = self.card[55] as usize - 1;
        let mut lines = Vec::new();
        for place in first..first + self.card[56] as usize {
            let slots = self.entry(place)[3].to_le_bytes();
            let cards = slots.iter().filter(|card| **card < 52);
            let cards: Vec<[u8; 2]> = cards.map(|number| card((*number).into())).collect();
            if !cards.is_empty() {
                lines.push(cards.join(&b' '));
            }
        }
        lines.extend(end(self.card[58]));
        lines
    }
}

/// The deal, `first` seat's hand first.
pub fn deal(first: usize, hands: [u64; 4]) -> Vec<u8> {
    let mut value = vec![SEATS[first], b':'];
    for i in 0..4 {
        if i > 0 {
            value.push(b' ');
        }
        let hand = hands[(first + i) % 4];
        if hand == 0 {
            value.push(b'-');
            continue;
        }
        for bit in (0..52).rev() {
            if hand >> bit & 1 == 1 {
                value.push(RANKS[bit % 13]);
            }
            // After the lowest card of a suit, but for the last suit.
            if bit % 13 == 0 && bit > 0 {
                value.push(b'.');
            }
        }
    }
    value
}

/// A card as a word.
pub fn card(number: usize) -> [u8; 2] {
    [SUITS[number / 13], RANKS[number % 13]]
}

/// A call as a word, by its code.
pub fn call(code: u32) -> String {
    match code {
        0 => "Pass".to_string(),
        1..=35 => {
            let (level, strain) = ((code - 1) / 5 + 1, STRAINS[(code - 1) as usize % 5]);
            format!("{level}{strain}")
        }
        36 => "X".to_string(),
        37 => "XX".to_string(),
        38 => "+".to_string(),
        _ => "_".repeat(code as usize - 38),
    }
}

/// The line that ends a section, if there is one.
fn end(number: u32) -> Option<Vec<u8>> {
    (number > 0).then(|| ENDS[number as usize].to_vec())
}

fn write_directives(directives: &[&[u8]], put: &mut dyn FnMut(&[u8])) {
    for directive in directives {
        put(directive);
        put(b"\n");
    }
}

fn write_blocks(blocks: &[&[u8]], put: &mut dyn FnMut(&[u8])) {
    for block in blocks {
        put(b"{");
        put(&block_value(block));
        put(b"}\n");
    }
}

/// What stood between a block's braces, without one CR before each LF.
pub fn block_value(bytes: &[u8]) -> Vec<u8> {
    let mut value = Vec::with_capacity(bytes.len());
    for line in bytes.split_inclusive(|b| *b == b'\n') {
        let line = match line.strip_suffix(b"\r\n") {
            Some(line) => [line, b"\n"].concat(),
            None => line.to_vec(),
        };
        value.extend(line);
    }
    value
}
