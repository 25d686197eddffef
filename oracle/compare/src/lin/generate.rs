//! The LIN texts that are compared: all that are short, over small alphabets;
//! records and files as they are met; damaged copies of these.

use super::chosen;
use crate::read::generate::{all_of, move_parts, put_outside, Group, Out, RANKS};
use crate::rng::Rng;

const GROUPS: [Group; 15] = [
    ("LIN: chosen texts", chosen_texts),
    ("LIN: all short, bytes", short_bytes),
    ("LIN: all short, pieces", short_pieces),
    ("LIN: all short, pairs", short_pairs),
    ("LIN: all short, deals", short_deals),
    ("LIN: all short, calls", short_calls),
    ("LIN: all short, auctions", short_auctions),
    ("LIN: all short, plays", short_plays),
    ("LIN: values in every command", values),
    ("LIN: records", records),
    ("LIN: files", files),
    ("LIN: damaged", damaged),
    ("LIN: random bytes", random),
    ("LIN: outside the domain", outside),
    ("LIN: long texts", long),
];

/// Gives every text to `give`, which says whether it wants more.
pub fn all(seed: u64, give: &mut dyn FnMut(&'static str, &[u8]) -> bool) {
    all_of(&GROUPS, seed ^ 0x4c49_4e00, give);
}

fn chosen_texts(rng: &mut Rng, out: &mut Out) {
    let written_out = chosen::cases().into_iter().map(|(text, _)| text);
    let others = chosen::TEXTS.iter().map(|text| text.as_bytes().to_vec());
    for text in written_out.chain(others) {
        out.text(&text);
        out.text(&text.to_ascii_uppercase());
        out.text(&text.to_ascii_lowercase());
        for end in 0..text.len() {
            out.text(&text[..end]);
            out.text(&text[end..]);
        }
        for other in ["md|1HA|", "qx|o|md|1HA|", "hello", "|", "\n"] {
            out.text(&[&text[..], b"\n", other.as_bytes()].concat());
            out.text(&[other.as_bytes(), b"\n", &text[..]].concat());
            out.text(&[other.as_bytes(), &text[..]].concat());
        }
        for _ in 0..20 {
            let mut text = text.clone();
            damage(rng, &mut text);
            out.text(&text);
        }
    }
}

// ---- All short texts ----

/// Every sequence of these, alone and after the deal of a board.
fn short_bytes(_: &mut Rng, out: &mut Out) {
    let bytes = [
        "m", "d", "|", "3", "S", "A", ",", "\n", "q", "x", "b", "p", "c", "1", "N", "!",
    ];
    out.sequences("", &bytes, "", "", 4);
    out.sequences("md|3SA|", &bytes, "", "", 3);
    out.sequences("md|3SA|mb|1N|", &bytes[..14], "", "|SA|", 3);
    out.sequences("md|", &["3", "S", "A", ",", "\n", " ", "K", "|"], "", "", 6);
}

fn short_pieces(_: &mut Rng, out: &mut Out) {
    let pieces = [
        "md", "|", "3SA", "1HK", "\n", "qx", "mb|1C", "pc|D2", "mn|", " ",
    ];
    out.sequences("", &pieces, "", "", 5);
    out.sequences("md|3SA|", &pieces, "", "", 4);
}

fn short_pairs(_: &mut Rng, out: &mut Out) {
    let pairs = [
        "qx|o1|", "mn|t|", "pn|a,b|", "md|3SA|", "md|1HA|", "md|0SK|", "\n", "mb|1C|", "mb|d|",
        "pc|S2|", "sv|n|",
    ];
    out.sequences("", &pairs, "", "", 5);
    out.sequences("qx||md|1HK|", &pairs[..7], "", "", 5);
}

fn short_deals(_: &mut Rng, out: &mut Out) {
    let letters = ["S", "h", "A", "2", "t", ",", " ", "x", "1"];
    out.sequences("md|1", &letters, "", "|", 5);
    let three = "md|2SAKQJT98765432,HAKQJT98765432,DAKQJT98765432";
    out.sequences(three, &[",", " ", "x", "C", "2", "D", "\t"], "", "|", 5);
    let cards = "md|4SAKQJT9876543,HAKQJT9876543,DAKQJT9876543";
    for places in 0..27 {
        // The thirteenth card of none, one or several of the three hands.
        let last = ["", "2", "A"];
        let [a, b, c] = [places % 3, places / 3 % 3, places / 9].map(|at: usize| last[at]);
        let text = cards.replace("3,H", &format!("3{a},H"));
        let text = text.replace("3,D", &format!("3{b},D"));
        out.text(format!("{text}{c}|").as_bytes());
        out.text(format!("{text}{c}, ,CA|").as_bytes());
    }
}

fn short_calls(_: &mut Rng, out: &mut Out) {
    let letters = [
        "1", "7", "8", "N", "T", "c", "p", "X", "d", "R", "-", "+", "_", "!", " ",
    ];
    out.sequences("md|3SA|mb|1S|mb|", &letters, "", "|", 4);
    out.sequences("md|3SA|mb|", &letters, "", "", 3);
    out.sequences("qx||md|3SA|mb|", &letters, "", "", 3);
    out.sequences("md|3SA|mb|", &["_", "!"], "", "|pc|SA|", 10);
    for level in 0..10 {
        for strain in ["c", "D", "h", "S", "n", "NT", "nT", "X", ""] {
            for tail in ["", "!", "x", " "] {
                out.text(format!("md|3SA|mb|{level}{strain}{tail}|pc|D2|").as_bytes());
            }
        }
    }
    for word in [
        "pass", "PASS", "Pas", "passs", "ap", "AP", "xx", "xxx", "dd", "rr", "dbl",
    ] {
        out.text(format!("md|3SA|mb|2D|mb|{word}|mb|3D|pc|D2|").as_bytes());
    }
}

fn short_auctions(_: &mut Rng, out: &mut Out) {
    let calls = ["p", "d", "r", "1C", "2C", "1D", "3N", "?", "+"];
    for dealer in ["1", "2", "3", "4"] {
        let before = format!("md|{dealer}SA|mb|");
        out.sequences(&before, &calls, "|mb|", "|pc|D2|pc|S2|", 4);
    }
    out.sequences("md|3SA|mb|", &["1C", "1D", "p"], "|mb|", "|", 7);
}

fn short_plays(_: &mut Rng, out: &mut Out) {
    let cards = ["S2", "SA", "h3", "D2", "s", "SA!"];
    for auction in ["1N", "p|mb|1S", "p|mb|p|mb|3H", "2D|mb|p|mb|3D", "p"] {
        let before = format!("md|3SA|mb|{auction}|pc|");
        out.sequences(&before, &cards, "|pc|", "|", 5);
    }
    out.sequences("md|1SA|mb|1H|pc|", &["D2", "D3", "H2"], "|pc|", "|", 9);
    out.sequences(
        "md|3SA|mb|1N|pc|",
        &["S", "A", "1", "0", "!", " ", "c"],
        "",
        "|",
        4,
    );
}

const COMMANDS: [&str; 22] = [
    "md", "MD", " md ", "mdx", "m d", "sv", "Sv", "mb", "MB", "pc", "Pc", "qx", "QX", "mn", "pn",
    "an", "ah", "mc", "nt", "st", "", "\u{e9}",
];

const VALUES: [&str; 47] = [
    "",
    " ",
    "3SA",
    "1SKQ,HA,D2,C2",
    " 2sa2 ",
    "0SA",
    "5SA",
    "4",
    "3S",
    "3SAHA,SA",
    "n",
    "NS",
    "ns ",
    "ew",
    "E",
    "b",
    "both",
    "ALL",
    "o",
    "0",
    "-",
    "love",
    "p",
    "d",
    "R!",
    "1C",
    "1N!!",
    "7nt",
    " 1C",
    "1C ",
    "1C\r",
    "+",
    "_",
    "SA",
    " d5 ",
    "s10",
    "SA!",
    "!SA",
    "S",
    "o1,BOARD 1",
    "Board+7",
    "a\nb",
    "caf\u{e9}",
    "\u{3a9}A",
    // Characters that fold to ASCII letters, but not here.
    "n\u{17f}",
    "3S\u{212a}A\u{17f}2",
    "\u{17f}A",
];

fn values(_: &mut Rng, out: &mut Out) {
    for command in COMMANDS {
        for value in VALUES {
            let pair = format!("{command}|{value}|");
            out.text(pair.as_bytes());
            out.text(format!("md|3SA|{pair}").as_bytes());
            out.text(format!("{pair}md|3SA|").as_bytes());
            out.text(format!("md|3SA|mb|1C|{command}|{value}").as_bytes());
            out.text(format!("qx||md|3SA|mb|1C|pc|D2|{pair}mb|2C|pc|S2|").as_bytes());
            for other in VALUES {
                out.text(format!("md|4HA|mb|1S|{pair}{command}|{other}|").as_bytes());
            }
        }
    }
}

// ---- Records ----

/// A hand as LIN writes it, of cards 0 to 51 from the ace of spades.
fn hand(cards: &[usize]) -> String {
    let mut text = String::new();
    for (suit, letter) in ["S", "H", "D", "C"].into_iter().enumerate() {
        text += letter;
        let of_suit = cards.iter().filter(|card| **card / 13 == suit);
        text.extend(of_suit.map(|card| RANKS[card % 13] as char));
    }
    text
}

fn pack(rng: &mut Rng) -> Vec<usize> {
    let mut pack: Vec<usize> = (0..52).collect();
    rng.shuffle(&mut pack);
    pack
}

/// An `md` value: three hands or four, whole or not, and few with a card twice.
fn deal(rng: &mut Rng) -> String {
    let mut pack = pack(rng);
    if rng.once_in(40) {
        pack[rng.below(52)] = rng.below(52);
    }
    let hands: Vec<String> = pack
        .chunks(13)
        .map(|cards| match rng.below(12) {
            0 => String::new(),
            1 => hand(&cards[..rng.below(14)]),
            2 => hand(cards).to_lowercase(),
            _ => {
                let mut cards = cards.to_vec();
                cards.sort();
                hand(&cards)
            }
        })
        .collect();
    let given = [3, 3, 3, 4, 4, 2][rng.below(6)];
    let mut text = rng
        .pick(&["1", "2", "3", "4", "3", "1", "0", "5"])
        .to_string();
    if !rng.once_in(8) {
        text = (1 + rng.below(4)).to_string();
    }
    text += &hands[..given].join(",");
    text + rng.pick(&["", "", "", ",", ", ", ",,", ",x"])
}

const CALLS: [&str; 30] = [
    "p", "p", "p", "p", "P", "d", "r", "D", "R", "1C", "1D", "1h", "1S", "1N", "1NT", "2c", "2D",
    "2H", "3S!", "3N", "4H", "4S", "5C!", "6N", "7nt!!", "p!", "x", "xx", "-", "pass",
];
const ODD_CALLS: [&str; 12] = [
    "", "!", " 1C", "1C ", "zz", "8N", "+", "_", "__", "ap", "?", "1C!x",
];

fn call(rng: &mut Rng) -> &'static str {
    if rng.once_in(20) {
        rng.pick(&ODD_CALLS)
    } else {
        rng.pick(&CALLS)
    }
}

fn card(rng: &mut Rng, number: usize) -> String {
    let suit = b"SHDC"[number / 13] as char;
    let text = format!("{suit}{}", RANKS[number % 13] as char);
    match rng.below(40) {
        0 => text.to_lowercase(),
        1 => format!(" {text} "),
        2 => format!("{text}!"),
        3 => suit.to_string(),
        _ => text,
    }
}

/// The pairs of an auction, with some annotations.
fn auction(rng: &mut Rng, most: usize, end: &str) -> String {
    let mut text = String::new();
    for _ in 0..rng.below(most + 1) {
        text += &format!("mb|{}|", call(rng));
        if rng.once_in(6) {
            text += rng.pick(&["an|5+ hearts|", "an||", "an|mb, forcing|", "nt|a word|"]);
        }
        if rng.once_in(10) {
            text += end;
        }
    }
    text
}

/// The pairs of a play.
fn play(rng: &mut Rng, end: &str) -> String {
    let most = [0, 1, 3, 4, 5, 9, 20, 52][rng.below(8)];
    let mut text = String::new();
    for (at, number) in pack(rng)[..most].iter().enumerate() {
        text += &format!("pc|{}|", card(rng, *number));
        if at % 4 == 3 && rng.once_in(2) {
            text += "pg||";
            text += end;
        }
    }
    text
}

/// The pairs of a board, without its `qx`.
fn body(rng: &mut Rng, end: &str) -> String {
    let mut text = String::new();
    if !rng.once_in(12) {
        text += &format!("md|{}|", deal(rng));
    }
    if rng.once_in(10) {
        text += &format!("md|{}|", deal(rng));
    }
    if !rng.once_in(6) {
        let value = rng.pick(&["o", "n", "e", "b", "0", "", "NS", "ew", "All", " b ", "x"]);
        text += &format!("{}|{value}|", rng.pick(&["sv", "sv", "SV", " sv"]));
    }
    text += rng.pick(&["", "", "ah|Board 1|", "rh||ah|Board 12|", "pg||", "mn|x|"]);
    text += end;
    text += &auction(rng, 14, end);
    text += rng.pick(&["", "pg||", "nt|a | b|", "up|2|"]);
    text += &play(rng, end);
    if rng.once_in(3) {
        text += &format!("mc|{}|", rng.below(14));
    }
    text
}

/// A record on one line, as BBO writes it.
fn record(rng: &mut Rng) -> String {
    let names = rng.pick(&["pn|south,west,north,east|", "pn|a,b,c,d|", "pn||", ""]);
    let start = rng.pick(&["", "st||", "rh||", "vg|x|", "lin|"]);
    let mut text = format!("{names}{start}{}", body(rng, ""));
    if rng.once_in(6) {
        text = text.trim_end_matches('|').to_string();
    }
    text + rng.pick(&["\n", "\n", "\r\n", "\n\n", " \n", ""])
}

fn records(rng: &mut Rng, out: &mut Out) {
    for _ in 0..120_000 {
        let count = [1, 1, 1, 2, 3, 5][rng.below(6)];
        let mut text: String = (0..count).map(|_| record(rng)).collect();
        if rng.once_in(20) {
            text += rng.pick(&["hello\n", "%\n", "\t\n", "|\n", "md|\n"]);
        }
        out.text(text.as_bytes());
    }
}

/// A board of a file with `qx`.
fn board(rng: &mut Rng, number: usize) -> String {
    let end = rng.pick(&["\n", "\n", "\r\n", "", " "]);
    let title = rng.pick(&["", "", "mn|Club game|", "mn||"]);
    let names = rng.pick(&["", "pn|a,b,c,d|", "pn|a,b,c,d|\n", "pn||mn|t|"]);
    let command = rng.pick(&["qx", "qx", "qx", "QX", "\nqx", "qy"]);
    let room = rng.pick(&["o", "c"]);
    let body = body(rng, end);
    format!("{title}{names}{command}|{room}{number},BOARD {number}|{body}{end}")
}

fn file(rng: &mut Rng) -> String {
    let mut text = rng
        .pick(&[
            "",
            "",
            "vg|Teams,1|\nrs|4HW=|\npw|a,b|\n",
            "% file\n",
            "md|3SA|",
            "bn|1|",
        ])
        .to_string();
    for number in 0..[1, 1, 2, 3, 4][rng.below(5)] {
        text += &board(rng, number + 1);
    }
    text
}

fn files(rng: &mut Rng, out: &mut Out) {
    for _ in 0..120_000 {
        let text = file(rng);
        out.text(text.as_bytes());
    }
}

/// A change or a few of them: bytes, pairs and lines.
fn damage(rng: &mut Rng, text: &mut Vec<u8>) {
    const BYTES: &[u8] = b"||||,,\n\r \t!SHDCAKT239mdqxpbcsvn014Xr+_";
    for _ in 0..1 + rng.below(3) {
        if text.is_empty() {
            return;
        }
        let at = rng.below(text.len());
        let byte = BYTES[rng.below(BYTES.len())];
        match rng.below(9) {
            0 | 1 => text[at] = byte,
            2 => {
                text.remove(at);
            }
            3 | 4 => text.insert(at, byte),
            5 => text.truncate(at),
            6 => move_parts(rng, text, b'\n'),
            _ => move_parts(rng, text, b'|'),
        }
    }
}

fn damaged(rng: &mut Rng, out: &mut Out) {
    let mut source = Vec::new();
    for i in 0..300_000 {
        if i % 6 == 0 {
            let text = if rng.once_in(2) {
                file(rng)
            } else {
                record(rng) + &record(rng)
            };
            source = text.into_bytes();
        }
        let mut text = source.clone();
        damage(rng, &mut text);
        out.text(&text);
    }
}

fn random(rng: &mut Rng, out: &mut Out) {
    const BYTES: &[u8] = b"mdqxpbcsvn||||||3311SHDCAKT92,,,\n !";
    for _ in 0..60_000 {
        let bytes = (0..rng.below(60)).map(|_| BYTES[rng.below(BYTES.len())]);
        let text: Vec<u8> = bytes.collect();
        out.text(&text);
        out.text(&[b"md|3SA|mb|1N|", &text[..]].concat());
    }
    for _ in 0..20_000 {
        let text: Vec<u8> = (0..rng.below(80)).map(|_| rng.byte()).collect();
        out.text(&text);
        out.text(&[b"md|3S", &text[..], b"A|mb|1N|pc|D2|"].concat());
    }
}

// ---- Outside the domain ----

/// The byte where characters count, and where they do not.
fn texts_with_byte(byte: u8) -> Vec<Vec<u8>> {
    let places = [
        "md|#3SA|",
        "md|3#SA|",
        "md|3S#A|",
        "md|3SA#|md|0#",
        "md|3SA,#HA|",
        "md|3SA#,HA|",
        "md|3SAK#Q#J|",
        "md#|3SA|",
        "#md|3SA|",
        "md|#3SA|\nmd|3SA|",
        "md|3SA|#\nmb|1C|",
        "md|3SA|sv|n#|sv#|e|",
        "md|3SA|mb|1C#|mb|1D!#|mb|1H#!|",
        "md|3SA|mb|1N|pc|D#2|pc|D2#|pc|#D2|pc|D3|",
        "qx#|o|md|3SA|",
        "qx|#|md|3SA|mn#||qx||md|1HA|",
        "md|1SAKQJT98765432,HAKQJT98765432,DAKQJT98765432,#|",
    ];
    let with = |place: &str| {
        place
            .bytes()
            .map(|b| if b == b'#' { byte } else { b })
            .collect()
    };
    places.map(with).to_vec()
}

fn record_outside(rng: &mut Rng) -> Vec<u8> {
    let mut text = if rng.once_in(2) {
        file(rng)
    } else {
        record(rng)
    }
    .into_bytes();
    put_outside(rng, &mut text);
    text
}

fn outside(rng: &mut Rng, out: &mut Out) {
    for byte in 0..=255 {
        for text in texts_with_byte(byte) {
            out.text(&text);
        }
    }
    let bytes = ["|", "3", "S", "A", ",", "\u{e9}", "\n"];
    // Two bytes, of which the second or the first stays alone.
    out.sequences("md|3", &bytes, "", "|", 4);
    for _ in 0..60_000 {
        let text = record_outside(rng);
        out.text(&text);
    }
}

/// Some hundred texts outside the domain and around its edge.
pub fn few_outside(seed: u64) -> Vec<Vec<u8>> {
    let mut rng = Rng::new(seed);
    let mut texts: Vec<Vec<u8>> = chosen::cases().into_iter().map(|(text, _)| text).collect();
    for byte in [0, 0x1c, 0x7f, 0x80, 0xbf, 0xc0, 0xc3, 0xe2, 0xff] {
        texts.extend(texts_with_byte(byte));
    }
    for _ in 0..150 {
        texts.push(record_outside(&mut rng));
        texts.push((0..rng.below(48)).map(|_| rng.byte()).collect());
    }
    texts
}

// ---- Texts as they are met, and long ones ----

/// A board as programs write it, its pairs cut into lines by `end`.
fn plain_body(rng: &mut Rng, number: usize, end: &str) -> String {
    let mut pack = pack(rng);
    let hands: Vec<String> = pack[..39]
        .chunks(13)
        .map(|cards| {
            let mut cards = cards.to_vec();
            cards.sort();
            hand(&cards)
        })
        .collect();
    let dealer = 1 + number % 4;
    let vulnerable = rng.pick(&["o", "n", "e", "b"]);
    let mut text = format!(
        "md|{dealer}{}|sv|{vulnerable}|ah|Board {number}|{end}",
        hands.join(",")
    );
    let bids = ["1C", "1D", "1H", "1S", "1N", "2C", "2D", "2H", "3N", "4S"];
    for bid in &bids[rng.below(8)..] {
        text += &format!("mb|{bid}|");
        text += rng.pick(&["mb|p|", "mb|p|", "mb|d|", "an|a fit|mb|p|", "mb|p!|"]);
    }
    text += "mb|p|mb|p|pg||";
    text += end;
    rng.shuffle(&mut pack);
    for trick in pack.chunks(4).take(4 + rng.below(10)) {
        for card in trick {
            let suit = b"SHDC"[card / 13] as char;
            text += &format!("pc|{suit}{}|", RANKS[card % 13] as char);
        }
        text += "pg||";
        text += end;
    }
    text + &format!("mc|{}|", rng.below(14))
}

/// Records as BBO writes them, one to a line, cut at `length` bytes.
pub fn plain_lines(seed: u64, length: usize) -> Vec<u8> {
    let mut rng = Rng::new(seed);
    repeated(length, |number| {
        let body = plain_body(&mut rng, number, "");
        format!("pn|south,west,north,east|st||{body}\n")
    })
}

/// A file with `qx`, as Bridge Composer writes it, cut at `length` bytes.
pub fn plain_file(seed: u64, length: usize) -> Vec<u8> {
    let mut rng = Rng::new(seed);
    repeated(length, |number| {
        let body = plain_body(&mut rng, number, "\n");
        format!("mn|Club game|pn|a,b,c,d|qx|o{number},BOARD {number}|\n{body}\n")
    })
}

/// Pieces, by their number from 1, up to `length` bytes.
fn repeated(length: usize, mut piece: impl FnMut(usize) -> String) -> Vec<u8> {
    let mut text = String::new();
    let mut number = 1;
    while text.len() < length {
        text += &piece(number);
        number += 1;
    }
    text.truncate(length);
    text.into_bytes()
}

/// A kind of text that may be hard on a converter, of a length.
pub type Hostile = (&'static str, fn(usize) -> Vec<u8>);

pub const HOSTILE: [Hostile; 9] = [
    ("passes of one board", |n| of_many("md|3SA|", "mb|p|", n)),
    ("bids of one board", |n| {
        let mut text = of_many("md|3SA|", "mb|1C|mb|1D|", n - 6);
        text.extend(b"mb|1N|");
        text
    }),
    ("cards of one board", |n| {
        of_many("md|3SA|mb|1N|", "pc|D2|", n)
    }),
    ("deals of one board", |n| of_many("md|3SA|", "md|1HA|", n)),
    ("other commands of one board", |n| {
        of_many("md|3SA|", "nt|x|", n)
    }),
    ("boards, a line each", |n| of_many("", "md|3SA|\n", n)),
    ("boards, a qx each", |n| of_many("", "qx||md|3SA|", n)),
    ("names before one qx", |n| {
        let mut text = of_many("md|3SA|", "mn||pn||", n - 11);
        text.extend(b"qx||md|1HA|");
        text
    }),
    ("letters in one hand", |n| of_many("md|3SA", "xyz", n)),
];

fn of_many(before: &str, piece: &str, length: usize) -> Vec<u8> {
    let many = length.saturating_sub(before.len()) / piece.len();
    (before.to_string() + &piece.repeat(many)).into_bytes()
}

fn long(rng: &mut Rng, out: &mut Out) {
    for length in [10_000, 65_535, 65_537, 200_000, 1_000_000] {
        out.text(&plain_lines(rng.next(), length));
        out.text(&plain_file(rng.next(), length));
        for (_, text) in HOSTILE {
            out.text(&text(length));
        }
        let mut text = String::new();
        while text.len() < length {
            text += &record(rng);
        }
        out.text(text.as_bytes());
        out.text(of_many("md|3SA|", "x\n", length / 10).as_slice());
        out.text(of_many("md|3SA|", "|", length).as_slice());
        out.text(of_many("qx||md|3SA|", "qx||", length).as_slice());
    }
}

/// Texts to be lengthened to the most bytes.
pub fn as_long_as_can_be(seed: u64) -> [Vec<u8>; 2] {
    let length = crate::read::LONGEST - 3;
    [plain_lines(seed, length), plain_file(seed, length)]
}

/// Texts that need pages of 1.5 and 0.4 GB.
pub fn needing_most() -> [Vec<u8>; 2] {
    let length = crate::read::LONGEST;
    [
        of_many("md|3SA|", "\nx", length),
        of_many("md|3SA|", "qx||md||", length),
    ]
}
