//! The editions that are compared: all that are short, over small alphabets;
//! longer ones with everything that a line can hold; damaged copies of these.

use super::judge::MODELLED;
use crate::rng::Rng;

/// Takes the texts, each with the name of its group, until a receiver of them
/// says that it wants no more.
pub struct Out<'a> {
    give: &'a mut dyn FnMut(&'static str, &[u8]) -> bool,
    group: &'static str,
    open: bool,
}

impl Out<'_> {
    pub fn text(&mut self, text: &[u8]) {
        if self.open {
            self.open = (self.give)(self.group, text);
        }
    }

    /// Gives texts after a change.
    pub fn changed(&mut self, change: fn(&[u8]) -> Vec<u8>, texts: impl FnOnce(&mut Out)) {
        let (group, open) = (self.group, self.open);
        let give = &mut |_: &'static str, text: &[u8]| {
            self.text(&change(text));
            self.open
        };
        texts(&mut Out { give, group, open });
    }

    /// Every sequence of up to `most` pieces, between `before` and `after`,
    /// with `between` among them.
    pub fn sequences(
        &mut self,
        before: &str,
        pieces: &[&str],
        between: &str,
        after: &str,
        most: usize,
    ) {
        let mut chosen: Vec<usize> = Vec::new();
        let mut text = Vec::new();
        loop {
            text.clear();
            text.extend_from_slice(before.as_bytes());
            for (i, piece) in chosen.iter().enumerate() {
                if i > 0 {
                    text.extend_from_slice(between.as_bytes());
                }
                text.extend_from_slice(pieces[*piece].as_bytes());
            }
            text.extend_from_slice(after.as_bytes());
            self.text(&text);
            if !self.open {
                return;
            }
            // The next sequence, counting in pieces.
            let mut at = 0;
            while at < chosen.len() && chosen[at] + 1 == pieces.len() {
                chosen[at] = 0;
                at += 1;
            }
            if at < chosen.len() {
                chosen[at] += 1;
            } else if chosen.len() < most {
                chosen.push(0);
            } else {
                return;
            }
        }
    }
}

/// A group's name and what gives its texts.
pub type Group = (&'static str, fn(&mut Rng, &mut Out));

const GROUPS: [Group; 16] = [
    ("named texts", named),
    ("all short: bytes", short_bytes),
    ("all short: inside a tag", short_tags),
    ("all short: after a tag", short_tails),
    ("all short: lines", short_lines),
    ("all short: commentary", short_commentary),
    ("all short: calls", short_calls),
    ("all short: plays", short_plays),
    ("all short: values", short_values),
    ("values in every tag", values),
    ("generated editions", editions),
    ("generated plays and auctions", sections),
    ("generated deals and tables", deals_and_tables),
    ("damaged editions", damaged),
    ("outside the domain", outside),
    ("long editions", long),
];

/// Gives every text to `give`, which says whether it wants more.
pub fn all(seed: u64, give: &mut dyn FnMut(&'static str, &[u8]) -> bool) {
    all_of(&GROUPS, seed, give);
}

/// Gives every text of these groups. Each group has its own random numbers, so
/// that a change in one leaves the others alone.
pub fn all_of(groups: &[Group], seed: u64, give: &mut dyn FnMut(&'static str, &[u8]) -> bool) {
    let mut out = Out {
        give,
        group: "",
        open: true,
    };
    for (i, (group, texts)) in groups.iter().enumerate() {
        if !out.open {
            return;
        }
        out.group = group;
        texts(&mut Rng::new(seed.wrapping_add((i as u64) << 32)), &mut out);
    }
}

// ---- Named texts ----

pub const DEAL: &str = "N:AKQJT98765432... .AKQJT98765432.. ..AKQJT98765432. ...AKQJT98765432";

pub const NAMED: [&str; 58] = [
    "",
    "\n",
    "\r\n",
    "x",
    "[Board \"1\"]\n[Dealer \"N\"]\n",
    "[Auction \"N\"]\n1C=1= AP\n",
    "[Play \"N\"]\nS2 S3 S4 S5\nH2 H3 H4 H5",
    "[ \"x\"]",
    "[Event \"x\" ]",
    "[Event \"\"]",
    "[A \"x\"y]\"]",
    "[A \"x\"y\"]z",
    "[A \"x\"y]\"]z",
    "[A \"]\"]",
    "[A \" ]x\"]",
    "[ Event \"x\"]",
    "[Event\"x\"]",
    "[Event \"x\"] ;c",
    "[Event \"x\"] {c} d {e",
    "[Event \"x\"] {c",
    "[Auction \"N\"] {c",
    "[Play \"W\"]SJ",
    "[Play \"W\"] %SJ",
    "\u{feff}[Event \"x\"]\n[Event \"y\"]",
    "{ open\n\n[Event \"x\"]\n",
    "[Event \"x\"]\n{ open\n\n[Event \"y\"]\n",
    "[Event \"x\"]\n{ a } b } c\n",
    "[Event \"x\"]\n{}\n{ }\n{\r\n}\r\n{a\r\r\nb\r\n}",
    "; before\n% header\n\n{note}\n\n[Event \"x\"]\n\n\n;between\n\n[Event \"y\"]\n\n;after\n",
    "[Result \"-128\"]",
    "[Result \"-129\"]",
    "[Result \"-0\"]",
    "[Result \"+-1\"]",
    "[Result \"-+1\"]",
    "[Result \"127\"][Result \"128\"]",
    "[Board \"4294967295\"]",
    "[Board \"4294967296\"]",
    "[Board \"-0\"]",
    "[Board \"7\"]\n[Board \"\"]",
    "[Board \"7\"]\n[Board \"x\"]",
    "[Contract \"4H\"]\n[Contract \"?\"]\n[Contract \"\"]\n[Play \"N\"]\nS2 H2\n[Contract \"3NT\"]",
    "[Contract \"4H X\"]\n[Play \"N\"]\nS2",
    "[Play \"S\"]\nS2 S3 S4 S5 *",
    "[Play \"S\"]\n- - - HJ\n+ - - CQ\nzz",
    "[Auction \"E\"]\nzz! =1=\n[Note \"1:a\"]",
    "[Auction \"E\"]\nP + ! *\n[Note \" 1 :a\"]\n[Note \"1:b\"]\n[Note \"+2::\"]\n[Note \"256:x\"]",
    "[Auction \"E\"]\nP\n[Note \"1:a\"]\n[Auction \"W\"]\n[Note \"2:b\"]\n[Auction \"x\"]\nX\n[Note \"3:c\"]",
    "[Note \"1:a\"]\n[Auction \"E\"]\nP\n[Auction \"N\"]\nX\n[Note \"2:b\"]",
    "[Auction \"N\"]\n+! AP! ap\nP",
    "[Auction \"N\"]\n________ _________ 7nt 8C 0C xx",
    "[Auction \"N\"]\nP\n;c\n%d\n{e}\n[no tag\nX\n",
    "[DoubleDummyTricks \"0123456789abcdABCD00\"]\n[DoubleDummyTricks \"bad\"]",
    "[Event \"x\"]\n \t\n[Event \"y\"]\n\u{b}\n[Event \"z\"]\n\u{1c}\n[Event \"w\"]",
    "[Dealer \"é\"]\n[Declarer \"n\u{301}\"]\n[Auction \"Ne\"]\nP",
    "[Play \"n\"]\ns2\u{301} S\u{301}2 sa! S",
    "[A \"1\"]\n[Deal \"x\"]\n[A \"2\"]\n[Deal \" \"]",
    "[Vulnerable \"both\"]\n[Vulnerable \" NS\"]",
    "[Site \"x\"]\r\n\r\n[Site \"y\"]\r",
];

fn named(rng: &mut Rng, out: &mut Out) {
    for text in NAMED {
        out.text(text.as_bytes());
        out.text(text.replace('\n', "\r\n").as_bytes());
        for end in ["\n", "\n\n", "\n \t\n[Z \"\"]", "}", "\n}"] {
            out.text(format!("{text}{end}").as_bytes());
        }
        out.text(format!("[Y \"\"]\n{text}").as_bytes());
        out.text(format!("[Y \"\"]\n\n{text}").as_bytes());
        for cut in 0..text.len() {
            out.text(&text.as_bytes()[..cut]);
            out.text(&text.as_bytes()[cut..]);
        }
    }
    // A good table of each kind, in every order of the two tags.
    let good = optimum(rng, 0);
    let bad = optimum(rng, 3);
    let digits = "[DoubleDummyTricks \"0123456789abcdABCD00\"]\n".to_string();
    let bad_digits = "[DoubleDummyTricks \"0123456789abcdABCD0e\"]\n".to_string();
    let parts = [&good, &bad, &digits, &bad_digits];
    for a in parts {
        for b in parts {
            for c in parts {
                out.text(format!("{a}{b}{c}").as_bytes());
            }
        }
    }
}

// ---- All short texts ----

fn short_bytes(_: &mut Rng, out: &mut Out) {
    out.sequences("", &["[", "\"", "]", " ", "\n", "{", "}", ";"], "", "", 6);
    out.sequences("", &["[", "\"", "]", "\t", "A"], "", "", 7);
    out.sequences(
        "[ \"\"]\n",
        &["\n", "\r", " ", "{", "}", ";", "a"],
        "",
        "",
        5,
    );
}

fn short_tags(_: &mut Rng, out: &mut Out) {
    let inside = ["\"", "]", " ", "[", "\\", ";", "{", "}", "x"];
    out.sequences("[A \"", &inside, "", "\"]", 5);
    out.sequences("[A \"", &["\"", "]", " ", "x"], "", "\"]z", 6);
    out.sequences("[", &["A", " ", "\"", "]", "\r", "\\"], "", "]", 6);
    out.sequences("[", &["A", " ", "\"", "]", "\u{b}", "é"], "", "\"]", 5);
}

fn short_tails(_: &mut Rng, out: &mut Out) {
    let tail = [";", "{", "}", " ", "\n", "\r", "]", "\"", "P", "%"];
    out.sequences("[Auction \"N\"]", &tail, "", "", 5);
    out.sequences("[Event \"N\"]", &tail, "", "\nP", 4);
    out.sequences("[Play \"N\"]SA", &tail, "", "S2", 4);
}

fn short_lines(_: &mut Rng, out: &mut Out) {
    let lines = [
        "[A \"x\"]\n",
        "[Auction \"N\"]\n",
        "[Auction \"x\"]\n",
        "\n",
        " \r\n",
        "{\n",
        "{a}\n",
        "b}\n",
        ";c\n",
        "P\n",
        "[A \"\n",
        "[Note \"1:x\"]\n",
    ];
    out.sequences("", &lines, "", "", 5);
    out.sequences("[Play \"N\"]SA", &lines, "\r", "P", 4);
}

fn short_commentary(_: &mut Rng, out: &mut Out) {
    let pieces = ["{", "}", "\n", "\r", " ", "x", "[A \"\"]"];
    out.sequences("[B \"\"]\n{", &pieces, "", "", 5);
    out.sequences("{", &pieces, "", "}\n[B \"\"]", 5);
    out.sequences("[Auction \"N\"]\nP\n{", &pieces, "", "\nX", 4);
}

fn short_calls(_: &mut Rng, out: &mut Out) {
    let calls = [
        "1C", "-", "X", "+", "*", "AP", "ap!", "=1=", "!", "7nt?", "+!", "__", "zz", "zz?",
    ];
    out.sequences("[Auction \"S\"]\n", &calls, " ", "", 4);
    out.sequences("[Auction \"S\"]", &calls, "\n", "\n[Note \"1:a\"]\n\n", 3);
    out.sequences(
        "[Auction \"N\"]\n",
        &["1", "7", "8", "N", "t", "c", "X", "_", "P", "!"],
        "",
        "",
        4,
    );
    let letters = ["P", "a", "S", "p", "A", "s"];
    out.sequences("[Auction \"N\"]\n", &letters, "", "", 4);
    out.sequences("[Auction \"N\"]\n", &["_"], "", "", 12);
}

fn short_plays(_: &mut Rng, out: &mut Out) {
    let cards = ["S2", "SA", "h3", "-", "+", "*", "zz", "CAx"];
    out.sequences("[Contract \"4H\"]\n[Play \"W\"]\n", &cards, " ", "", 5);
    out.sequences("[Play \"E\"]\nS5 H7 C2 S9\n", &cards, "\n", "", 4);
    out.sequences(
        "[Play \"N\"]\n- - - +\n",
        &cards,
        "\n",
        "\n[Contract \"1S\"]",
        4,
    );
    let letters = ["S", "h", "A", "2", "T", "1", "é", "-"];
    out.sequences("[Play \"S\"]\n", &letters, "", " S3", 4);
}

fn short_values(_: &mut Rng, out: &mut Out) {
    let numbers = ["0", "1", "2", "9", "+", "-", " "];
    out.sequences("[Board \"", &numbers, "", "\"]", 5);
    out.sequences("[Result \"", &numbers, "", "\"]", 5);
    out.sequences("[Board \"42949672", &["0", "5", "6", "9"], "", "\"]", 4);
    out.sequences(
        "[Board \"0000000000000042949672",
        &["0", "5", "6", "9"],
        "",
        "\"]",
        3,
    );
    out.sequences(
        "[Auction \"N\"]\nP\n[Note \"",
        &["0", "2", "5", "6", "+", " ", ":", "x"],
        "",
        ":t\"]",
        4,
    );
    out.sequences(
        "[Contract \"",
        &["1", "7", "N", "t", "s", "x", "X", "?", " "],
        "",
        "\"]\n[Play \"N\"]\nS2",
        4,
    );
    out.sequences(
        "[Vulnerable \"",
        &["N", "s", "E", "w", "-", "o", "e"],
        "",
        "\"]",
        4,
    );
    for name in ["Dealer", "Declarer", "Auction", "Play"] {
        out.sequences(
            &format!("[{name} \""),
            &["N", "e", "S", "w", "x", "é", " "],
            "",
            "\"]\nS2",
            3,
        );
    }
    let hands = ["-", "A...", "2.2.2.2", "...", " ", ".A..", "x"];
    out.sequences("[Deal \"N:", &hands, "", "\"]", 5);
    out.sequences("[Deal \"W:", &hands, " ", "\"]", 5);
    out.sequences("[Deal \"", &["N", ":", " ", "s", "\t"], "", "- - - -\"]", 4);
    out.sequences("[Deal \"E:", &[".", "A", "k", "2", "1"], "", " - - -\"]", 5);
}

// ---- Pieces of editions ----

/// Names beside those that `reader.rs` models.
const OTHERS: [&str; 6] = ["Scoring", "Room", "", "board", "Événement", "Note:"];

/// Both, in this order.
pub fn names() -> Vec<&'static str> {
    [&MODELLED[..], &OTHERS[..]].concat()
}

pub const ODD: [&str; 64] = [
    "",
    " ",
    "?",
    "-",
    "+",
    "0",
    "1",
    "13",
    "007",
    "+5",
    "-5",
    "-0",
    "127",
    "128",
    "-128",
    "-129",
    "4294967295",
    "4294967296",
    "99999999999999999999",
    "N",
    "n",
    "East",
    "south",
    "W ",
    " N",
    "x",
    "É",
    "Ｎ",
    "None",
    "love",
    "NS",
    "ew",
    "All",
    "BOTH",
    "both ",
    "1C",
    "4Sx",
    "7NTXX",
    "3n",
    "4H X",
    "8S",
    "1:x",
    " 2 : y",
    "3:",
    ":",
    "255:z",
    "256:z",
    "+1:again",
    "00000000000000000000",
    "0123456789abcdABCD00",
    " 0123456789abcdABCD00\t",
    "0123456789abcdABCD0e",
    "0123456789abcdABCD0é",
    "0123456789",
    "a\"b",
    "\\",
    "\\\"",
    "a]b",
    "[c",
    "{d}",
    ";e",
    "Declarer;Denomination\\2R;Result\\2R",
    "♠♥♦♣",
    "N:- - - -",
];

fn values(_: &mut Rng, out: &mut Out) {
    let ends = ["", "\n", "\nS2 P N NT 1\n", "]", " ;c", "SA"];
    for name in names() {
        for value in ODD {
            for end in ends {
                out.text(format!("[{name} \"{value}\"]{end}").as_bytes());
            }
            // After another value of the same tag, and before one.
            for other in ["", "N", "5", "4S", DEAL, "0123456789abcdABCD00", "1:one"] {
                let text =
                    format!("[Auction \"N\"]\nP\n[{name} \"{other}\"]\n[{name} \"{value}\"]\n");
                out.text(text.as_bytes());
            }
        }
    }
}

pub const RANKS: &[u8; 13] = b"AKQJT98765432";

/// Four hands of cards drawn from a pack.
pub fn deal(rng: &mut Rng) -> String {
    let mut pack: Vec<usize> = (0..52).collect();
    rng.shuffle(&mut pack);
    let each = if rng.once_in(4) { rng.below(14) } else { 13 };
    let mut hands: Vec<String> = (0..4)
        .map(|seat| {
            let mut held = pack[13 * seat..13 * seat + each].to_vec();
            if !rng.once_in(3) {
                held.sort();
            }
            if held.is_empty() || rng.once_in(20) {
                return "-".to_string();
            }
            let suits: Vec<String> = (0..4)
                .map(|suit| {
                    let cards = held.iter().filter(|card| **card / 13 == suit);
                    cards.map(|card| RANKS[card % 13] as char).collect()
                })
                .collect();
            suits.join(".")
        })
        .collect();
    match rng.below(30) {
        0 => hands[0] = hands[1].clone(),
        1 => hands[2] += "x",
        2 => hands[1] += ".",
        3 => hands.push("-".to_string()),
        4 => {
            hands.pop();
        }
        5 => hands[3] = hands[3].to_lowercase(),
        6 => hands[0] = hands[0].replace('.', ".x"),
        7 => hands[1] += "2",
        _ => {}
    }
    let gap = rng.pick(&[" ", " ", " ", "  ", "\t", " \u{b} "]);
    let colon = rng.pick(&[":", ":", ":", ":", ":", ":", ":", ": ", " :", "", "::"]);
    let seat = rng.pick(&["N", "E", "S", "W", "n", "w", "X"]);
    let text = format!("{seat}{colon}{}", hands.join(gap));
    match rng.below(20) {
        0 => format!(" {text} "),
        1 => format!("{text}."),
        _ => text,
    }
}

pub fn value(rng: &mut Rng, name: &str) -> String {
    if rng.once_in(6) {
        return rng.pick(&ODD).to_string();
    }
    match name {
        "Board" => rng.below(40).to_string(),
        "Dealer" | "Declarer" | "Auction" | "Play" => rng
            .pick(&["N", "E", "S", "W", "n", "West", "x"])
            .to_string(),
        "Vulnerable" => rng
            .pick(&["None", "NS", "EW", "All", "both", "-"])
            .to_string(),
        "Deal" => deal(rng),
        "Contract" => rng
            .pick(&["1C", "2D", "3H", "4S", "3NT", "6SX", "2hxx", "Pass", "1N"])
            .to_string(),
        "Result" => (rng.below(300) as i32 - 150).to_string(),
        "Note" => format!(
            "{}:{}",
            rng.below(4),
            rng.pick(&["", "a", "b c", ":", "=1="])
        ),
        "DoubleDummyTricks" => {
            let length = if rng.once_in(4) { rng.below(23) } else { 20 };
            let digits: &[u8] = if rng.once_in(4) {
                b"0123456789abcdABCDe "
            } else {
                b"0123456789abcdABCD"
            };
            (0..length)
                .map(|_| digits[rng.below(digits.len())] as char)
                .collect()
        }
        _ => rng
            .pick(&["x", "Some name", "2024.05.01", "é", "a\\b", ""])
            .to_string(),
    }
}

/// An OptimumResultTable: its tag and its rows, with some of them damaged.
pub fn optimum(rng: &mut Rng, damage: usize) -> String {
    let mut rows = Vec::new();
    for seat in ["N", "S", "E", "W"] {
        for strain in ["NT", "S", "H", "D", "C"] {
            rows.push(format!("{seat} {strain:>2} {}", rng.below(14)));
        }
    }
    if rng.once_in(3) {
        rng.shuffle(&mut rows);
    }
    for _ in 0..damage {
        let at = rng.below(rows.len());
        match rng.below(8) {
            0 => {
                rows.remove(at);
            }
            1 => rows.insert(at, rows[at].clone()),
            2 => rows[at] += " x",
            3 => rows[at] = rows[at].to_lowercase(),
            4 => rows[at] = "North n +07".to_string(),
            5 => rows[at] = "W C 14".to_string(),
            6 => rows.insert(
                at,
                rng.pick(&["; comment", "{c}", "% x", "[no tag"])
                    .to_string(),
            ),
            _ => rows[at] = format!(" {}\t", rows[at].replace(' ', "\t")),
        }
    }
    let mut text = "[OptimumResultTable \"Declarer;Denomination\\2R;Result\\2R\"]".to_string();
    text += if rng.once_in(10) { " " } else { "\n" };
    text + &rows.join("\n") + "\n"
}

pub const CALLS: [&str; 34] = [
    "Pass",
    "P",
    "-",
    "pass",
    "X",
    "XX",
    "x",
    "+",
    "*",
    "AP",
    "ap",
    "AP!",
    "1C",
    "2D",
    "3H",
    "4s",
    "1NT",
    "3n",
    "7NT",
    "8C",
    "1X",
    "1C!",
    "2H=1=",
    "X?",
    "+!",
    "=2=",
    "$5",
    "!",
    "??",
    "_",
    "____",
    "_________",
    "zz",
    "é!",
];

pub fn tokens(rng: &mut Rng, list: &[&str], most: usize) -> String {
    let mut text = String::new();
    for _ in 0..rng.below(most) {
        text += rng.pick(list);
        text += rng.pick(&[" ", " ", " ", "  ", "\t", "\n", "\n"]);
    }
    text
}

fn card(rng: &mut Rng) -> String {
    let suit = b"SHDCSHDCSHDCsh"[rng.below(14)] as char;
    let rank = RANKS[rng.below(13)] as char;
    format!("{suit}{rank}")
}

pub fn play_data(rng: &mut Rng, most: usize) -> String {
    let mut text = String::new();
    for _ in 0..rng.below(most) {
        if rng.once_in(8) {
            let odd = [
                "-", "+", "*", "S1", "zz", "SA!", "S", "é2", "Sé", "--", "-", "+", "-",
            ];
            text += rng.pick(&odd);
        } else {
            text += &card(rng);
        }
        text += rng.pick(&[" ", " ", " ", "\n", "\t"]);
    }
    text
}

fn tail(rng: &mut Rng) -> &'static str {
    rng.pick(&[
        " ; comment",
        ";c \"]",
        " {c}",
        "{c} d {e",
        " {open",
        " %p",
        "]",
        " SA",
        "P",
        " \t",
        "; {",
        "\"]",
        " {c} ;d",
        " x ] y",
    ])
}

fn line(rng: &mut Rng, text: &mut String) {
    match rng.below(26) {
        0..=9 => {
            let name = rng.pick(&names());
            let value = value(rng, name);
            let gap = rng.pick(&[" ", " ", " ", " ", "  ", "\t", "\u{c}", ""]);
            let close = rng.pick(&["]", "]", "]", "]", "]", " ]", "\t]", ""]);
            *text += &format!("[{name}{gap}\"{value}\"{close}");
            if rng.once_in(6) {
                *text += tail(rng);
            }
        }
        10..=12 => {
            *text += &format!("[Auction \"{}\"]", rng.pick(&["N", "E", "s", "W", "x", ""]));
            *text += rng.pick(&["\n", "\n", "\n", ""]);
            *text += &tokens(rng, &CALLS, 14);
        }
        13..=15 => {
            *text += &format!("[Play \"{}\"]", rng.pick(&["N", "E", "s", "W", "x", ""]));
            *text += rng.pick(&["\n", "\n", "\n", ""]);
            *text += &play_data(rng, 24);
        }
        16 => {
            let damage = if rng.once_in(2) { 0 } else { rng.below(4) };
            *text += &optimum(rng, damage);
        }
        17 | 18 => *text += rng.pick(&["; a", "% b", ";", "%", " ;c ", "%{d", ";}"]),
        19 => *text += &tokens(rng, &CALLS, 6),
        20 | 21 => {
            *text += "{";
            for _ in 0..rng.below(5) {
                *text += rng.pick(&[
                    "text",
                    "\n",
                    "  x",
                    "\n\n",
                    "[Event \"in\"]",
                    "{",
                    "\r",
                    ";",
                    "é",
                    "\r\n",
                ]);
            }
            *text += rng.pick(&["}", "}", "}", "}", " } after", "}}", "\n}", ""]);
        }
        22 => {
            *text += rng.pick(&[
                "[",
                "[x",
                "[Event",
                "[Event \"x",
                "data",
                "\u{feff}",
                "\"",
                "]",
            ])
        }
        _ => {}
    }
    *text += rng.pick(&[
        "\n", "\n", "\n", "\n", "\n", "\n", "\r\n", "\n\n", " \n", "\r\r\n", "\n\r\n",
    ]);
}

pub fn edition(rng: &mut Rng) -> Vec<u8> {
    let mut text = String::new();
    for _ in 0..1 + rng.below(12) {
        line(rng, &mut text);
    }
    if rng.once_in(8) {
        text = text.replace('\n', "\r\n");
    }
    if rng.once_in(4) {
        text.pop();
    }
    text.into_bytes()
}

fn editions(rng: &mut Rng, out: &mut Out) {
    for _ in 0..400_000 {
        let text = edition(rng);
        out.text(&text);
    }
}

fn sections(rng: &mut Rng, out: &mut Out) {
    for _ in 0..150_000 {
        let contract = value(rng, "Contract");
        let seat = rng.pick(&["N", "E", "S", "W"]);
        let data = if rng.once_in(3) {
            tokens(rng, &CALLS, 30)
        } else {
            play_data(rng, 60)
        };
        let name = rng.pick(&["Play", "Play", "Auction"]);
        out.text(format!("[Contract \"{contract}\"]\n[{name} \"{seat}\"]\n{data}").as_bytes());
    }
}

/// Deals, digits and rows, good ones and ones with a byte or a line damaged.
fn deals_and_tables(rng: &mut Rng, out: &mut Out) {
    for i in 0..150_000 {
        let mut text = match i % 3 {
            0 => format!("[Deal \"{}\"]\n[Deal \"{}\"]\n", deal(rng), deal(rng)),
            1 => optimum(rng, 0),
            _ => format!(
                "[DoubleDummyTricks \"{}\"]\n",
                value(rng, "DoubleDummyTricks")
            ),
        }
        .into_bytes();
        if rng.once_in(2) {
            damage(rng, &mut text);
        }
        out.text(&text);
    }
}

/// A change or a few of them.
pub fn damage(rng: &mut Rng, text: &mut Vec<u8>) {
    const BYTES: &[u8] = b"[]\"{};%\n\r \t\x0b\x1c:+-*=!$?_.AaPNSxX019\\";
    for _ in 0..1 + rng.below(2) {
        if text.is_empty() {
            return;
        }
        let at = rng.below(text.len());
        let byte = BYTES[rng.below(BYTES.len())];
        match rng.below(7) {
            0 | 1 => text[at] = byte,
            2 => {
                text.remove(at);
            }
            3 | 4 => text.insert(at, byte),
            _ => move_parts(rng, text, b'\n'),
        }
    }
}

/// Swaps two of the parts that end with this byte, drops one or repeats one.
pub fn move_parts(rng: &mut Rng, text: &mut Vec<u8>, end: u8) {
    let mut parts: Vec<&[u8]> = text.split_inclusive(|b| *b == end).collect();
    let (a, b) = (rng.below(parts.len()), rng.below(parts.len()));
    match rng.below(3) {
        0 => parts.swap(a, b),
        1 => {
            parts.remove(a);
        }
        _ => parts.insert(a, parts[b]),
    }
    *text = parts.concat();
}

fn damaged(rng: &mut Rng, out: &mut Out) {
    let mut source = Vec::new();
    for i in 0..1_000_000 {
        if i % 8 == 0 {
            source = if rng.once_in(6) {
                plain_board(rng, i).into_bytes()
            } else {
                edition(rng)
            };
        }
        let mut text = source.clone();
        damage(rng, &mut text);
        out.text(&text);
    }
}

/// Bytes that are no UTF-8, and white space that the domain leaves out.
const OUTSIDE: [&[u8]; 12] = [
    b"\x80",
    b"\xff",
    b"\xc3",
    b"\xe2\x80",
    b"\xc2\x85",
    b"\xc2\xa0",
    b"\xe2\x80\x83",
    b"\xe3\x80\x80",
    b"\xf0\x9f\x98",
    b"\xe2\x80\xa8",
    b"\xbf\xbf",
    b"\xc0\x80",
];

/// Puts some of these into a text.
pub fn put_outside(rng: &mut Rng, text: &mut Vec<u8>) {
    for _ in 0..1 + rng.below(3) {
        let at = rng.below(text.len() + 1);
        let odd = rng.pick(&OUTSIDE);
        text.splice(at..at, odd.iter().copied());
    }
}

fn edition_outside(rng: &mut Rng) -> Vec<u8> {
    let mut text = edition(rng);
    put_outside(rng, &mut text);
    text
}

/// The byte where characters count.
fn texts_with_byte(byte: u8) -> Vec<Vec<u8>> {
    let mut texts = Vec::new();
    for place in [
        "[Dealer \"#N\"]",
        "[Dealer \"N#\"]",
        "[Auction \"S#\"]\nP#",
        "[Play \"N\"]\nS#2 S2#",
    ] {
        let text = place.bytes().map(|b| if b == b'#' { byte } else { b });
        texts.push(text.collect());
    }
    let mut digits = b"[DoubleDummyTricks \"01234567890123456789\"]".to_vec();
    digits[30] = byte;
    texts.push(digits.clone());
    digits.insert(30, b'1');
    texts.push(digits);
    texts
}

fn outside(rng: &mut Rng, out: &mut Out) {
    for _ in 0..150_000 {
        let text = edition_outside(rng);
        out.text(&text);
    }
    for byte in 0x80..=0xff {
        for text in texts_with_byte(byte) {
            out.text(&text);
        }
    }
}

/// Some hundred texts that no text editor would write: what `outside` has, bytes
/// at random, zeros, characters cut at the text's end.
pub fn few_outside(seed: u64) -> Vec<Vec<u8>> {
    let mut rng = Rng::new(seed);
    let mut texts = Vec::new();
    for byte in [0, 0x1c, 0x7f, 0x80, 0xbf, 0xc0, 0xc3, 0xe2, 0xf0, 0xff] {
        texts.extend(texts_with_byte(byte));
        texts.push(vec![byte]);
    }
    let whole: [&[u8]; 7] = [
        b"[Dealer \"N\"]\n{c}",
        b"[Play \"N\"]\nS2 SA S3 S4\n\n",
        b"[Auction \"N\"]\n1C! P=1= AP",
        b"[Deal \"N:A... - - -\"]\n[Board \"1\"]",
        b"[DoubleDummyTricks \"01234567890123456789\"]",
        b"[OptimumResultTable \"\"]\nN NT 1\n",
        b"[A \"1\"]\n\n;c\n[B \"2\"] d\n\n",
    ];
    for text in whole {
        for odd in OUTSIDE {
            // Put in at a place, and the text's end there.
            let at = rng.below(text.len() + 1);
            texts.push([&text[..at], odd, &text[at..]].concat());
            texts.push([&text[..at], odd].concat());
            texts.push([odd, &text[at..]].concat());
        }
        let zero = rng.below(text.len() + 1);
        texts.push([&text[..zero], b"\0\x80\0", &text[zero..]].concat());
    }
    let pieces: [&[u8]; 24] = [
        b"[",
        b"]",
        b"\"",
        b"{",
        b"}",
        b";",
        b"%",
        b"\n",
        b"\n\n",
        b"\r",
        b" ",
        b"\0",
        b"\x80",
        b"\xbf",
        b"\xc3",
        b"\xff",
        b"[Play \"N\"]",
        b"[Auction \"E\"]",
        b"[Deal \"W:",
        b"[A \"\"]",
        b"SA ",
        b"AP ",
        b"1C",
        b"=",
    ];
    for _ in 0..150 {
        let random = (0..rng.below(48)).map(|_| rng.byte());
        texts.push(random.collect());
        let mixed: Vec<&[u8]> = (0..rng.below(24)).map(|_| rng.pick(&pieces)).collect();
        texts.push(mixed.concat());
    }
    for _ in 0..60 {
        texts.push(edition_outside(&mut rng));
    }
    texts
}

fn long(rng: &mut Rng, out: &mut Out) {
    for length in [10_000, 65_535, 65_536, 65_537, 200_000, 1_000_000] {
        let mut text = Vec::new();
        while text.len() < length {
            text.extend(edition(rng));
            text.extend_from_slice(b"}\n\n");
        }
        out.text(&text);
        out.text(&plain_edition(rng.next(), length));
        // One line, one section, one block.
        let many = |piece: &str| piece.repeat(length / piece.len());
        out.text(format!("[Event \"{}\"]", many("x\"]")).as_bytes());
        out.text(format!("[Auction \"N\"]\n{}", many("1C!=1= ")).as_bytes());
        out.text(format!("[Auction \"N\"]\n{}", many("-\n")).as_bytes());
        out.text(format!("[Play \"N\"]\n{}", many("S2 HA - C3\n")).as_bytes());
        out.text(format!("[Event \"\"]\n{{{}}}", many("text\r\n\n")).as_bytes());
        out.text(format!("[Event \"\"]\n{{{}", many("[A \"\"]\n")).as_bytes());
        out.text(many("[ \"\"]\n\n").as_bytes());
        out.text(many(";\n").as_bytes());
        out.text(format!("[Board \"{}1\"]", many("0")).as_bytes());
    }
}

// ---- Editions as they are met ----

/// One board as producers write it.
pub fn plain_board(rng: &mut Rng, number: usize) -> String {
    let mut pack: Vec<usize> = (0..52).collect();
    rng.shuffle(&mut pack);
    let hands: Vec<String> = pack
        .chunks(13)
        .map(|hand| {
            let mut hand = hand.to_vec();
            hand.sort();
            let suits: Vec<String> = (0..4)
                .map(|suit| {
                    let cards = hand.iter().filter(|card| **card / 13 == suit);
                    cards.map(|card| RANKS[card % 13] as char).collect()
                })
                .collect();
            suits.join(".")
        })
        .collect();
    let seat = rng.pick(&["N", "E", "S", "W"]);
    let digits: String = (0..20)
        .map(|_| b"0123456789abcd"[rng.below(14)] as char)
        .collect();
    let mut text = format!(
        "[Event \"Club evening\"]\n[Site \"Main hall\"]\n[Date \"2024.05.01\"]\n\
         [Board \"{}\"]\n[West \"A. West\"]\n[North \"B. North\"]\n[East \"C. East\"]\n\
         [South \"D. South\"]\n[Dealer \"{seat}\"]\n[Vulnerable \"{}\"]\n[Deal \"{seat}:{}\"]\n\
         [Scoring \"IMP\"]\n[Declarer \"{}\"]\n[Contract \"{}\"]\n[Result \"{}\"]\n\
         [DoubleDummyTricks \"{digits}\"]\n[Auction \"{seat}\"]\n",
        number + 1,
        rng.pick(&["None", "NS", "EW", "All"]),
        hands.join(" "),
        rng.pick(&["N", "E", "S", "W"]),
        rng.pick(&["4S", "3NT", "2HX", "5C"]),
        rng.below(14),
    );
    let bids = ["1C", "1D", "1H", "1S", "1NT", "2C", "2D", "2H", "3NT", "4S"];
    let from = rng.below(4);
    for bid in &bids[from..] {
        text += bid;
        text += rng.pick(&[" Pass ", " Pass ", " X ", "! Pass\n", " =1= Pass\n"]);
    }
    text += "AP\n[Note \"1:shows a fit\"]\n";
    text += &format!("[Play \"{}\"]\n", rng.pick(&["N", "E", "S", "W"]));
    rng.shuffle(&mut pack);
    for trick in pack.chunks(4) {
        for card in trick {
            text.push(b"SHDC"[card / 13] as char);
            text.push(RANKS[card % 13] as char);
            text.push(' ');
        }
        text += "\n";
    }
    if rng.once_in(3) {
        text += &optimum(rng, 0);
    }
    if rng.once_in(3) {
        text += "{A few words about the board,\n  on two lines.}\n";
    }
    text + "\n"
}

/// Boards as producers write them, after a header, cut at `length` bytes.
pub fn plain_edition(seed: u64, length: usize) -> Vec<u8> {
    let mut rng = Rng::new(seed);
    let mut text = "% PBN 2.1\n% EXPORT\n\n".to_string();
    let mut number = 0;
    while text.len() < length {
        text += &plain_board(&mut rng, number);
        number += 1;
    }
    text.truncate(length);
    text.into_bytes()
}
