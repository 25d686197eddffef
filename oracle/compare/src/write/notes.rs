//! Editions with directives after notes: notes of equal numbers and values, ones that
//! are not written or written with another value, and directives of each form between
//! them.

use super::chosen;
use crate::read::generate::Out;
use crate::rng::Rng;

/// Gives each `#` of a text its number, so that its directives differ.
fn numbered(text: &[u8]) -> Vec<u8> {
    let mut count = 0;
    let mut numbered = Vec::new();
    for byte in text {
        if *byte == b'#' {
            count += 1;
            numbered.extend(count.to_string().bytes());
        } else {
            numbered.push(*byte);
        }
    }
    numbered
}

/// The records written out, whole and with others around them, cut and reordered.
pub fn chosen(rng: &mut Rng, out: &mut Out) {
    for (text, _) in chosen::placed() {
        out.text(text.as_bytes());
        out.text(text.replace('\n', "\r\n").as_bytes());
        out.text(format!("{text}\n\n{text}").as_bytes());
        out.text(format!("% h\n\n{text}\n{{e}}\n;d\n\n;i\n{text}").as_bytes());
        for cut in 0..text.len() {
            out.text(&text.as_bytes()[..cut]);
            out.text(format!("[Auction \"S\"]\nP\n{}", &text[cut..]).as_bytes());
        }
        let mut lines: Vec<&str> = text.lines().collect();
        for _ in 0..100 {
            rng.shuffle(&mut lines);
            let lines = lines.join("\n");
            out.text(format!("[Auction \"N\"]\n1C\n{lines}").as_bytes());
        }
    }
}

/// Notes that match each other or do not, and directives of each form.
const LINES: [&str; 10] = [
    "[Note \"1:a\"]\n",
    "[Note \"2:b\"]\n",
    "[Note \"1:d\"]\n",
    "[Note \"01:a\"]\n",
    "[Note \"9\"]\n",
    ";c#\n",
    "%e#\n",
    "{x}\n",
    "[Note \"2:b\"] ;f#\n",
    "[X \"1\"]\n",
];

/// The same with other auctions, sections, boards and tags that are not written.
const AMONG: [&str; 10] = [
    "[Note \"1:a\"] {d#}\n",
    "[Note \" 1:a\"]\n",
    "[Note \"2:b\"]\n",
    "[Auction \"E\"]\n1D\n",
    "[Auction \"x\"]\n1D\n",
    "[Play \"N\"]\nSA\n",
    ";c#\n",
    "{x}\n",
    "[Board \"\"]\n",
    "\n[Auction \"W\"]\nP\n[Note \"0:z\"]\n",
];

/// Every short sequence of such lines.
pub fn short(_: &mut Rng, out: &mut Out) {
    let before = "[Auction \"N\"]\n1C\n";
    out.changed(numbered, |out| {
        out.sequences(before, &LINES, "", "", 5);
        out.sequences(before, &AMONG, "", "", 4);
        out.sequences("", &AMONG, "", "[Note \"2:b\"]\n;g#", 4);
        let both = [LINES[0], LINES[1], LINES[5], LINES[7], AMONG[0]];
        out.sequences(before, &both, "", "", 6);
    });
}

/// Values of notes: equal ones, equal numbers with other texts, numbers that are
/// written otherwise, and values of which no note is written.
const VALUES: [&str; 32] = [
    "1:a", "1:a", "1:a", "1:b", "1:b", "2:a", "2:a", "2:b", "2:b", "3:a", "3:c", "0:a", "01:a",
    " 1:a", "+1:a", "1 :a", "1: a", "1:a ", "1:A", "2:B", "002:b", "1:", "1:a:b", "255:a", "256:a",
    "300:b", "-1:a", "9", "a", ":a", "", "1",
];

/// What may stand behind a tag on its line.
const TAILS: [&str; 8] = ["", "", "", "", " ;c#", ";c#", " {d#}", " {d#} e"];

/// Remarks on lines of their own, mostly directives.
const REMARKS: [&str; 14] = [
    ";c#",
    ";c#",
    ";c#",
    "%c#",
    "%c#",
    " \t;c# ",
    ";#[Note \"1:a\"]",
    "% {#",
    "{x}",
    "{x\n;c1\n}",
    "{[Note \"1:a\"]\n\n;y} z } w",
    "{ }",
    "data",
    "[no tag",
];

/// Other tags: repeated, not written, sections with data.
const OTHERS: [&str; 22] = [
    "[X \"1\"]",
    "[X \"2\"]",
    "[Notes \"1:a\"]",
    "[note \"1:a\"]",
    "[Event \"a\"]",
    "[Event \"b\"]",
    "[Scoring \"x\"]",
    "[Board \"\"]",
    "[Board \"7\"]",
    "[Dealer \"x\"]",
    "[Deal \"\"]",
    "[Result \"\"]",
    "[DoubleDummyTricks \"bad\"]",
    "[DoubleDummyTricks \"01234567890123456789\"]",
    "[OptimumResultTable \"\"]\nN NT 1",
    "[Play \"N\"]\nSA S2\n*",
    "[Play \"\"]\nSA",
    "[Auction \"E\"]\n1D",
    "[Auction \"E\"]\n1D",
    "[Auction \"W\"] X",
    "[Auction \"\"]\nP",
    "[Auction \"N\"]",
];

/// The auction that notes follow: with calls, without, and one that is none.
const AUCTIONS: [&str; 10] = [
    "[Auction \"N\"]\n1C=1= AP\n",
    "[Auction \"N\"]\n1C=1= AP\n",
    "[Auction \"N\"]\n1C=1= AP\n",
    "[Auction \"N\"]\n1C=1= AP\n",
    "[Auction \"S\"]\n1C\n",
    "[Auction \"S\"]\n1C\n",
    "[Auction \"S\"]\n1C\n",
    "[Auction \"S\"]\n1C\n",
    "[Auction \"E\"]\nzz\n",
    "[Auction \"x\"]\n1C\n",
];

fn remarks(rng: &mut Rng, text: &mut String) {
    for _ in 0..[0, 0, 1, 1, 1, 2, 4][rng.below(7)] {
        *text += rng.pick(&REMARKS);
        *text += "\n";
    }
}

/// A tag with a tail, and remarks after it.
fn tag(rng: &mut Rng, text: &mut String, tag: &str, remarked: bool) {
    *text += &format!("{tag}{}\n", rng.pick(&TAILS));
    if remarked {
        remarks(rng, text);
    }
}

/// Mostly few notes, now and then very many, and other tags among them.
fn notes(rng: &mut Rng, text: &mut String) {
    let many = rng.once_in(250);
    for at in 0..rng.below(if many { 257 } else { 7 }) {
        let value = match (many, rng.once_in(9)) {
            (true, true) => format!("{}:a", rng.below(300)),
            (true, false) => format!("{}:a", 255 - at),
            _ => rng.pick(&VALUES).to_string(),
        };
        let remarked = !many || rng.once_in(20);
        tag(rng, text, &format!("[Note \"{value}\"]"), remarked);
        if rng.once_in(if many { 200 } else { 6 }) {
            let other = rng.pick(&OTHERS);
            tag(rng, text, other, true);
        }
    }
}

/// The lines of one board, in which each `#` wants a number.
pub fn record(rng: &mut Rng) -> String {
    let mut text = String::new();
    if rng.once_in(4) {
        remarks(rng, &mut text);
    }
    for _ in 0..[0, 0, 0, 1, 2][rng.below(5)] {
        let other = rng.pick(&OTHERS);
        tag(rng, &mut text, other, true);
    }
    if rng.once_in(6) {
        notes(rng, &mut text);
    }
    text += rng.pick(&AUCTIONS);
    if rng.once_in(3) {
        remarks(rng, &mut text);
    }
    notes(rng, &mut text);
    text
}

/// Gives each `#` its number, mostly; else equal ones or none. Mostly LF ends a line.
pub fn finished(rng: &mut Rng, text: &str) -> Vec<u8> {
    let text = match rng.below(8) {
        0 => text.replace('#', ""),
        1 => text.replace('#', "1"),
        _ => String::from_utf8(numbered(text.as_bytes())).expect("text"),
    };
    match rng.below(6) {
        0 => text.replace('\n', "\r\n"),
        _ => text,
    }
    .into_bytes()
}

pub fn generated(rng: &mut Rng, out: &mut Out) {
    for _ in 0..350_000 {
        let mut text = record(rng);
        while rng.once_in(5) {
            text += rng.pick(&["\n", "\n\n", " \n"]);
            text += &record(rng);
        }
        out.text(&finished(rng, &text));
    }
}
