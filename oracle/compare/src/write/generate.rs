//! The editions that are written: those of reading, and others that are aimed at
//! what a writer chooses, orders and repeats.

use super::chosen::{self, FULL, UNWRITTEN};
use super::notes;
use crate::read::generate::{
    self as reading, damage, deal, names, optimum, play_data, put_outside, tokens, value, Group,
    Out, CALLS, DEAL,
};
use crate::read::LONGEST;
use crate::rng::Rng;

const GROUPS: [Group; 18] = [
    ("writing: chosen texts", chosen),
    ("writing: no boards", no_boards),
    ("writing: all short, remarks", short_remarks),
    ("writing: all short, supplemental tags", short_supplemental),
    ("writing: all short, notes", short_notes),
    ("writing: all short, auctions", short_auctions),
    ("writing: all short, plays", short_plays),
    ("writing: remarks at every place", remarks_at_every_place),
    ("writing: auctions of every length and call", auctions),
    ("writing: deals", deals),
    ("writing: values", values),
    ("writing: generated records", records),
    ("writing: damaged records", damaged),
    ("writing: outside the domain", outside),
    ("writing: long records", long),
    ("writing: directives, chosen", notes::chosen),
    ("writing: all short, directives after notes", notes::short),
    ("writing: directives after notes", notes::generated),
];

/// Gives every text to `give`, which says whether it wants more.
pub fn all(seed: u64, give: &mut dyn FnMut(&'static str, &[u8]) -> bool) {
    let mut open = true;
    reading::all_of(&GROUPS, seed, &mut |group, text| {
        open = give(group, text);
        open
    });
    if open {
        reading::all(seed, give);
    }
}

fn chosen(_: &mut Rng, out: &mut Out) {
    for text in chosen::texts() {
        out.text(text.as_bytes());
        out.text(text.replace('\n', "\r\n").as_bytes());
        out.text(format!("{text}\n").as_bytes());
        out.text(format!("{text}\n;d\n{{e}}\n").as_bytes());
        // After another board, before one, and in its record.
        out.text(format!("[Y \"\"]\n\n{text}").as_bytes());
        out.text(format!("{text}\n\n[Y \"\"]").as_bytes());
        out.text(format!("% h\n{text}\n\n% h\n{text}").as_bytes());
        out.text(format!("[Y \"\"]\n{text}\n[Deal \"\"]\n[Y \"\"]").as_bytes());
        out.text(format!("[Deal \"{DEAL}\"]\n{text}").as_bytes());
        for cut in 0..text.len() {
            out.text(&text.as_bytes()[..cut]);
            out.text(&text.as_bytes()[cut..]);
        }
    }
}

// ---- All short texts ----

fn no_boards(_: &mut Rng, out: &mut Out) {
    let lines = [";c\n", "%\n", "{b}\n", "\n", "x\n", "{\n", "[A\n", "}"];
    out.sequences("", &lines, "", "", 4);
    out.sequences("", &lines, "", "[A \"\"]", 4);
    out.sequences("[A \"\"]\n\n", &lines, "", "", 4);
}

fn short_remarks(_: &mut Rng, out: &mut Out) {
    let lines = [
        "[A \"1\"]\n",
        "[Event \"x\"] ;c\n",
        "[Board \"\"]\n",
        "[Deal \"\"]\n",
        ";d\n",
        "% e\n",
        "{b}\n",
        "{c\r\n}\n",
        "\n",
    ];
    out.sequences("", &lines, "", "", 5);
    out.sequences("[Scoring \"\"]\n", &lines, "", "[Scoring \"x\"]", 4);
    out.sequences("[Auction \"N\"]\n1C\n", &lines, "", "[Note \"1:n\"]\n;f", 4);
}

fn short_supplemental(_: &mut Rng, out: &mut Out) {
    let lines = [
        "[A \"1\"]\n",
        "[A \"2\"]\n",
        "[B \"3\"]\n",
        "[ \"4\"]\n",
        "[Scoring \"5\"]\n",
        "[Deal \"\"]\n",
        ";d\n",
        "{b}\n",
    ];
    out.sequences("", &lines, "", "", 6);
    out.sequences("[Scoring \"6\"]\n", &lines, "", "[Deal \"x\"]", 4);
}

fn short_notes(_: &mut Rng, out: &mut Out) {
    let lines = [
        "[Note \"0:a\"]\n",
        "[Note \"255:b\"]\n",
        "[Note \"10:c\"]\n",
        "[Note \"9:d\"]\n",
        "[Note \" +09 :e\"]\n",
        "[Note \"x\"]\n",
        "[Auction \"E\"]\nX=9=\n",
        "[Play \"W\"]\nS2\n",
        ";d\n",
        "{b}\n",
    ];
    out.sequences("[Auction \"N\"]\nP\n", &lines, "", "", 5);
    out.sequences("", &lines, "", "", 4);
}

fn short_auctions(_: &mut Rng, out: &mut Out) {
    let calls = ["1C", "+", "*", "AP", "!", "zz", "X=1="];
    out.sequences("[Auction \"S\"]\n", &calls, " ", "", 6);
    out.sequences(
        "[Auction \"W\"]\n1C 1D\n",
        &calls,
        "\n",
        "\n;d\n[Note \"1:n\"]",
        5,
    );
}

fn short_plays(_: &mut Rng, out: &mut Out) {
    let cards = ["H2", "SA", "-", "+", "*", "zz"];
    // The first trick is won by each seat, or by none.
    for leader in ["N", "E", "S", "W"] {
        for trick in [
            "SA S2 S3 S4",
            "S2 SA S3 S4",
            "S2 S3 SA S4",
            "S2 S3 S4 SA",
            "S2 - S3 S4",
        ] {
            let before = format!("[Play \"{leader}\"]\n{trick}\n");
            out.sequences(&before, &cards, " ", "\n;d", 4);
        }
    }
    out.sequences("[Contract \"2H\"]\n[Play \"N\"]\n", &cards, " ", "", 6);
}

// ---- One thing, everywhere ----

const REMARKS: [&str; 6] = [";d", "% e", "{b}", "{c\n\n c}", " {c} ;d", "{f\r\nf}"];

fn remarks_at_every_place(rng: &mut Rng, out: &mut Out) {
    for record in [&FULL[..], &UNWRITTEN] {
        // At two places: before a line or behind the last.
        for one in 0..=record.len() {
            for other in one..=record.len() {
                for remark in REMARKS {
                    for other_remark in REMARKS {
                        let mut lines: Vec<&str> = record.to_vec();
                        lines.insert(other, other_remark);
                        lines.insert(one, remark);
                        out.text(lines.join("\n").as_bytes());
                    }
                }
            }
        }
        // On a tag's own line, with one line of the record left out.
        for left_out in 0..record.len() {
            for at in 0..record.len() - 1 {
                for tail in [" ;c", " {c}", "{}", " {c} d {e"] {
                    let mut lines: Vec<String> = record.iter().map(|l| l.to_string()).collect();
                    lines.remove(left_out);
                    let end = lines[at].find('\n').unwrap_or(lines[at].len());
                    lines[at].insert_str(end, tail);
                    out.text(lines.join("\n").as_bytes());
                }
            }
        }
    }
    // After every line one, the lines in any order.
    for _ in 0..60_000 {
        let mut lines: Vec<&str> = [&FULL[..], &UNWRITTEN].concat();
        rng.shuffle(&mut lines);
        lines.truncate(rng.below(lines.len() + 1));
        let mut text = String::new();
        for line in lines {
            text += line;
            text += "\n";
            while rng.once_in(2) {
                text += rng.pick(&REMARKS);
                text += "\n";
            }
            if rng.once_in(30) {
                text += "\n";
            }
        }
        out.text(text.as_bytes());
    }
}

/// Every call by its code.
fn calls() -> Vec<String> {
    let mut calls = vec!["Pass".to_string()];
    for level in 1..=7 {
        for strain in ["C", "D", "H", "S", "NT"] {
            calls.push(format!("{level}{strain}"));
        }
    }
    calls.extend(["X".to_string(), "XX".to_string(), "+".to_string()]);
    calls.extend((1..=8).map(|count| "_".repeat(count)));
    calls
}

fn auctions(rng: &mut Rng, out: &mut Out) {
    let calls = calls();
    for length in 0..=70 {
        for end in ["", "+", "*", "+ *", "AP", "+!", "+ AP", "zz"] {
            for annotations in ["", "!", " =1=", "=1= $2 ?"] {
                let tokens: Vec<String> = (0..length)
                    .map(|_| calls[rng.below(calls.len())].clone() + annotations)
                    .collect();
                let seat = rng.pick(&["N", "E", "S", "W"]);
                let gap = rng.pick(&[" ", "\n", " \t"]);
                let data = tokens.join(gap);
                out.text(format!("[Auction \"{seat}\"]\n{data} {end}\n;d\n").as_bytes());
            }
        }
    }
    // Each code at each place of a round, and twice.
    for call in &calls {
        for before in 0..5 {
            for after in ["", " P", " =5=", " *"] {
                let passes = "P ".repeat(before);
                let text = format!("[Auction \"E\"]\n{passes}{call}{after}\n");
                out.text(text.as_bytes());
                out.text(
                    text.to_lowercase()
                        .replace("[auction \"e\"]", "[Auction \"E\"]")
                        .as_bytes(),
                );
            }
        }
    }
    for number in 0..=300 {
        for form in ["", "0", "+", " ", "-"] {
            let notes = format!("[Note \"{form}{number}:n\"]\n[Note \"{}:m\"]", number / 2);
            out.text(format!("[Auction \"E\"]\nP\n{notes}\n;d\n{{b}}").as_bytes());
        }
    }
}

fn deals(rng: &mut Rng, out: &mut Out) {
    for _ in 0..60_000 {
        let mut text = String::new();
        for _ in 0..1 + rng.below(3) {
            text += &format!("[Deal \"{}\"]\n", deal(rng));
            if rng.once_in(2) {
                let seat = rng.pick(&["N", "E", "S", "W", "x", ""]);
                text += &format!("[Dealer \"{seat}\"]\n");
            }
        }
        out.text(text.as_bytes());
    }
    for _ in 0..20_000 {
        let rows = rng.below(3);
        let mut parts = [
            optimum(rng, rows),
            format!(
                "[DoubleDummyTricks \"{}\"]\n",
                value(rng, "DoubleDummyTricks")
            ),
            format!("{}\n", rng.pick(&REMARKS)),
        ];
        rng.shuffle(&mut parts);
        out.text(parts.concat().as_bytes());
    }
}

const VALUES: [&str; 24] = [
    "", " ", "x", " x ", "?", "-", "N", "e", "1", "+13", "-7", "300", "1:n", "255:", " 0 : ]",
    "a\"b", "\"", "\\", "\\\"", "x\"y]", "a\rb", "\r", "{;%}", "é♠",
];

fn values(_: &mut Rng, out: &mut Out) {
    for name in names() {
        for value in VALUES {
            for other in VALUES {
                let tags = format!("[{name} \"{value}\"]\n;d\n[{name} \"{other}\"]\n{{b}}\n");
                out.text(tags.as_bytes());
                out.text(format!("[Auction \"S\"]\nP\n{tags}[Deal \"\"]\n").as_bytes());
            }
        }
    }
}

// ---- Records of few names ----

fn remark(rng: &mut Rng) -> &'static str {
    rng.pick(&[
        ";d",
        ";",
        "% e",
        "%",
        " ;f \t",
        ";}",
        "%{",
        "; [Event \"x\"]",
        "{b}",
        "{ b\n  c }",
        "{a\r\nb}",
        "{a\r\r\nb\r\n}",
        "{\n\n[Event \"in\"]\n\n}",
        "{a} b } c",
        "{}",
        "{ \n }",
        "{é}",
        "{;x\n%y}",
        "{open",
    ])
}

/// A line or a section of a record.
fn line(rng: &mut Rng, text: &mut String) {
    match rng.below(20) {
        0..=5 => *text += remark(rng),
        6..=10 => {
            let few = [
                "A", "B", "C", "", "Scoring", "Room", "a", "Notes", "Dea", "é",
            ];
            let name = rng.pick(&few);
            *text += &format!("[{name} \"{}\"]", rng.pick(&VALUES));
        }
        11 | 12 => {
            let value = match rng.below(4) {
                0 => rng.pick(&["", " ", "x", "N:", "N:- - - -"]).to_string(),
                1 => deal(rng),
                _ => DEAL.to_string(),
            };
            *text += &format!("[Deal \"{value}\"]");
        }
        13 | 14 => {
            let number = if rng.once_in(3) {
                rng.below(260)
            } else {
                rng.below(4)
            };
            let sign = rng.pick(&["", "", "", "+", "00", " ", "-"]);
            let rest = rng.pick(&[":a", ":", ":b c", " :d", "", "::"]);
            *text += &format!("[Note \"{sign}{number}{rest}\"]");
        }
        15 | 16 => {
            let seat = rng.pick(&["N", "E", "S", "W", "x", ""]);
            *text += &format!("[Auction \"{seat}\"]");
            *text += rng.pick(&["\n", "\n", "\n", " "]);
            *text += &tokens(rng, &CALLS, 12);
        }
        17 => {
            let seat = rng.pick(&["N", "E", "S", "W", "x", ""]);
            *text += &format!("[Play \"{seat}\"]\n{}", play_data(rng, 20));
        }
        18 => {
            let name = rng.pick(&names());
            *text += &format!("[{name} \"{}\"]", value(rng, name));
        }
        _ => {
            let name = rng.pick(&["Board", "Dealer", "Event", "Result", "DoubleDummyTricks"]);
            *text += &format!("[{name} \"{}\"]", value(rng, name));
        }
    }
    if rng.once_in(8) {
        *text += rng.pick(&[" ;c", " {c}", "{}", " {c} d {e", ";"]);
    }
    *text += rng.pick(&["\n", "\n", "\n", "\n", "\n", "\r\n"]);
}

/// One to three boards, as a rule.
fn record(rng: &mut Rng) -> String {
    let mut text = String::new();
    let blank = 3 + rng.below(20);
    for _ in 0..1 + rng.below(16) {
        line(rng, &mut text);
        if rng.once_in(blank) {
            text += rng.pick(&["\n", "\r\n", " \n"]);
        }
    }
    text
}

fn records(rng: &mut Rng, out: &mut Out) {
    for _ in 0..500_000 {
        let text = record(rng);
        out.text(text.as_bytes());
    }
}

fn damaged(rng: &mut Rng, out: &mut Out) {
    let mut source = String::new();
    for i in 0..300_000 {
        if i % 4 == 0 {
            source = record(rng);
        }
        let mut text = source.clone().into_bytes();
        damage(rng, &mut text);
        out.text(&text);
    }
}

fn outside(rng: &mut Rng, out: &mut Out) {
    for _ in 0..150_000 {
        let mut text = record(rng).into_bytes();
        put_outside(rng, &mut text);
        out.text(&text);
    }
    // Each byte where it is copied, compared or counted.
    for byte in 0x80..=0xffu8 {
        for place in [
            "[# \"#\"]\n;#\n{#}\n[# \"x\"]\n;d",
            "[Auction \"N\"]\n1C!# P\n[Note \"1:#\"]\n[Note \"#1:x\"]\n[Note \"1#:x\"]",
            "[Deal \"#\"]\n[Board \"#\"]\n[Dealer \"N#\"]\n[A# \"\"]\n[A \"\"]",
            "%#\n{#\r\n#}\n[Event \"#]#\"] ;#",
        ] {
            let text = place.bytes().map(|b| if b == b'#' { byte } else { b });
            out.text(&text.collect::<Vec<u8>>());
        }
    }
}

// ---- Long records ----

/// So many supplemental tags, before the Deal tag or after it, each with a
/// directive and commentary or with none.
pub fn supplemental(count: usize, early: bool, remarks: bool) -> String {
    let mut text = if early { "" } else { "[Deal \"\"]\n" }.to_string();
    for number in 0..count {
        text += &format!("[Name{number} \"{number}\"]\n");
        if remarks {
            text += &format!(";d{number}\n{{b{number}}}\n");
        }
    }
    if early {
        text += "[Deal \"\"]\n";
    }
    text
}

/// 256 notes, the last of them with so many directives.
pub fn noted(count: usize) -> String {
    let mut text = "[Auction \"N\"]\nP\n".to_string();
    for number in 0..256 {
        text += &format!("[Note \"{number}:n\"]\n");
    }
    text + &";d\n".repeat(count)
}

/// An auction of so many calls.
pub fn called(count: usize) -> String {
    let round = ["1C", "Pass", "X=1=", "XX!"];
    let calls: Vec<&str> = (0..count).map(|at| round[at % 4]).collect();
    format!("[Auction \"N\"]\n{}\n", calls.join(" "))
}

fn long(rng: &mut Rng, out: &mut Out) {
    for count in [300, 1_000, 3_000] {
        for early in [false, true] {
            for remarks in [false, true] {
                out.text(supplemental(count, early, remarks).as_bytes());
            }
        }
        out.text(noted(count).as_bytes());
        out.text(called(10 * count + 1).as_bytes());
        let many = |piece: &str| piece.repeat(count);
        out.text(format!("[A \"\"]\n{}", many("[A \"x\"]\n;d\n{b}\n")).as_bytes());
        out.text(format!("[Board \"\"]\n{}", many(";d\n{b}\n")).as_bytes());
        out.text(format!("[Event \"\"]\n{{{}}}", many("text\r\n\n")).as_bytes());
        out.text(format!("[Play \"N\"]\n{}", many("S2 HA - C3\n")).as_bytes());
        out.text(many("% h\n").as_bytes());
        out.text(format!("{}[Event \"\"]", many("% h\n{b}\n")).as_bytes());
        out.text(many("[ \"\"]\n;d\n\n").as_bytes());
        let mut mixed = String::new();
        while mixed.len() < 100 * count {
            mixed += &record(rng);
            mixed += "}\n\n";
        }
        out.text(mixed.as_bytes());
    }
}

/// A text as long as can be: 256 notes, and after the last a directive that takes the
/// rest.
pub fn noted_at_length() -> Vec<u8> {
    let mut text = noted(0).into_bytes();
    text.push(b';');
    text.resize(LONGEST, b'x');
    text
}

/// Very many boards of one tag. No page is longer for its text.
pub fn small_boards() -> Vec<u8> {
    b"[ \"\"]\n\n".repeat(1 << 20)
}
