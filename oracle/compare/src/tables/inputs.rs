//! The inputs that are compared: all that are short, and many that are not.

use super::judge::{rows_text, table_of};
use super::{Case, Kind};
use crate::rng::Rng;

const WRITERS: [Kind; 3] = [Kind::ToPbn, Kind::Header, Kind::Rows];
/// No table is written with more bytes than this.
const LONGEST: usize = 180;
const WHITE: [u8; 6] = [9, 10, 11, 12, 13, 32];
/// Characters of more than one byte, in the domain.
const WIDE: [&str; 12] = [
    "é",
    "Σ",
    "ſ",
    "٣",
    "０",
    "Ｎ",
    "♠",
    "\u{200b}",
    "\u{feff}",
    "\u{301}",
    "😀",
    "\u{10ffff}",
];
/// The white space that the domain leaves out.
const EXCLUDED: [char; 19] = [
    '\u{85}', '\u{a0}', '\u{1680}', '\u{2000}', '\u{2001}', '\u{2002}', '\u{2003}', '\u{2004}',
    '\u{2005}', '\u{2006}', '\u{2007}', '\u{2008}', '\u{2009}', '\u{200a}', '\u{2028}', '\u{2029}',
    '\u{202f}', '\u{205f}', '\u{3000}',
];

/// Takes the cases, each with the name of its group, until a receiver of them
/// says that it wants no more.
pub struct Out<'a> {
    give: &'a mut dyn FnMut(&'static str, Case) -> bool,
    group: &'static str,
    open: bool,
}

impl Out<'_> {
    fn case(&mut self, case: Case) {
        if self.open {
            self.open = (self.give)(self.group, case);
        }
    }

    fn write(&mut self, table: &[u8; 20], page: usize) {
        for kind in WRITERS {
            self.case(Case::write(kind, table, page));
        }
    }

    fn digits(&mut self, text: &[u8]) {
        self.case(Case::read(Kind::FromPbn, text));
    }

    fn rows(&mut self, text: &[u8]) {
        self.case(Case::read(Kind::FromRows, text));
    }
}

/// A group's name and what gives its inputs.
type Group = (&'static str, fn(&mut Rng, &mut Out));

const GROUPS: [Group; 20] = [
    (NAMED, named),
    ("write: random tables", random_tables),
    ("write: one cell changed", one_cell_changed),
    ("write: every page length", page_lengths),
    ("digits: one character changed", digits_changed),
    ("digits: two characters changed", digits_changed_twice),
    ("digits: every length", digits_lengths),
    ("digits: white space", digits_white),
    ("digits: random", digits_random),
    ("digits: outside the domain", digits_outside),
    ("rows: all short texts", rows_short),
    ("rows: all short rows in a table", rows_short_in_table),
    ("rows: every byte pair as a field", rows_byte_pairs),
    ("rows: field by field", rows_fields),
    ("rows: every result", rows_results),
    ("rows: a table damaged", rows_damaged),
    ("rows: orders, repeats, gaps", rows_orders),
    ("rows: random", rows_random),
    ("rows: very long", rows_long),
    ("rows: outside the domain", rows_outside),
];

/// The group of the cases that are always recorded.
pub const NAMED: &str = "named cases";

/// Gives every case to `give`, which says whether it wants more. Each group has
/// its own random numbers, so that a change in one leaves the others alone.
pub fn all(seed: u64, give: &mut dyn FnMut(&'static str, Case) -> bool) {
    let mut out = Out {
        give,
        group: "",
        open: true,
    };
    for (i, (group, inputs)) in GROUPS.into_iter().enumerate() {
        if !out.open {
            return;
        }
        out.group = group;
        inputs(&mut Rng::new(seed.wrapping_add((i as u64) << 32)), &mut out);
    }
}

// ---- Tables to write from, and good texts ----

fn random_table(rng: &mut Rng) -> [u8; 20] {
    // Up to 9, 10, 13 or any byte; or small but for one cell.
    let most = [9, 10, 13, 13, 255, 9][rng.below(6)];
    let mut table = [0; 20].map(|_: u8| rng.below(most + 1) as u8);
    if rng.once_in(4) {
        table[rng.below(20)] = rng.byte();
    }
    table
}

/// A table that can be read back.
fn possible_table(rng: &mut Rng) -> [u8; 20] {
    let most = [9, 13][rng.below(2)];
    [0; 20].map(|_: u8| rng.below(most + 1) as u8)
}

/// The rows of a table, each without its LF.
fn row_list(table: &[u8; 20]) -> Vec<Vec<u8>> {
    let text = rows_text(&table_of(table));
    text.lines().map(|row| row.as_bytes().to_vec()).collect()
}

/// How many bytes a writer writes.
fn needed(kind: Kind, table: &[u8; 20]) -> usize {
    match kind {
        Kind::ToPbn => 20,
        Kind::Header => 34,
        _ => rows_text(&table_of(table)).len(),
    }
}

/// The table whose cells are 0 to 9 and 0 to 9 again, or 0 to 13 and on.
fn counting_table(count: u8) -> [u8; 20] {
    std::array::from_fn(|i| i as u8 % count)
}

const GOOD_DIGITS: [&str; 6] = [
    "00000000000000000000",
    "0123456789abcdABCD09",
    "dddddddddddddddddddd",
    "98765432109876543210",
    "aAbBcCdD0123456789dD",
    "7777777777777777777A",
];

// ---- Named cases ----

/// The specification's cases for tables and others that a porter slips on.
fn named(_: &mut Rng, out: &mut Out) {
    for table in [
        [0; 20],
        [9; 20],
        [10; 20],
        [13; 20],
        [14; 20],
        [99; 20],
        [100; 20],
        [255; 20],
        counting_table(10),
        counting_table(14),
    ] {
        for kind in WRITERS {
            let need = needed(kind, &table);
            for page in [0, 1, need - 1, need, need + 1, 2 * need] {
                out.case(Case::write(kind, &table, page));
            }
        }
    }
    for value in [
        "",
        " ",
        "0",
        "0000000000000000000",
        "000000000000000000000",
        "0000000000000000000e",
        "e0000000000000000000",
        "0000000000E000000000",
        " \t\u{b}\u{c}\r\n0123456789abcdABCD00\n",
        "0000000000 000000000",
        "000000000000000000é",
        "0000000000000000000é",
        "0000000000000000000０",
        "éé000000000000000000",
        "\u{1f}0000000000000000000",
        "00000000000000000000\u{0}",
        "0123456789abcdefABCD",
    ] {
        out.digits(value.as_bytes());
    }
    let good = row_list(&counting_table(14));
    for row in [
        "N NT 13",
        "N NT 14",
        "N NT 255",
        "N NT 256",
        "N NT +9",
        "N NT +13",
        "N NT +14",
        "North n 9",
        "north N 9",
        "N nt 009",
        "N nT 0000000000000000000013",
        "N NT -0",
        "N NT +",
        "N NT ++1",
        "N NT 1+",
        "N NT",
        "N NT 1 2",
        "N",
        "NT 1",
        "X NT 1",
        "é NT 1",
        "Né NT 1",
        "N T 1",
        "N NTT 1",
        "N SS 1",
        "N \u{17f} 1",
        "\u{17f} NT 1",
        "N NT 1é",
        "N NT ٣",
        "N NT 1.",
        "N NT a",
        "\u{b}N\u{c}NT\t1\r",
        "",
        "  ",
        "\r",
        "N,NT,1",
        "N NT\u{1f}1",
        "S NT 1",
        "n s 1",
    ] {
        let mut rows = good.clone();
        rows[0] = row.as_bytes().to_vec();
        out.rows(&rows.join(&b'\n'));
        out.rows(row.as_bytes());
        out.rows(format!("\n\r\n{row}\n{row}\n").as_bytes());
    }
    for count in 0..=20 {
        out.rows(&good[..count].join(&b'\n'));
        out.rows(&good[20 - count..].join(&b"\r\n"[..]));
    }
}

// ---- Writing ----

fn random_tables(rng: &mut Rng, out: &mut Out) {
    for _ in 0..150_000 {
        let table = random_table(rng);
        // Mostly room enough, with some left over.
        let page = if rng.once_in(8) {
            rng.below(LONGEST)
        } else {
            LONGEST + rng.below(20)
        };
        out.write(&table, page);
    }
    for _ in 0..50_000 {
        let table = [0; 20].map(|_: u8| rng.byte());
        out.write(&table, LONGEST + rng.below(20));
    }
}

fn one_cell_changed(rng: &mut Rng, out: &mut Out) {
    for base in [[0; 20], [9; 20], [13; 20], possible_table(rng)] {
        for cell in 0..20 {
            for tricks in 0..=255 {
                let mut table = base;
                table[cell] = tricks;
                out.write(&table, LONGEST);
            }
        }
    }
}

fn page_lengths(rng: &mut Rng, out: &mut Out) {
    let mut tables = vec![[0; 20], [9; 20], [10; 20], [13; 20], [100; 20], [255; 20]];
    tables.extend((0..250).map(|_| random_table(rng)));
    for table in tables {
        for kind in WRITERS {
            let need = needed(kind, &table);
            for page in 0..=need + 3 {
                out.case(Case::write(kind, &table, page));
            }
        }
    }
}

// ---- Digits ----

/// Every single byte, the wide characters and the excluded white space.
fn characters() -> Vec<Vec<u8>> {
    let bytes = (0..=255).map(|b| vec![b]);
    let wide = WIDE.iter().map(|text| text.as_bytes().to_vec());
    let excluded = EXCLUDED.iter().map(|c| c.to_string().into_bytes());
    bytes.chain(wide).chain(excluded).collect()
}

/// A text with `range` replaced.
fn replaced(text: &[u8], range: std::ops::Range<usize>, by: &[u8]) -> Vec<u8> {
    [&text[..range.start], by, &text[range.end..]].concat()
}

/// Gives a text with each place substituted, inserted at and deleted, and with
/// each pair of bytes next to each other swapped.
fn each_change(text: &[u8], characters: &[Vec<u8>], give: &mut dyn FnMut(&[u8])) {
    for at in 0..=text.len() {
        for character in characters {
            give(&replaced(text, at..at, character));
            if at < text.len() {
                give(&replaced(text, at..at + 1, character));
            }
        }
        if at < text.len() {
            give(&replaced(text, at..at + 1, b""));
        }
        if at + 1 < text.len() {
            give(&replaced(text, at..at + 2, &[text[at + 1], text[at]]));
            give(&replaced(text, at..at + 2, b""));
        }
    }
}

fn digits_changed(_: &mut Rng, out: &mut Out) {
    for good in GOOD_DIGITS {
        each_change(good.as_bytes(), &characters(), &mut |text| out.digits(text));
    }
}

/// Two bad characters, of one or more bytes, so that the first is told apart.
fn digits_changed_twice(rng: &mut Rng, out: &mut Out) {
    for _ in 0..100_000 {
        let mut value: Vec<String> = rng.pick(&GOOD_DIGITS).chars().map(String::from).collect();
        for _ in 0..2 {
            let at = rng.below(20);
            value[at] = if rng.once_in(2) {
                char::from(rng.below(128) as u8).to_string()
            } else {
                rng.pick(&WIDE).to_string()
            };
        }
        out.digits(value.concat().as_bytes());
    }
}

fn digits_lengths(rng: &mut Rng, out: &mut Out) {
    for length in 0..=45 {
        for round in 0..1000 {
            let mut value = String::new();
            for _ in 0..length {
                if round > 0 && rng.once_in(12) {
                    value.push_str(rng.pick(&WIDE));
                } else {
                    value.push(char::from(b"0123456789abcdABCD"[rng.below(18)]));
                }
            }
            out.digits(value.as_bytes());
        }
    }
}

fn digits_white(_: &mut Rng, out: &mut Out) {
    // All runs of up to three white bytes.
    let mut runs: Vec<Vec<u8>> = vec![Vec::new()];
    let mut first = 0;
    for _ in 0..3 {
        let last = runs.len();
        for i in first..last {
            for white in WHITE {
                let run = [&runs[i][..], &[white]].concat();
                runs.push(run);
            }
        }
        first = last;
    }
    let good = b"0123456789abcdABCD09";
    for before in &runs {
        for after in &runs {
            out.digits(&[before, &good[..], after].concat());
        }
        // Inside, and instead of what stands there.
        for at in 0..=20 {
            out.digits(&replaced(good, at..at, before));
            out.digits(&replaced(good, at..20, before));
            out.digits(&replaced(good, at..(at + before.len()).min(20), before));
        }
    }
}

fn digits_random(rng: &mut Rng, out: &mut Out) {
    for _ in 0..120_000 {
        let mut value = String::new();
        for _ in 0..rng.below(4) {
            value.push(char::from(WHITE[rng.below(6)]));
        }
        let length = 18 + rng.below(5);
        for _ in 0..length {
            match rng.below(60) {
                0 => value.push(char::from(rng.below(128) as u8)),
                1 => value.push_str(rng.pick(&WIDE)),
                _ => value.push(char::from(b"0123456789abcdABCD"[rng.below(18)])),
            }
        }
        for _ in 0..rng.below(4) {
            value.push(char::from(WHITE[rng.below(6)]));
        }
        out.digits(value.as_bytes());
    }
}

/// Bytes that lengthen characters, lone starts of characters, excluded white
/// space and any byte, among digits.
fn digits_outside(rng: &mut Rng, out: &mut Out) {
    for _ in 0..150_000 {
        let mut value = Vec::new();
        let length = 16 + rng.below(8);
        let often = [4, 12, 40][rng.below(3)];
        for _ in 0..length {
            if rng.once_in(often) {
                push_outside(rng, &mut value);
            } else {
                value.push(b"0123456789abcdABCD"[rng.below(18)]);
            }
        }
        out.digits(&value);
    }
}

fn push_outside(rng: &mut Rng, text: &mut Vec<u8>) {
    match rng.below(6) {
        0 | 1 => text.push(0x80 + rng.below(0x40) as u8),
        2 => text.push(0xc0 + rng.below(0x40) as u8),
        3 => text.push(rng.byte()),
        4 => text.extend(EXCLUDED[rng.below(EXCLUDED.len())].to_string().bytes()),
        _ => text.push([0x7f, 0x80, 0xbf, 0xc0, 0xff, 0x85, 0xa0][rng.below(7)]),
    }
}

// ---- Rows ----

/// Gives all texts of up to `longest` of the pieces.
fn each_short(pieces: &[&str], longest: usize, give: &mut dyn FnMut(&[u8])) {
    fn longer(pieces: &[&str], left: usize, text: &mut Vec<u8>, give: &mut dyn FnMut(&[u8])) {
        give(text);
        if left > 0 {
            for piece in pieces {
                text.extend_from_slice(piece.as_bytes());
                longer(pieces, left - 1, text, give);
                text.truncate(text.len() - piece.len());
            }
        }
    }
    longer(pieces, longest, &mut Vec::new(), give);
}

fn rows_short(_: &mut Rng, out: &mut Out) {
    let mut give = |text: &[u8]| out.rows(text);
    each_short(&["N", "n", "T", "S", "1", "4", " ", "+", "é"], 6, &mut give);
    each_short(&["N", "S", " ", "1", "\n", "\r"], 7, &mut give);
    each_short(
        &["E", "w", "D", "h", "0", "9", " ", "\t", "-", "\u{b}"],
        5,
        &mut give,
    );
    each_short(
        &["N NT", "w h", " ", "1", "4", "\n", "+", "2 "],
        6,
        &mut give,
    );
}

/// All short rows in place of a row of a table and after its last.
fn rows_short_in_table(_: &mut Rng, out: &mut Out) {
    let good = row_list(&counting_table(10));
    let before = good[..6].join(&b'\n');
    let after = good[7..].join(&b'\n');
    each_short(&["S", "s", "N", "1", "4", " ", "+", "é"], 5, &mut |row| {
        out.rows(&[&before[..], row, &after].join(&b'\n'));
    });
    let whole = good.join(&b'\n');
    each_short(&["N", "T", "s", "1", "3", " ", "\r"], 5, &mut |row| {
        out.rows(&[&whole[..], row].join(&b'\n'));
    });
}

fn rows_byte_pairs(_: &mut Rng, out: &mut Out) {
    for first in 0..=255 {
        out.rows(&[first, b' ', b'S', b' ', b'1']);
        out.rows(&[b'N', b' ', first, b' ', b'1']);
        out.rows(&[b'N', b' ', b'S', b' ', first]);
        for second in 0..=255 {
            out.rows(&[first, second, b' ', b'S', b' ', b'1']);
            out.rows(&[b'N', b' ', first, second, b' ', b'1']);
            out.rows(&[b'N', b' ', b'S', b' ', first, second]);
        }
    }
}

const DECLARERS: [&str; 26] = [
    "N", "S", "E", "W", "n", "s", "e", "w", "North", "south", "EAST", "West", "NN", "NS", "Né",
    "N1", "W\u{301}", "é", "éN", "X", "1", "-", "nt;", "Σ", "ſ", "Ｎ",
];
const STRAINS: [&str; 24] = [
    "NT",
    "nt",
    "Nt",
    "nT",
    "N",
    "n",
    "S",
    "s",
    "H",
    "h",
    "D",
    "d",
    "C",
    "c",
    "NTT",
    "T",
    "TN",
    "SS",
    "♠",
    "S.",
    "é",
    "ſ",
    "No",
    "NT\u{301}",
];

/// Texts that are, or nearly are, a result.
fn results() -> Vec<String> {
    let mut list = Vec::new();
    for number in 0..=300 {
        for sign in ["", "+", "-"] {
            for zeros in ["", "0", "00"] {
                list.push(format!("{sign}{zeros}{number}"));
            }
        }
    }
    for number in [
        "512",
        "999",
        "1000",
        "1024",
        "65535",
        "65536",
        "65541",
        "4294967295",
        "4294967296",
        "4294967301",
        "18446744073709551615",
        "18446744073709551616",
        "18446744073709551621",
        "340282366920938463463374607431768211461",
    ] {
        list.push(number.to_string());
        list.push(format!("+{number}"));
    }
    for zeros in [3, 8, 19, 20, 21, 64, 300] {
        for number in ["", "5", "13", "14", "255", "256"] {
            list.push(format!("{}{number}", "0".repeat(zeros)));
            list.push(format!("+{}{number}", "0".repeat(zeros)));
        }
    }
    for text in [
        "+", "-", "++1", "+-1", "-+1", "1+", "1-", "+1+", "1.0", "1,", "0x1", "1e0", "a", "d", "٣",
        "１", "1é", "é1", "é", "1_0", "\u{0}", "1\u{0}", "=1=", "\"", "\\", "'", "in", "1:", "+ 1",
    ] {
        list.push(text.to_string());
    }
    list
}

fn rows_fields(rng: &mut Rng, out: &mut Out) {
    let few = [
        "0", "9", "13", "14", "255", "256", "+7", "+", "-0", "007", "x", "é", "1 2", "",
    ];
    for declarer in DECLARERS {
        for strain in STRAINS {
            for result in few {
                out.rows(format!("{declarer} {strain} {result}").as_bytes());
                out.rows(format!("\t{declarer}\u{b}\r{strain}  {result}\u{c}\n").as_bytes());
            }
        }
    }
    // The same in the place of the row that has the cell.
    for (cell, _) in [(); 20].iter().enumerate() {
        let table = possible_table(rng);
        for declarer in DECLARERS {
            for strain in STRAINS {
                let mut rows = row_list(&table);
                let result = rng.below(20);
                rows[cell] = format!("{declarer} {strain} {result}").into_bytes();
                out.rows(&rows.join(&b'\n'));
            }
        }
    }
}

fn rows_results(_: &mut Rng, out: &mut Out) {
    let good = row_list(&counting_table(14));
    for result in results() {
        out.rows(format!("w c {result}").as_bytes());
        for cell in [0, 7, 19] {
            let name = &good[cell][..4];
            let mut rows = good.clone();
            rows[cell] = [name, b" ", result.as_bytes()].concat();
            out.rows(&rows.join(&b'\n'));
        }
    }
}

fn rows_damaged(rng: &mut Rng, out: &mut Out) {
    let all = characters();
    let few: Vec<Vec<u8>> = b"\n \r+0N\xc3\x80".iter().map(|b| vec![*b]).collect();
    for (i, table) in [counting_table(10), counting_table(14), possible_table(rng)]
        .iter()
        .enumerate()
    {
        let text = row_list(table).join(&b'\n');
        let characters = if i < 2 { &all } else { &few };
        each_change(&text, characters, &mut |text| out.rows(text));
        for cut in 0..=text.len() {
            out.rows(&text[..cut]);
            out.rows(&text[cut..]);
        }
    }
}

fn rows_orders(rng: &mut Rng, out: &mut Out) {
    for _ in 0..80_000 {
        let mut rows = row_list(&possible_table(rng));
        // Repeats, mostly with another result.
        for _ in 0..rng.below(4) {
            let row = row_list(&possible_table(rng)).swap_remove(rng.below(20));
            rows.push(row);
        }
        if rng.once_in(2) {
            rng.shuffle(&mut rows);
        }
        if rng.once_in(3) {
            for _ in 0..rng.below(4) {
                let at = rng.below(rows.len());
                rows.remove(at);
            }
        }
        for _ in 0..rng.below(4) {
            let blank: &[u8] = rng.pick(&[&b""[..], b" ", b"\r", b"\t \x0b\x0c"]);
            rows.insert(rng.below(rows.len() + 1), blank.to_vec());
        }
        if rng.once_in(4) {
            let at = rng.below(rows.len());
            rows[at] = random_row(rng);
        }
        let end: &[u8] = rng.pick(&[&b"\n"[..], b"\n", b"\r\n", b"\n\n", b" \n", b"\n\r"]);
        let mut text = rows.join(end);
        if rng.once_in(2) {
            text.extend_from_slice(end);
        }
        out.rows(&text);
    }
}

/// A row of fields that are mostly good.
fn random_row(rng: &mut Rng) -> Vec<u8> {
    let mut fields = Vec::new();
    let good = rng.below(4) > 0;
    fields.push(
        rng.pick(if good {
            &DECLARERS[..12]
        } else {
            &DECLARERS[..]
        })
        .to_string(),
    );
    fields.push(
        rng.pick(if good { &STRAINS[..14] } else { &STRAINS[..] })
            .to_string(),
    );
    fields.push(match rng.below(8) {
        0 => rng.below(300).to_string(),
        1 => format!("+{}", rng.below(16)),
        2 => format!("{:03}", rng.below(16)),
        3 => rng
            .pick(&["+", "-0", "", "x", "1 2", "٣", "256", "255", "14"])
            .to_string(),
        _ => rng.below(15).to_string(),
    });
    if rng.once_in(12) {
        fields.remove(rng.below(3));
    }
    let mut row = String::new();
    for field in fields {
        for _ in 0..rng.below(3) {
            row.push(char::from([9, 11, 12, 13, 32, 32, 32][rng.below(7)]));
        }
        if !row.is_empty() {
            row.push(' ');
        }
        row.push_str(&field);
    }
    row.into_bytes()
}

fn rows_random(rng: &mut Rng, out: &mut Out) {
    for _ in 0..150_000 {
        let count = 1 + rng.below(5);
        let rows: Vec<Vec<u8>> = (0..count).map(|_| random_row(rng)).collect();
        out.rows(&rows.join(&b'\n'));
    }
    for _ in 0..150_000 {
        // Pieces of rows in any order.
        let mut text = Vec::new();
        for _ in 0..rng.below(14) {
            text.extend_from_slice(
                rng.pick(&[
                    "N", "S", "E", "W", "NT", "nt", "h", "D", "C", "1", "13", "9", "+", " ", " ",
                    " ", "\t", "\n", "\n", "\r", "\u{c}", "é", "0", "\u{1f}",
                ])
                .as_bytes(),
            );
        }
        out.rows(&text);
    }
}

fn rows_long(_: &mut Rng, out: &mut Out) {
    let good = row_list(&counting_table(14)).join(&b'\n');
    for length in [255, 256, 257, 1000, 4096, 65_535, 65_536, 70_000] {
        for long in [
            "0", "N", "1", " ", "\n", "\r", "é", "+", "N NT 1\n", "N NT 1 ",
        ] {
            let long = long.repeat(length);
            for text in [
                long.clone(),
                format!("N NT {long}5"),
                format!("N NT {long}"),
                format!("N {long} 5"),
                format!("{long} NT 5"),
                format!("N{long} NT 5"),
                format!("N{long}NT{long}5{long}"),
                format!("N NT 5\n{long}N NT x"),
            ] {
                out.rows(text.as_bytes());
                out.rows(&[&good[..], text.as_bytes()].join(&b'\n'));
            }
            // The digits' reader, too.
            out.digits(long.as_bytes());
            out.digits(format!("{long}0123456789abcdABCD09").as_bytes());
            out.digits(format!("0123456789abcdABCD09{long}").as_bytes());
        }
    }
}

fn rows_outside(rng: &mut Rng, out: &mut Out) {
    // Excluded white space in every place of a row.
    let good = row_list(&counting_table(10)).join(&b'\n');
    let excluded: Vec<Vec<u8>> = EXCLUDED
        .iter()
        .map(|c| c.to_string().into_bytes())
        .collect();
    each_change(b"N NT 1", &excluded, &mut |row| {
        out.rows(row);
        out.rows(&[&good[..], row].join(&b'\n'));
    });
    // Any three bytes in the three fields.
    for _ in 0..60_000 {
        out.rows(&[rng.byte(), b' ', rng.byte(), b' ', rng.byte()]);
    }
    for _ in 0..120_000 {
        let count = 1 + rng.below(3);
        let mut text = (0..count)
            .map(|_| random_row(rng))
            .collect::<Vec<_>>()
            .join(&b'\n');
        for _ in 0..=rng.below(3) {
            let mut piece = Vec::new();
            push_outside(rng, &mut piece);
            let at = rng.below(text.len() + 1);
            let end = (at + rng.below(2)).min(text.len());
            text = replaced(&text, at..end, &piece);
        }
        if rng.once_in(3) {
            text = [&good[..], &text].join(&b'\n');
        }
        out.rows(&text);
    }
}
