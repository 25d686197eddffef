//! The pairs of editions that are compared: few distinct deals, with and without
//! tables, so that most of them stand there more than once; copies with a stretch
//! of their own; damaged pairs; pairs of any editions.

use crate::comparison::Give;
use crate::read::generate::{
    damage, edition as any_edition, optimum, plain_edition, put_outside, DEAL,
};
use crate::read::LONGEST;
use crate::rng::Rng;

/// Gives pairs as long as they are wanted.
pub struct Out<'a> {
    give: &'a mut Give<'a>,
    group: &'static str,
    open: bool,
}

impl Out<'_> {
    pub fn pair(&mut self, old: impl AsRef<[u8]>, new: impl AsRef<[u8]>) {
        if self.open {
            self.open = (self.give)(self.group, &[old.as_ref(), new.as_ref()]);
        }
    }
}

/// A group's name and what gives its pairs.
pub type Group = (&'static str, fn(&mut Rng, &mut Out));

pub const GROUPS: [Group; 9] = [
    ("named pairs", named),
    ("all short: boards", short),
    ("few deals", few_deals),
    ("edited copies", edited),
    ("damaged pairs", damaged),
    ("any editions", any),
    ("outside the domain", outside),
    ("many boards", many),
    ("many slips", many_slips),
];

/// Gives every pair.
pub fn all<'a>(seed: u64, give: &'a mut Give<'a>) {
    give_groups(&GROUPS, seed, give);
}

/// Gives the pairs of some groups. Each group has its own random numbers, so that a
/// change in one leaves the others alone.
pub fn give_groups<'a>(groups: &[Group], seed: u64, give: &'a mut Give<'a>) {
    let mut out = Out {
        give,
        group: "",
        open: true,
    };
    for (i, (group, pairs)) in groups.iter().enumerate() {
        if !out.open {
            return;
        }
        out.group = group;
        pairs(&mut Rng::new(seed.wrapping_add((i as u64) << 40)), &mut out);
    }
}

// ---- Deals ----

const RANKS: &[u8; 13] = b"AKQJT98765432";

/// The cards of N, E, S, W; suits S H D C from 0, the ace first.
pub type Hands = [Vec<usize>; 4];

pub fn random_deal(rng: &mut Rng) -> Hands {
    let mut pack: Vec<usize> = (0..52).collect();
    rng.shuffle(&mut pack);
    let mut hands = std::array::from_fn(|seat| pack[13 * seat..][..13].to_vec());
    for hand in &mut hands {
        hand.sort();
    }
    hands
}

/// Another deal that is nearly the same.
fn near_deal(rng: &mut Rng, hands: &Hands) -> Hands {
    let mut near = hands.clone();
    let one = rng.below(4);
    let other = (one + 1 + rng.below(3)) % 4;
    match rng.below(6) {
        0 => near.rotate_left(1 + rng.below(3)),
        1 => near.swap(one, other),
        _ => {
            let (a, b) = (rng.below(13), rng.below(13));
            let card = near[one][a];
            near[one][a] = near[other][b];
            near[other][b] = card;
        }
    }
    near
}

/// The deal with some cards less.
fn incomplete(rng: &mut Rng, hands: &Hands) -> Hands {
    let mut few = hands.clone();
    let seat = rng.below(4);
    match rng.below(3) {
        0 => few[seat].clear(),
        1 => {
            let each = rng.below(13);
            few.iter_mut().for_each(|hand| hand.truncate(each));
        }
        _ => {
            let at = rng.below(13);
            few[seat].remove(at);
        }
    }
    few
}

/// The deal from the seat `first` on, with each suit in the order of its cards.
fn written(hands: &Hands, first: usize, gap: &str) -> String {
    let hand_text = |hand: &Vec<usize>| {
        if hand.is_empty() {
            return "-".to_string();
        }
        let suits: [String; 4] = std::array::from_fn(|suit| {
            let cards = hand.iter().filter(|card| **card / 13 == suit);
            cards.map(|card| RANKS[card % 13] as char).collect()
        });
        suits.join(".")
    };
    let texts: [String; 4] = std::array::from_fn(|i| hand_text(&hands[(first + i) % 4]));
    format!("{}:{}", ["N", "E", "S", "W"][first], texts.join(gap))
}

/// One of the ways to write a deal.
fn deal_text(rng: &mut Rng, hands: &Hands) -> String {
    let first = if rng.once_in(2) { 0 } else { rng.below(4) };
    let gap = rng.pick(&[" ", " ", " ", "  ", "\t"]);
    let mut mixed = hands.clone();
    if rng.once_in(4) {
        mixed.iter_mut().for_each(|hand| rng.shuffle(hand));
    }
    let text = written(&mixed, first, gap);
    match rng.below(12) {
        0 => text.to_lowercase(),
        1 => format!(" {text}\t"),
        _ => text,
    }
}

/// The deal, written in the plainest way.
pub fn deal_of(hands: &Hands) -> String {
    written(hands, 0, " ")
}

/// A few deals, some of them nearly the same as others.
fn pool(rng: &mut Rng) -> Vec<Hands> {
    let mut pool: Vec<Hands> = (0..1 + rng.below(3)).map(|_| random_deal(rng)).collect();
    for _ in 0..rng.below(3) {
        let near = near_deal(rng, &pool[0]);
        pool.push(near);
    }
    pool
}

pub fn one_of<'a>(rng: &mut Rng, pool: &'a [Hands]) -> &'a Hands {
    &pool[rng.below(pool.len())]
}

// ---- Boards ----

pub fn digits(rng: &mut Rng) -> String {
    let digits: String = (0..20)
        .map(|_| b"0123456789abcdABCD"[rng.below(18)] as char)
        .collect();
    format!("[DoubleDummyTricks \"{digits}\"]\n")
}

pub fn deal_tag(value: &str) -> String {
    format!("[Deal \"{value}\"]\n")
}

/// The tags that give a board its table, and some that give none.
fn table_tags(rng: &mut Rng) -> String {
    let bad = "[DoubleDummyTricks \"0123456789abcdABCD0e\"]\n";
    match rng.below(24) {
        0 | 1 => optimum(rng, 0),
        2 => digits(rng) + bad,
        3 => optimum(rng, 0) + bad,
        4 => optimum(rng, 3),
        5 => digits(rng) + &optimum(rng, 3),
        6 => bad.to_string() + &digits(rng),
        7 => bad.to_string(),
        8 => digits(rng) + &optimum(rng, 0),
        _ => digits(rng),
    }
}

/// The Deal tags of a board.
fn deal_tags(rng: &mut Rng, pool: &[Hands]) -> String {
    let hands = one_of(rng, pool);
    let whole = deal_text(rng, hands);
    let other = one_of(rng, pool);
    let other = deal_text(rng, other);
    let few = incomplete(rng, hands);
    let few = deal_text(rng, &few);
    let unparsed = rng.pick(&["x", "N:", "N:- - -", "?"]);
    let values: Vec<&str> = match rng.below(24) {
        0 => vec![],
        1 | 2 => vec![whole.as_str(), unparsed],
        3 => vec![unparsed, &whole],
        4 | 5 => vec![&few],
        6 => vec![&whole, &few],
        7 => vec![&few, &whole],
        8 => vec![&other, &whole],
        9 => vec![&whole, " "],
        10 => vec!["N:- - - -"],
        11 => vec![unparsed],
        _ => vec![&whole],
    };
    values.into_iter().map(deal_tag).collect()
}

const DECORATION: [&str; 20] = [
    "",
    "",
    "",
    "",
    "",
    "",
    "[Event \"x\"]\n",
    "[Event \"\"] ;c\n",
    "[Board \"1\"]\n",
    "[Board \"17\"]\n[Dealer \"S\"]\n",
    "; c\n",
    "% d\n",
    "{ a\n\n[Deal \"x\"]\n b }\n",
    "[Auction \"N\"]\n1C! AP\n[Note \"1:x\"]\n",
    "[Auction \"N\"]\n",
    "[Contract \"4S\"]\n[Play \"N\"]\nSA S2 S3 S4\n*\n",
    "data\n",
    "[no tag\n",
    "[Result \"9\"]\n",
    "[Scoring \"é\"]\n",
];

/// A board with anything; of eight about `tables` have one.
pub fn board(rng: &mut Rng, pool: &[Hands], tables: usize) -> String {
    let mut parts = [deal_tags(rng, pool), String::new()];
    if rng.below(8) < tables {
        parts[1] = table_tags(rng);
    }
    if rng.once_in(4) {
        parts.swap(0, 1);
    }
    let mut text = String::new();
    for part in parts {
        text += rng.pick(&DECORATION);
        text += &part;
    }
    text += rng.pick(&DECORATION);
    text + rng.pick(&[
        "\n",
        "\n",
        "\n",
        "\n",
        "\n",
        "\n\n",
        " \t\n",
        "\r\n",
        "; last\n\n",
        "",
    ])
}

fn edition(rng: &mut Rng, pool: &[Hands], most: usize) -> Vec<u8> {
    let tables = [0, 1, 2, 3, 4, 8][rng.below(6)];
    let mut text = String::new();
    if rng.once_in(4) {
        text += rng.pick(&["% PBN 2.1\n% EXPORT\n\n", "; x\n", "{c}\n\n"]);
    }
    for _ in 0..rng.below(most + 1) {
        text += &board(rng, pool, tables);
    }
    if rng.once_in(8) {
        text += rng.pick(&["; after\n", "{after\n", "\n\n", "data"]);
    }
    if rng.once_in(6) {
        text.pop();
    }
    if rng.once_in(10) {
        text = text.replace('\n', "\r\n");
    }
    text.into_bytes()
}

// ---- Named pairs ----

fn deal_a(first: &str) -> String {
    deal_tag(&DEAL.replacen("N:", first, 1))
}

pub const ZEROS: &str = "[DoubleDummyTricks \"00000000000000000000\"]\n";

/// The boards of the short editions, each closed: two deals without and with a
/// table; one kept unparsed, with the hands of an earlier Deal tag, without and
/// with a table; one with a card less and a table; none.
fn short_boards() -> [String; 8] {
    let (a, b) = (deal_a("N:"), deal_a("E:"));
    let unparsed = deal_tag("x");
    let few = a.replace("AKQJT98765432... ", "AKQJT9876543... ");
    [
        format!("{a}\n"),
        format!("{a}{ZEROS}\n"),
        format!("{b}\n"),
        format!("{ZEROS}{b}\n"),
        format!("{a}{unparsed}\n"),
        format!("{a}{ZEROS}{unparsed}\n"),
        format!("{few}{ZEROS}\n"),
        "[Event \"x\"]\n\n".to_string(),
    ]
}

fn named(rng: &mut Rng, out: &mut Out) {
    let [a, a_table, b, b_table, a_unparsed, a_unparsed_table, few_table, event] = short_boards();
    // The example of the listing program.
    out.pair(&a_table, [&a[..], &b, &b, &event].concat());

    // Texts without a board, and others, with each other.
    let mut texts: Vec<String> = [
        "", "\n", "\r\n", "x", "; x\n\n", "{c}\n", "{open\n", "[Deal", "\u{feff}",
    ]
    .map(String::from)
    .to_vec();
    texts.push(format!("{{open\n{a_table}"));
    texts.push(format!("\u{feff}{a_table}"));
    texts.push(format!("; x\n\n{a_table}; y\n"));
    texts.push(a_table.trim_end().to_string());
    texts.push(a.trim_end().to_string());
    texts.push(a.replace('\n', "\r\n"));
    texts.push(a_table.replace('\n', "\r\n"));
    let boards = [
        a,
        a_table,
        b,
        b_table,
        a_unparsed,
        a_unparsed_table,
        few_table,
        event,
    ];
    texts.extend(boards);
    // A table of each kind, taken away, and put back.
    let bad = "[DoubleDummyTricks \"bad\"]\n";
    let rows = optimum(rng, 0);
    for tags in [
        format!("{rows}{bad}"),
        format!("{ZEROS}{bad}"),
        format!("{ZEROS}{bad}{ZEROS}"),
        format!("{bad}{rows}"),
        "[OptimumResultTable \"\"]\nN NT 1\n".to_string(),
    ] {
        texts.push(format!("{}{tags}\n", deal_a("N:")));
    }
    // The same deal written from each seat; and its hands at other seats.
    let turned = "E:.AKQJT98765432.. ..AKQJT98765432. ...AKQJT98765432 AKQJT98765432...";
    texts.push(deal_tag(turned));
    texts.push(deal_tag(&turned.to_lowercase()));
    texts.push(deal_a("S:"));
    for old in &texts {
        for new in &texts {
            out.pair(old, new);
            out.pair(old, format!("{new}\n{old}"));
            out.pair(format!("{old}\n\n{new}"), format!("{new}\n\n{new}"));
        }
    }
}

// ---- All short pairs ----

/// Every sequence of boards, by their number, up to the most.
pub fn sequences(boards: &[String], most: usize) -> Vec<Vec<String>> {
    let mut sequences = vec![vec![String::new()]];
    for length in 0..most {
        let longer = sequences[length]
            .iter()
            .flat_map(|text| boards.iter().map(move |board| format!("{text}{board}")));
        let longer = longer.collect();
        sequences.push(longer);
    }
    sequences
}

/// Every sequence of up to two boards with every sequence of up to three.
fn short(_: &mut Rng, out: &mut Out) {
    let sequences = sequences(&short_boards(), 3);
    for old in sequences[..3].concat() {
        for new in sequences.concat() {
            out.pair(&old, &new);
        }
    }
}

// ---- Generated pairs ----

fn few_deals(rng: &mut Rng, out: &mut Out) {
    for _ in 0..110_000 {
        let pool = pool(rng);
        let old = edition(rng, &pool, 4);
        let new = edition(rng, &pool, 7);
        out.pair(&old, &new);
    }
}

/// A closed board with a whole deal.
pub fn closed_board(rng: &mut Rng, hands: &Hands, table: bool) -> String {
    let mut text = rng.pick(&DECORATION).to_string();
    text += &deal_tag(&deal_text(rng, hands));
    if table {
        text += &digits(rng);
    }
    text += rng.pick(&DECORATION);
    text + "\n"
}

/// Copies with a stretch of their own between seams. Mostly each whole deal of
/// the old edition has a table on one of its boards.
fn edited(rng: &mut Rng, out: &mut Out) {
    for _ in 0..70_000 {
        let pool = pool(rng);
        let mut boards: Vec<String> = (0..rng.below(5))
            .map(|_| {
                if rng.once_in(6) {
                    let tables = rng.below(9);
                    return board(rng, &pool, tables) + "\n";
                }
                let hands = one_of(rng, &pool);
                let table = rng.once_in(3);
                closed_board(rng, hands, table)
            })
            .collect();
        if !rng.once_in(4) {
            for hands in &pool {
                let at = rng.below(boards.len() + 1);
                boards.insert(at, closed_board(rng, hands, true));
            }
        }
        let head = rng.pick(&["", "", "% PBN 2.1\n\n"]);
        let tail = rng.pick(&["", "", "", "; after\n", "[Event \"last\"]"]);
        let from = rng.below(boards.len() + 1);
        let to = from + rng.below(boards.len() - from + 1);

        let fresh: Vec<Hands> = (0..2).map(|_| random_deal(rng)).collect();
        let mut middle = String::new();
        for _ in 0..rng.below(4) {
            let table = rng.once_in(4);
            let new_deal = one_of(rng, &fresh);
            let known_deal = one_of(rng, &pool);
            middle += &match rng.below(8) {
                0..=2 => closed_board(rng, new_deal, table),
                3 | 4 => closed_board(rng, known_deal, table),
                5 => {
                    let near = near_deal(rng, &pool[0]);
                    closed_board(rng, &near, table)
                }
                6 => board(rng, &pool, 4) + rng.pick(&["\n", "\n", ""]),
                _ => {
                    // One that was there, without its digits or damaged.
                    let mut text = match boards.get(rng.below(boards.len() + 1)) {
                        Some(board) => board.replace("[DoubleDummyTricks", "[Tricks"),
                        None => String::new(),
                    }
                    .into_bytes();
                    if rng.once_in(2) {
                        damage(rng, &mut text);
                    }
                    String::from_utf8_lossy(&text).into_owned() + "\n"
                }
            };
        }
        let old = format!("{head}{}{tail}", boards.concat());
        let front = boards[..from].concat();
        let back = boards[to..].concat();
        let new = format!("{head}{front}{middle}{back}{tail}");
        if rng.once_in(8) {
            out.pair(&new, &old);
        } else {
            out.pair(&old, &new);
        }
    }
}

fn damaged(rng: &mut Rng, out: &mut Out) {
    let (mut old, mut new) = (Vec::new(), Vec::new());
    for i in 0..50_000 {
        if i % 8 == 0 {
            let pool = pool(rng);
            old = edition(rng, &pool, 4);
            new = edition(rng, &pool, 6);
        }
        let (mut damaged_old, mut damaged_new) = (old.clone(), new.clone());
        let which = rng.below(3);
        if which != 0 {
            damage(rng, &mut damaged_old);
        }
        if which != 1 {
            damage(rng, &mut damaged_new);
        }
        out.pair(&damaged_old, &damaged_new);
    }
}

/// Editions as the reader's comparison has them, alone and after few deals.
fn any(rng: &mut Rng, out: &mut Out) {
    for i in 0..16_000 {
        let (mut old, mut new) = (any_edition(rng), any_edition(rng));
        if i % 2 == 0 {
            let pool = pool(rng);
            old.splice(0..0, edition(rng, &pool, 3));
            new.splice(0..0, edition(rng, &pool, 3));
        }
        out.pair(&old, &new);
    }
}

fn outside(rng: &mut Rng, out: &mut Out) {
    for _ in 0..12_000 {
        let pool = pool(rng);
        let mut old = edition(rng, &pool, 4);
        let mut new = edition(rng, &pool, 6);
        let which = rng.below(3);
        if which != 0 {
            put_outside(rng, &mut old);
        }
        if which != 1 {
            put_outside(rng, &mut new);
        }
        out.pair(&old, &new);
    }
}

/// Positions that do not fit 8 bits, and 16.
fn many(rng: &mut Rng, out: &mut Out) {
    for most in [40, 300, 700] {
        for _ in 0..60 {
            let pool: Vec<Hands> = (0..most / 10).map(|_| random_deal(rng)).collect();
            let old = edition(rng, &pool, most);
            let new = edition(rng, &pool, most);
            out.pair(&old, &new);
        }
    }
    let [a, a_table, b, b_table, .., event] = short_boards();
    let blanks = |count: usize| "[ \"\"]\n\n".repeat(count);
    let old = [&blanks(70_000), &a_table[..], &event].concat();
    let c = deal_a("S:") + "\n";
    let new = [
        &blanks(65_600),
        &a[..],
        &b,
        &c,
        &blanks(300),
        &b,
        &c,
        &b_table,
        &c,
    ]
    .concat();
    out.pair(&old, &new);
    out.pair(&new, &old);
}

/// Several deals to be solved, most of them on more than one board.
fn many_slips(rng: &mut Rng, out: &mut Out) {
    for _ in 0..24_000 {
        let mut pool: Vec<Hands> = (0..2 + rng.below(4)).map(|_| random_deal(rng)).collect();
        for at in 0..pool.len() {
            if rng.once_in(2) {
                let near = near_deal(rng, &pool[at]);
                pool.push(near);
            }
        }
        let boards = |rng: &mut Rng, most: usize, tables: usize| -> String {
            let count = 1 + rng.below(most);
            let board = |_| {
                if rng.once_in(12) {
                    return board(rng, &pool, 1) + "\n";
                }
                let hands = one_of(rng, &pool);
                let table = rng.below(12) < tables;
                closed_board(rng, hands, table)
            };
            (0..count).map(board).collect()
        };
        let old = boards(rng, 3, 4);
        let new = boards(rng, 16, 1);
        out.pair(&old, &new);
    }
}

/// The longest edition, and another with the deals of its last boards.
pub fn longest(seed: u64) -> (Vec<u8>, Vec<u8>) {
    let longest = plain_edition(seed, LONGEST);
    let last = &longest[LONGEST - 20_000..];
    let lines: Vec<&[u8]> = last
        .split(|byte| *byte == b'\n')
        .filter(|line| line.starts_with(b"[Deal \""))
        .collect();
    // The very last may be cut, or be without its table.
    let few = &lines[lines.len() - 5..lines.len() - 1];
    let mut text = few.join(&b"\n\n"[..]);
    text.extend(format!("\n\n{}", deal_a("N:")).bytes());
    (longest, text)
}
