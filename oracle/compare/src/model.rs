//! The tables read and written as docs/FORMAT.md says, in plain Rust of its own.
//!
//! It judges what the Rust cannot be asked: bytes that are no UTF-8 and texts
//! outside the domain. On every other input it is held to the Rust's answer.

use crate::tables::{Answer, Case, Kind};

pub fn answer(case: &Case) -> Answer {
    match case.kind {
        Kind::ToPbn | Kind::Header | Kind::Rows => {
            let text = match case.kind {
                Kind::ToPbn => digits(&case.input),
                Kind::Header => header(&case.input),
                _ => rows(&case.input),
            };
            Answer::written(text, case.page)
        }
        Kind::FromPbn => Answer::read(from_digits(&case.input)),
        Kind::FromRows => Answer::read(from_rows(&case.input)),
    }
}

/// White space is bytes 9 to 13 and 32.
pub fn is_white(byte: u8) -> bool {
    (9..=13).contains(&byte) || byte == 32
}

pub fn trim(mut text: &[u8]) -> &[u8] {
    while text.first().is_some_and(|b| is_white(*b)) {
        text = &text[1..];
    }
    while text.last().is_some_and(|b| is_white(*b)) {
        text = &text[..text.len() - 1];
    }
    text
}

/// Cuts a text into characters: a byte, whatever it is, with the bytes 80 to BF
/// right after it.
pub fn characters(text: &[u8]) -> Vec<&[u8]> {
    let mut found = Vec::new();
    let mut start = 0;
    for at in 1..=text.len() {
        if at == text.len() || !(0x80..=0xbf).contains(&text[at]) {
            found.push(&text[start..at]);
            start = at;
        }
    }
    found
}

/// Digits 0 to 9, a to d; larger counts are written d.
fn digits(table: &[u8]) -> Vec<u8> {
    table
        .iter()
        .map(|t| b"0123456789abcd"[usize::from(*t).min(13)])
        .collect()
}

/// Result width is 2 exactly when a cell exceeds 9.
fn width(table: &[u8]) -> usize {
    if table.iter().any(|t| *t > 9) {
        2
    } else {
        1
    }
}

fn header(table: &[u8]) -> Vec<u8> {
    let mut text = b"Declarer;Denomination\\2R;Result\\".to_vec();
    text.extend_from_slice(if width(table) == 2 { b"2R" } else { b"1R" });
    text
}

fn rows(table: &[u8]) -> Vec<u8> {
    let mut text = Vec::new();
    for (cell, tricks) in table.iter().enumerate() {
        text.push(b"NSEW"[cell / 5]);
        text.extend_from_slice([b" NT ", b"  S ", b"  H ", b"  D ", b"  C "][cell % 5]);
        let number = tricks.to_string();
        text.resize(text.len() + width(table).saturating_sub(number.len()), b' ');
        text.extend_from_slice(number.as_bytes());
        text.push(b'\n');
    }
    text
}

/// The table, or the refusal and its carried number.
pub type Read = Result<[u8; 20], (u64, u64)>;

pub fn from_digits(value: &[u8]) -> Read {
    let characters = characters(trim(value));
    if characters.len() != 20 {
        return Err((8, characters.len() as u64));
    }
    let mut table = [0; 20];
    for (i, character) in characters.iter().enumerate() {
        table[i] = match **character {
            [b @ b'0'..=b'9'] => b - b'0',
            [b @ b'a'..=b'd'] => b - b'a' + 10,
            [b @ b'A'..=b'D'] => b - b'A' + 10,
            _ => return Err((9, i as u64)),
        };
    }
    Ok(table)
}

pub fn from_rows(text: &[u8]) -> Read {
    let mut cells = [None; 20];
    for (number, row) in text.split(|b| *b == b'\n').enumerate() {
        let refused = |refusal| Err((refusal, number as u64));
        let fields: Vec<&[u8]> = row
            .split(|b| is_white(*b))
            .filter(|field| !field.is_empty())
            .collect();
        if fields.is_empty() {
            continue;
        }
        let [declarer, denomination, result] = fields[..] else {
            return refused(10);
        };
        let seat = match characters(declarer)[0] {
            b"N" | b"n" => 0,
            b"S" | b"s" => 1,
            b"E" | b"e" => 2,
            b"W" | b"w" => 3,
            _ => return refused(11),
        };
        let strain = match &denomination.to_ascii_uppercase()[..] {
            b"NT" | b"N" => 0,
            b"S" => 1,
            b"H" => 2,
            b"D" => 3,
            b"C" => 4,
            _ => return refused(12),
        };
        match number_of(result) {
            None => return refused(13),
            Some(over) if over > 13 => return refused(14),
            Some(tricks) => cells[5 * seat + strain] = Some(tricks),
        }
    }
    let missing = cells.iter().filter(|cell| cell.is_none()).count();
    if missing > 0 {
        return Err((15, missing as u64));
    }
    Ok(cells.map(|cell| cell.unwrap_or(0)))
}

/// An optional `+`, then one or more digits and no more, up to 255.
fn number_of(text: &[u8]) -> Option<u8> {
    let text = text.strip_prefix(b"+").unwrap_or(text);
    if text.is_empty() {
        return None;
    }
    let mut value = 0u32;
    for digit in text {
        if !digit.is_ascii_digit() {
            return None;
        }
        // Held down, so that no length of text can wrap it round.
        value = (10 * value + u32::from(digit - b'0')).min(1000);
    }
    u8::try_from(value).ok()
}
