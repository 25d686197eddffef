//! What the unchanged `dd.rs` answers, in the product's terms.
//!
//! The Rust refuses with a message. The refusal's number comes from the fixed
//! words at the message's start; its carried number from the message or, where
//! the message only shows the culprit, from where the input first has it.

use super::{Answer, Case, Kind};
use bridge_encodings::error::ParseError;
use bridge_encodings::pbn;
use bridge_types::{DdTable, Direction, Strain};

/// Seats and strains in the order of the cells.
pub const SEATS: [Direction; 4] = [
    Direction::North,
    Direction::South,
    Direction::East,
    Direction::West,
];
pub const STRAINS: [Strain; 5] = [
    Strain::NoTrump,
    Strain::Spades,
    Strain::Hearts,
    Strain::Diamonds,
    Strain::Clubs,
];

/// The Rust's answer, or `None` if the case is outside its domain.
pub fn answer(case: &Case) -> Option<Answer> {
    match case.kind {
        Kind::ToPbn | Kind::Header | Kind::Rows => {
            let table = table_of(&case.input);
            let text = match case.kind {
                Kind::ToPbn => pbn::dd_table_to_pbn(&table),
                Kind::Header => pbn::optimum_result_table_header(&table),
                _ => rows_text(&table),
            };
            Some(Answer::written(text.into_bytes(), case.page))
        }
        Kind::FromPbn => {
            let value = text_in_domain(&case.input)?;
            Some(Answer::read(match pbn::dd_table_from_pbn(value) {
                Ok(table) => Ok(cells_of(&table)),
                Err(error) => Err(digits_refusal(value, &message_of(error))),
            }))
        }
        Kind::FromRows => {
            let text = text_in_domain(&case.input)?;
            let rows: Vec<&str> = text.split('\n').collect();
            Some(Answer::read(
                match pbn::optimum_result_table_from_rows(&rows) {
                    Ok(table) => Ok(cells_of(&table)),
                    Err(error) => Err(rows_refusal(&rows, &message_of(error))),
                },
            ))
        }
    }
}

/// The rows of a table, an LF after each.
pub fn rows_text(table: &DdTable) -> String {
    pbn::optimum_result_table_rows(table)
        .iter()
        .map(|row| format!("{row}\n"))
        .collect()
}

/// The Rust's table with these cells.
pub fn table_of(cells: &[u8]) -> DdTable {
    let mut table = DdTable::new();
    for (i, tricks) in cells.iter().enumerate() {
        table.set(SEATS[i / 5], STRAINS[i % 5], *tricks);
    }
    table
}

fn cells_of(table: &DdTable) -> [u8; 20] {
    std::array::from_fn(|i| table.tricks(SEATS[i / 5], STRAINS[i % 5]))
}

/// The bytes as text, if they are UTF-8 without the excluded white space.
pub fn text_in_domain(bytes: &[u8]) -> Option<&str> {
    let text = std::str::from_utf8(bytes).ok()?;
    let excluded = |c: char| {
        matches!(
            c,
            '\u{85}' | '\u{a0}' | '\u{1680}' | '\u{2000}'
                ..='\u{200a}' | '\u{2028}' | '\u{2029}' | '\u{202f}' | '\u{205f}' | '\u{3000}'
        )
    };
    (text.is_ascii() || !text.contains(excluded)).then_some(text)
}

fn message_of(error: ParseError) -> String {
    match error {
        ParseError::Pbn(message) => message,
        other => panic!("dd.rs has no such error: {other}"),
    }
}

/// Refusals 8 and 9.
fn digits_refusal(value: &str, message: &str) -> (u64, u64) {
    if let Some(count) = message.strip_prefix("DoubleDummyTricks must be 20 characters, got ") {
        return (8, count.parse().expect("a count"));
    }
    let shown = message
        .strip_prefix("invalid trick count ")
        .and_then(|rest| rest.strip_suffix(" in DoubleDummyTricks"))
        .unwrap_or_else(|| panic!("unknown message {message:?}"));
    // A character that is bad is bad wherever it stands, so the first bad one
    // is where it stands first.
    let index = value
        .trim()
        .chars()
        .position(|c| format!("{c:?}") == shown)
        .expect("the message shows a character of the value");
    (9, index as u64)
}

/// Refusals 10 to 15.
fn rows_refusal(rows: &[&str], message: &str) -> (u64, u64) {
    if let Some(rest) = message.strip_prefix("OptimumResultTable is missing ") {
        let count = rest.strip_suffix(" of its 20 cells").expect("a count");
        return (15, count.parse().expect("a count"));
    }
    let (refusal, before_row) = [
        ("OptimumResultTable row wants 3 fields, got ", 10, ": "),
        ("bad declarer ", 11, " in "),
        ("bad denomination ", 12, " in "),
        ("bad result ", 13, " in "),
        ("result ", 14, " in "),
    ]
    .into_iter()
    .find(|(start, _, _)| message.starts_with(start))
    .map(|(_, refusal, before_row)| (refusal, before_row))
    .unwrap_or_else(|| panic!("unknown message {message:?}"));
    if refusal == 14 {
        assert!(
            message.contains(" exceeds 13 in "),
            "unknown message {message:?}"
        );
    }
    // The message ends with the trimmed row, quoted. A row that is bad is bad
    // wherever it stands, so the first bad one is where it stands first.
    let row = rows
        .iter()
        .position(|row| message.ends_with(&format!("{before_row}{:?}", row.trim())))
        .expect("the message shows one of the rows");
    (refusal, row as u64)
}

#[cfg(test)]
mod tests {
    use super::*;

    fn read(kind: Kind, text: &str) -> (u64, u64) {
        let answer = answer(&Case::read(kind, text.as_bytes())).expect("in the domain");
        (answer.refusal, answer.carried)
    }

    #[test]
    fn messages_become_numbers() {
        assert_eq!(read(Kind::FromPbn, ""), (8, 0));
        assert_eq!(read(Kind::FromPbn, "012345678901234567é"), (8, 19));
        assert_eq!(read(Kind::FromPbn, " 01'3456789012345678e"), (9, 2));
        assert_eq!(read(Kind::FromPbn, "0é\"3456789012345678e"), (9, 1));
        assert_eq!(read(Kind::FromRows, ""), (15, 20));
        assert_eq!(read(Kind::FromRows, "N NT 1\n\n N S \nN S"), (10, 2));
        // Rows that look like the messages about them.
        assert_eq!(read(Kind::FromRows, "\nN S 1\n:\"N S 1\"\n"), (11, 2));
        assert_eq!(read(Kind::FromRows, "N S 1\nN : \"N S 1\""), (10, 1));
        assert_eq!(read(Kind::FromRows, "N S 1\nN S in\nin \" x"), (13, 1));
        assert_eq!(read(Kind::FromRows, "N S 1\nN X 1\nN X 1"), (12, 1));
        assert_eq!(read(Kind::FromRows, "N S 1\nN H 256\n"), (13, 1));
        assert_eq!(read(Kind::FromRows, "N S 1\r\nN H 14\r"), (14, 1));
        assert_eq!(read(Kind::FromRows, "N S 13\nn s 0"), (15, 19));
    }

    #[test]
    fn the_domain() {
        for text in ["\u{85}", "x\u{a0}", "\u{200a}", "\u{3000}"] {
            assert_eq!(text_in_domain(text.as_bytes()), None);
        }
        for text in ["", "é", "\u{200b}", "\u{1f}", "\u{feff}"] {
            assert_eq!(text_in_domain(text.as_bytes()), Some(text));
        }
        assert_eq!(text_in_domain(b"\x80"), None);
    }
}
