//! Each directive of an edition is one line of its page.

use super::model::{block_value, Board, HEADER};
use crate::read::model::{Reading, CARD};
use std::collections::HashMap;

/// Counts on a page the lines that are an edition's directives: for equal ones as many
/// as there are. Lines of commentary and of the header that is put in do not count.
/// Returns whether there are directives and all of them differ.
pub fn check(text: &[u8], reading: &Reading, page: &[u8]) -> Result<bool, String> {
    let boards = reading.cards.chunks(CARD);
    let boards = boards.map(|card| Board::new(text, card, &reading.entries));
    let boards: Vec<Board> = boards.collect();
    let mut missing: HashMap<&[u8], i64> = HashMap::new();
    for directive in boards.iter().flat_map(|board| &board.directives) {
        *missing.entry(directive.bytes).or_default() += 1;
    }
    if missing.is_empty() {
        return Ok(false);
    }
    let all_differ = missing.values().all(|times| *times == 1);
    let mut count = |lines: &[u8], by: i64| {
        for line in lines.split(|byte| *byte == b'\n') {
            if let Some(missing) = missing.get_mut(line) {
                *missing += by;
            }
        }
    };
    count(page, -1);
    for block in boards.iter().flat_map(|board| &board.blocks) {
        count(&[b"{", &block_value(block.bytes)[..], b"}"].concat(), 1);
    }
    if boards.first().is_some_and(|board| !board.has_header()) {
        count(HEADER, 1);
    }
    match missing.iter().find(|(_, missing)| **missing != 0) {
        Some((line, missing)) => Err(format!(
            "the directive \"{}\" is written {} times too often",
            line.escape_ascii(),
            -missing
        )),
        None => Ok(all_differ),
    }
}

#[cfg(test)]
mod tests {
    use super::*;
    use crate::read::model::read;

    #[test]
    fn directives_are_counted() {
        let text = b"[X \"1\"]\n;c\n{a\n;c\n}\n% EXPORT\n[X \"2\"] {d}";
        let head = "% PBN 2.1\n% EXPORT\n\n";
        let seen = |page: &str| check(text, &read(text), format!("{head}{page}").as_bytes());
        assert_eq!(seen(";c\n% EXPORT\n{d}\n{a\n;c\n}\n"), Ok(true));
        for wrong in [
            "% EXPORT\n{d}\n{a\n;c\n}\n",
            ";c\n;c\n% EXPORT\n{d}\n{a\n;c\n}\n",
            ";c\n{d}\n{a\n;c\n}\n",
            ";c\n% EXPORT\n{d}\n{a\n;c\n}\n{d}\n",
        ] {
            assert!(seen(wrong).is_err(), "{wrong}");
        }
        let equal = b"[X \"1\"]\n;c\n;c";
        let seen = |page: &str| check(equal, &read(equal), page.as_bytes());
        assert_eq!(seen(";c\n;c\n"), Ok(false));
        assert!(seen(";c\n").is_err());
        assert_eq!(check(b"", &read(b""), b""), Ok(false));
    }
}
