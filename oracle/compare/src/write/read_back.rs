//! What is promised of a written page that is read again. The page and both
//! readings are the models'.

use super::model::{block_value, Board, Firsts, Remark};
use super::Edition;
use crate::model::trim;
use crate::read::model::{self as reading, CARD};
use crate::read::{Checked, LONGEST};
use std::collections::BTreeMap;

/// Texts and how many tags stand before them, with how often each is met.
type Remarks = BTreeMap<(Vec<u8>, usize), usize>;

/// One board for each; in each the written tags, in their order; its seats,
/// vulnerability, result and table; its deal, an empty one where there was none;
/// and its remarks, each once: a directive under the first tag of the name and value
/// of its anchor, else of the name, a block under the first of the name, and under the
/// last tag where none of the name is written; with the header's lines in the first
/// board.
pub fn check(edition: &Edition) -> Checked {
    if edition.page.len() > LONGEST {
        return Ok(());
    }
    let again = reading::read(&edition.page);
    let (boards, boards_again) = (edition.reading.boards(), again.boards());
    if boards != boards_again {
        return Err(format!("{boards} boards read back as {boards_again}"));
    }
    let cards = edition.reading.cards.chunks(CARD);
    for (number, (card, card_again)) in cards.zip(again.cards.chunks(CARD)).enumerate() {
        let board = Board::new(edition.text, card, &edition.reading.entries);
        let board_again = Board::new(&edition.page, card_again, &again.entries);
        compare_tags(&board, &board_again)
            .and_then(|()| compare_words(card, card_again))
            .and_then(|()| compare_remarks(&board, &board_again, number == 0))
            .map_err(|error| format!("board {number} from 0, read back: {error}"))?;
    }
    Ok(())
}

fn compare_tags(board: &Board, again: &Board) -> Checked {
    let wanted = board.written();
    let wanted: Vec<(&[u8], &[u8])> = wanted
        .iter()
        .map(|tag| (tag.name, &tag.value[..]))
        .collect();
    let seen: Vec<(&[u8], &[u8])> = again.tags.iter().map(|tag| (tag.name, tag.value)).collect();
    if wanted == seen {
        return Ok(());
    }
    let at = wanted.iter().zip(&seen).position(|(a, b)| a != b);
    let at = at.unwrap_or(wanted.len().min(seen.len()));
    let show = |tags: &[(&[u8], &[u8])]| match tags.get(at) {
        Some((name, value)) => format!("{} \"{}\"", name.escape_ascii(), value.escape_ascii()),
        None => "none".to_string(),
    };
    Err(format!(
        "tag {at} from 0\n  written: {}\n  read: {}",
        show(&wanted),
        show(&seen)
    ))
}

fn compare_words(card: &[u32], again: &[u32]) -> Checked {
    let same = [4, 5, 6, 7, 8].into_iter().chain(18..38);
    for word in same {
        if card[word] != again[word] {
            return Err(format!("word {word}: {} and {}", card[word], again[word]));
        }
    }
    if (card[38] > 0) != (again[38] > 0) {
        return Err(format!("table: {} and {}", card[38], again[38]));
    }
    let (deal, hands) = match card[9] {
        0 => (1, &[0; 8][..]),
        1 => (1, &card[10..18]),
        _ => (2, &[0; 8][..]),
    };
    if (deal, hands) != (again[9], &again[10..18]) {
        return Err(format!("deal: {:?} and {:?}", &card[9..18], &again[9..18]));
    }
    Ok(())
}

fn compare_remarks(board: &Board, again: &Board, first: bool) -> Checked {
    let (mut directives, mut blocks) = (Remarks::new(), Remarks::new());
    if first && !board.has_header() {
        for line in [&b"% PBN 2.1"[..], b"% EXPORT"] {
            directives.insert((line.to_vec(), 0), 1);
        }
    }
    let firsts = Firsts::of(again.tags.iter().map(|tag| [tag.name, tag.value]));
    let tags = |at: Option<Option<usize>>| match at {
        Some(Some(at)) => at + 1,
        Some(None) => again.tags.len(),
        None => 0,
    };
    for remark in &board.directives {
        let tags = tags(board.anchor(remark).map(|tag| firsts.directive(tag)));
        match as_block(remark.bytes) {
            None => *directives.entry((remark.bytes.to_vec(), tags)).or_default() += 1,
            Some(text) if trim(text).is_empty() => {}
            Some(text) => *blocks.entry((text.to_vec(), tags)).or_default() += 1,
        }
    }
    for remark in &board.blocks {
        let tags = tags(board.anchor(remark).map(|tag| firsts.block(tag)));
        *blocks.entry((block_value(remark.bytes), tags)).or_default() += 1;
    }
    same_remarks("directives", &directives, &again.directives)?;
    same_remarks("commentary", &blocks, &again.blocks)
}

/// What a comment in braces, on a line of its own, is as commentary.
fn as_block(directive: &[u8]) -> Option<&[u8]> {
    let text = directive.strip_prefix(b"{")?;
    let end = text.iter().rposition(|b| *b == b'}');
    Some(&text[..end.expect("it was closed")])
}

fn same_remarks(what: &str, wanted: &Remarks, seen: &[Remark]) -> Checked {
    let mut met = Remarks::new();
    for remark in seen {
        *met.entry((remark.bytes.to_vec(), remark.tags)).or_default() += 1;
    }
    if *wanted == met {
        return Ok(());
    }
    Err(format!("{what}\n  written: {wanted:?}\n  read: {met:?}"))
}
