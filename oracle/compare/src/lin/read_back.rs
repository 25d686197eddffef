//! What is promised of a converted page that is taken: its boards have the hands,
//! calls and cards of the LIN text. The page is read by the product and by the
//! unchanged `read_pbn`.

use super::{model, Conversion};
use crate::read::judge::Words;
use crate::read::model::{CARD, ENTRY};
use crate::read::product::{Lent, Product};
use crate::read::{compare_read, read_rust, Checked, LONGEST};
use bridge_types::{Board, PlaySequence};

/// Reads the page and compares.
pub fn check(reader: &mut Product, conversion: &Conversion) -> Checked {
    if conversion.need.no_deal || conversion.page.len() > LONGEST {
        return Ok(());
    }
    let page = &conversion.page;
    let lent = Lent {
        cards: CARD * conversion.boards.len(),
        entries: ENTRY * page.len(),
    };
    reader.call(page, lent)?;
    let answer = reader.answer();
    if answer[..4] != [0, 0, 0, conversion.boards.len() as u64] {
        return Err(format!("the page is read with answer {answer:?}"));
    }
    let words = Words {
        cards: reader.cards(),
        entries: &reader.entries()[..ENTRY * answer[4] as usize],
        text: page,
    };
    words.facts()?;
    let text = std::str::from_utf8(page).expect("a page of ASCII");
    let rust = read_rust(text)?;
    compare_read(&words, &rust)?;
    for (number, (board, lin)) in rust.iter().zip(&conversion.boards).enumerate() {
        let card = words.card(number);
        kept(card, board, lin).map_err(|what| format!("board {number} from 0, {what}"))?;
    }
    Ok(())
}

/// Two lists that must be the same.
fn same<T: PartialEq + std::fmt::Debug>(what: &str, lin: T, page: T) -> Checked {
    if lin == page {
        Ok(())
    } else {
        Err(format!("{what}\n  the text: {lin:?}\n  the page: {page:?}"))
    }
}

fn kept(card: &[u32], board: &Board, lin: &model::Board) -> Checked {
    same("deal", 1, card[9])?;
    let bits = |hand: &Vec<u32>| hand.iter().fold(0, |bits, card| bits | 1u64 << card);
    let hands = lin.hands.each_ref().map(bits);
    same("hands", hands, board.deal.hands.map(|hand| hand.bits))?;
    let declarer = lin.declarer().unwrap_or(4);
    let words = [lin.dealer, lin.vulnerable, declarer].map(|word| word as u32);
    same("dealer, vulnerability, declarer", &words[..], &card[4..7])?;
    let contract = lin.contract().map(|(text, _)| text).unwrap_or_default();
    same(
        "contract",
        contract,
        board.contract.clone().unwrap_or_default(),
    )?;
    let auction = board.auction.as_ref();
    same(
        "whether there are calls",
        !lin.calls.is_empty(),
        auction.is_some(),
    )?;
    let calls = auction.into_iter().flat_map(|auction| &auction.calls);
    let calls: Vec<u32> = calls.map(|annotated| annotated.call.code()).collect();
    same("calls", &lin.calls, &calls)?;
    let leader = lin.opening_leader();
    let play = board.play.as_ref();
    let seen = play.map(|play| play.opening_leader.to_index());
    same("opening leader", leader, seen)?;
    play.map_or(Ok(()), |play| kept_cards(play, &lin.cards))
}

/// The filled slots, trick by trick from slot 0.
fn kept_cards(play: &PlaySequence, cards: &[u32]) -> Checked {
    let numbers = |trick: &bridge_types::Trick| -> Vec<u32> {
        trick
            .cards
            .iter()
            .flatten()
            .map(|card| card.bit())
            .collect()
    };
    let tricks: Vec<Vec<u32>> = play.tricks.iter().map(numbers).collect();
    let wanted: Vec<Vec<u32>> = cards.chunks(4).map(<[u32]>::to_vec).collect();
    same("tricks", wanted, tricks)
}
