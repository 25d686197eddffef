//! What the unchanged `lin/mod.rs` and `write_pbn` make of a LIN text.

use super::model;
use crate::read::Checked;
use bridge_encodings::lin::{parse_lin_file, LinData};
use bridge_encodings::pbn::write_pbn;
use bridge_types::{
    Auction, Board, Call, Contract, Deal, Direction, Doubled, Hand, PlaySequence, Strain, Suit,
    Trick, Vulnerability,
};

/// The boards that the Rust reads.
pub fn read(text: &str) -> Result<Vec<LinData>, String> {
    parse_lin_file(text).map_err(|error| format!("lin/mod.rs refuses: {error}"))
}

/// Whether these boards give no deal: none has a card, or one of them has a card
/// twice or a hand above 13.
pub fn no_deal(boards: &[LinData]) -> bool {
    let hands = |deal: &Deal| Direction::ALL.map(|seat| *deal.hand(seat));
    let bad = |data: &LinData| {
        let hands = hands(&data.deal);
        let all = hands.iter().fold(0, |all, hand| all | hand.bits);
        let cards: usize = hands.iter().map(Hand::len).sum();
        cards != all.count_ones() as usize || hands.iter().any(|hand| hand.len() > 13)
    };
    let dealt = |data: &LinData| hands(&data.deal).iter().any(|hand| !hand.is_empty());
    boards.iter().any(bad) || !boards.iter().any(dealt)
}

/// A call of LIN: `d` doubles and `r` redoubles, all else is PBN's.
fn call_of(bid: &str) -> Option<Call> {
    match bid {
        "d" | "D" => Some(Call::Double),
        "r" | "R" => Some(Call::Redouble),
        _ => Call::from_pbn(bid),
    }
}

fn calls_of(data: &LinData) -> Vec<Call> {
    let bids = data.auction.iter().map(|bid| bid.bid.as_str());
    bids.filter_map(call_of).collect()
}

/// The last bid with the last double or redouble behind it, and who declares.
fn contract_of(dealer: Direction, calls: &[Call]) -> Option<(Contract, Direction)> {
    let mut contract = None;
    let mut last = 0;
    for (at, call) in calls.iter().enumerate() {
        match (call, &mut contract) {
            (Call::Bid(level, strain), _) => {
                last = at;
                contract = Some(Contract {
                    level: *level,
                    strain: *strain,
                    doubled: Doubled::No,
                });
            }
            (Call::Double, Some(contract)) => contract.doubled = Doubled::Once,
            (Call::Redouble, Some(contract)) => contract.doubled = Doubled::Twice,
            _ => {}
        }
    }
    let contract = contract?;
    let names_it = |at: &usize| matches!(calls[*at], Call::Bid(_, s) if s == contract.strain);
    let first = (0..=last)
        .filter(|at| at % 2 == last % 2)
        .find(names_it)
        .expect("the last bid names it");
    Some((contract, dealer.after(first)))
}

fn contract_text(contract: &Contract) -> String {
    let bid = Call::Bid(contract.level, contract.strain).to_pbn();
    bid + match contract.doubled {
        Doubled::No => "",
        Doubled::Once => "X",
        Doubled::Twice => "XX",
    }
}

fn trump_of(strain: Strain) -> Option<Suit> {
    Suit::ALL.get(strain.to_index()).copied()
}

/// The cards, four to a trick; the winner of each leads the next.
fn play_of(data: &LinData, declarer: Direction, trump: Option<Suit>) -> Option<PlaySequence> {
    if data.play.is_empty() {
        return None;
    }
    let mut play = PlaySequence::new(declarer.after(1), trump);
    let mut leader = play.opening_leader;
    for cards in data.play.chunks(4) {
        let mut trick = Trick::new(leader);
        for (slot, card) in trick.cards.iter_mut().zip(cards) {
            *slot = Some(*card);
        }
        trick.determine_winner(trump);
        leader = trick.winner.expect("a trick with a card has a winner");
        play.tricks.push(trick);
    }
    Some(play)
}

/// The board with what is written of it, and nothing else.
pub fn board_of(data: &LinData) -> Board {
    let calls = calls_of(data);
    let contract = contract_of(data.dealer, &calls);
    let mut auction = Auction::new(data.dealer);
    calls.iter().for_each(|call| auction.add_call(*call));
    let played = |(contract, declarer): &(Contract, Direction)| {
        play_of(data, *declarer, trump_of(contract.strain))
    };
    Board {
        dealer: Some(data.dealer),
        vulnerable: data.vulnerability,
        deal: data.deal,
        declarer: contract.map(|(_, declarer)| declarer),
        contract: contract.map(|(contract, _)| contract_text(&contract)),
        play: contract.as_ref().and_then(played),
        auction: (!calls.is_empty()).then_some(auction),
        ..Board::default()
    }
}

/// A trick by seat from the opening leader, with `-` for a gap.
fn trick_line(trick: &Trick, opening_leader: Direction) -> String {
    let word = |places: usize| {
        let seat = opening_leader.after(places).to_index();
        let slot = (seat + 4 - trick.leader.to_index()) % 4;
        match trick.cards[slot] {
            Some(card) => format!("{}{}", card.suit.to_char(), card.rank.to_char()),
            None => "-".to_string(),
        }
    };
    [0, 1, 2, 3].map(word).join(" ")
}

/// The page of `write_pbn`, with each play's data lines by seat.
pub fn page_of(boards: &[Board]) -> Vec<u8> {
    let written = write_pbn(boards);
    let mut page = String::with_capacity(written.len());
    let mut plays = boards.iter().filter_map(|board| board.play.as_ref());
    let mut in_play = false;
    for line in written.split_inclusive('\n') {
        in_play &= line != "\n";
        if !in_play {
            page += line;
        }
        if line.starts_with("[Play ") {
            let play = plays.next().expect("a play for each section");
            for trick in &play.tricks {
                page += &trick_line(trick, play.opening_leader);
                page.push('\n');
            }
            in_play = true;
        }
    }
    page.into_bytes()
}

/// The board's own parts, in the model's terms.
fn parts_of(data: &LinData) -> model::Board {
    let hand = |seat: Direction| {
        let cards = data.deal.hand(seat).cards();
        cards.iter().map(|card| card.bit()).collect()
    };
    let vulnerabilities = [
        Vulnerability::None,
        Vulnerability::NorthSouth,
        Vulnerability::EastWest,
        Vulnerability::Both,
    ];
    let vulnerable = vulnerabilities.iter();
    model::Board {
        dealer: data.dealer.to_index(),
        vulnerable: vulnerable
            .take_while(|one| **one != data.vulnerability)
            .count(),
        hands: Direction::ALL.map(hand),
        calls: calls_of(data).iter().map(Call::code).collect(),
        cards: data.play.iter().map(|card| card.bit()).collect(),
    }
}

/// The model's boards against the Rust's: all that is read, also where it is not
/// written.
pub fn compare_boards(rust: &[LinData], model: &[model::Board]) -> Checked {
    if rust.len() != model.len() {
        let (rust, model) = (rust.len(), model.len());
        return Err(format!(
            "boards\n  lin/mod.rs: {rust}\n  the model: {model}"
        ));
    }
    for (number, (data, board)) in rust.iter().zip(model).enumerate() {
        let counts = Direction::ALL.map(|seat| data.deal.hand(seat).len());
        let model_counts = [0, 1, 2, 3].map(|seat: usize| board.hands[seat].len());
        let mut seen = board.clone();
        for hand in &mut seen.hands {
            hand.sort();
            hand.dedup();
        }
        let parts = parts_of(data);
        if parts != seen || counts != model_counts {
            return Err(format!(
                "board {number} from 0\n  lin/mod.rs: {parts:?}, {counts:?}\n  the model: {seen:?}, {model_counts:?}"
            ));
        }
    }
    Ok(())
}
