//! Pairs of editions with deals that agree in some of their hand words, from the
//! front; the pairs of planning follow.

use crate::comparison::Give;
use crate::plan::generate::{
    self, closed_board, deal_tag, digits, give_groups, one_of, random_deal, sequences, Group,
    Hands, Out,
};
use crate::rng::Rng;

const GROUPS: [Group; 3] = [
    ("all short: near-equal deals", short),
    ("near-equal deals", near_equal),
    ("many near-equal deals", many),
];

/// Gives every pair.
pub fn all<'a>(seed: u64, give: &'a mut Give<'a>) {
    let groups: Vec<Group> = GROUPS.into_iter().chain(generate::GROUPS).collect();
    give_groups(&groups, seed, give);
}

/// The words in which another whole deal can agree from the front, and differ in the
/// next.
pub const AGREEING: std::ops::Range<usize> = 0..6;

/// Whether a card is in the high word of a hand: the spades and the hearts from the
/// eight up.
fn is_high(card: usize) -> bool {
    card < 20
}

/// A deal that agrees in just so many words, if two cards can be exchanged for it.
pub fn agreeing(rng: &mut Rng, hands: &Hands, words: usize) -> Option<Hands> {
    let seat = words / 2;
    let places = (seat + 1..4).flat_map(|other| (0..13 * 13).map(move |at| (other, at)));
    let fits = |(other, at): &(usize, usize)| {
        let both_high = is_high(hands[seat][at / 13]) && is_high(hands[*other][at % 13]);
        both_high == (words % 2 == 1)
    };
    let places: Vec<_> = places.filter(fits).collect();
    let (other, at) = *places.get(rng.below(places.len().max(1)))?;
    let mut near = hands.clone();
    near[seat][at / 13] = hands[other][at % 13];
    near[other][at % 13] = hands[seat][at / 13];
    if rng.once_in(2) {
        deal_again(rng, &mut near[seat + 1..]);
    }
    Some(near)
}

/// Deals the cards of some hands again.
fn deal_again(rng: &mut Rng, hands: &mut [Vec<usize>]) {
    let mut pack = hands.concat();
    rng.shuffle(&mut pack);
    for (hand, cards) in hands.iter_mut().zip(pack.chunks(13)) {
        *hand = cards.to_vec();
    }
}

/// The deal with a card less, mostly in the last hand, so that the words before it
/// agree.
fn twelve(rng: &mut Rng, hands: &Hands) -> Hands {
    let mut few = hands.clone();
    let seat = [0, 1, 2, 3, 3, 3][rng.below(6)];
    few[seat].remove(rng.below(13));
    few
}

/// A deal, some that agree with it, and few others.
fn pool(rng: &mut Rng) -> Vec<Hands> {
    let first = random_deal(rng);
    let mut pool = vec![first.clone()];
    for _ in 0..1 + rng.below(6) {
        let words = rng.below(AGREEING.end);
        pool.extend(agreeing(rng, &first, words));
    }
    if rng.once_in(3) {
        pool.push(random_deal(rng));
    }
    pool
}

/// A closed board; of eight about `tables` have one.
fn board(rng: &mut Rng, pool: &[Hands], tables: usize) -> String {
    let hands = one_of(rng, pool);
    let table = rng.below(8) < tables;
    match rng.below(14) {
        0 | 1 => {
            let few = twelve(rng, hands);
            closed_board(rng, &few, table)
        }
        2 => deal_tag("x") + &closed_board(rng, hands, table),
        3 if table => digits(rng) + "\n",
        3 => "[Event \"x\"]\n\n".to_string(),
        4 => generate::board(rng, pool, tables) + "\n",
        _ => closed_board(rng, hands, table),
    }
}

fn edition(rng: &mut Rng, pool: &[Hands], most: usize) -> String {
    let tables = [0, 1, 2, 4, 6, 8][rng.below(6)];
    let boards = rng.below(most + 1);
    (0..boards).map(|_| board(rng, pool, tables)).collect()
}

fn near_equal(rng: &mut Rng, out: &mut Out) {
    for _ in 0..100_000 {
        let pool = pool(rng);
        let old = edition(rng, &pool, 5);
        out.pair(old, edition(rng, &pool, 6));
    }
}

fn many(rng: &mut Rng, out: &mut Out) {
    for most in [60, 400] {
        for _ in 0..40 {
            let pool: Vec<Hands> = (0..most / 20).flat_map(|_| pool(rng)).collect();
            let old = edition(rng, &pool, most);
            out.pair(old, edition(rng, &pool, most));
        }
    }
}

/// A deal without and with a table; one that agrees with it in each number of words,
/// with a table, and one without; the deal with a card less, so that all words but
/// the first, the seventh or the eighth agree, unparsed, and none, with tables.
fn short_boards(rng: &mut Rng) -> Vec<String> {
    let first = random_deal(rng);
    let near: Option<Vec<Hands>> = AGREEING.map(|words| agreeing(rng, &first, words)).collect();
    let lacking = |seat: usize, high: bool| {
        let mut few = first.clone();
        let at = few[seat].iter().position(|card| is_high(*card) == high)?;
        few[seat].remove(at);
        Some(few)
    };
    let few = [lacking(0, false), lacking(3, false), lacking(3, true)];
    let (Some(near), [Some(a), Some(b), Some(c)]) = (near, few) else {
        return short_boards(rng);
    };
    let tabled = [near.clone(), vec![a, b, c]].concat();
    let mut boards = vec![
        closed_board(rng, &first, false),
        closed_board(rng, &first, true),
        closed_board(rng, &near[2], false),
        deal_tag("x") + &closed_board(rng, &first, true),
        digits(rng) + "\n",
    ];
    boards.extend(tabled.iter().map(|hands| closed_board(rng, hands, true)));
    boards
}

/// Every sequence of up to two boards with every other.
fn short(rng: &mut Rng, out: &mut Out) {
    let editions = sequences(&short_boards(rng), 2).concat();
    for old in &editions {
        for new in &editions {
            out.pair(old, new);
        }
    }
}
