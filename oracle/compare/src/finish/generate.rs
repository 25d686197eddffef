//! Pairs of editions whose new one has directives after notes and after tables; the
//! pairs of planning come first.

use crate::comparison::Give;
use crate::plan::generate::{
    self, closed_board, deal_of, deal_tag, digits, give_groups, one_of, random_deal, Group, Hands,
    Out,
};
use crate::rng::Rng;
use crate::write::notes::{finished, record};

const GROUPS: [Group; 1] = [("directives after notes and tables", noted)];

/// Gives every pair.
pub fn all<'a>(seed: u64, give: &'a mut Give<'a>) {
    let groups: Vec<Group> = generate::GROUPS.into_iter().chain(GROUPS).collect();
    give_groups(&groups, seed, give);
}

/// A table that is not read, or one that is, with a directive or without.
fn table(rng: &mut Rng) -> String {
    let bad = "[DoubleDummyTricks \"bad\"]\n";
    match rng.below(6) {
        0 => digits(rng),
        1 => digits(rng) + ";t#\n",
        2 => bad.to_string(),
        3 => format!("{bad};t#\n{{t}}\n"),
        4 => bad.replace('\n', " ;t#\n"),
        _ => String::new(),
    }
}

/// Boards with notes, and mostly with a deal.
fn noted(rng: &mut Rng, out: &mut Out) {
    for _ in 0..100_000 {
        let pool: Vec<Hands> = (0..1 + rng.below(3)).map(|_| random_deal(rng)).collect();
        let mut old = String::new();
        for _ in 0..rng.below(3) {
            let (hands, with_table) = (one_of(rng, &pool), !rng.once_in(3));
            old += &closed_board(rng, hands, with_table);
        }
        let mut new = String::new();
        for _ in 0..1 + rng.below(3) {
            let mut parts = [record(rng), table(rng), String::new()];
            if !rng.once_in(6) {
                parts[2] = deal_tag(&deal_of(one_of(rng, &pool)));
            }
            rng.shuffle(&mut parts);
            new += &format!("{}\n", parts.concat());
        }
        let new = finished(rng, &new);
        out.pair(&old, &new);
    }
}
