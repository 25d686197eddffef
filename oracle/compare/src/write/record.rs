//! Records written editions, for a replay without Rust at hand.
//!
//! A text is recorded only where the model's page is that of the unchanged
//! `write_pbn`, and the boards of the reading model are those of `read_pbn`; a
//! text of which they disagree stops the recording. A text with a directive after a
//! name that is not written just once is left out.
//!
//! The sizes of a case are the words lent for cards, those for entries and the bytes
//! lent as page. Its own are the length of what is written (16 bits) and what is
//! written.

use super::once::Names;
use super::{chosen, compare_rust, generate, Edition, Lent, Rooms};
use crate::read::generate::plain_edition;
use crate::read::record::agreed;
use crate::record::{bytes_of, File, Group, Recording};
use crate::rng::Rng;
use crate::room::{Room, ENOUGH, ROOMS};
use crate::sample::{Share, Texts};
use crate::tables::judge::text_in_domain;

/// What the replay program has room for: words of cards and of entries, and bytes
/// of the page.
const MOST_WORDS: usize = 8192;
pub const MOST_PAGE: usize = 16_384;

/// Editions that are lent sizes around each boundary.
const SIZED: [&str; 3] = ["", "[Event \"x\"]", "% h\n[A \"1\"]\n\n;d\n[B \"2\"]\n{b}"];

pub struct Writings;

impl Recording for Writings {
    const NAME: &'static str = "written editions";
    const TEXTS: Texts = generate::all;

    fn share(group: &str) -> Share<Group> {
        match group {
            "writing: outside the domain" | "outside the domain" => None,
            "writing: long records" | "long editions" => None,
            // What stays of these is like others.
            "writing: directives, chosen" => None,
            "writing: all short, directives after notes" => None,
            "writing: directives after notes" => None,
            "writing: generated records" => Some((Group::Sampled, [80, 40])),
            "writing: remarks at every place" => Some((Group::Sampled, [15, 15])),
            "writing: damaged records" => Some((Group::Damaged, [40, 30])),
            "damaged editions" => Some((Group::Damaged, [20, 8])),
            _ if group.starts_with("writing: ") => Some((Group::Sampled, [18, 4])),
            _ => Some((Group::Sampled, [8, 2])),
        }
    }

    fn chosen() -> Vec<Vec<u8>> {
        bytes_of(chosen::texts())
    }

    fn several(seed: u64) -> Vec<Vec<u8>> {
        let mut editions = bytes_of(chosen::editions());
        editions.push(plain_edition(seed, 4500));
        editions
    }

    fn sized() -> Vec<Vec<u8>> {
        bytes_of(SIZED)
    }

    fn record_roomy(file: &mut File, group: Group, text: &[u8], rng: &mut Rng) {
        let edition = agreed_page(text);
        let enough = std::array::from_fn(|_| ENOUGH[rng.below(ENOUGH.len())]);
        record(file, group, &edition, enough);
    }

    fn record_short(file: &mut File, group: Group, text: &[u8]) {
        let edition = agreed_page(text);
        for short in 0..3 {
            let mut rooms = [Room::Exact; 3];
            rooms[short] = Room::WordLess;
            record(file, group, &edition, rooms);
        }
    }

    /// Each two of what is lent.
    fn record_around(file: &mut File, text: &[u8]) {
        let edition = agreed_page(text);
        for one in 0..3 {
            for other in 0..one {
                for room in ROOMS {
                    for other_room in ROOMS {
                        let mut rooms = [Room::Exact; 3];
                        rooms[one] = room;
                        rooms[other] = other_room;
                        record(file, Group::Sizes, &edition, rooms);
                    }
                }
            }
        }
    }
}

/// An edition of which the models and the Rust agree, and how often the names that its
/// directives stand after are written.
fn agreed_page(text: &[u8]) -> (Edition<'_>, Names) {
    agreed(text);
    let edition = Edition::new(text);
    let rust = text_in_domain(text).expect("a text of the domain");
    match compare_rust(&edition, rust) {
        Ok(names) => (edition, names),
        Err(error) => panic!("{error}\n\"{}\"", text.escape_ascii()),
    }
}

fn record(file: &mut File, group: Group, (edition, names): &(Edition, Names), rooms: Rooms) {
    let lent = edition.lent(rooms);
    let Lent { boxes, page } = lent;
    assert!(boxes.cards <= MOST_WORDS && boxes.entries <= MOST_WORDS && page <= MOST_PAGE);
    let sizes = [boxes.cards, boxes.entries, page];
    if *names != Names::Once {
        return file.leave_out(edition.text, &sizes);
    }
    let [refusal, _, carried, _] = edition.answer(&lent);
    if file.start(group, edition.text, &sizes, [refusal, carried]) {
        file.with_length(if refusal == 0 { &edition.page } else { &[] });
    }
}
