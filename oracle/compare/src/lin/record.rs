//! Records converted LIN texts, for a replay without Rust at hand.
//!
//! The page is the model's. A text is recorded only where the model's boards,
//! refusal and page are those of the unchanged `lin/mod.rs` and `write_pbn`, but for
//! the cards played, and where the page reads back as promised; a text of which this
//! does not hold stops the recording.
//!
//! The size of a case is the bytes lent as page. Its own are the boards (16 bits), the
//! length of what is written (16 bits) and what is written.

use super::{chosen, compare_rust, generate, read_back, Conversion};
use crate::read::product::Product as Reader;
use crate::record::{bytes_of, File, Group, Recording};
use crate::rng::Rng;
use crate::room::{Room, ENOUGH, ROOMS};
use crate::sample::{Share, Texts};
use crate::tables::judge::text_in_domain;
use crate::write::record::MOST_PAGE;

pub struct Conversions;

impl Recording for Conversions {
    const NAME: &'static str = "converted texts";
    const TEXTS: Texts = generate::all;

    fn share(group: &str) -> Share<Group> {
        match group {
            "LIN: outside the domain" | "LIN: long texts" => None,
            "LIN: records" | "LIN: files" => Some((Group::Sampled, [10, 60])),
            "LIN: damaged" => Some((Group::Damaged, [40, 80])),
            "LIN: random bytes" => Some((Group::Sampled, [40, 0])),
            "LIN: chosen texts" => Some((Group::Sampled, [60, 10])),
            _ => Some((Group::Sampled, [50, 4])),
        }
    }

    fn chosen() -> Vec<Vec<u8>> {
        let written_out = chosen::cases().into_iter().map(|(text, _)| text);
        let in_domain = written_out.filter(|text| text_in_domain(text).is_some());
        in_domain.chain(bytes_of(chosen::TEXTS)).collect()
    }

    fn several(seed: u64) -> Vec<Vec<u8>> {
        let mut texts = chosen::several();
        texts.push(generate::plain_lines(seed, 3000));
        texts.push(generate::plain_file(seed, 3000));
        texts
    }

    fn sized() -> Vec<Vec<u8>> {
        bytes_of(["", "md|3SA|", "md|3SA|mb|1N|pc|D2|\nmd|1HA|"])
    }

    fn record_roomy(file: &mut File, group: Group, text: &[u8], rng: &mut Rng) {
        let enough = ENOUGH[rng.below(ENOUGH.len())];
        record(file, group, &agreed(text), enough);
    }

    fn record_short(file: &mut File, group: Group, text: &[u8]) {
        let conversion = agreed(text);
        for room in [Room::None, Room::OneLess, Room::WordLess] {
            record(file, group, &conversion, room);
        }
    }

    fn record_around(file: &mut File, text: &[u8]) {
        let conversion = agreed(text);
        for room in ROOMS {
            record(file, Group::Sizes, &conversion, room);
        }
    }
}

/// A text of which the model and the Rust agree.
fn agreed(text: &[u8]) -> Conversion<'_> {
    let conversion = Conversion::new(text);
    let rust = text_in_domain(text).expect("a text of the domain");
    let checked = compare_rust(&conversion, rust)
        .and_then(|()| read_back::check(&mut Reader::new(), &conversion));
    if let Err(error) = checked {
        panic!("{error}\n\"{}\"", text.escape_ascii());
    }
    conversion
}

fn record(file: &mut File, group: Group, conversion: &Conversion, room: Room) {
    let page = conversion.lent(room);
    assert!(page <= MOST_PAGE, "{page}");
    let [refusal, _, carried, _, boards] = conversion.answer(page);
    if file.start(group, conversion.text, &[page], [refusal, carried]) {
        file.short(boards);
        file.with_length(if refusal == 0 { &conversion.page } else { &[] });
    }
}
