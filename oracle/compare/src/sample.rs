//! An even sample of generated texts, for the files of recorded answers.

use crate::rng::Rng;
use crate::tables::judge::text_in_domain;
use std::collections::BTreeMap;

/// Sampled texts have at most this length.
const LONGEST: usize = 1000;

/// A text above this length counts as long; fewer of those are recorded.
pub const LONG: usize = 120;

/// Gives every text, with the name of its group, to a receiver of them, until
/// that says that it wants no more.
pub type Texts = fn(u64, &mut dyn FnMut(&'static str, &[u8]) -> bool);

/// Of a generator's group: where its texts are recorded, and how many short and
/// how many long ones are kept.
pub type Share<Group> = Option<(Group, [usize; 2])>;

/// An even sample of the texts that went by.
#[derive(Default)]
struct Bucket {
    met: usize,
    kept: Vec<Vec<u8>>,
}

/// A sample of these texts, in the domain.
pub fn sample<Group: Ord + Copy>(
    seed: u64,
    rng: &mut Rng,
    texts: Texts,
    share: fn(&str) -> Share<Group>,
) -> Vec<(Group, Vec<u8>)> {
    let mut buckets: BTreeMap<(Group, &'static str, bool), Bucket> = BTreeMap::new();
    texts(seed, &mut |name, text| {
        let Some((group, shares)) = share(name) else {
            return true;
        };
        if text.len() > LONGEST || text_in_domain(text).is_none() {
            return true;
        }
        let long = text.len() > LONG;
        let share = shares[usize::from(long)];
        let bucket = buckets.entry((group, name, long)).or_default();
        bucket.met += 1;
        if bucket.kept.len() < share {
            bucket.kept.push(text.to_vec());
        } else {
            let at = rng.below(bucket.met);
            if at < share {
                bucket.kept[at] = text.to_vec();
            }
        }
        true
    });
    let of_bucket = |((group, _, _), bucket): (_, Bucket)| {
        let kept = bucket.kept.into_iter();
        kept.map(move |text| (group, text))
    };
    buckets.into_iter().flat_map(of_bucket).collect()
}
