//! Makes a failing input small.

/// How an input may be made smaller.
pub struct Ways<'a> {
    /// Whether bytes may be taken out.
    pub remove: bool,
    /// The bytes to put in another's place, simplest first.
    pub simpler: &'a [u8],
}

/// After so many tries the smallest input found so far has to do.
const TRIES: usize = 200_000;

/// Takes out and simplifies bytes as long as `fails` still holds.
pub fn shrink(input: &[u8], ways: &Ways, fails: &mut dyn FnMut(&[u8]) -> bool) -> Vec<u8> {
    let mut best = input.to_vec();
    let mut tries = 0;
    let mut keep = |candidate: Vec<u8>, best: &mut Vec<u8>| {
        tries += 1;
        let kept = tries <= TRIES && fails(&candidate);
        if kept {
            *best = candidate;
        }
        kept
    };
    loop {
        let before = best.clone();
        // Runs of bytes, long ones first.
        let mut run = if ways.remove { best.len() } else { 0 };
        while run > 0 {
            let mut at = 0;
            while at + run <= best.len() {
                let mut candidate = best[..at].to_vec();
                candidate.extend_from_slice(&best[at + run..]);
                if !keep(candidate, &mut best) {
                    // Long runs are tried at every half of their length.
                    at += (run / 2).max(1);
                }
            }
            run = if run > 8 { run / 2 } else { run - 1 };
        }
        // Single bytes, by the simplest that will do.
        for at in 0..best.len() {
            for simple in ways.simpler {
                if *simple == best[at] {
                    break;
                }
                let mut candidate = best.clone();
                candidate[at] = *simple;
                if keep(candidate, &mut best) {
                    break;
                }
            }
        }
        if best == before {
            return best;
        }
    }
}

#[cfg(test)]
mod tests {
    use super::*;

    #[test]
    fn finds_the_smallest() {
        let ways = Ways {
            remove: true,
            simpler: b"0a",
        };
        let found = shrink(b"some text with x and y in it", &ways, &mut |text| {
            text.contains(&b'x') && text.len() >= 3
        });
        assert_eq!(found.len(), 3);
        assert_eq!(found.iter().filter(|b| **b == b'0').count(), 2);
    }
}
