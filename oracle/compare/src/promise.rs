//! What is promised of the finished edition, through the C functions alone: two
//! editions are planned and finished, the page is read, and planned as a new
//! edition and as an old one. No model and none of the original Rust is asked.

use crate::comparison::{self, Comparison, Met, Report};
use crate::finish::answers::{Answers, TABLE};
use crate::plan::generate;
use crate::plan::model::{hands, has_table, is_whole, FIVE, NEAR, OLD};
use crate::plan::{pair, StateCounts};
use crate::read::model::{CARD, ENTRY};
use crate::read::product::{FILL, FILL_ANSWER};
use crate::read::Checked;
use crate::rng::Rng;
use crate::write::product::FILL_PAGE;
use golavimes::{Boxes, Editions};

const TWIN: usize = 4;
const SOLVE: usize = 5;

/// A card's cells.
const CELLS: std::ops::Range<usize> = 18..38;

/// An edition as `golavimes_read` reads it, with just what it needs lent.
struct Edition<'a> {
    text: &'a [u8],
    cards: Vec<u32>,
    entries: Vec<u32>,
}

impl<'a> Edition<'a> {
    /// Lends nothing at first, and then what each refusal says. An error is the
    /// last answer.
    fn read(text: &'a [u8]) -> Result<Self, [u64; 5]> {
        let (mut cards, mut entries) = (vec![], vec![]);
        let mut answer = [FILL_ANSWER; 5];
        for _ in 0..3 {
            golavimes::read(text, &mut cards, &mut entries, &mut answer);
            match answer {
                [0, ..] => {
                    return Ok(Edition {
                        text,
                        cards,
                        entries,
                    })
                }
                [2, _, boards, ..] => cards = vec![FILL; CARD * boards as usize],
                [3, _, count, ..] => entries = vec![FILL; ENTRY * count as usize],
                _ => break,
            }
        }
        Err(answer)
    }

    /// An edition that must be taken.
    fn taken(text: &'a [u8]) -> Result<Self, String> {
        Self::read(text).map_err(|answer| format!("{} bytes are not read: {answer:?}", text.len()))
    }

    fn boards(&self) -> usize {
        self.cards.len() / CARD
    }

    fn card(&self, index: usize) -> &[u32] {
        &self.cards[CARD * index..][..CARD]
    }
}

/// An old and a new edition. Each call is lent boxes of just the size.
#[derive(Clone, Copy)]
struct Both<'a> {
    old: &'a Edition<'a>,
    new: &'a Edition<'a>,
}

impl Both<'_> {
    fn call<T>(&self, function: impl FnOnce(Editions, Boxes) -> T) -> T {
        let (old, new) = (self.old, self.new);
        let sizes = [&old.cards, &old.entries, &new.cards, &new.entries];
        let mut words = sizes.map(|words| vec![FILL; words.len()]);
        let editions = Editions {
            old: old.text,
            new: new.text,
        };
        function(
            editions,
            Boxes::new(words.each_mut().map(|words| &mut words[..])),
        )
    }

    fn plan(&self, slips: &mut [u64]) -> [u64; 10] {
        let mut answer = [FILL_ANSWER; 10];
        self.call(|editions, boxes| golavimes::plan(editions, boxes, slips, &mut answer));
        answer
    }

    /// The slips, with as many lent as refusal 4 carries.
    fn slips(&self) -> Result<Vec<u64>, String> {
        let asked = self.plan(&mut []);
        let mut slips = match asked {
            [4, _, solve, ..] => vec![FILL_ANSWER; FIVE * solve as usize],
            _ => vec![],
        };
        let answer = self.plan(&mut slips);
        if answer[0] != 0 || FIVE as u64 * answer[4 + SOLVE] != slips.len() as u64 {
            return Err(format!("planned: {asked:?}, then {answer:?}"));
        }
        Ok(slips)
    }

    /// The state and `from` of each board.
    fn states(&self) -> Result<Vec<(usize, usize)>, String> {
        let mut numbers = vec![FILL_ANSWER; FIVE * self.new.boards()];
        let mut answer = [FILL_ANSWER; 4];
        self.call(|editions, boxes| golavimes::boards(editions, boxes, &mut numbers, &mut answer));
        if answer != [0, 0, 0, self.new.boards() as u64] {
            return Err(format!("boards: {answer:?}"));
        }
        let states = numbers.chunks(FIVE);
        Ok(states
            .map(|five| (five[0] as usize, five[1] as usize))
            .collect())
    }

    /// The finished edition's page, with as many bytes lent as refusal 7 carries.
    fn finish(&self, answers: &[u8]) -> Result<Vec<u8>, String> {
        let finish = |page: &mut [u8]| {
            let mut answer = [FILL_ANSWER; 4];
            self.call(|editions, boxes| {
                golavimes::finish(editions, boxes, answers, page, &mut answer)
            });
            answer
        };
        let asked = finish(&mut []);
        let [7, 0, need, 0] = asked else {
            return Err(format!("finished without a page: {asked:?}"));
        };
        let mut page = vec![FILL_PAGE; need as usize];
        let answer = finish(&mut page);
        if answer != [0, 0, 0, need] {
            return Err(format!("finished: {asked:?}, then {answer:?}"));
        }
        Ok(page)
    }

    /// Planned, nothing must be listed, though there is room for slips.
    fn nothing_listed(&self, what: &str) -> Checked {
        let mut slips = [FILL_ANSWER; 2 * FIVE];
        let answer = self.plan(&mut slips);
        if answer[0] != 0 || answer[4 + SOLVE] != 0 || slips != [0; 2 * FIVE] {
            return Err(format!("{what}: {answer:?}, slips {slips:x?}"));
        }
        Ok(())
    }
}

/// What the boards of a finished edition must be.
struct Promise<'a> {
    both: Both<'a>,
    slips: &'a [u64],
    answers: &'a [u8],
}

impl Promise<'_> {
    /// The board at an index, finished, against the new edition's.
    fn board(&self, index: usize, (state, from): (usize, usize), finished: &[u32]) -> Checked {
        let card = self.both.new.card(index);
        if !is_whole(card) {
            return match is_whole(finished) {
                true => Err("a deal where there was none".into()),
                false => Ok(()),
            };
        }
        let deal = hands(card);
        if !is_whole(finished) || hands(finished) != deal {
            return Err(format!("another deal, {:x?}", &finished[9..18]));
        }
        let cells = if has_table(card) {
            card[CELLS].to_vec()
        } else {
            match state {
                OLD => source(self.both.old, from, deal)?,
                NEAR => source(self.both.new, from, deal)?,
                TWIN | SOLVE => self.answered(deal)?,
                _ => return Err(format!("state {state} of a board that wants a table")),
            }
        };
        if !has_table(finished) || finished[CELLS] != cells {
            let seen = &finished[CELLS];
            return Err(format!("cells {cells:?} wanted, {seen:?} finished"));
        }
        Ok(())
    }

    /// The answer to the one slip that holds a deal.
    fn answered(&self, deal: [u64; 4]) -> Result<Vec<u32>, String> {
        let slips = self.slips.chunks(FIVE).enumerate();
        let holding: Vec<usize> = slips
            .filter(|(_, slip)| slip[1..] == deal)
            .map(|(slip, _)| slip)
            .collect();
        let [slip] = holding[..] else {
            return Err(format!("the deal is on the slips {holding:?}, from 0"));
        };
        let answer = &self.answers[TABLE * slip..][..TABLE];
        Ok(answer.iter().map(|cell| u32::from(*cell)).collect())
    }
}

/// The cells of a source, which must have the deal and a table.
fn source(edition: &Edition, from: usize, deal: [u64; 4]) -> Result<Vec<u32>, String> {
    if !(1..=edition.boards()).contains(&from) {
        return Err(format!("no board {from} to take a table from"));
    }
    let card = edition.card(from - 1);
    if !is_whole(card) || hands(card) != deal || !has_table(card) {
        return Err(format!("board {from} has no table for the deal"));
    }
    Ok(card[CELLS].to_vec())
}

/// What was met.
#[derive(Default)]
struct Counts {
    met: Met,
    taken: u64,
    too_long: u64,
    /// Of the pages that were taken.
    states: StateCounts,
    slips: u64,
    blank_tables: u64,
    plans: u64,
}

struct Run {
    rng: Rng,
    counts: Counts,
    /// The texts of the pair before: other editions to plan against.
    before: [Vec<u8>; 2],
}

impl Run {
    /// Finishes a pair and looks at what is promised.
    fn check(&mut self, texts: &[&[u8]], seed: u64) -> Checked {
        let [old, new] = pair(texts);
        let (old, new) = (Edition::taken(old)?, Edition::taken(new)?);
        let both = Both {
            old: &old,
            new: &new,
        };
        let slips = both.slips()?;
        let answers = Answers::right(seed).tables(slips.len() / FIVE);
        let page = both.finish(&answers)?;
        self.counts.met.call(&[0, 0]);
        let finished = match Edition::read(&page) {
            Err([1, _, length, ..]) if length == page.len() as u64 => {
                self.counts.too_long += 1;
                return Ok(());
            }
            read => read.map_err(|answer| format!("the page is not read: {answer:?}"))?,
        };
        self.counts.taken += 1;
        self.counts.slips += (slips.len() / FIVE) as u64;
        let promise = Promise {
            both,
            slips: &slips,
            answers: &answers,
        };
        self.boards(&promise, &finished)?;
        self.plans(both, &finished)
    }

    /// As many boards, and at each position what is promised.
    fn boards(&mut self, promise: &Promise, finished: &Edition) -> Checked {
        let new = promise.both.new;
        if finished.boards() != new.boards() {
            let (wanted, seen) = (new.boards(), finished.boards());
            return Err(format!("{wanted} boards wanted, {seen} finished"));
        }
        for (index, (state, from)) in promise.both.states()?.into_iter().enumerate() {
            promise
                .board(index, (state, from), finished.card(index))
                .map_err(|error| format!("board {}: {error}", index + 1))?;
            self.counts.states.count(index, state, from);
            let card = new.card(index);
            self.counts.blank_tables += u64::from(!is_whole(card) && has_table(card));
        }
        Ok(())
    }

    /// The finished edition as the new one, against several; and as the old one.
    fn plans(&mut self, both: Both, finished: &Edition) -> Checked {
        let empty = Edition::taken(b"")?;
        let [before_old, before_new] = &self.before;
        let before = [Edition::taken(before_old)?, Edition::taken(before_new)?];
        for (old, what) in [
            (both.old, "against the old edition"),
            (both.new, "against the new edition"),
            (finished, "against itself"),
            (&empty, "against an empty edition"),
            (&before[0], "against another edition"),
            (&before[1], "against another edition"),
        ] {
            let both = Both { old, new: finished };
            both.nothing_listed(what)?;
            self.counts.plans += 1;
        }
        let next = Both {
            old: finished,
            new: both.new,
        };
        next.nothing_listed("as the old edition of the new one")?;
        self.counts.plans += 1;
        Ok(())
    }
}

impl Comparison for Run {
    const NAME: &'static str = "promise";
    const TEXTS: &'static [&'static str] = &["old text", "new text"];
    const LONG: &'static str = "texts of 16777215 bytes, and with a page that is too long to read";

    /// The seed of the answers.
    type Check = u64;

    fn compare(&mut self, group: &'static str, texts: &[&[u8]]) -> Result<(), (u64, String)> {
        self.counts.met.input(group, texts);
        let seed = self.rng.next();
        self.check(texts, seed).map_err(|error| (seed, error))?;
        self.before = pair(texts).map(<[u8]>::to_vec);
        Ok(())
    }

    fn again(&mut self, texts: &[&[u8]], seed: u64) -> Checked {
        self.check(texts, seed)
    }

    fn sides(_: u64) -> &'static str {
        "golavimes against what is promised of the finished edition"
    }

    fn longest(&mut self, seed: u64) -> Checked {
        let (longest, few) = generate::longest(seed);
        self.check(&[&longest, &few], seed)?;
        self.check(&[&few, &longest], seed)?;
        let boards = "[ \"\"]\n\n".repeat(100_000);
        self.check(&[&few, boards.as_bytes()], seed)
    }

    fn met(&self) -> &Met {
        &self.counts.met
    }

    fn print(&self, report: &mut Report) {
        let counts = &self.counts;
        report.groups(&counts.met);
        let finished = "pairs finished: planned, answered, finished, read and planned again";
        report.say(format_args!("{} {finished}", counts.met.calls));
        report.line(counts.taken, "pages taken");
        report.line(counts.too_long, "pages too long to be read");
        counts.states.print(report);
        report.line(counts.slips, "slips answered");
        report.line(counts.blank_tables, "blank boards with a table");
        report.line(counts.plans, "plans of finished editions, listing nothing");
    }
}

/// Looks at every pair. Returns whether the promise held.
pub fn run(seed: u64) -> bool {
    let run = Run {
        rng: Rng::new(seed ^ 0x7072_6f6d),
        counts: Counts::default(),
        before: [vec![], vec![]],
    };
    comparison::run(run, seed, |give| generate::all(seed, give))
}
