//! What the comparisons of editions share: going through the inputs, counting what
//! was met, and showing the smallest input that fails.

use crate::read::Checked;
use crate::shrink::{shrink, Ways};
use crate::tables::hex;
use crate::write::once::Names;
use std::collections::BTreeMap;
use std::fmt::{Debug, Display};

/// Takes an input, with the name of its group, and says whether it wants more.
pub type Give<'a> = dyn FnMut(&'static str, &[&[u8]]) -> bool + 'a;

/// A comparison of inputs that are one text or several.
pub trait Comparison {
    const NAME: &'static str;
    /// The names of an input's texts.
    const TEXTS: &'static [&'static str];
    /// What is compared after the inputs, in `longest`.
    const LONG: &'static str;

    /// One thing that is checked of an input.
    type Check: Copy + Debug;

    /// Compares one input. An error names the check that failed.
    fn compare(
        &mut self,
        group: &'static str,
        texts: &[&[u8]],
    ) -> Result<(), (Self::Check, String)>;

    /// Does a check again.
    fn again(&mut self, texts: &[&[u8]], check: Self::Check) -> Checked;

    /// What a check compares.
    fn sides(check: Self::Check) -> &'static str;

    fn longest(&mut self, seed: u64) -> Checked;

    fn met(&self) -> &Met;

    /// Prints what was met.
    fn print(&self, report: &mut Report);
}

/// What every comparison counts.
#[derive(Default)]
pub struct Met {
    groups: BTreeMap<&'static str, u64>,
    by_rust: u64,
    by_model: u64,
    /// Judged by the Rust's page with each directive once.
    unwritten: u64,
    repeated: u64,
    pub bytes: u64,
    pub calls: u64,
    /// By refusal and edition.
    told: BTreeMap<(u64, u64), u64>,
}

impl Met {
    /// Counts an input. Returns its number in its group, from 1.
    pub fn input(&mut self, group: &'static str, texts: &[&[u8]]) -> u64 {
        self.bytes += texts.iter().map(|text| text.len() as u64).sum::<u64>();
        let count = self.groups.entry(group).or_default();
        *count += 1;
        *count
    }

    /// Counts who judged an input.
    pub fn judged(&mut self, by_rust: bool) {
        *(if by_rust {
            &mut self.by_rust
        } else {
            &mut self.by_model
        }) += 1;
    }

    /// Counts who judged a page, by the names that its directives stand after. None
    /// are told of a text outside the domain.
    pub fn placed(&mut self, names: Option<Names>) {
        *(match names {
            Some(Names::Once) => &mut self.by_rust,
            Some(Names::Unwritten) => &mut self.unwritten,
            Some(Names::Repeated) => &mut self.repeated,
            None => &mut self.by_model,
        }) += 1;
    }

    /// Counts a call by its answer.
    pub fn call(&mut self, answer: &[u64]) {
        self.calls += 1;
        *self.told.entry((answer[0], answer[1])).or_default() += 1;
    }

    /// How many calls told this refusal and edition.
    fn told(&self, refusal: u64, edition: u64) -> u64 {
        self.told.get(&(refusal, edition)).copied().unwrap_or(0)
    }
}

/// A refusal, the edition that it names and its name.
pub type Refusal = (u64, u64, &'static str);

/// What was met, in print.
pub struct Report {
    name: &'static str,
    unmet: bool,
}

impl Report {
    pub fn groups(&self, met: &Met) {
        for (group, count) in &met.groups {
            println!("{count:>9}  {group}");
        }
    }

    /// The groups, and how many inputs were compared with which judge.
    pub fn inputs(&self, met: &Met, inputs: &str, judge: &str) {
        self.groups(met);
        let left = met.unwritten + met.repeated;
        let once = match left {
            0 => String::new(),
            left => format!(" {left} with each directive put in once,"),
        };
        self.say(format_args!(
            "{} {inputs} compared, {} with {judge},{once} {} outside its domain with the model",
            met.by_rust + left + met.by_model,
            met.by_rust,
            met.by_model
        ));
    }

    /// How many inputs were judged with each directive put in once, and why.
    pub fn placed(&mut self, met: &Met, inputs: &str, least: u64) {
        let after = format!("{inputs} with a directive after a name that is");
        self.line(met.unwritten, format_args!("{after} not written"));
        let repeated = format!("{after} written twice or more");
        self.at_least(least, met.repeated, repeated);
    }

    /// What was read and written.
    pub fn written(&self, met: &Met, boards: u64, written: u64) {
        let read = met.bytes;
        self.say(format_args!(
            "{read} bytes read, {boards} boards, {written} bytes written"
        ));
    }

    /// How many inputs held each thing.
    pub fn held<Holds>(&mut self, inputs: &str, counts: &[u64], held: &[(&str, Holds)]) {
        for (count, (name, _)) in counts.iter().zip(held) {
            self.line(*count, format_args!("{inputs} with {name}"));
        }
    }

    pub fn say(&self, what: impl Display) {
        println!("{}: {what}", self.name);
    }

    /// A line for something that must have been met.
    pub fn line(&mut self, count: u64, what: impl Display) {
        self.at_least(1, count, what);
    }

    /// A line for something that must have been met so often.
    fn at_least(&mut self, least: u64, count: u64, what: impl Display) {
        println!("{count:>9}  {what}");
        self.unmet |= count < least;
    }

    /// The calls, and those that met each of these refusals.
    pub fn calls(&mut self, met: &Met, refusals: &[Refusal]) {
        self.say(format_args!("{} calls", met.calls));
        self.line(met.told(0, 0), "calls not refused");
        for refusal in refusals {
            self.refused(met, *refusal);
        }
    }

    /// The calls that met this refusal.
    pub fn refused(&mut self, met: &Met, (refusal, edition, name): Refusal) {
        let what = format!("calls refused with {refusal} {name}");
        self.line(met.told(refusal, edition), what);
    }
}

/// An input that failed a check.
struct Failure<Check> {
    group: &'static str,
    texts: Vec<Vec<u8>>,
    check: Check,
    error: String,
}

/// Compares every input. Returns whether all agreed.
pub fn run<C: Comparison>(
    mut comparison: C,
    seed: u64,
    inputs: impl FnOnce(&mut Give<'_>),
) -> bool {
    let mut failed = None;
    inputs(&mut |group, texts| {
        if let Err((check, error)) = comparison.compare(group, texts) {
            failed = Some(Failure {
                group,
                texts: texts.iter().map(|text| text.to_vec()).collect(),
                check,
                error,
            });
        }
        failed.is_none()
    });
    let before = comparison.met().calls;
    let long = match failed {
        None => comparison.longest(seed),
        Some(_) => Ok(()),
    };
    let calls = comparison.met().calls - before;
    let mut report = Report {
        name: C::NAME,
        unmet: false,
    };
    comparison.print(&mut report);
    if let Some(failure) = failed {
        report.say(format_args!("DIFFERENCE, met in \"{}\"", failure.group));
        show(&mut comparison, &failure);
        return false;
    }
    if let Err(error) = long {
        report.say(format_args!("DIFFERENCE, with {}: {error}", C::LONG));
        return false;
    }
    report.say(format_args!("{calls} calls with {}", C::LONG));
    if report.unmet {
        report.say("something above was never or too seldom met, and so not compared");
        return false;
    }
    report.say("no difference");
    true
}

/// Longer inputs are not made smaller, and not shown.
const MOST_SHOWN: usize = 40_000;

/// Prints the smallest input found that still shows the difference.
fn show<C: Comparison>(comparison: &mut C, failure: &Failure<C::Check>) {
    let check = failure.check;
    println!("{}", C::sides(check));
    let lengths: Vec<usize> = failure.texts.iter().map(Vec::len).collect();
    if lengths.iter().sum::<usize>() > MOST_SHOWN {
        println!("of {lengths:?} bytes, {check:?}: {}", failure.error);
        return;
    }
    let small = smallest(comparison, failure);
    for (name, text) in C::TEXTS.iter().zip(&small) {
        println!("{name}, {} bytes: {}", text.len(), hex(text));
        println!("as text: \"{}\"", text.escape_ascii());
    }
    let parts: Vec<&[u8]> = small.iter().map(Vec::as_slice).collect();
    match comparison.again(&parts, check) {
        Err(error) => println!("{error}"),
        Ok(()) => println!("(the difference is gone when the check is made again)"),
    }
    if small != failure.texts {
        println!("made smaller from {lengths:?} bytes");
        for text in &failure.texts {
            println!("as text: \"{}\"", text.escape_ascii());
        }
        println!("there: {check:?}: {}", failure.error);
    }
}

/// The input with each of its texts made smaller as long as the check fails.
fn smallest<C: Comparison>(comparison: &mut C, failure: &Failure<C::Check>) -> Vec<Vec<u8>> {
    let ways = Ways {
        remove: true,
        simpler: b"xN1 \n",
    };
    let mut texts = failure.texts.clone();
    loop {
        let before = texts.clone();
        for at in 0..texts.len() {
            texts[at] = shrink(&texts[at], &ways, &mut |candidate| {
                let mut parts: Vec<&[u8]> = texts.iter().map(Vec::as_slice).collect();
                parts[at] = candidate;
                comparison.again(&parts, failure.check).is_err()
            });
        }
        if texts == before || texts.len() == 1 {
            return texts;
        }
    }
}
