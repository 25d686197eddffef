//! The tables: the five functions of `dd.rs` that the product has.

mod inputs;
pub mod judge;
mod product;
pub mod record;

use crate::model;
use crate::shrink::{shrink, Ways};
use product::{Product, Seen};
use std::collections::BTreeMap;

/// Which function is called. The numbers are those of the recorded answers.
#[derive(Clone, Copy, PartialEq, Eq, PartialOrd, Ord, Debug)]
pub enum Kind {
    ToPbn = 1,
    Header = 2,
    Rows = 3,
    FromPbn = 4,
    FromRows = 5,
}

impl Kind {
    pub fn writes(self) -> bool {
        matches!(self, Kind::ToPbn | Kind::Header | Kind::Rows)
    }

    fn name(self) -> &'static str {
        match self {
            Kind::ToPbn => "dd_table_to_pbn",
            Kind::Header => "optimum_result_table_header",
            Kind::Rows => "optimum_result_table_rows",
            Kind::FromPbn => "dd_table_from_pbn",
            Kind::FromRows => "optimum_result_table_from_rows",
        }
    }
}

/// One call: the 20 bytes of a table and a page length, or a text.
#[derive(Clone, PartialEq, Eq, PartialOrd, Ord, Debug)]
pub struct Case {
    pub kind: Kind,
    pub input: Vec<u8>,
    /// The page's length; 0 for a reader.
    pub page: usize,
}

impl Case {
    pub fn write(kind: Kind, table: &[u8; 20], page: usize) -> Self {
        Case {
            kind,
            input: table.to_vec(),
            page,
        }
    }

    pub fn read(kind: Kind, text: &[u8]) -> Self {
        Case {
            kind,
            input: text.to_vec(),
            page: 0,
        }
    }
}

/// The answer to a case.
#[derive(Clone, PartialEq, Eq, Debug)]
pub struct Answer {
    pub refusal: u64,
    pub carried: u64,
    /// A writer's bytes; a reader's 20 cells, all zero after a refusal.
    pub output: Vec<u8>,
}

impl Answer {
    /// A writer's answer: refusal 7 if the page is too short for the text.
    pub fn written(text: Vec<u8>, page: usize) -> Self {
        if text.len() > page {
            Answer {
                refusal: 7,
                carried: text.len() as u64,
                output: Vec::new(),
            }
        } else {
            Answer {
                refusal: 0,
                carried: 0,
                output: text,
            }
        }
    }

    /// A reader's answer.
    pub fn read(read: Result<[u8; 20], (u64, u64)>) -> Self {
        let (refusal, carried) = read.err().unwrap_or((0, 0));
        Answer {
            refusal,
            carried,
            output: read.unwrap_or([0; 20]).to_vec(),
        }
    }
}

/// Where the product, or the model, departs from what is wanted.
enum Difference {
    Product {
        judge: &'static str,
        wanted: Seen,
        seen: Seen,
    },
    Model {
        rust: Answer,
        model: Answer,
    },
}

/// Compares one case. Also says whether the Rust was the judge.
fn compare(product: &mut Product, case: &Case) -> (bool, Option<Difference>) {
    let model = model::answer(case);
    let rust = judge::answer(case);
    let by_rust = rust.is_some();
    if let Some(rust) = rust {
        if rust != model {
            return (by_rust, Some(Difference::Model { rust, model }));
        }
    }
    let wanted = product::wanted(case, &model);
    let seen = product.call(case);
    if seen == wanted {
        return (by_rust, None);
    }
    let judge = if by_rust { "dd.rs" } else { "the model" };
    (
        by_rust,
        Some(Difference::Product {
            judge,
            wanted,
            seen,
        }),
    )
}

/// Compares every input. Returns whether all agreed.
pub fn run(seed: u64) -> bool {
    let mut product = Product::new();
    let mut counts: BTreeMap<&'static str, u64> = BTreeMap::new();
    let (mut by_rust, mut by_model) = (0u64, 0u64);
    let mut failed = None;
    inputs::all(seed, &mut |group, case| {
        let (rust, difference) = compare(&mut product, &case);
        *counts.entry(group).or_default() += 1;
        *(if rust { &mut by_rust } else { &mut by_model }) += 1;
        if difference.is_some() {
            failed = Some((group, case));
        }
        failed.is_none()
    });
    for (group, count) in &counts {
        println!("{count:>9}  {group}");
    }
    println!(
        "tables: {} inputs compared, {by_rust} with dd.rs, {by_model} outside its domain with the model",
        by_rust + by_model
    );
    let Some((group, case)) = failed else {
        println!("tables: no difference");
        return true;
    };
    let small = smallest(&mut product, &case);
    println!("tables: DIFFERENCE, met in \"{group}\"");
    show(&mut product, &small);
    if small.input != case.input {
        let from = case.input.len();
        println!("made smaller from {from} bytes: {}", hex(&case.input));
    }
    false
}

/// The smallest case found that still shows a difference. A case that the Rust
/// judges stays one that the Rust judges.
fn smallest(product: &mut Product, case: &Case) -> Case {
    let (by_rust, _) = compare(product, case);
    let mut fails = |candidate: &Case| {
        let (rust, difference) = compare(product, candidate);
        rust == by_rust && difference.is_some()
    };
    let ways = if case.kind.writes() {
        Ways {
            remove: false,
            simpler: &[0, 1, 9, 10, 13, 14, 99, 100],
        }
    } else {
        Ways {
            remove: true,
            simpler: b"0123456789abcdABCDNSEW+ \n",
        }
    };
    let mut best = case.clone();
    loop {
        let before = best.clone();
        let (kind, page) = (best.kind, best.page);
        best.input = shrink(&best.input, &ways, &mut |input| {
            let input = input.to_vec();
            fails(&Case { kind, input, page })
        });
        for page in 0..best.page {
            let candidate = Case {
                page,
                ..best.clone()
            };
            if fails(&candidate) {
                best = candidate;
                break;
            }
        }
        if best == before {
            return best;
        }
    }
}

/// Prints a case with both answers.
fn show(product: &mut Product, case: &Case) {
    println!("function: {}", case.kind.name());
    println!("input, {} bytes: {}", case.input.len(), hex(&case.input));
    if case.kind.writes() {
        println!("page: {} bytes", case.page);
    } else {
        println!("as text: \"{}\"", case.input.escape_ascii());
    }
    match compare(product, case).1 {
        Some(Difference::Product {
            judge,
            wanted,
            seen,
        }) => {
            show_seen(judge, &wanted);
            show_seen("golavimes", &seen);
        }
        Some(Difference::Model { rust, model }) => {
            println!("The model of this program is wrong, the product was not asked.");
            println!("dd.rs: {rust:?}");
            println!("the model: {model:?}");
        }
        None => println!("(the difference is gone when the call is made again)"),
    }
}

fn show_seen(who: &str, seen: &Seen) {
    println!("{who}:");
    println!("  returned {}, answer {:?}", seen.returned, seen.answer);
    println!("  output {}", hex(&seen.output));
    println!("  output as text \"{}\"", seen.output.escape_ascii());
    for what in &seen.damage {
        println!("  touched {what}");
    }
}

/// The bytes in hexadecimal, the first 400 if there are more.
pub fn hex(bytes: &[u8]) -> String {
    let shown = &bytes[..bytes.len().min(400)];
    let list: Vec<String> = shown.iter().map(|b| format!("{b:02x}")).collect();
    let rest = if shown.len() < bytes.len() {
        " ..."
    } else {
        ""
    };
    list.join(" ") + rest
}
