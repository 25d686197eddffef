//! Compares the product, called through `libgolavimes.a`, with the original
//! Rust, and records the Rust's answers.

mod clock;
mod comparison;
mod finish;
mod guard;
mod lin;
mod model;
mod plan;
mod promise;
mod read;
mod record;
mod rng;
mod room;
mod sample;
mod searches;
mod shrink;
mod tables;
mod write;

use lin::record::Conversions;
use read::record::Readings;
use std::process::ExitCode;
use write::record::Writings;

const USAGE: &str = "\
usage: compare tables [--seed N]
       compare read [--seed N]
       compare plan [--seed N]
       compare searches [--seed N]
       compare write [--seed N]
       compare finish [--seed N]
       compare promise [--seed N]
       compare lin [--seed N]
       compare bench [MODE] [--seed N]
       compare outside [--seed N]
       compare record tables PATH [--seed N]
       compare record read PATH [--seed N]
       compare record write PATH [--seed N]
       compare record lin PATH [--seed N]";

/// The seed of every run that names no other.
const SEED: u64 = 20_240_501;

fn main() -> ExitCode {
    let mut words: Vec<String> = std::env::args().skip(1).collect();
    let seed = match take_seed(&mut words) {
        Ok(seed) => seed,
        Err(error) => return bad_usage(&error),
    };
    let words: Vec<&str> = words.iter().map(String::as_str).collect();
    match words[..] {
        ["tables"] => exit(tables::run(seed)),
        ["read"] => exit(read::run(seed)),
        ["plan"] => exit(plan::run(seed)),
        ["searches"] => exit(searches::run(seed)),
        ["write"] => exit(write::run(seed)),
        ["finish"] => exit(finish::run(seed)),
        ["promise"] => exit(promise::run(seed)),
        ["lin"] => exit(lin::run(seed)),
        ["bench"] => bench(seed, |_| true),
        ["bench", wanted] => bench(seed, |name| name == wanted),
        ["outside"] => exit(
            read::outside::run(seed)
                && write::outside::run(seed)
                && finish::outside::run(seed)
                && lin::outside::run(seed),
        ),
        ["record", "tables", path] => recorded(path, tables::record::run(seed, path.as_ref())),
        ["record", "read", path] => recorded(path, record::run::<Readings>(seed, path.as_ref())),
        ["record", "write", path] => recorded(path, record::run::<Writings>(seed, path.as_ref())),
        ["record", "lin", path] => recorded(path, record::run::<Conversions>(seed, path.as_ref())),
        _ => bad_usage(""),
    }
}

/// A mode's name and its bench.
type Bench = (&'static str, fn(u64));

const BENCHES: [Bench; 5] = [
    ("read", read::bench::run),
    ("plan", plan::bench::run),
    ("write", write::bench::run),
    ("finish", finish::bench::run),
    ("lin", lin::bench::run),
];

fn bench(seed: u64, wanted: impl Fn(&str) -> bool) -> ExitCode {
    let chosen: Vec<_> = BENCHES.iter().filter(|(name, _)| wanted(name)).collect();
    for (at, (_, run)) in chosen.iter().enumerate() {
        if at > 0 {
            println!();
        }
        run(seed);
    }
    if chosen.is_empty() {
        return bad_usage("no such bench");
    }
    ExitCode::SUCCESS
}

/// Takes `--seed N` out of the words.
fn take_seed(words: &mut Vec<String>) -> Result<u64, String> {
    let Some(at) = words.iter().position(|word| word == "--seed") else {
        return Ok(SEED);
    };
    let seed = words
        .get(at + 1)
        .and_then(|word| word.parse().ok())
        .ok_or("--seed wants a number")?;
    words.drain(at..at + 2);
    Ok(seed)
}

fn exit(agreed: bool) -> ExitCode {
    if agreed {
        ExitCode::SUCCESS
    } else {
        ExitCode::from(1)
    }
}

fn recorded(path: &str, written: std::io::Result<()>) -> ExitCode {
    match written {
        Ok(()) => ExitCode::SUCCESS,
        Err(error) => {
            eprintln!("compare: {path}: {error}");
            ExitCode::from(2)
        }
    }
}

fn bad_usage(error: &str) -> ExitCode {
    if !error.is_empty() {
        eprintln!("compare: {error}");
    }
    eprintln!("{USAGE}");
    ExitCode::from(2)
}
