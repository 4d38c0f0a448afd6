//! Compares the proved library, through its C functions and the wrapper, with the second reader, and fails on any
//! difference.
//!
//! `compare [--seed N] [--rounds N | --seconds N] [FILE]...`
//!
//! A round takes one generated well-formed file and a damaged one; the same seed gives the same rounds. Each file that
//! is named is compared besides. It prints how many comparisons were made and how often each number came up, and fails
//! if one of the library's never did.

mod cases;
mod closing;
mod codes;
mod differences;
mod generated;
mod lent;
mod local;
mod locations;
mod older;
mod published;
mod questions;
mod receiver;
mod starts;
mod sweeps;
mod tables;
mod tally;
mod tools;
mod traces;
mod walks;
mod whole;
mod zones;

use second_reader::generate::Prng;
use std::process::ExitCode;
use std::time::{Duration, Instant};
use tally::{Difference, Tally};

const USAGE: &str = "usage: compare [--seed N] [--rounds N | --seconds N] [FILE]...";
/// Takes about a minute.
const ROUNDS: u64 = 1000;

/// When the rounds are enough.
enum Until {
    Rounds(u64),
    Seconds(u64),
}

struct Options {
    seed: u64,
    until: Until,
    files: Vec<String>,
}

fn options() -> Option<Options> {
    let mut options = Options { seed: 1, until: Until::Rounds(ROUNDS), files: Vec::new() };
    let mut arguments = std::env::args().skip(1);
    while let Some(argument) = arguments.next() {
        let mut number = || arguments.next()?.parse().ok();
        match argument.as_str() {
            "--seed" => options.seed = number()?,
            "--rounds" => options.until = Until::Rounds(number()?),
            "--seconds" => options.until = Until::Seconds(number()?),
            option if option.starts_with('-') => return None,
            file => options.files.push(file.to_string()),
        }
    }
    Some(options)
}

fn compare(tally: &mut Tally, options: &Options, files: &[(String, Vec<u8>)]) -> Result<(), String> {
    let mut prng = Prng::of_case(options.seed, 0);
    let named = |what: &str| {
        let what = what.to_string();
        move |difference: Difference| format!("{what}: {difference}")
    };
    cases::all(tally, &mut prng).map_err(named("a worked case"))?;
    receiver::worked(tally).map_err(named("a worked case"))?;
    differences::worked(tally).map_err(named("a worked case"))?;
    traces::worked(tally, &mut prng).map_err(named("a worked case"))?;
    closing::worked(tally).map_err(named("a worked case"))?;
    sweeps::all(tally).map_err(named("a sweep"))?;
    for (name, file) in files {
        published::file(tally, file, &mut prng).map_err(named(name))?;
    }
    let code_rounds = if let Until::Rounds(rounds) = options.until { rounds } else { ROUNDS };
    codes::all(tally, &mut prng, code_rounds).map_err(named("a small code"))?;
    older::all(tally, &mut prng, code_rounds).map_err(named("an older code"))?;
    starts::worked(tally, &mut prng, code_rounds).map_err(named("a table"))?;
    zones::all(tally, &mut prng, code_rounds, files).map_err(named("a found zone"))?;
    let start = Instant::now();
    for round in 1.. {
        let enough = match options.until {
            Until::Rounds(rounds) => round > rounds,
            Until::Seconds(seconds) => start.elapsed() >= Duration::from_secs(seconds),
        };
        if enough {
            break;
        }
        generated::round(tally, options.seed, round).map_err(named(&format!("round {round}")))?;
    }
    Ok(())
}

fn main() -> ExitCode {
    let Some(options) = options() else {
        eprintln!("{USAGE}");
        return ExitCode::from(2);
    };
    let data = concat!(env!("CARGO_MANIFEST_DIR"), "/../data");
    let realistic = ["all.nzd", "europe.nzd"].map(|name| format!("{data}/{name}"));
    let mut files = Vec::new();
    for path in realistic.iter().chain(&options.files) {
        match std::fs::read(path) {
            Ok(file) => files.push((path.clone(), file)),
            Err(error) => {
                eprintln!("compare: {path}: {error}");
                return ExitCode::from(2);
            }
        }
    }
    let mut tally = Tally::default();
    if let Err(difference) = compare(&mut tally, &options, &files) {
        eprintln!("compare: seed {}, {difference}", options.seed);
        eprintln!("compare: failed after {} comparisons", tally.comparisons());
        return ExitCode::FAILURE;
    }
    println!("{tally}");
    let (missing, of_functions) = (tally.missing(), tally.missing_of_functions());
    if !missing.is_empty() || !of_functions.is_empty() {
        eprintln!("compare: never came up: {missing:?} {of_functions:?}");
        return ExitCode::FAILURE;
    }
    ExitCode::SUCCESS
}
