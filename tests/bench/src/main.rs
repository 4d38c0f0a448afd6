//! Measures the proved library beside the peer, and prints four Markdown tables with a few words: on the realistic files, ours
//! against the peer's, found zones and tables beside a peer that trusts the bytes, and the same files in pieces; on files of n, 2n, 4n and
//! 8n bytes, how the time grows. Fails if the two give different answers. With an argument only the rows that have it in their file's name or
//! their work's are measured.

mod clock;
mod files;
mod found;
mod growing;
mod hostile;
mod inputs;
mod measure;
mod pieces;
mod realistic;
mod tools;
mod work;

use measure::{FEW_SAMPLES, SAMPLES};
use std::process::ExitCode;
use work::Work;

/// 1950-01-01T00:00Z, and as a local time.
const LISTED: i64 = -631_152_000 * 10_000_000;
/// 2100-07-01T00:00Z, and as a local time.
const IN_TAIL: i64 = 4_118_083_200 * 10_000_000;

/// Normalizing with an output of length 0.
const CHECK: &str = "normalize without room";

/// How many numbers were measured, and how many are above what is wanted.
#[derive(Default)]
struct Count {
    all: usize,
    above: usize,
}

impl Count {
    fn add(&mut self, number: f64, wanted: f64) {
        self.all += 1;
        self.above += usize::from(number > wanted);
    }
}

/// Which rows are measured.
struct Only(Option<String>);

impl Only {
    fn takes(&self, file: &str, what: &str) -> bool {
        self.0.as_ref().is_none_or(|part| file.contains(part) || what.contains(part))
    }
}

fn main() -> ExitCode {
    let only = Only(std::env::args().nth(1));
    println!("A time is the processor time of one call in µs, the least of {SAMPLES} samples ({FEW_SAMPLES} where a call takes");
    println!("longer than 0.1 s), ours and the peer's taken in turn.\n");
    let tables = realistic::table(&only)
        .and_then(|()| realistic::trusting_table(&only))
        .and_then(|()| pieces::table(&only))
        .and_then(|()| growing::table(&only));
    if let Err(fault) = tables {
        eprintln!("bench: {fault}");
        return ExitCode::FAILURE;
    }
    ExitCode::SUCCESS
}

fn agree(file: &[u8], name: &str, what: &str, work: &Work) -> Result<(), String> {
    match work.agrees(file) {
        true => Ok(()),
        false => Err(format!("{name}, {what}: ours and the peer's answers differ")),
    }
}

/// Microseconds, to about three digits.
fn us(nanoseconds: f64) -> String {
    let us = nanoseconds / 1000.0;
    match us {
        0.0..0.1 => format!("{us:.4}"),
        0.0..10.0 => format!("{us:.2}"),
        10.0..100.0 => format!("{us:.1}"),
        _ => format!("{us:.0}"),
    }
}
