//! Runs the stored cases over the archive of the proved library, by its C functions, and fails where a byte of what is
//! written for a case differs from what is stored.
//!
//! A folder beside `src` has the cases of one script of `tests/make`: the lines of `stdin`, and in `stdout` the line that
//! must be written for each. Bytes are in hexadecimal, `-` for none; instants are ticks since 1970. A refusal is its number
//! and its place.

mod codes;
mod line;
mod questions;
mod receiver;
mod shown;
mod tools;

use line::Line;
use std::process::ExitCode;

/// What is written for a line.
type Run = fn(&Line) -> String;

/// The folders, and what runs the lines of each.
const SETS: [(&str, Run); 14] = [
    ("code_cases", codes::code),
    ("old_cases", codes::old_code),
    ("check_cases", questions::check),
    ("name_cases", questions::name),
    ("old_name_cases", questions::old_name),
    ("wall_cases", questions::wall),
    ("table_cases", questions::table),
    ("location_cases", questions::location),
    ("receiver_cases", receiver::calls),
    ("rewrite_cases", tools::rewrite),
    ("closing_cases", tools::closing),
    ("difference_cases", tools::difference),
    ("replay_cases", tools::replay),
    ("starts_cases", tools::starts),
];

/// How many folders have cases.
fn folders() -> usize {
    let all = std::fs::read_dir(env!("CARGO_MANIFEST_DIR")).into_iter().flatten().flatten();
    all.filter(|folder| folder.path().join("stdin").is_file()).count()
}

/// Runs the cases of a folder, and gives how many they are, or the first that differs.
fn run_all(name: &str, run: Run) -> Result<usize, String> {
    let read = |file: &str| {
        let path = format!("{}/{name}/{file}", env!("CARGO_MANIFEST_DIR"));
        std::fs::read_to_string(&path).map_err(|error| format!("{path}: {error}"))
    };
    let (input, output) = (read("stdin")?, read("stdout")?);
    let mut stored = output.split_inclusive('\n');
    let mut count = 0;
    for text in input.lines() {
        count += 1;
        let written = run(&Line::new(text)) + "\n";
        let expected = stored.next().unwrap_or_default();
        if written != expected {
            return Err(format!("{name}, line {count}: {text}\nwritten: {written}stored:  {expected}"));
        }
    }
    match stored.next() {
        None => Ok(count),
        Some(more) => Err(format!("{name}: stored behind the last case: {more}")),
    }
}

fn main() -> ExitCode {
    if folders() != SETS.len() {
        eprintln!("cases: {} folders have cases, and {} are run", folders(), SETS.len());
        return ExitCode::FAILURE;
    }
    let mut count = 0;
    for (name, run) in SETS {
        match run_all(name, run) {
            Ok(cases) => count += cases,
            Err(difference) => {
                eprintln!("cases: {difference}");
                return ExitCode::FAILURE;
            }
        }
    }
    println!("stored cases over the archive: {count} in {} folders, all as stored", SETS.len());
    ExitCode::SUCCESS
}
