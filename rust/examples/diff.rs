//! Lists what changed for a zone from one file to another: `cargo run --example diff -- OLD NEW ZONE [FROM [TO]]`, in ticks.
//!
//! A line for each stretch of time from FROM, else the first instant, to before TO, else the last, at which offset, savings or name
//! aren't the same, with what each file says at its start. Without TO the first lines only: yearly rules that differ do so up to
//! 9999. Exit code: 0 listed, also where there is no difference, 1 refused, 2 for anything else.

mod words;

use nzd::{Edition, Error, Mark, Number, Stretch, FIRST_INSTANT, LAST_INSTANT};
use std::io::Write;
use std::process::ExitCode;
use words::{instant, name, offset};

/// How many lines are written where the window has no end of its own.
const MOST_LINES: usize = 20;

fn main() -> ExitCode {
    let words: Vec<String> = std::env::args().skip(1).collect();
    let [old_path, new_path, zone, window @ ..] = &words[..] else { return wrong("takes OLD NEW ZONE [FROM [TO]]") };
    let ticks: Result<Vec<i64>, _> = window.iter().map(|word| word.parse()).collect();
    let (from, to, most) = match ticks.as_deref() {
        Ok([]) => (FIRST_INSTANT, LAST_INSTANT, MOST_LINES),
        Ok([from]) => (*from, LAST_INSTANT, MOST_LINES),
        Ok([from, to]) => (*from, *to, usize::MAX),
        _ => return wrong("FROM and TO are counts of ticks"),
    };
    let (old, new) = match (std::fs::read(old_path), std::fs::read(new_path)) {
        (Ok(old), Ok(new)) => (old, new),
        (Err(error), _) => return wrong(&format!("{old_path}: {error}")),
        (_, Err(error)) => return wrong(&format!("{new_path}: {error}")),
    };
    let (text, code) = match list(&old, &new, zone, from, to, most) {
        Ok(text) => (text, ExitCode::SUCCESS),
        Err(Error { number, place }) => {
            let file = refusing(&old, zone, from, number);
            (format!("{} {place}: {}{file}\n", number.value(), number.meaning()), ExitCode::FAILURE)
        }
    };
    match std::io::stdout().write_all(text.as_bytes()) {
        Ok(()) => code,
        Err(error) => wrong(&format!("the output failed: {error}")),
    }
}

fn wrong(message: &str) -> ExitCode {
    eprintln!("diff: {message}");
    ExitCode::from(2)
}

/// The refusal of a file is what it refuses a question with; the first file's comes first.
fn refusing(old: &[u8], zone: &str, from: i64, number: Number) -> &'static str {
    match nzd::ask(old, zone, from, Mark::ThisIsAll, Edition::Two) {
        _ if number == Number::InstantOutOfRange => "",
        Err(_) => ", in the old file",
        Ok(_) => ", in the new file",
    }
}

fn list(old: &[u8], new: &[u8], zone: &str, from: i64, to: i64, most: usize) -> Result<String, Error> {
    let stretches = stretches(old, new, zone, from, to)?;
    let mut text = String::new();
    for stretch in stretches.iter().take(most) {
        let [was, is] = [old, new].map(|file| said(file, zone, stretch.first));
        text += &format!("{} to {}: was {}; is {}\n", instant(stretch.first), instant(stretch.end), was?, is?);
    }
    if let [next, ..] = stretches[most.min(stretches.len())..] {
        text += &format!("and {} more from {} on\n", stretches.len() - most, instant(next.first));
    }
    if stretches.is_empty() {
        text += "no difference\n";
    }
    Ok(text)
}

/// All stretches, in a list that grows until they have room.
fn stretches(old: &[u8], new: &[u8], zone: &str, from: i64, to: i64) -> Result<Vec<Stretch>, Error> {
    let mut list = vec![Stretch::default(); 64];
    loop {
        match nzd::difference(old, new, zone, from, to, &mut list) {
            Err(Error { number: Number::OutputTooShort, .. }) => list.resize(2 * list.len(), Stretch::default()),
            count => {
                list.truncate(count?);
                return Ok(list);
            }
        }
    }
}

fn said(file: &[u8], zone: &str, ticks: i64) -> Result<String, Error> {
    let answer = nzd::ask(file, zone, ticks, Mark::ThisIsAll, Edition::Two)?;
    let [wall, savings] = [answer.wall_offset_ms, answer.savings_ms].map(offset);
    Ok(format!("offset {wall}, savings {savings}, {}", name(answer.name)))
}
