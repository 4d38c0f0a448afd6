//! Lists the intervals of a zone from one instant to another: `cargo run --example changes -- FILE ZONE FROM TO`, in ticks.
//!
//! The first line is what is in force at FROM; then comes a line for each interval that starts before TO. Exit code: 0 listed, 1 refused, 2 for anything else.

mod words;

use nzd::{Answer, Bound, Edition, Error, Mark};
use std::io::Write;
use std::process::ExitCode;
use words::{instant, name, offset};

fn main() -> ExitCode {
    let words: Vec<String> = std::env::args().skip(1).collect();
    let [path, zone, from, to] = &words[..] else { return wrong("takes FILE ZONE FROM TO") };
    let (Ok(from), Ok(to)) = (from.parse(), to.parse()) else { return wrong("FROM and TO are counts of ticks") };
    let file = match std::fs::read(path) {
        Ok(file) => file,
        Err(error) => return wrong(&format!("{path}: {error}")),
    };
    let (text, code) = match list(&file, zone, from, to) {
        Ok(text) => (text, ExitCode::SUCCESS),
        Err(Error { number, place }) => {
            (format!("{} {place}: {}\n", number.value(), number.meaning()), ExitCode::FAILURE)
        }
    };
    match std::io::stdout().write_all(text.as_bytes()) {
        Ok(()) => code,
        Err(error) => wrong(&format!("the output failed: {error}")),
    }
}

fn wrong(message: &str) -> ExitCode {
    eprintln!("changes: {message}");
    ExitCode::from(2)
}

fn list(file: &[u8], zone: &str, from: i64, to: i64) -> Result<String, Error> {
    let (mut text, mut at, mut shown) = (String::new(), from, None);
    for interval in nzd::intervals(file, zone, from, Mark::ThisIsAll, Edition::Two) {
        let interval = interval?;
        text += &line(at, &interval, shown == Some(what(&interval)));
        shown = Some(what(&interval));
        match interval.end {
            Bound::At(end) if end < to => at = end,
            _ => break,
        }
    }
    Ok(text)
}

/// All that clocks show of an interval.
fn what<'a>(interval: &Answer<'a>) -> (i64, i64, &'a [u8]) {
    (interval.wall_offset_ms, interval.savings_ms, interval.name)
}

fn line(at: i64, interval: &Answer, same: bool) -> String {
    let [wall, savings, standard] =
        [interval.wall_offset_ms, interval.savings_ms, interval.standard_offset_ms].map(offset);
    let again = if same { ", as before" } else { "" };
    let name = name(interval.name);
    format!("{}: offset {wall}, savings {savings}, standard offset {standard}, {name}{again}\n", instant(at))
}
