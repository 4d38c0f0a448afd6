//! Asks which instants read as a local time in a zone: `cargo run --example map_local -- FILE ZONE 2024-10-27T02:30`.
//!
//! The first line is the reply, a colon and what it means: 0, how many instants, the earliest and the latest in ticks; or a
//! refusal's number and place. Then come the earliest and the latest, each with its offset and name. Exit code: 0 where there
//! is an instant, 1 where there is none (17) or the question is refused, 2 for anything else.

mod words;

use nzd::{Edition, Error, LocalInstants, Mark, Number};
use std::io::Write;
use std::process::ExitCode;
use words::{instant, name, offset, DAYS_BEFORE_1970};

fn main() -> ExitCode {
    let arguments: Vec<String> = std::env::args().skip(1).collect();
    let [path, zone, time] = arguments.as_slice() else { return wrong("takes FILE ZONE LOCAL_TIME") };
    let Some(local) = ticks_of_local(time) else {
        return wrong(&format!("{time} is no local time of years 1 to 9999, as 2024-10-27T02:30"));
    };
    let file = match std::fs::read(path) {
        Ok(file) => file,
        Err(error) => return wrong(&format!("{path}: {error}")),
    };
    let (text, code) = match answer(&file, zone, local) {
        Ok(text) => (text, ExitCode::SUCCESS),
        Err(Error { number, place }) => {
            (format!("{} {place}: {}\n", number.value(), number.meaning()), ExitCode::FAILURE)
        }
    };
    match std::io::stdout().write_all(text.as_bytes()) {
        Ok(()) => code,
        Err(error) => wrong(&format!("the output failed: {error}")),
    }
}

fn wrong(message: &str) -> ExitCode {
    eprintln!("map_local: {message}");
    ExitCode::from(2)
}

/// The instants in words. That there is none is said as the refusals are.
fn answer(file: &[u8], zone: &str, local: i64) -> Result<String, Error> {
    let reading = |which, ticks| reading(file, zone, which, ticks);
    Ok(match nzd::map_local(file, zone, local)? {
        LocalInstants::None => return Err(Error { number: Number::NoInstant, place: 0 }),
        LocalInstants::One(only) => format!("0 1 {only} {only}: one instant reads that way\n{}", reading("", only)?),
        LocalInstants::Two { earlier, later } => {
            let (first, last) = (reading("earlier ", earlier)?, reading("later   ", later)?);
            format!("0 2 {earlier} {later}: two instants read that way\n{first}{last}")
        }
        LocalInstants::More { count, earliest, latest } => {
            let (first, last) = (reading("earliest ", earliest)?, reading("latest   ", latest)?);
            format!("0 {count} {earliest} {latest}: {count} instants read that way\n{first}{last}")
        }
    })
}

/// A line with an instant, its offset and its name.
fn reading(file: &[u8], zone: &str, which: &str, ticks: i64) -> Result<String, Error> {
    let answer = nzd::ask(file, zone, ticks, Mark::ThisIsAll, Edition::Two)?;
    Ok(format!("  {which}{}, offset {}, {}\n", instant(ticks), offset(answer.wall_offset_ms), name(answer.name)))
}

/// The ticks of YYYY-MM-DDTHH:MM, with seconds and a fraction of up to seven digits where there are any.
fn ticks_of_local(text: &str) -> Option<i64> {
    let (date, time) = text.split_once('T')?;
    let [year, month, day] = numbers(date, '-', [4, 2, 2])?;
    let (time, fraction) = time.split_once('.').map_or((time, None), |(time, fraction)| (time, Some(fraction)));
    let [hour, minute, second] = match numbers(time, ':', [2, 2, 2]) {
        Some(time) => time,
        None if fraction.is_none() => {
            let [hour, minute] = numbers(time, ':', [2, 2])?;
            [hour, minute, 0]
        }
        None => return None,
    };
    let fraction = fraction.unwrap_or("0");
    let leap = year % 4 == 0 && (year % 100 != 0 || year % 400 == 0);
    let length = match month {
        2 => 28 + i64::from(leap),
        4 | 6 | 9 | 11 => 30,
        1..=12 => 31,
        _ => return None,
    };
    if year < 1 || !(1..=length).contains(&day) || hour > 23 || minute > 59 || second > 59 {
        return None;
    }
    if !(1..=7).contains(&fraction.len()) || !fraction.bytes().all(|byte| byte.is_ascii_digit()) {
        return None;
    }
    let (year, month) = if month > 2 { (year, month - 3) } else { (year - 1, month + 9) };
    let days = year * 365 + year / 4 - year / 100 + year / 400 + (153 * month + 2) / 5 + day - 1 - DAYS_BEFORE_1970;
    let seconds = days * 86_400 + hour * 3600 + minute * 60 + second;
    Some(seconds * nzd::TICKS_PER_SECOND + format!("{fraction:0<7}").parse::<i64>().ok()?)
}

/// Numbers of so many digits each, with a sign between them.
fn numbers<const N: usize>(text: &str, between: char, digits: [usize; N]) -> Option<[i64; N]> {
    let parts: Vec<&str> = text.split(between).collect();
    let parts: [&str; N] = parts.try_into().ok()?;
    let mut numbers = [0; N];
    for ((number, part), digits) in numbers.iter_mut().zip(parts).zip(digits) {
        if part.len() != digits || !part.bytes().all(|byte| byte.is_ascii_digit()) {
            return None;
        }
        *number = part.parse().ok()?;
    }
    Some(numbers)
}
