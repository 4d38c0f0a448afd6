//! The commands on single values, from arguments or from a list on standard input.

use crate::commands::{standard_input, Misuse};
use crate::Done;
use second_reader::codes;
use second_reader::recurrence::{parse_rule, parse_tail};
use second_reader::transition::in_range;
use second_reader::{calendar, find_start, old, Number, Receiver, Transition};
use std::ffi::OsStr;
use std::fmt::Display;

/// One case's line, or the number that refuses it; or words on what is wrong with the case itself.
type Case = Result<Result<String, Number>, String>;

/// More room than any code needs, and little enough to be lent for each case.
const MOST_ROOM: usize = 65_536;
/// More than the longest file.
const MOST_BUFFER: usize = 8_388_608;

/// The case that the words make, or each line of standard input if there are none.
pub(crate) fn run(command: &str, words: &[&OsStr]) -> Result<Done, Misuse> {
    if words.is_empty() {
        return run_list(command);
    }
    let words: Vec<&str> = words.iter().map(|word| word.to_str().ok_or(Misuse::Usage)).collect::<Result<_, _>>()?;
    let result = case(command, &words)?;
    Ok(Done { output: line(&result).into_bytes(), refused: result.err().map(Number::words) })
}

fn run_list(command: &str) -> Result<Done, Misuse> {
    let input = String::from_utf8(standard_input()?).map_err(|_| "standard input isn't UTF-8".to_string())?;
    let mut output = String::new();
    for (number, text) in input.lines().enumerate() {
        let words: Vec<&str> = text.split_whitespace().collect();
        let result = case(command, &words).map_err(|fault| format!("line {}: {fault}", number + 1))?;
        output += &line(&result);
    }
    Ok(Done { output: output.into_bytes(), refused: None })
}

/// A refused code "has place 0".
fn line(result: &Result<String, Number>) -> String {
    match result {
        Ok(text) => format!("{text}\n"),
        Err(number) => format!("{}\n", number.at(0)),
    }
}

fn case(command: &str, words: &[&str]) -> Case {
    match (command, words) {
        ("code", ["read", rest @ ..]) => read_code(rest),
        ("code", ["write", rest @ ..]) => write_code(rest),
        ("rule", [hex, standard, other, year]) => {
            let rule = parse_rule(&bytes(hex)?);
            let (standard, other) = (offset(standard)?, offset(other)?);
            let year = counted_year(year)?;
            Ok(rule.map(|(rule, _)| format!("0 {}", rule.occurrence(year, standard, other))))
        }
        ("tail", [hex, tail_start, ticks]) => tail_case(hex, instant(tail_start)?, instant(ticks)?),
        ("find", [ticks, table @ ..]) => {
            let table: Vec<i64> = table.iter().map(|word| number(word)).collect::<Result<_, _>>()?;
            let found = find_start(&table, number(ticks)?).map_err(|refusal| refusal.number);
            Ok(found.map(|found| format!("0 {} {}", found.position, found.looks)))
        }
        ("date", [year, month, day]) => date_case(counted_year(year)?, number(month)?, number(day)?),
        _ => Err(format!("these words make no case of {command}")),
    }
}

/// `LENGTH VALUE` of a code that was read.
fn read_line<T>(read: codes::Read<T>, value: impl Fn(T) -> String) -> Case {
    Ok(read.map(|(found, length)| format!("0 {length} {}", value(found))))
}

fn plain<T: Display>(value: T) -> String {
    value.to_string()
}

fn read_code(words: &[&str]) -> Case {
    match words {
        ["count", hex] => read_line(codes::read_count(&bytes(hex)?), plain),
        ["signed", hex] => read_line(codes::read_signed_count(&bytes(hex)?), plain),
        ["offset", hex] => read_line(codes::read_offset(&bytes(hex)?), plain),
        ["transition", hex, before] => read_line(codes::read_transition(&bytes(hex)?, previous(before)?), plain),
        ["text", hex] => {
            let given = bytes(hex)?;
            read_line(codes::read_text(&given), |part| to_hex(&given[part]))
        }
        ["old-count", hex] => read_line(old::read_count(&bytes(hex)?), plain),
        ["old-offset", hex] => read_line(old::read_offset(&bytes(hex)?), plain),
        ["old-string", hex] => {
            let given = bytes(hex)?;
            read_line(old::read_string(&given), |part| to_hex(&given[part]))
        }
        ["old-dictionary", hex] => {
            let given = bytes(hex)?;
            read_line(old::read_dictionary(&given), |entries| {
                let mut words = vec![entries.len().to_string()];
                words.extend(entries.into_iter().flat_map(|(key, value)| [to_hex(&given[key]), to_hex(&given[value])]));
                words.join(" ")
            })
        }
        _ => Err("these words make no code to read".to_string()),
    }
}

fn write_code(words: &[&str]) -> Case {
    let (room, words) = words.split_last().ok_or("no room is given")?;
    let room: usize = number(room)?;
    if room > MOST_ROOM {
        return Err(format!("the room is above {MOST_ROOM}"));
    }
    let mut out = vec![0; room];
    let written = match words {
        ["count", value] => codes::write_count(number(value)?, &mut out),
        ["signed", value] => codes::write_signed_count(number(value)?, &mut out),
        ["offset", value] => codes::write_offset(number(value)?, &mut out),
        ["transition", value, before] => codes::write_transition(transition(value)?, previous(before)?, &mut out),
        ["text", hex] => codes::write_text(&bytes(hex)?, &mut out),
        ["old-count", value] => old::write_count(number(value)?, &mut out),
        ["old-offset", value] => old::write_offset(number(value)?, &mut out),
        ["old-string", hex] => old::write_string(&bytes(hex)?, &mut out),
        ["old-dictionary", texts @ ..] if texts.len() % 2 == 0 => {
            let texts: Vec<Vec<u8>> = texts.iter().map(|hex| bytes(hex)).collect::<Result<_, _>>()?;
            let entries: Vec<(&[u8], &[u8])> = texts.chunks(2).map(|pair| (&pair[0][..], &pair[1][..])).collect();
            old::write_dictionary(&entries, &mut out)
        }
        _ => return Err("these words make no code to write".to_string()),
    };
    Ok(written.map(|length| format!("0 {length} {}", to_hex(&out[..length]))))
}

fn tail_case(hex: &str, tail_start: i64, ticks: i64) -> Case {
    if ticks < tail_start {
        return Err("the instant is before the tail's start".to_string());
    }
    Ok(parse_tail(&bytes(hex)?).map(|(tail, _)| {
        let in_force = tail.at(tail_start, ticks);
        let (wall, savings, name) = match in_force.daylight {
            true => (tail.daylight_wall(), tail.savings, "daylight"),
            false => (tail.standard, 0, "standard"),
        };
        format!("0 {wall} {savings} {name} {} {}", in_force.start, in_force.end)
    }))
}

fn date_case(year: i64, month: u32, day: i64) -> Case {
    if !(1..=12).contains(&month) || !(1..=calendar::month_length(year, month)).contains(&day) {
        return Err("there is no such date".to_string());
    }
    Ok(Ok(calendar::day_number(year, month, day).to_string()))
}

/// A receiver over a buffer of some length: for each piece, or `reset`, what is held and the place of the first unfinished
/// field, or the refusal.
pub(crate) fn receive(words: &[&OsStr]) -> Result<Done, Misuse> {
    let words: Vec<&str> = words.iter().map(|word| word.to_str().ok_or(Misuse::Usage)).collect::<Result<_, _>>()?;
    let (length, pieces) = words.split_first().ok_or(Misuse::Usage)?;
    let length: usize = number(length)?;
    if length > MOST_BUFFER {
        return Err(Misuse::Words(format!("the buffer is longer than {MOST_BUFFER}")));
    }
    let mut buffer = vec![0; length];
    let mut receiver = Receiver::new();
    let mut output = String::new();
    for piece in pieces {
        let added = match *piece {
            "reset" => {
                receiver.reset();
                Ok(())
            }
            hex => receiver.add(&mut buffer, &bytes(hex)?),
        };
        output += &match added {
            Ok(()) => format!("0 {} {}\n", receiver.held, receiver.place),
            Err(refusal) => format!("{refusal}\n"),
        };
    }
    Ok(Done { output: output.into_bytes(), refused: None })
}

fn number<T: std::str::FromStr>(word: &str) -> Result<T, String> {
    word.parse().map_err(|_| format!("{word} is not a number that fits"))
}

fn counted_year(word: &str) -> Result<i64, String> {
    let (first, last) = (calendar::FIRST_YEAR, calendar::LAST_YEAR);
    let year = number(word)?;
    match (first..=last).contains(&year) {
        true => Ok(year),
        false => Err(format!("year {year} is not from {first} to {last}")),
    }
}

fn offset(word: &str) -> Result<i32, String> {
    let ms: i32 = number(word)?;
    match ms.unsigned_abs() < 86_400_000 {
        true => Ok(ms),
        false => Err(format!("{word} is not inside 24 hours")),
    }
}

fn instant(word: &str) -> Result<i64, String> {
    let ticks = number(word)?;
    match in_range(ticks) {
        true => Ok(ticks),
        false => Err(format!("{word} is not an instant of years 1 to 9999")),
    }
}

fn transition(word: &str) -> Result<Transition, String> {
    match word {
        "start" => Ok(Transition::StartOfTime),
        "end" => Ok(Transition::EndOfTime),
        ticks => Ok(Transition::Finite(number(ticks)?)),
    }
}

fn previous(word: &str) -> Result<Option<Transition>, String> {
    match word {
        "none" => Ok(None),
        other => Ok(Some(transition(other)?)),
    }
}

/// The bytes of a word in hex; `-` is no bytes.
fn bytes(word: &str) -> Result<Vec<u8>, String> {
    let fault = || format!("{word} is not an even number of hex digits");
    if word == "-" {
        return Ok(Vec::new());
    }
    let digits: Vec<u32> = word.chars().map(|digit| digit.to_digit(16)).collect::<Option<_>>().ok_or_else(fault)?;
    if !digits.len().is_multiple_of(2) {
        return Err(fault());
    }
    Ok(digits.chunks(2).map(|pair| (pair[0] * 16 + pair[1]) as u8).collect())
}

pub(crate) fn to_hex(bytes: &[u8]) -> String {
    match bytes {
        [] => "-".to_string(),
        _ => bytes.iter().map(|byte| format!("{byte:02x}")).collect(),
    }
}
