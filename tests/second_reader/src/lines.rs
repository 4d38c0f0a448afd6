//! 01, "One whole file": the program's question lines and what it writes for them.

use crate::file::{ask, Edition, Mark};
use crate::number::Number;

/// "zones.nzd (up to 65,536 bytes, longer gives `4 0` for each line, before all else"
pub const LARGEST_FILE: usize = 65_536;
/// "a line above 2,048 bytes gives 16", counted without its line feed (reading 26).
pub const LONGEST_LINE: usize = 2_048;

/// A question line, understood.
#[derive(Clone, Copy, Debug, PartialEq, Eq)]
pub struct Question<'a> {
    /// "ID (up to the first space)"; may be empty.
    pub zone: &'a [u8],
    /// The ticks; none if past 64 bits.
    pub ticks: Option<i64>,
    /// `part` or `all`; "unmarked lines in 01 follow the plain question" (02, Ask 1), so they are as with `part`.
    pub mark: Mark,
}

/// "ID (up to the first space), space, ticks (an optional minus and 1 to 19 digits, 14 if past 64 bits), and
/// optionally a space and `part` or `all`". None if the line isn't understood.
pub fn parse_line(line: &[u8]) -> Option<Question<'_>> {
    if line.len() > LONGEST_LINE {
        return None;
    }
    let mut parts = line.split(|&byte| byte == b' ');
    let zone = parts.next()?;
    let ticks = parse_ticks(parts.next()?)?;
    let mark = match parts.next() {
        None | Some(b"part") => Mark::MoreMayCome,
        Some(b"all") => Mark::ThisIsAll,
        Some(_) => return None,
    };
    match parts.next() {
        None => Some(Question { zone, ticks: i64::try_from(ticks).ok(), mark }),
        Some(_) => None,
    }
}

/// "an optional minus and 1 to 19 digits"
fn parse_ticks(text: &[u8]) -> Option<i128> {
    let (sign, digits) = match text {
        [b'-', digits @ ..] => (-1, digits),
        digits => (1, digits),
    };
    if !(1..=19).contains(&digits.len()) || !digits.iter().all(u8::is_ascii_digit) {
        return None;
    }
    Some(sign * digits.iter().fold(0, |number: i128, digit| number * 10 + i128::from(digit - b'0')))
}

/// What the program writes for one line.
fn line_output(file: &[u8], line: &[u8]) -> Vec<u8> {
    let answered = if file.len() > LARGEST_FILE {
        Err(Number::TooLarge.at(0))
    } else {
        match parse_line(line) {
            None => Err(Number::BadLine.at(0)),
            Some(Question { ticks: None, .. }) => Err(Number::InstantRange.at(0)),
            // 02, Ask 11: "the program's lines mean 2".
            Some(Question { zone, ticks: Some(ticks), mark }) => ask(file, zone, ticks, mark, Edition::Two),
        }
    };
    match answered {
        Ok(answer) => {
            // 02, Ask 7: "01's output lines gain it after savings".
            let mut out = format!("0 {} {} {} ", answer.wall, answer.savings, answer.standard).into_bytes();
            // "The name is written raw" (reading 31).
            out.extend(&file[answer.name]);
            out.push(b'\n');
            out
        }
        Err(refusal) => format!("{refusal}\n").into_bytes(),
    }
}

/// What the program writes for all of its standard input. A missing file is no bytes.
///
/// "A last line without line feed is a line; nothing behind the last line feed is none; an empty line is a line"
/// (reading 27).
pub fn lines(file: &[u8], input: &[u8]) -> Vec<u8> {
    input.split_inclusive(|&byte| byte == b'\n').flat_map(|line| line_output(file, without_feed(line))).collect()
}

fn without_feed(line: &[u8]) -> &[u8] {
    line.strip_suffix(b"\n").unwrap_or(line)
}
