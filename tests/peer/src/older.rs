//! A dictionary of the older edition, and the question by name over one in the place of field 3.

use crate::codes::is_utf8;
use crate::number::{BAD_CODE, BAD_DATA, BAD_TEXT, INSTANT_RANGE, NOT_FOUND, SECOND_ALIAS, TOO_LARGE, TOO_MANY_STEPS};
use crate::whole::check;
use crate::{ask, Answer, Refusal, FIRST, LAST};
use std::collections::BTreeSet;

/// How many targets a lookup takes.
const MOST_STEPS: usize = 8;
/// How many bytes a string has at most.
const LONGEST: usize = 1024;

/// Keys and values, in their order.
pub type Entries<'a> = Vec<(&'a [u8], &'a [u8])>;

/// The entries of a dictionary at the front of some bytes, and its length.
pub fn old_dictionary(bytes: &[u8]) -> Result<(Entries<'_>, usize), u8> {
    let mut rest = bytes;
    let count = count(&mut rest)?;
    let mut entries: Entries = Vec::with_capacity(count.min(bytes.len() / 2));
    // All keys, once one came that isn't behind the one before.
    let mut keys: Option<BTreeSet<&[u8]>> = None;
    for _ in 0..count {
        let key = string(&mut rest)?;
        if keys.is_none() && entries.last().is_some_and(|(last, _)| *last >= key) {
            keys = Some(entries.iter().map(|(key, _)| *key).collect());
        }
        if keys.as_mut().is_some_and(|keys| !keys.insert(key)) {
            return Err(SECOND_ALIAS);
        }
        entries.push((key, string(&mut rest)?));
    }
    Ok((entries, bytes.len() - rest.len()))
}

fn take<'a>(rest: &mut &'a [u8], length: usize) -> Result<&'a [u8], u8> {
    let (front, behind) = rest.split_at_checked(length).ok_or(BAD_DATA)?;
    *rest = behind;
    Ok(front)
}

fn count(rest: &mut &[u8]) -> Result<usize, u8> {
    let first = take(rest, 1)?[0];
    let (high, length, start) = match first {
        0x00..=0x7f => return Ok(usize::from(first) + 0x0f),
        0x80..=0xbf => (first - 0x80, 1, 0x8f),
        0xc0..=0xdf => (first - 0xc0, 2, 0x408f),
        0xe0..=0xef => (first - 0xe0, 3, 0x20_408f),
        0xf0..=0xfe => return Ok(usize::from(first) - 0xf0),
        0xff => (0, 4, 0),
    };
    let value = take(rest, length)?.iter().fold(usize::from(high), |value, &byte| value * 256 + usize::from(byte));
    if first == 0xff && !(0x1020_408f..=0x7fff_ffff).contains(&value) {
        return Err(BAD_CODE);
    }
    Ok(start + value)
}

fn string<'a>(rest: &mut &'a [u8]) -> Result<&'a [u8], u8> {
    let length = count(rest)?;
    if length > LONGEST {
        return Err(TOO_LARGE);
    }
    let text = take(rest, length)?;
    if !is_utf8(text) {
        return Err(BAD_TEXT);
    }
    Ok(text)
}

/// The interval that holds `ticks`, of the zone with the ID `name` or else of the one that `name` leads to over an older dictionary. The file is
/// checked first.
pub fn ask_named_old<'a>(
    file: &'a [u8],
    older: &[u8],
    name: &[u8],
    ticks: i64,
    first_edition: bool,
) -> Result<Answer<'a>, Refusal> {
    let refuse = |number| Refusal { number, place: 0 };
    if !(FIRST..=LAST).contains(&ticks) {
        return Err(refuse(INSTANT_RANGE));
    }
    check(file)?;
    if let Ok(answer) = ask(file, name, ticks, false, first_edition) {
        return Ok(answer);
    }
    let (entries, _) = old_dictionary(older).map_err(refuse)?;
    let target = |name: &[u8]| entries.iter().find(|(key, _)| *key == name).map(|(_, target)| *target);
    let mut name = name;
    for _ in 0..MOST_STEPS {
        name = target(name).ok_or(refuse(NOT_FOUND))?;
        if let Ok(answer) = ask(file, name, ticks, false, first_edition) {
            return Ok(answer);
        }
    }
    Err(refuse(if target(name).is_some() { TOO_MANY_STEPS } else { NOT_FOUND }))
}
