//! Codes, read from the front of what is left of a field's data, and the writer's form of transitions.

use crate::number::{BAD_CODE, BAD_DATA, BAD_TEXT, TOO_LARGE};
use crate::runs::{are_short, half_hours, interval_of};
use crate::zone::Interval;
use crate::{END_OF_TIME, FIRST, LAST, START_OF_TIME};

/// 24 hours in milliseconds, outside which no offset is.
pub const DAY_MS: i32 = 86_400_000;
pub const TICKS_PER_HOUR: i64 = 36_000_000_000;
const TICKS_PER_MINUTE: i64 = 600_000_000;
/// 1800-01-01T00:00Z.
const YEAR_1800: i64 = -53_646_624_000_000_000;
const FIRST_MINUTES: u32 = 2_097_152;
const LONGEST_TEXT: u32 = 1024;

/// What is left of a field's data.
#[derive(Clone, Copy)]
pub struct Cursor<'a> {
    rest: &'a [u8],
}

impl<'a> Cursor<'a> {
    pub fn new(rest: &'a [u8]) -> Cursor<'a> {
        Cursor { rest }
    }

    /// How many bytes are left.
    pub fn left(&self) -> usize {
        self.rest.len()
    }

    #[inline]
    fn take(&mut self, length: usize) -> Result<&'a [u8], u8> {
        let (taken, rest) = self.rest.split_at_checked(length).ok_or(BAD_DATA)?;
        self.rest = rest;
        Ok(taken)
    }

    #[inline]
    pub fn byte(&mut self) -> Result<u8, u8> {
        let (&byte, rest) = self.rest.split_first().ok_or(BAD_DATA)?;
        self.rest = rest;
        Ok(byte)
    }

    /// A count, 0 to 2147483647. Most have one byte or two.
    #[inline]
    pub fn count(&mut self) -> Result<u32, u8> {
        match *self.rest {
            [first, ref rest @ ..] if first < 0x80 => {
                self.rest = rest;
                Ok(first.into())
            }
            [first, second @ 0x01..0x80, ref rest @ ..] => {
                self.rest = rest;
                Ok(u32::from(first & 0x7f) | u32::from(second) << 7)
            }
            _ => self.groups(0x07),
        }
    }

    #[inline]
    pub fn signed_count(&mut self) -> Result<i32, u8> {
        let mapped = self.groups(0x0f)?;
        Ok((mapped >> 1) as i32 ^ -((mapped & 1) as i32))
    }

    /// A field's size: a count with any groups of zero behind it, in five bytes at most.
    #[inline]
    pub fn size(&mut self) -> Result<u32, u8> {
        match *self.rest {
            // No data: the next field's place waits for no sum.
            [0, ref rest @ ..] => {
                self.rest = rest;
                Ok(0)
            }
            [first, ref rest @ ..] if first < 0x80 => {
                self.rest = rest;
                Ok(first.into())
            }
            [first, second @ 0x00..0x80, ref rest @ ..] => {
                self.rest = rest;
                Ok(u32::from(first & 0x7f) | u32::from(second) << 7)
            }
            _ => self.any_groups(0x07),
        }
    }

    /// Groups in the shortest form: no last byte 0 behind others.
    fn groups(&mut self, fifth: u8) -> Result<u32, u8> {
        let before = self.rest;
        let value = self.any_groups(fifth)?;
        let length = before.len() - self.rest.len();
        if length > 1 && before[length - 1] == 0 {
            return Err(BAD_CODE);
        }
        Ok(value)
    }

    /// Seven bits a byte, low first; the fifth byte is at most `fifth`.
    fn any_groups(&mut self, fifth: u8) -> Result<u32, u8> {
        let mut value = 0;
        for (place, &byte) in self.rest.iter().enumerate() {
            if place == 4 && byte > fifth {
                return Err(BAD_CODE);
            }
            value |= u32::from(byte & 0x7f) << (7 * place);
            if byte < 0x80 {
                self.rest = &self.rest[place + 1..];
                return Ok(value);
            }
        }
        Err(BAD_DATA)
    }

    #[inline]
    pub fn pool_number(&mut self, pool_count: u32) -> Result<u32, u8> {
        let number = self.count()?;
        if number < pool_count {
            Ok(number)
        } else {
            Err(BAD_TEXT)
        }
    }

    /// An offset in milliseconds. Most are a single byte of half hours.
    #[inline]
    pub fn offset(&mut self) -> Result<i32, u8> {
        match *self.rest {
            [byte @ 0x01..=0x5f, ref rest @ ..] => {
                self.rest = rest;
                Ok(half_hours(byte))
            }
            _ => self.long_offset(),
        }
    }

    fn long_offset(&mut self) -> Result<i32, u8> {
        let first = *self.rest.first().ok_or(BAD_DATA)?;
        // Each form's length and unit, and the next larger unit, whose multiples belong to an earlier form.
        let (length, unit, larger) = match first >> 5 {
            4 => (2, 60_000, 1_800_000),
            5 => (3, 1_000, 60_000),
            6 => (4, 1, 1_000),
            _ => return Err(BAD_CODE),
        };
        let code = self.take(length)?;
        let number = code[1..].iter().fold(i64::from(first & 0x1f), |number, &byte| number << 8 | i64::from(byte));
        let sum = number * unit;
        if sum % larger == 0 || sum >= 2 * i64::from(DAY_MS) {
            return Err(BAD_CODE);
        }
        Ok(sum as i32 - DAY_MS)
    }

    /// A transition after `previous`, which is start of time where it is no instant.
    #[inline]
    pub fn transition(&mut self, previous: i64) -> Result<i64, u8> {
        let ticks = match self.count()? {
            0 => return Ok(START_OF_TIME),
            1 => return Ok(END_OF_TIME),
            2 => {
                let eight = self.take(8)?.try_into().map_err(|_| BAD_DATA)?;
                i64::from_be_bytes(eight)
            }
            3..=127 => return Err(BAD_CODE),
            hours @ 128..FIRST_MINUTES if previous != START_OF_TIME => previous + i64::from(hours) * TICKS_PER_HOUR,
            128..FIRST_MINUTES => return Err(BAD_CODE),
            minutes => YEAR_1800 + i64::from(minutes) * TICKS_PER_MINUTE,
        };
        if (FIRST..=LAST).contains(&ticks) {
            Ok(ticks)
        } else {
            Err(BAD_CODE)
        }
    }

    /// An interval behind an instant, read at once: its start in two to four bytes or in ticks, its name and offsets in a byte each.
    /// None where other codes stand there, or where one of them is to be refused.
    #[inline(always)]
    pub fn short_interval(&mut self, previous: i64, pool_count: u32) -> Option<Interval> {
        let hours = |hours: u32| previous + i64::from(hours) * TICKS_PER_HOUR;
        let minutes = |minutes: u32| YEAR_1800 + i64::from(minutes) * TICKS_PER_MINUTE;
        let (start, details, rest) = match *self.rest {
            [a @ 0x80..=0xff, b @ 0x01..0x80, name, wall, savings, ref rest @ ..] => {
                (hours(groups([a, b])), [name, wall, savings], rest)
            }
            [a @ 0x80..=0xff, b @ 0x80..=0xff, c @ 0x01..0x80, name, wall, savings, ref rest @ ..] => {
                (hours(groups([a, b, c])), [name, wall, savings], rest)
            }
            [a @ 0x80..=0xff, b @ 0x80..=0xff, c @ 0x80..=0xff, d @ 0x01..0x80, name, wall, savings, ref rest @ ..] => {
                (minutes(groups([a, b, c, d])), [name, wall, savings], rest)
            }
            [2, a, b, c, d, e, f, g, h, name, wall, savings, ref rest @ ..] => {
                (i64::from_be_bytes([a, b, c, d, e, f, g, h]), [name, wall, savings], rest)
            }
            _ => return None,
        };
        if start <= previous || start > LAST || !are_short(details, pool_count.min(0x80) as u8) {
            return None;
        }
        self.rest = rest;
        Some(interval_of(start, details))
    }

    /// Whether a byte comes next.
    #[inline]
    pub fn starts_with(&self, byte: u8) -> bool {
        self.rest.first() == Some(&byte)
    }

    /// What is left in parts of `N` bytes, at most `most` of them.
    #[inline]
    pub fn chunks<const N: usize>(&self, most: usize) -> &'a [[u8; N]] {
        let all = self.rest.as_chunks().0;
        &all[..all.len().min(most)]
    }

    /// Steps over bytes that are there.
    #[inline]
    pub fn skip(&mut self, length: usize) {
        self.rest = &self.rest[length..];
    }

    /// A text: its length and its bytes.
    #[inline]
    pub fn text(&mut self) -> Result<&'a [u8], u8> {
        self.text_behind(0)
    }

    /// A text, where the first `plain` bytes of what is left are known to be ASCII: what lies in them is not looked at again.
    #[inline]
    pub fn text_behind(&mut self, plain: usize) -> Result<&'a [u8], u8> {
        let before = self.left();
        let length = self.count()?;
        if length > LONGEST_TEXT {
            return Err(TOO_LARGE);
        }
        let text = self.take(length as usize)?;
        if before - self.left() <= plain || is_utf8(text) {
            Ok(text)
        } else {
            Err(BAD_TEXT)
        }
    }

    pub fn end(&self) -> Result<(), u8> {
        if self.rest.is_empty() {
            Ok(())
        } else {
            Err(BAD_DATA)
        }
    }
}

/// Seven bits a byte, low first.
#[inline]
fn groups<const N: usize>(bytes: [u8; N]) -> u32 {
    bytes.iter().rev().fold(0, |value, &byte| value << 7 | u32::from(byte & 0x7f))
}

/// The writer's form of a transition.
#[derive(Clone, Copy)]
pub enum Form {
    /// A count alone: a mark, hours or minutes.
    Count(u32),
    /// A count 2 and eight bytes.
    Ticks(i64),
}

impl Form {
    /// The first form that fits; `previous` is start of time where it is no instant.
    pub fn of(value: i64, previous: i64) -> Form {
        match value {
            START_OF_TIME => return Form::Count(0),
            END_OF_TIME => return Form::Count(1),
            _ => {}
        }
        if previous != START_OF_TIME {
            let after = value - previous;
            let hours = after / TICKS_PER_HOUR;
            if (128..i64::from(FIRST_MINUTES)).contains(&hours) && after % TICKS_PER_HOUR == 0 {
                return Form::Count(hours as u32);
            }
        }
        let since = value - YEAR_1800;
        let minutes = since / TICKS_PER_MINUTE;
        if (i64::from(FIRST_MINUTES)..1 << 31).contains(&minutes) && since % TICKS_PER_MINUTE == 0 {
            return Form::Count(minutes as u32);
        }
        Form::Ticks(value)
    }

    /// How many bytes the form takes.
    pub fn length(self) -> usize {
        match self {
            Form::Count(count) => count_length(count),
            Form::Ticks(_) => 9,
        }
    }
}

/// How many bytes a count takes.
pub fn count_length(count: u32) -> usize {
    match count {
        0..0x80 => 1,
        0x80..0x4000 => 2,
        0x4000..0x20_0000 => 3,
        0x20_0000..0x1000_0000 => 4,
        _ => 5,
    }
}

/// Whether a text is UTF-8. Characters of three bytes at its front are taken in a short loop, but those that start with E0 or ED.
pub fn is_utf8(text: &[u8]) -> bool {
    let usual = |bytes: &&[u8]| matches!(**bytes, [0xe1..=0xec | 0xee..=0xef, 0x80..=0xbf, 0x80..=0xbf]);
    let threes = text.chunks_exact(3).take_while(usual).count();
    std::str::from_utf8(&text[3 * threes..]).is_ok()
}
