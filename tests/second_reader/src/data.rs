//! The data of one field, read from left to right.

use crate::codes::{self, Read};
use crate::number::Number;
use crate::transition::Transition;
use std::ops::Range;

/// A pool number in a field's data.
#[derive(Clone, Debug, PartialEq, Eq)]
pub(crate) struct Mention {
    /// Where its code stands in the data.
    pub(crate) code: Range<usize>,
    /// The number.
    pub(crate) number: usize,
}

/// What is left of a field's data, and the pool numbers that were read so far where they are wanted.
pub(crate) struct Data<'a> {
    bytes: &'a [u8],
    at: usize,
    mentions: Option<Vec<Mention>>,
}

impl<'a> Data<'a> {
    pub(crate) fn new(bytes: &'a [u8]) -> Data<'a> {
        Data { bytes, at: 0, mentions: None }
    }

    /// The same, with the pool numbers kept.
    pub(crate) fn with_mentions(bytes: &'a [u8]) -> Data<'a> {
        Data { bytes, at: 0, mentions: Some(Vec::new()) }
    }

    fn take<T>(&mut self, read: impl Fn(&'a [u8]) -> Read<T>) -> Result<T, Number> {
        let (value, length) = read(&self.bytes[self.at..])?;
        self.at += length;
        Ok(value)
    }

    pub(crate) fn byte(&mut self) -> Result<u8, Number> {
        self.take(|rest| rest.first().map(|&byte| (byte, 1)).ok_or(Number::BadData))
    }

    pub(crate) fn count(&mut self) -> Result<usize, Number> {
        Ok(self.take(codes::read_count)? as usize)
    }

    pub(crate) fn signed_count(&mut self) -> Result<i32, Number> {
        self.take(codes::read_signed_count)
    }

    pub(crate) fn offset(&mut self) -> Result<i32, Number> {
        self.take(codes::read_offset)
    }

    pub(crate) fn transition(&mut self, previous: Option<Transition>) -> Result<Transition, Number> {
        self.take(|rest| codes::read_transition(rest, previous))
    }

    /// A length-and-bytes text, as the part of the field's data that holds its bytes.
    pub(crate) fn text(&mut self) -> Result<Range<usize>, Number> {
        let before = self.at;
        let part = self.take(codes::read_text)?;
        Ok(before + part.start..before + part.end)
    }

    /// "pool number not below the pool's count" is 8, judged at once.
    pub(crate) fn pool_number(&mut self, pool_count: usize) -> Result<usize, Number> {
        let start = self.at;
        let number = self.count()?;
        if number < pool_count {
            if let Some(mentions) = &mut self.mentions {
                mentions.push(Mention { code: start..self.at, number });
            }
            Ok(number)
        } else {
            Err(Number::BadText)
        }
    }

    pub(crate) fn is_at_end(&self) -> bool {
        self.at == self.bytes.len()
    }

    /// "9 for leftovers last"
    pub(crate) fn end(&self) -> Result<(), Number> {
        if self.is_at_end() {
            Ok(())
        } else {
            Err(Number::BadData)
        }
    }

    /// Every pool number that was read, in order.
    pub(crate) fn mentions(self) -> Vec<Mention> {
        self.mentions.unwrap_or_default()
    }

    pub(crate) fn length_read(&self) -> usize {
        self.at
    }
}
