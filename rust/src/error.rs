//! Why something was refused.

use core::fmt;

/// What was wrong, as `include/nzd.h` numbers it.
#[derive(Clone, Copy, Debug, PartialEq, Eq, PartialOrd, Ord, Hash)]
#[non_exhaustive]
pub enum Number {
    /// 1: more bytes may come, and the asked zone has not been seen whole: ask again with more bytes.
    NotYet,
    /// 2: the bytes are all there is, and end in the version or in a field.
    CutShort,
    /// 3: the version is not 0.
    WrongVersion,
    /// 4: a largest size is passed: the end of a field, pool strings, a string's bytes, or a zone's intervals. Of a file, or
    /// of what [`close_pool`](crate::close_pool) would make of a well-formed one.
    TooLarge,
    /// 5: a field ID is lower than the one before, or stands a second time where it may not.
    FieldOrder,
    /// 6: the first field is not the string pool, or there is no field.
    FirstField,
    /// 7: a count, size, offset or transition code is not allowed, or a value has no code.
    BadCode,
    /// 8: a string is not UTF-8, or a pool number is not below the pool's count.
    BadText,
    /// 9: an unknown zone or tail flag, or data that ends early or is left over.
    BadData,
    /// 10: an interval count of 0, a start or end that is not allowed, or a standard offset of 24 hours or more either way.
    BadInterval,
    /// 11: a recurrence or a tail sum is out of its ranges.
    BadRecurrence,
    /// 12: the file has no such zone, an alias leads to none, there is no version text or no such location, or a table is
    /// empty.
    NotFound,
    /// 13: a second zone has the same ID.
    SecondZone,
    /// 14: the asked instant is outside years 1 to 9999.
    InstantOutOfRange,
    /// 15: the output, which may be a list or a table, or the buffer of a receiver, is too short.
    OutputTooShort,
    /// 17: no instant reads as the local time, as where clocks went forward over it. No error has it:
    /// [`map_local`](crate::map_local) gives [`LocalInstants::None`](crate::LocalInstants::None).
    NoInstant,
    /// 18: the eighth target of an alias is again only an alias, as where aliases lead in a circle.
    TooManySteps,
    /// 19: a second alias in field 3 has the same bytes.
    SecondAlias,
    /// 20: a location's latitude or longitude is out of its range, or its number of countries is negative.
    BadLocation,
    /// 21: header, records or names of a trace leave it, or a record's name leaves the names.
    BadTrace,
    /// 22: a well-formed file has a field with the ID 4, 5 or above 7, whose mentions of pool strings aren't known.
    UnreadField,
    /// A number that this version of the wrapper has no name for.
    Other(u8),
}

/// The numbers that have a name, in words. 16 is a number of the program `zone_query` only.
const NUMBERS: [(u8, Number, &str); 21] = [
    (1, Number::NotYet, "not yet: more bytes are needed"),
    (2, Number::CutShort, "cut short"),
    (3, Number::WrongVersion, "the version is not 0"),
    (4, Number::TooLarge, "a largest size is passed"),
    (5, Number::FieldOrder, "a field is out of order or stands twice"),
    (6, Number::FirstField, "the first field is not the string pool"),
    (7, Number::BadCode, "a count, offset or transition code is not allowed"),
    (8, Number::BadText, "a string is not UTF-8, or a pool number is too high"),
    (9, Number::BadData, "an unknown flag, or data that ends early or is left over"),
    (10, Number::BadInterval, "an interval count, start, end or standard offset is not allowed"),
    (11, Number::BadRecurrence, "a recurrence or tail sum is out of range"),
    (12, Number::NotFound, "no such zone, version text or location, or an empty table"),
    (13, Number::SecondZone, "a second zone has the same ID"),
    (14, Number::InstantOutOfRange, "the instant is outside years 1 to 9999"),
    (15, Number::OutputTooShort, "the output, or the buffer of a receiver, is too short"),
    (17, Number::NoInstant, "no instant reads as that local time"),
    (18, Number::TooManySteps, "an alias leads over more than eight others, or in a circle"),
    (19, Number::SecondAlias, "a second alias has the same name"),
    (20, Number::BadLocation, "a location is out of its ranges"),
    (21, Number::BadTrace, "a part of the trace leaves it, or a name leaves the names"),
    (22, Number::UnreadField, "a field that is not read stands in the way of closing up the pool"),
];

impl Number {
    /// The name of a number that is not 0.
    fn of(value: u8) -> Number {
        NUMBERS.iter().find(|(named, ..)| *named == value).map_or(Number::Other(value), |(_, number, _)| *number)
    }

    /// The number.
    pub fn value(self) -> u8 {
        match self {
            Number::Other(value) => value,
            _ => NUMBERS.iter().find(|(_, number, _)| *number == self).map_or(0, |(value, ..)| *value),
        }
    }

    /// The number in words.
    pub fn meaning(self) -> &'static str {
        let unknown = "a number that this version of the wrapper does not know";
        NUMBERS.iter().find(|(_, number, _)| *number == self).map_or(unknown, |(.., words)| words)
    }
}

/// A refusal: what was wrong and where. Nothing was written.
#[derive(Clone, Copy, Debug, PartialEq, Eq, Hash)]
pub struct Error {
    /// What was wrong.
    pub number: Number,
    /// The place in the file of the faulty field's ID byte, or the bytes' end where no field has begun. 0 where the
    /// fault is in no field: the version, the instant, the output, a table, a trace, or a small code on its own.
    pub place: usize,
}

impl fmt::Display for Error {
    fn fmt(&self, f: &mut fmt::Formatter<'_>) -> fmt::Result {
        write!(f, "{} (number {}, place {})", self.number.meaning(), self.number.value(), self.place)
    }
}

impl core::error::Error for Error {}

/// Takes a result of a C function apart: on 0 the length that it carries, else the error.
#[inline]
pub(crate) fn decode(result: u64) -> Result<usize, Error> {
    if result % 256 == 0 {
        Ok((result / 256) as usize)
    } else {
        Err(refusal(result))
    }
}

/// Apart, so that a result that is no refusal takes no way by the table of numbers.
#[cold]
fn refusal(result: u64) -> Error {
    Error { number: Number::of((result % 256) as u8), place: (result / 256) as usize }
}

#[cfg(test)]
mod tests {
    extern crate std;
    use super::*;
    use std::collections::BTreeSet;
    use std::string::ToString;

    #[test]
    fn every_number_is_decoded_to_itself() {
        assert_eq!(decode(17 * 256), Ok(17));
        for number in 1..=255u8 {
            let error = decode(u64::from(number) + 256 * 1000).expect_err("a refusal");
            assert_eq!((error.number.value(), error.place), (number, 1000));
            assert_eq!(matches!(error.number, Number::Other(_)), number == 16 || number > 22);
        }
        assert_eq!((Number::of(1), Number::of(12)), (Number::NotYet, Number::NotFound));
        assert_eq!((Number::of(15), Number::of(17)), (Number::OutputTooShort, Number::NoInstant));
        assert_eq!((Number::of(18), Number::of(19)), (Number::TooManySteps, Number::SecondAlias));
        assert_eq!((Number::of(21), Number::of(22)), (Number::BadTrace, Number::UnreadField));
    }

    #[test]
    fn every_number_has_a_meaning_of_its_own() {
        let meanings: BTreeSet<&str> = (1..=23).map(|number| Number::of(number).meaning()).collect();
        // 16 and 23 have no name.
        assert_eq!(meanings.len(), 22);
        let error = Error { number: Number::CutShort, place: 11 };
        assert_eq!(error.to_string(), "cut short (number 2, place 11)");
        let error = Error { number: Number::Other(23), place: 0 };
        assert_eq!(error.to_string(), "a number that this version of the wrapper does not know (number 23, place 0)");
    }
}
