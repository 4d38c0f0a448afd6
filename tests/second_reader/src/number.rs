//! 01, "The numbers given back".

use std::fmt;

/// Why something was refused. The discriminant is the number of the table in 01, or of 02.
#[derive(Clone, Copy, Debug, PartialEq, Eq, PartialOrd, Ord)]
#[repr(u8)]
pub enum Number {
    /// "not yet: more may come, and the bytes end in the version or in a field, or at the version's or a field's
    /// end with the zone unseen"
    NotYet = 1,
    /// "cut short: this is all, and the bytes end in the version or in a field"
    CutShort = 2,
    /// "all four version bytes are there and aren't 0"
    WrongVersion = 3,
    /// "one of the largest sizes is passed"
    TooLarge = 4,
    /// "field ID lower than the one before, or 0 or 2 to 7 a second time"
    FieldOrder = 5,
    /// "first field isn't ID 0, or a whole-file check finds no field"
    FirstField = 6,
    /// "a count, offset or transition code that the codes below don't allow"
    BadCode = 7,
    /// "string not UTF-8, or pool number not below the pool's count"
    BadText = 8,
    /// "unknown zone or tail flag, field data ending early [...], or data left over"
    BadData = 9,
    /// "interval count 0, or a start or end that the rules below don't allow"; 02, Ask 7: a standard offset that isn't
    /// inside 24 hours
    BadInterval = 10,
    /// "recurrence or tail sum out of its ranges"
    BadRecurrence = 11,
    /// "no such zone; or the version text is asked of a well-formed file without field 2"
    NotFound = 12,
    /// "a second zone with the same ID bytes (never given by a question)"
    SecondZone = 13,
    /// "asked instant outside year 1 to 9999"
    InstantRange = 14,
    /// "output shorter than the rewritten file, or than the code to be written"
    OutputShort = 15,
    /// "program only: question line not understood"
    BadLine = 16,
    /// 02, Ask 3: "Number 17, place 0, exactly if there is none"
    NoInstant = 17,
    /// 02, Ask 5: "Number 18 if the eighth target is again only a key"
    TooManySteps = 18,
    /// 02, Ask 5: "19 at the second of two equal keys"
    SecondKey = 19,
    /// 02, Ask 8: a latitude, longitude or number of countries out of its range
    BadLocation = 20,
    /// 02, Ask 14: "21 first if header, records or names leave the trace or any record's name leaves the names"
    BadTrace = 21,
    /// 02, Ask 14: "files with field 4, 5 or any above 7 are refused with 22"
    UnreadField = 22,
}

impl Number {
    /// The number as the table of 01 gives it.
    pub fn value(self) -> u8 {
        self as u8
    }

    /// The number in words, for people at a terminal.
    pub fn words(self) -> &'static str {
        match self {
            Number::NotYet => "not yet: more bytes are needed",
            Number::CutShort => "cut short",
            Number::WrongVersion => "the version is not 0",
            Number::TooLarge => "a largest size is passed",
            Number::FieldOrder => "a field is out of order or doubled",
            Number::FirstField => "the first field is not field 0",
            Number::BadCode => "a count, offset or transition code is not allowed",
            Number::BadText => "a string is not UTF-8, or a pool number is too high",
            Number::BadData => "an unknown flag, or field data ending early or left over",
            Number::BadInterval => "an interval count, start, end or standard offset is not allowed",
            Number::BadRecurrence => "a recurrence or tail sum is out of range",
            Number::NotFound => "no such zone or location, or no version text",
            Number::SecondZone => "a second zone with the same ID",
            Number::InstantRange => "the instant is outside years 1 to 9999",
            Number::OutputShort => "the output is too short",
            Number::BadLine => "the question line is not understood",
            Number::NoInstant => "no instant reads that local time",
            Number::TooManySteps => "the alias leads over more than eight steps",
            Number::SecondKey => "a second alias with the same bytes",
            Number::BadLocation => "a latitude, longitude or number of countries is out of range",
            Number::BadTrace => "a part of the trace or a name leaves it",
            Number::UnreadField => "a field whose pool numbers can't be changed",
        }
    }

    /// This number at `place`.
    pub fn at(self, place: usize) -> Refusal {
        Refusal { number: self, place: place as u64 }
    }
}

/// "A refusal carries number and place and no name."
#[derive(Clone, Copy, Debug, PartialEq, Eq)]
pub struct Refusal {
    /// The number of the table.
    pub number: Number,
    /// "Place: 0 for 3, 14, 15 and 16 and for a cut version; else the place of the faulty field's ID byte, or the
    /// bytes' end where no field has begun." 0 for 17 too.
    pub place: u64,
}

impl fmt::Display for Refusal {
    /// "a refusal writes number and place"
    fn fmt(&self, f: &mut fmt::Formatter<'_>) -> fmt::Result {
        write!(f, "{} {}", self.number.value(), self.place)
    }
}
