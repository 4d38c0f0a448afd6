//! A file as a list of codes, so that a single code can be broken while the sizes stay right.

use crate::codes;
use crate::generate::content::FileContent;
use crate::generate::prng::Prng;
use crate::locations::{Location, LocationField, MOST_EAST, MOST_NORTH};
use crate::recurrence::{Rule, Tail};
use crate::transition::Transition;
use crate::zone::{Interval, Rest, Zone};
use std::ops::Range;

/// What a code is, with what a broken one in its place has to know.
#[derive(Clone, Copy, Debug, PartialEq, Eq)]
pub enum Kind {
    /// The pool's count.
    PoolCount,
    /// A length-and-bytes text, of the pool or of field 2.
    Text,
    /// A pool number.
    PoolNumber,
    /// A zone's flag.
    Flag,
    /// A wall offset or a tail's standard offset.
    Offset,
    /// An interval's savings, with its wall offset.
    Savings(i32),
    /// The count of a zone's intervals.
    IntervalCount,
    /// A start or an end, with the transition before it.
    Transition(Option<Transition>),
    /// The tail byte.
    TailByte,
    /// A rule's flag byte.
    RuleByte,
    /// A rule's month.
    Month,
    /// A rule's day, with its month.
    Day(u32),
    /// A rule's time of day.
    Time,
    /// A tail's savings, with its standard offset.
    TailSavings(i32),
    /// The count of field 3's pairs.
    PairCount,
    /// The count of a field's locations.
    LocationCount,
    /// A latitude or a longitude, with the most that it may be.
    Coordinate(i32),
    /// The number of a location's countries.
    CountryCount,
    /// The data of fields that aren't read.
    Opaque,
}

/// One code of a field's data.
#[derive(Clone, Debug, PartialEq, Eq)]
pub struct Code {
    /// What it is.
    pub kind: Kind,
    /// Its bytes.
    pub bytes: Vec<u8>,
}

/// One field.
#[derive(Clone, Debug, PartialEq, Eq)]
pub struct FieldPlan {
    /// The ID byte.
    pub id: u8,
    /// The size code, where it isn't that of the data.
    pub size: Option<Vec<u8>>,
    /// How many zero groups stand behind the size, as far as five bytes hold them.
    pub padding: usize,
    /// The data.
    pub codes: Vec<Code>,
}

impl FieldPlan {
    /// The size of the data.
    pub fn data_length(&self) -> usize {
        self.codes.iter().map(|code| code.bytes.len()).sum()
    }

    fn bytes(&self) -> Vec<u8> {
        let mut out = vec![self.id];
        out.extend(self.size.clone().unwrap_or_else(|| padded_count(self.data_length(), self.padding)));
        out.extend(self.codes.iter().flat_map(|code| &code.bytes));
        out
    }
}

/// A file: the version, then these fields.
#[derive(Clone, Debug, PartialEq, Eq)]
pub struct FilePlan {
    /// The version's bytes.
    pub version: [u8; 4],
    /// The fields in file order.
    pub fields: Vec<FieldPlan>,
}

impl FilePlan {
    /// The file.
    pub fn bytes(&self) -> Vec<u8> {
        let mut out = self.version.to_vec();
        out.extend(self.fields.iter().flat_map(FieldPlan::bytes));
        out
    }

    /// Where each field stands, from its ID byte to just past its last data byte.
    pub fn extents(&self) -> Vec<Range<usize>> {
        let mut at = self.version.len();
        self.fields
            .iter()
            .map(|field| {
                let start = at;
                at += field.bytes().len();
                start..at
            })
            .collect()
    }
}

/// How transitions and sizes are written.
pub enum Forms<'a> {
    /// "The writer takes the first that fits: mark, hours, minutes, ticks." Sizes are shortest.
    Preferred,
    /// "The reader takes any form", and sizes with "trailing zero groups".
    Any(&'a mut Prng),
}

impl Forms<'_> {
    fn transition(&mut self, value: Transition, previous: Option<Transition>) -> Vec<u8> {
        let mut forms = match value {
            Transition::StartOfTime => vec![vec![0]],
            Transition::EndOfTime => vec![vec![1]],
            Transition::Finite(ticks) => codes::encode_hours(ticks, previous)
                .into_iter()
                .chain(codes::encode_minutes(ticks))
                .chain([codes::encode_ticks(ticks)])
                .collect(),
        };
        match self {
            Forms::Preferred => forms.swap_remove(0),
            Forms::Any(prng) => prng.pick(&forms).clone(),
        }
    }

    fn padding(&mut self) -> usize {
        match self {
            Forms::Preferred => 0,
            Forms::Any(prng) => [0, 0, 0, 0, 0, 1 + prng.below(4)][prng.below(6)],
        }
    }
}

/// Every value here comes from the content of a well-formed file, so that its code exists.
const HAS_CODE: &str = "a value of a well-formed file has a code";

fn count(value: usize) -> Vec<u8> {
    codes::encode_count(value as i64).expect(HAS_CODE)
}

/// A count with up to `groups` zero groups behind it, in five bytes at most.
fn padded_count(value: usize, groups: usize) -> Vec<u8> {
    let mut code = count(value);
    let length = (code.len() + groups).min(5);
    while code.len() < length {
        let last = code.len() - 1;
        code[last] |= 0x80;
        code.push(0);
    }
    code
}

fn text(value: &[u8]) -> Code {
    Code { kind: Kind::Text, bytes: codes::encode_text(value).expect(HAS_CODE) }
}

fn offset(kind: Kind, ms: i32) -> Code {
    Code { kind, bytes: codes::encode_offset(i64::from(ms)).expect(HAS_CODE) }
}

fn counted(kind: Kind, value: usize) -> Code {
    Code { kind, bytes: count(value) }
}

fn byte(kind: Kind, value: u8) -> Code {
    Code { kind, bytes: vec![value] }
}

/// The file of a content, its fields in the order of their IDs.
pub fn plan(content: &FileContent, forms: &mut Forms) -> FilePlan {
    let mut pool = vec![counted(Kind::PoolCount, content.pool.len())];
    pool.extend(content.pool.iter().map(|string| text(string)));
    let mut fields = vec![FieldPlan { id: 0, size: None, padding: 0, codes: pool }];
    for zone in &content.zones {
        fields.push(FieldPlan { id: 1, size: None, padding: 0, codes: zone_codes(zone, forms) });
    }
    if let Some(version) = &content.version {
        fields.push(FieldPlan { id: 2, size: None, padding: 0, codes: vec![text(version)] });
    }
    if let Some(pairs) = &content.aliases {
        let mut codes = vec![counted(Kind::PairCount, pairs.len())];
        let number = |number: usize| counted(Kind::PoolNumber, number);
        codes.extend(pairs.iter().flat_map(|&(key, target)| [number(key), number(target)]));
        fields.push(FieldPlan { id: 3, size: None, padding: 0, codes });
    }
    for (field, locations) in
        [(LocationField::Zone, &content.locations), (LocationField::Zone1970, &content.locations_1970)]
    {
        if let Some(locations) = locations {
            let codes = location_codes(locations, field);
            fields.push(FieldPlan { id: field.id(), size: None, padding: 0, codes });
        }
    }
    for (id, data) in &content.others {
        let codes = vec![Code { kind: Kind::Opaque, bytes: data.clone() }];
        fields.push(FieldPlan { id: *id, size: None, padding: 0, codes });
    }
    fields.sort_by_key(|field| field.id);
    for field in &mut fields {
        field.padding = forms.padding();
    }
    FilePlan { version: [0; 4], fields }
}

fn location_codes(locations: &[Location], field: LocationField) -> Vec<Code> {
    let signed = |kind: Kind, value: i32| {
        let bytes = codes::encode_signed_count(i64::from(value)).expect(HAS_CODE);
        Code { kind, bytes }
    };
    let number = |number: usize| counted(Kind::PoolNumber, number);
    let mut codes = vec![counted(Kind::LocationCount, locations.len())];
    for location in locations {
        codes.push(signed(Kind::Coordinate(MOST_NORTH), location.latitude));
        codes.push(signed(Kind::Coordinate(MOST_EAST), location.longitude));
        if field == LocationField::Zone1970 {
            codes.push(signed(Kind::CountryCount, location.countries.len() as i32));
        }
        codes.extend(location.countries.iter().flat_map(|&(name, code)| [number(name), number(code)]));
        codes.extend([number(location.zone), number(location.comment)]);
    }
    codes
}

fn zone_codes(zone: &Zone, forms: &mut Forms) -> Vec<Code> {
    let mut codes = vec![counted(Kind::PoolNumber, zone.id)];
    match &zone.rest {
        Rest::Fixed { offset: ms, name } => {
            codes.extend([byte(Kind::Flag, 1), offset(Kind::Offset, *ms)]);
            codes.extend(name.map(|name| counted(Kind::PoolNumber, name)));
        }
        Rest::Listed { intervals, end, tail } => {
            codes.extend([byte(Kind::Flag, 2), counted(Kind::IntervalCount, intervals.len())]);
            let mut previous = None;
            for interval in intervals {
                codes.extend(interval_codes(interval, previous, forms));
                previous = Some(interval.start);
            }
            codes.push(Code { kind: Kind::Transition(previous), bytes: forms.transition(*end, previous) });
            codes.push(byte(Kind::TailByte, u8::from(tail.is_some())));
            codes.extend(tail.iter().flat_map(tail_codes));
        }
    }
    codes
}

fn interval_codes(interval: &Interval, previous: Option<Transition>, forms: &mut Forms) -> [Code; 4] {
    [
        Code { kind: Kind::Transition(previous), bytes: forms.transition(interval.start, previous) },
        counted(Kind::PoolNumber, interval.name),
        offset(Kind::Offset, interval.wall),
        offset(Kind::Savings(interval.wall), interval.savings),
    ]
}

fn tail_codes(tail: &Tail) -> Vec<Code> {
    let mut codes = vec![offset(Kind::Offset, tail.standard), counted(Kind::PoolNumber, tail.standard_name)];
    codes.extend(rule_codes(&tail.standard_rule));
    codes.push(counted(Kind::PoolNumber, tail.daylight_name));
    codes.extend(rule_codes(&tail.daylight_rule));
    codes.push(offset(Kind::TailSavings(tail.standard), tail.savings));
    codes
}

fn rule_codes(rule: &Rule) -> [Code; 4] {
    let day = codes::encode_signed_count(i64::from(rule.day)).expect(HAS_CODE);
    [
        byte(Kind::RuleByte, rule.byte()),
        counted(Kind::Month, rule.month as usize),
        Code { kind: Kind::Day(rule.month), bytes: day },
        offset(Kind::Time, rule.time),
    ]
}
