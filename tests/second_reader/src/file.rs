//! A file: version and fields, the whole-file check, the question and the version text.

use crate::aliases::{read_aliases, Aliases};
use crate::codes;
use crate::data::Data;
use crate::locations::{read_locations, Location, LocationField};
use crate::number::{Number, Refusal};
use crate::pool::{read_pool, Pool};
use crate::transition::{in_range, Transition};
use crate::zone::{read_zone, Rest, Zone};
use std::collections::BTreeSet;
use std::ops::Range;

/// "the place just past a field is at most 4,194,304"
pub const LAST_END: usize = 4_194_304;

pub(crate) const POOL: u8 = 0;
pub(crate) const ZONE: u8 = 1;
pub(crate) const VERSION_TEXT: u8 = 2;
pub(crate) const ALIASES: u8 = 3;
const LOCATIONS: u8 = 6;
const LOCATIONS_1970: u8 = 7;

/// "The marked question says \"more may come\" or \"this is all\"."
#[derive(Clone, Copy, Debug, PartialEq, Eq)]
pub enum Mark {
    /// The bytes may be the first part of a file.
    MoreMayCome,
    /// The bytes are all there are.
    ThisIsAll,
}

impl Mark {
    /// The number for bytes that end in the version or in a field.
    fn cut(self) -> Number {
        match self {
            Mark::MoreMayCome => Number::NotYet,
            Mark::ThisIsAll => Number::CutShort,
        }
    }

    /// The number for bytes that end at the version's or a field's end with the zone unseen.
    pub(crate) fn unseen(self) -> Number {
        match self {
            Mark::MoreMayCome => Number::NotYet,
            Mark::ThisIsAll => Number::NotFound,
        }
    }
}

/// 02, Ask 11: "Questions take an edition, 1 or 2, and no third can be named".
#[derive(Clone, Copy, Debug, PartialEq, Eq)]
pub enum Edition {
    /// "Under 1 a fixed zone's name is its ID whatever follows".
    One,
    /// "under 2 it is as today"
    Two,
}

/// "An answer carries wall offset, savings, the name as a part of the lent bytes, and the interval's start and end." 02,
/// Ask 7: "The answer record gains the standard offset, wall minus savings."
#[derive(Clone, Debug, PartialEq, Eq)]
pub struct Answer {
    /// Wall offset in milliseconds.
    pub wall: i32,
    /// Savings in milliseconds.
    pub savings: i32,
    /// Standard offset in milliseconds.
    pub standard: i32,
    /// Where the name stands in the lent bytes: the pool string of the number stored (reading 25).
    pub name: Range<usize>,
    /// The interval's start.
    pub start: Transition,
    /// The interval's end.
    pub end: Transition,
}

/// One whole field.
#[derive(Clone, Debug, PartialEq, Eq)]
pub struct Field<'a> {
    /// The ID byte.
    pub id: u8,
    /// The place of the ID byte.
    pub place: usize,
    /// The place of the first data byte.
    pub data_place: usize,
    /// The data bytes.
    pub data: &'a [u8],
}

/// The fields of a file, stepped through in file order.
pub(crate) struct Fields<'a> {
    bytes: &'a [u8],
    mark: Mark,
    at: usize,
    before: Option<u8>,
}

impl<'a> Fields<'a> {
    /// "version; then fields in file order". A version that isn't all there is cut, right or wrong (reading 9).
    pub(crate) fn new(bytes: &'a [u8], mark: Mark) -> Result<Fields<'a>, Refusal> {
        match bytes.get(..4) {
            None => Err(mark.cut().at(0)),
            Some([0, 0, 0, 0]) => Ok(Fields { bytes, mark, at: 4, before: None }),
            Some(_) => Err(Number::WrongVersion.at(0)),
        }
    }

    /// The place of the next ID byte, or the bytes' end.
    pub(crate) fn place(&self) -> usize {
        self.at
    }

    /// "At each ID byte: 6, 5". None at the bytes' end. The place stays at the ID byte.
    pub(crate) fn id(&self) -> Result<Option<u8>, Refusal> {
        let Some(&id) = self.bytes.get(self.at) else {
            return Ok(None);
        };
        match self.before {
            None if id != POOL => Err(Number::FirstField.at(self.at)),
            // "field ID lower than the one before, or 0 or 2 to 7 a second time"; 1 and 8 to 255 may repeat.
            Some(before) if id < before => Err(Number::FieldOrder.at(self.at)),
            Some(before) if id == before && matches!(id, 0 | 2..=7) => Err(Number::FieldOrder.at(self.at)),
            _ => Ok(Some(id)),
        }
    }

    /// "Then the size code (7), 4, then 1 or 2 if the field isn't whole." Steps over the field.
    pub(crate) fn field(&mut self, id: u8) -> Result<Field<'a>, Refusal> {
        let place = self.at;
        let (size, length) = match codes::read_size(&self.bytes[place + 1..]) {
            Ok(read) => read,
            // A size cut by the bytes' end: the field isn't whole (readings 7 and 8).
            Err(Number::BadData) => return Err(self.mark.cut().at(place)),
            Err(number) => return Err(number.at(place)),
        };
        // The padding counts (reading 6.3).
        let data_place = place + 1 + length;
        let end = data_place + size as usize;
        if end > LAST_END {
            return Err(Number::TooLarge.at(place));
        }
        let data = self.bytes.get(data_place..end).ok_or_else(|| self.mark.cut().at(place))?;
        self.at = end;
        self.before = Some(id);
        Ok(Field { id, place, data_place, data })
    }
}

/// What a well-formed file holds.
#[derive(Clone, Debug, Default, PartialEq, Eq)]
pub struct Contents<'a> {
    /// Every field, in file order.
    pub fields: Vec<Field<'a>>,
    /// The strings of field 0.
    pub pool: Pool,
    /// The zones, each with its number among the fields.
    pub zones: Vec<(usize, Zone)>,
    /// Where field 2's text stands.
    pub version_text: Option<Range<usize>>,
    /// The pairs of field 3.
    pub aliases: Option<Aliases>,
    /// The locations of field 6.
    pub locations: Vec<Location>,
    /// The locations of field 7.
    pub locations_1970: Vec<Location>,
}

/// "checking a whole file": its contents if it is well formed, else the refusal.
pub fn read_file(bytes: &[u8]) -> Result<Contents<'_>, Refusal> {
    let mut fields = Fields::new(bytes, Mark::ThisIsAll)?;
    let mut contents = Contents::default();
    let mut ids = BTreeSet::new();
    while let Some(id) = fields.id()? {
        let field = fields.field(id)?;
        let refuse = |number: Number| number.at(field.place);
        match id {
            POOL => contents.pool = read_pool(field.data, field.data_place).map_err(refuse)?,
            ZONE => {
                let zone = read_zone(field.data, contents.pool.len()).map_err(refuse)?;
                // "13 after that", in the second zone's own turn (reading 1).
                if !ids.insert(&bytes[contents.pool[zone.id].clone()]) {
                    return Err(refuse(Number::SecondZone));
                }
                contents.zones.push((contents.fields.len(), zone));
            }
            VERSION_TEXT => {
                let part = read_version(field.data).map_err(refuse)?;
                contents.version_text = Some(field.data_place + part.start..field.data_place + part.end);
            }
            // 02, Ask 5: "The whole-file check now gives 7, 8, 9 and 19 for field 3 too".
            ALIASES => contents.aliases = Some(read_aliases(field.data, bytes, &contents.pool).map_err(refuse)?),
            // 02, Ask 8: "The whole-file check now reads both fields".
            LOCATIONS => {
                let read = read_locations(field.data, contents.pool.len(), LocationField::Zone);
                contents.locations = read.map_err(refuse)?;
            }
            LOCATIONS_1970 => {
                let read = read_locations(field.data, contents.pool.len(), LocationField::Zone1970);
                contents.locations_1970 = read.map_err(refuse)?;
            }
            // "stepped over by their size"
            _ => {}
        }
        contents.fields.push(field);
    }
    // "a whole-file check finds no field"
    if contents.fields.is_empty() {
        return Err(Number::FirstField.at(bytes.len()));
    }
    Ok(contents)
}

/// "in field 2 (tzdb version) length and bytes stand in place"
pub(crate) fn read_version(bytes: &[u8]) -> Result<Range<usize>, Number> {
    let mut data = Data::new(bytes);
    let part = data.text()?;
    data.end()?;
    Ok(part)
}

/// The whole-file check: `(0, 0)` if the file is well formed, else number and place.
pub fn check(bytes: &[u8]) -> (u8, u64) {
    match read_file(bytes) {
        Ok(_) => (0, 0),
        Err(refusal) => (refusal.number.value(), refusal.place),
    }
}

/// The marked question: the interval of `zone` that holds `ticks`.
///
/// "A question checks field 0 and every zone in full, up to and with the first that has the asked ID, and doesn't
/// look past it." What follows a fixed zone's offset is checked under both editions (reading 11.1).
pub fn ask(bytes: &[u8], zone: &[u8], ticks: i64, mark: Mark, edition: Edition) -> Result<Answer, Refusal> {
    // "Order: 14; version; then fields in file order."
    if !in_range(ticks) {
        return Err(Number::InstantRange.at(0));
    }
    let (pool, zone) = find_zone(bytes, zone, mark)?;
    Ok(answer(&pool, &zone, ticks, edition))
}

/// What a zone says of an instant in range.
pub(crate) fn answer(pool: &Pool, zone: &Zone, ticks: i64, edition: Edition) -> Answer {
    let holding = zone.at(ticks);
    let name = match (&zone.rest, edition) {
        // Flag 1 only (reading 11.2), and the ID's own string (reading 11.3).
        (Rest::Fixed { .. }, Edition::One) => zone.id,
        _ => holding.interval.name,
    };
    Answer {
        wall: holding.interval.wall,
        savings: holding.interval.savings,
        standard: holding.interval.standard(),
        name: pool[name].clone(),
        start: holding.interval.start,
        end: holding.end,
    }
}

/// The first zone that has the asked ID and the pool that it is read with, or a question's refusal, 14 aside.
pub(crate) fn find_zone(bytes: &[u8], zone: &[u8], mark: Mark) -> Result<(Pool, Zone), Refusal> {
    let mut fields = Fields::new(bytes, mark)?;
    let mut pool = Pool::new();
    while let Some(id) = fields.id()? {
        // "then for a question 12 if the ID is above 1"
        if id > ZONE {
            return Err(Number::NotFound.at(fields.at));
        }
        let field = fields.field(id)?;
        let refuse = |number: Number| number.at(field.place);
        if id == POOL {
            pool = read_pool(field.data, field.data_place).map_err(refuse)?;
            continue;
        }
        let read = read_zone(field.data, pool.len()).map_err(refuse)?;
        if &bytes[pool[read.id].clone()] == zone {
            return Ok((pool, read));
        }
    }
    Err(mark.unseen().at(bytes.len()))
}

/// 02, Ask 1: "From now on the plain question means \"more may come\"."
pub fn ask_plain(bytes: &[u8], zone: &[u8], ticks: i64, edition: Edition) -> Result<Answer, Refusal> {
    ask(bytes, zone, ticks, Mark::MoreMayCome, edition)
}

/// The tzdb version text, as a part of the lent bytes: "check all first; then 15 or 12", "for 12 on the version text,
/// the bytes' end".
pub fn version_text(bytes: &[u8]) -> Result<Range<usize>, Refusal> {
    read_file(bytes)?.version_text.ok_or_else(|| Number::NotFound.at(bytes.len()))
}
