//! 02, Ask 8: fields 6 and 7, "signed counts of seconds north and east, then the texts, all pool numbers".

use crate::data::Data;
use crate::file::read_file;
use crate::number::{Number, Refusal};
use std::ops::Range;

/// "Latitude is within 324,000 [...] else 20": 90 degrees, which are within (reading 8.3).
pub const MOST_NORTH: i32 = 324_000;
/// "longitude within 648,000": 180 degrees.
pub const MOST_EAST: i32 = 648_000;

/// "Locations are asked by field, 6 or 7 only".
#[derive(Clone, Copy, Debug, PartialEq, Eq)]
pub enum LocationField {
    /// Field 6, locations of one country each.
    Zone,
    /// Field 7, locations of any number of countries.
    Zone1970,
}

impl LocationField {
    /// The field's ID.
    pub fn id(self) -> u8 {
        match self {
            LocationField::Zone => 6,
            LocationField::Zone1970 => 7,
        }
    }
}

/// One location; the texts are pool numbers.
#[derive(Clone, Debug, PartialEq, Eq)]
pub struct Location {
    /// Seconds north.
    pub latitude: i32,
    /// Seconds east.
    pub longitude: i32,
    /// Name and code of each country, in file order; in field 6 exactly one.
    pub countries: Vec<(usize, usize)>,
    /// The zone's ID.
    pub zone: usize,
    /// The comment.
    pub comment: usize,
}

/// Reads and judges a field's data: "else 20; a negative number of countries is 20 too, each judged as read". A number of
/// locations or countries that the data can't hold is 9 where it ends (reading 8.5).
pub fn read_locations(bytes: &[u8], pool_count: usize, field: LocationField) -> Result<Vec<Location>, Number> {
    locations_from(&mut Data::new(bytes), pool_count, field)
}

/// The same of a field's data.
pub(crate) fn locations_from(
    data: &mut Data,
    pool_count: usize,
    field: LocationField,
) -> Result<Vec<Location>, Number> {
    let mut locations = Vec::new();
    for _ in 0..data.count()? {
        let latitude = within(data.signed_count()?, MOST_NORTH)?;
        let longitude = within(data.signed_count()?, MOST_EAST)?;
        let count = match field {
            LocationField::Zone => 1,
            LocationField::Zone1970 => data.signed_count()?,
        };
        if count < 0 {
            return Err(Number::BadLocation);
        }
        let mut countries = Vec::new();
        for _ in 0..count {
            let name = data.pool_number(pool_count)?;
            let code = data.pool_number(pool_count)?;
            countries.push((name, code));
        }
        let zone = data.pool_number(pool_count)?;
        let comment = data.pool_number(pool_count)?;
        locations.push(Location { latitude, longitude, countries, zone, comment });
    }
    data.end()?;
    Ok(locations)
}

fn within(seconds: i32, most: i32) -> Result<i32, Number> {
    match (-most..=most).contains(&seconds) {
        true => Ok(seconds),
        false => Err(Number::BadLocation),
    }
}

/// "each coordinate is the seconds divided by 3600, rounded once": one division, which rounds to nearest, ties to even.
pub fn degrees(seconds: i32) -> f64 {
    f64::from(seconds) / 3600.0
}

/// A location as it is handed out; the texts are parts of the lent bytes.
#[derive(Clone, Debug, PartialEq)]
pub struct Pin {
    /// Degrees north.
    pub latitude: f64,
    /// Degrees east.
    pub longitude: f64,
    /// The zone's ID.
    pub zone: Range<usize>,
    /// The comment.
    pub comment: Range<usize>,
    /// "each name and code once in file order, then no more"
    pub countries: Vec<(Range<usize>, Range<usize>)>,
}

/// "after the check's faults, a number with no location gets 12 at that field's ID byte, or at the bytes' end if there is
/// no such field."
pub fn location(bytes: &[u8], field: LocationField, number: u64) -> Result<Pin, Refusal> {
    let contents = read_file(bytes)?;
    let Some(at) = contents.fields.iter().position(|read| read.id == field.id()) else {
        return Err(Number::NotFound.at(bytes.len()));
    };
    let locations = match field {
        LocationField::Zone => &contents.locations,
        LocationField::Zone1970 => &contents.locations_1970,
    };
    let found = usize::try_from(number).ok().and_then(|number| locations.get(number));
    let Some(found) = found else {
        return Err(Number::NotFound.at(contents.fields[at].place));
    };
    let text = |number: usize| contents.pool[number].clone();
    Ok(Pin {
        latitude: degrees(found.latitude),
        longitude: degrees(found.longitude),
        zone: text(found.zone),
        comment: text(found.comment),
        countries: found.countries.iter().map(|&(name, code)| (text(name), text(code))).collect(),
    })
}
