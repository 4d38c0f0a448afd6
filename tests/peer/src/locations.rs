//! Fields 6 and 7: locations.

use crate::codes::Cursor;
use crate::fields::Fields;
use crate::number::{BAD_LOCATION, CUT_SHORT, NOT_FOUND};
use crate::pool::Pool;
use crate::whole::check;
use crate::zone::{read_mention, Visit};
use crate::Refusal;

const MOST_NORTH: i32 = 324_000;
const MOST_EAST: i32 = 648_000;

/// A location: seconds north and east, what stands behind its number of countries, that number, and pool numbers.
struct Read<'a> {
    seconds: [i32; 2],
    countries: Cursor<'a>,
    left: u32,
    zone: u32,
    comment: u32,
}

/// A location of a file.
pub struct Location<'a> {
    /// Degrees north.
    pub latitude: f64,
    /// Degrees east.
    pub longitude: f64,
    /// The zone's ID.
    pub zone: &'a [u8],
    /// The comment.
    pub comment: &'a [u8],
    /// Its countries.
    pub countries: Countries<'a>,
}

/// The countries of a location that are still to come.
pub struct Countries<'a> {
    pool: Pool<'a>,
    cursor: Cursor<'a>,
    left: u32,
}

impl<'a> Iterator for Countries<'a> {
    /// Name and code.
    type Item = (&'a [u8], &'a [u8]);

    fn next(&mut self) -> Option<Self::Item> {
        self.left = self.left.checked_sub(1)?;
        let name = self.cursor.pool_number(self.pool.count()).ok()?;
        let code = self.cursor.pool_number(self.pool.count()).ok()?;
        Some((self.pool.string(name), self.pool.string(code)))
    }
}

/// Checks the data of a field and gives its location with a number. With `numbered` a location has a number of countries.
fn read<'a>(
    data: &'a [u8],
    numbered: bool,
    pool_count: u32,
    number: u64,
    visit: &mut impl Visit,
) -> Result<Option<Read<'a>>, u8> {
    let mut cursor = Cursor::new(data);
    let mut found = None;
    for at in 0..u64::from(cursor.count()?) {
        let seconds = [within(cursor.signed_count()?, MOST_NORTH)?, within(cursor.signed_count()?, MOST_EAST)?];
        let left = if numbered { cursor.signed_count()? } else { 1 };
        let left = u32::try_from(left).map_err(|_| BAD_LOCATION)?;
        let countries = cursor;
        for _ in 0..left {
            read_mention(&mut cursor, pool_count, visit)?;
            read_mention(&mut cursor, pool_count, visit)?;
        }
        let zone = read_mention(&mut cursor, pool_count, visit)?;
        let comment = read_mention(&mut cursor, pool_count, visit)?;
        if at == number {
            found = Some(Read { seconds, countries, left, zone, comment });
        }
    }
    cursor.end()?;
    Ok(found)
}

fn within(seconds: i32, most: i32) -> Result<i32, u8> {
    if (-most..=most).contains(&seconds) {
        Ok(seconds)
    } else {
        Err(BAD_LOCATION)
    }
}

/// Checks the data of field 6, or with `numbered` of field 7.
pub fn check_locations(data: &[u8], numbered: bool, pool_count: u32, visit: &mut impl Visit) -> Result<(), u8> {
    read(data, numbered, pool_count, u64::MAX, visit).map(|_| ())
}

/// The location with a number, from 0, in field 6 or 7 of a whole file, all checked first.
pub fn location(file: &[u8], id: u8, number: u64) -> Result<Location<'_>, Refusal> {
    check(file)?;
    let mut fields = Fields::new(file, CUT_SHORT)?;
    let absent = Refusal { number: NOT_FOUND, place: file.len() };
    let first = fields.first()?.ok_or(absent)?;
    let pool = Pool::read(first.data).map_err(|number| first.refuse(number))?;
    while let Some(other) = fields.id()? {
        let field = fields.field(other)?;
        if other == id {
            let found =
                read(field.data, id == 7, pool.count(), number, &mut ()).map_err(|number| field.refuse(number))?;
            let Read { seconds: [north, east], countries, left, zone, comment } =
                found.ok_or(field.refuse(NOT_FOUND))?;
            let (zone, comment) = (pool.string(zone), pool.string(comment));
            let (latitude, longitude) = (f64::from(north) / 3600.0, f64::from(east) / 3600.0);
            return Ok(Location {
                latitude,
                longitude,
                zone,
                comment,
                countries: Countries { pool, cursor: countries, left },
            });
        }
    }
    Err(absent)
}
