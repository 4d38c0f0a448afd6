//! A quick reader of `.nzd` files in safe Rust: the peer that the proved reader's speed is measured against.
//!
//! It makes the same checks in the same order, over slices and in one pass, and has every shortcut that the proved
//! reader has. A found zone is a plain value ([`Places`]), whose zone each question checks, or one that keeps the pool's index and its
//! tail and is not checked again ([`Zone`]). Beyond the shortcuts of the proved reader, a local time reads the intervals within a day of it in the walk that passes over the others; four bytes
//! of an interval are tested at once, where the proved reader compares three with those two before; a difference keeps the first
//! stretches while it counts them; and closing up a pool counts its strings' uses in the check.
//!
//! It allocates the index of the pool's strings, for a whole-file check and for a replay the table of zone
//! IDs, and for normalizing the list of the fields that change.
//!
//! Instants are ticks; start of time is the lowest `i64` and end of time the highest.

mod aliases;
mod close_pool;
mod codes;
mod difference;
mod fields;
mod found;
mod ids;
mod local;
mod locations;
mod normalize;
mod older;
mod places;
mod pool;
mod receiver;
mod replay;
mod runs;
mod starts;
mod table;
mod tail;
mod whole;
mod write;
mod zone;

pub use aliases::ask_named;
pub use close_pool::close_pool;
pub use difference::difference;
pub use found::Zone;
pub use local::LocalInstants;
pub use locations::{location, Countries, Location};
pub use normalize::normalize;
pub use older::{ask_named_old, old_dictionary};
pub use places::Places;
pub use receiver::{unfinished, Receiver};
pub use replay::replay;
pub use starts::{find_start, interval_starts, Found};
pub use whole::version_text;

use fields::{Field, Fields};
use pool::Pool;
use zone::{read_rest, Find, Visit};

/// Number and place of a refusal.
#[derive(Clone, Copy, Debug, PartialEq, Eq)]
pub struct Refusal {
    /// A number of the scope paper's table.
    pub number: u8,
    /// The place of the faulty field.
    pub place: usize,
}

/// The numbers of the table, as far as they are given here.
mod number {
    pub const NOT_YET: u8 = 1;
    pub const CUT_SHORT: u8 = 2;
    pub const WRONG_VERSION: u8 = 3;
    pub const TOO_LARGE: u8 = 4;
    pub const FIELD_ORDER: u8 = 5;
    pub const FIRST_FIELD: u8 = 6;
    pub const BAD_CODE: u8 = 7;
    pub const BAD_TEXT: u8 = 8;
    pub const BAD_DATA: u8 = 9;
    pub const BAD_INTERVAL: u8 = 10;
    pub const BAD_RECURRENCE: u8 = 11;
    pub const NOT_FOUND: u8 = 12;
    pub const SECOND_ZONE: u8 = 13;
    pub const INSTANT_RANGE: u8 = 14;
    pub const OUTPUT_SHORT: u8 = 15;
    pub const NO_INSTANT: u8 = 17;
    pub const TOO_MANY_STEPS: u8 = 18;
    pub const SECOND_ALIAS: u8 = 19;
    pub const BAD_LOCATION: u8 = 20;
    pub const BAD_TRACE: u8 = 21;
    pub const UNREAD_FIELD: u8 = 22;
}

/// The first instant of year 1.
const FIRST: i64 = -621_355_968_000_000_000;
/// The last instant of year 9999.
const LAST: i64 = 2_534_023_007_999_999_999;
/// The mark before every instant.
const START_OF_TIME: i64 = i64::MIN;
/// The mark after every instant.
const END_OF_TIME: i64 = i64::MAX;

/// The interval that holds the asked instant.
#[derive(Clone, Copy, Debug, PartialEq, Eq)]
pub struct Answer<'a> {
    /// Wall offset in milliseconds.
    pub wall_offset_ms: i64,
    /// Savings in milliseconds.
    pub savings_ms: i64,
    /// Standard offset in milliseconds.
    pub standard_offset_ms: i64,
    /// The name, a part of the file.
    pub name: &'a [u8],
    /// First instant of the interval, or start of time.
    pub start: i64,
    /// First instant behind the interval, or end of time.
    pub end: i64,
}

/// The interval of the zone `id` that holds `ticks`. `more` says that more bytes may come, `first_edition` that
/// a fixed zone's ID is given for its name.
pub fn ask<'a>(file: &'a [u8], id: &[u8], ticks: i64, more: bool, first_edition: bool) -> Result<Answer<'a>, Refusal> {
    if !(FIRST..=LAST).contains(&ticks) {
        return Err(Refusal { number: number::INSTANT_RANGE, place: 0 });
    }
    let mut find = Find::new(ticks, first_edition);
    let zone = find_zone(file, id, more, &mut find)?;
    Ok(find.answer(&zone.pool))
}

/// The instants of the zone `id` that read as the local time `local`. The bytes are all there is.
pub fn map_local(file: &[u8], id: &[u8], local: i64) -> Result<LocalInstants, Refusal> {
    let mut found = local::Count::new(local);
    find_zone(file, id, false, &mut found)?;
    found.instants().ok_or(Refusal { number: number::NO_INSTANT, place: 0 })
}

/// A zone that was found.
struct FoundZone<'a> {
    pool: Pool<'a>,
    /// Field 0, and the zone's own field.
    field: Field<'a>,
    zone: Field<'a>,
}

/// Checks the pool and the zones up to the one of `id`, and shows that one to `visit`.
fn find_zone<'a>(file: &'a [u8], id: &[u8], more: bool, visit: &mut impl Visit) -> Result<FoundZone<'a>, Refusal> {
    let cut = if more { number::NOT_YET } else { number::CUT_SHORT };
    let unseen = if more { number::NOT_YET } else { number::NOT_FOUND };
    let mut fields = Fields::new(file, cut)?;
    let Some(field) = fields.first()? else {
        return Err(Refusal { number: unseen, place: file.len() });
    };
    let pool = Pool::read(field.data).map_err(|number| field.refuse(number))?;
    while let Some(field_id) = fields.id()? {
        if field_id > 1 {
            return Err(Refusal { number: number::NOT_FOUND, place: fields.place() });
        }
        let zone = fields.field(field_id)?;
        if zone_of(zone.data, &pool, id, visit).map_err(|number| zone.refuse(number))? {
            return Ok(FoundZone { pool, field, zone });
        }
    }
    Err(Refusal { number: unseen, place: file.len() })
}

/// Checks a zone, and shows it to `visit` if it is the asked one.
fn zone_of(data: &[u8], pool: &Pool, asked: &[u8], visit: &mut impl Visit) -> Result<bool, u8> {
    let mut cursor = codes::Cursor::new(data);
    let id = cursor.pool_number(pool.count())?;
    let found = pool.is(id, asked);
    match found {
        true => read_rest(cursor, id, pool.count(), visit)?,
        false => read_rest(cursor, id, pool.count(), &mut ())?,
    }
    Ok(found)
}
