//! The whole file: its check and its version text.

use crate::aliases::read_aliases;
use crate::codes::Cursor;
use crate::fields::{Field, Fields};
use crate::ids::Ids;
use crate::locations::check_locations;
use crate::number::{CUT_SHORT, FIRST_FIELD, NOT_FOUND, SECOND_ZONE};
use crate::pool::Pool;
use crate::zone::{read_mention, read_rest, Visit};
use crate::Refusal;

/// Checks a whole file.
pub fn check(file: &[u8]) -> Result<(), Refusal> {
    walk(file, &mut ()).map(|_| ())
}

/// The text of field 2 of a well-formed file.
pub fn version_text(file: &[u8]) -> Result<&[u8], Refusal> {
    walk(file, &mut ())?.text.ok_or(Refusal { number: NOT_FOUND, place: file.len() })
}

/// A zone's data behind its ID, that ID, and the pool's count.
pub struct ZoneData<'a> {
    pub rest: Cursor<'a>,
    pub id: u32,
    pub pool_count: u32,
}

/// Is shown what the fields hold, and each field when it is read.
pub trait VisitFields<'a>: Visit {
    /// A field with an ID. All before it and its own data are checked, but for a zone's ID being a second one.
    #[inline]
    fn field(&mut self, _id: u8, _field: &Field<'a>, _zone: Option<ZoneData<'a>>) {}
}

/// Checks only.
impl VisitFields<'_> for () {}

/// What a whole file has besides its zones.
pub struct Whole<'a> {
    pub pool: Pool<'a>,
    /// The version text.
    pub text: Option<&'a [u8]>,
}

/// Checks a whole file, and shows it to `visit`.
pub fn walk<'a>(file: &'a [u8], visit: &mut impl VisitFields<'a>) -> Result<Whole<'a>, Refusal> {
    let mut fields = Fields::new(file, CUT_SHORT)?;
    let Some(field) = fields.first()? else {
        return Err(Refusal { number: FIRST_FIELD, place: 4 });
    };
    let pool = Pool::read(field.data).map_err(|number| field.refuse(number))?;
    visit.field(0, &field, None);
    let mut ids = Ids::new(pool.count());
    let mut text = None;
    while let Some(id) = fields.id()? {
        let field = fields.field(id)?;
        let refuse = |number| field.refuse(number);
        match id {
            1 => {
                let mut rest = Cursor::new(field.data);
                let number = read_mention(&mut rest, pool.count(), visit).map_err(refuse)?;
                read_rest(rest, number, pool.count(), visit).map_err(refuse)?;
                visit.field(1, &field, Some(ZoneData { rest, id: number, pool_count: pool.count() }));
                if !ids.insert(number, &pool) {
                    return Err(refuse(SECOND_ZONE));
                }
                continue;
            }
            2 => text = Some(read_text(field.data).map_err(refuse)?),
            3 => {
                read_aliases(field.data, &pool, visit).map_err(refuse)?;
            }
            6 | 7 => check_locations(field.data, id == 7, pool.count(), visit).map_err(refuse)?,
            _ => {}
        }
        visit.field(id, &field, None);
    }
    Ok(Whole { pool, text })
}

pub fn read_text(data: &[u8]) -> Result<&[u8], u8> {
    let mut cursor = Cursor::new(data);
    let text = cursor.text()?;
    cursor.end()?;
    Ok(text)
}
