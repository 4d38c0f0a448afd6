//! Field 3, the alias dictionary, and the question by name.

use crate::codes::Cursor;
use crate::fields::Fields;
use crate::ids::Ids;
use crate::number::{CUT_SHORT, INSTANT_RANGE, NOT_FOUND, NOT_YET, SECOND_ALIAS, TOO_MANY_STEPS};
use crate::pool::Pool;
use crate::whole::read_text;
use crate::zone::{read_mention, read_rest, Find, Visit};
use crate::{zone_of, Answer, Refusal, FIRST, LAST};

/// How many targets a lookup takes.
const MOST_STEPS: usize = 8;

/// The pairs of field 3, alias and target by pool number.
pub fn read_aliases(data: &[u8], pool: &Pool, visit: &mut impl Visit) -> Result<Vec<(u32, u32)>, u8> {
    let mut cursor = Cursor::new(data);
    let count = cursor.count()?;
    let mut keys = Ids::new(pool.count());
    let mut pairs = Vec::with_capacity((count as usize).min(data.len() / 2));
    for _ in 0..count {
        let key = read_mention(&mut cursor, pool.count(), visit)?;
        if !keys.insert(key, pool) {
            return Err(SECOND_ALIAS);
        }
        pairs.push((key, read_mention(&mut cursor, pool.count(), visit)?));
    }
    cursor.end()?;
    Ok(pairs)
}

/// The interval that holds `ticks`, of the zone with the ID `name` or else of the zone that the alias `name` leads to. `more` says that
/// more bytes may come, `first_edition` that a fixed zone's ID is given for its name.
pub fn ask_named<'a>(
    file: &'a [u8],
    name: &[u8],
    ticks: i64,
    more: bool,
    first_edition: bool,
) -> Result<Answer<'a>, Refusal> {
    if !(FIRST..=LAST).contains(&ticks) {
        return Err(Refusal { number: INSTANT_RANGE, place: 0 });
    }
    let (cut, unseen) = if more { (NOT_YET, NOT_YET) } else { (CUT_SHORT, NOT_FOUND) };
    let mut fields = Fields::new(file, cut)?;
    let Some(field) = fields.first()? else {
        return Err(Refusal { number: unseen, place: file.len() });
    };
    let pool = Pool::read(field.data).map_err(|number| field.refuse(number))?;
    // By pool number, the data of the first zone with that ID number, and where it stands among the zones.
    let mut zones: Vec<Option<(usize, &[u8])>> = vec![None; pool.count() as usize];
    let mut count = 0;
    while let Some(id) = fields.id()? {
        if id > 3 {
            return Err(Refusal { number: NOT_FOUND, place: fields.place() });
        }
        let field = fields.field(id)?;
        let refuse = |number| field.refuse(number);
        match id {
            1 => {
                let mut find = Find::new(ticks, first_edition);
                if zone_of(field.data, &pool, name, &mut find).map_err(refuse)? {
                    return Ok(find.answer(&pool));
                }
                let number = Cursor::new(field.data).pool_number(pool.count()).map_err(refuse)?;
                zones[number as usize].get_or_insert((count, field.data));
                count += 1;
            }
            2 => {
                read_text(field.data).map_err(refuse)?;
            }
            _ => {
                let pairs = read_aliases(field.data, &pool, &mut ()).map_err(refuse)?;
                let data = follow(name, &pairs, &zones, &pool).map_err(refuse)?;
                let mut cursor = Cursor::new(data);
                let id = cursor.pool_number(pool.count()).map_err(refuse)?;
                let mut find = Find::new(ticks, first_edition);
                read_rest(cursor, id, pool.count(), &mut find).map_err(refuse)?;
                return Ok(find.answer(&pool));
            }
        }
    }
    Err(Refusal { number: unseen, place: file.len() })
}

/// The data of the zone that an alias leads to. No zone has its own bytes for an ID.
fn follow<'a>(
    name: &[u8],
    pairs: &[(u32, u32)],
    zones: &[Option<(usize, &'a [u8])>],
    pool: &Pool,
) -> Result<&'a [u8], u8> {
    let mut name = name;
    for _ in 0..MOST_STEPS {
        let Some(&(_, target)) = pairs.iter().find(|(key, _)| pool.string(*key) == name) else {
            return Err(NOT_FOUND);
        };
        name = pool.string(target);
        // The first zone whose ID has these bytes, under whichever number.
        let same = (0..pool.count()).filter(|&number| pool.string(number) == name);
        if let Some((_, data)) = same.filter_map(|number| zones[number as usize]).min_by_key(|(place, _)| *place) {
            return Ok(data);
        }
    }
    match pairs.iter().any(|(key, _)| pool.string(*key) == name) {
        true => Err(TOO_MANY_STEPS),
        false => Err(NOT_FOUND),
    }
}
