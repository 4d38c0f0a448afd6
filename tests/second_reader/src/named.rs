//! 02, Ask 5: the question by a name that is a zone ID or an alias.

use crate::aliases::{follow, read_aliases};
use crate::file::{answer, read_version, Answer, Edition, Fields, Mark, ALIASES, POOL, VERSION_TEXT, ZONE};
use crate::number::{Number, Refusal};
use crate::pool::{read_pool, Pool};
use crate::transition::in_range;
use crate::zone::{read_zone, Zone};

/// "A new named question takes a canonical ID or an alias".
///
/// A zone with the asked ID answers as soon as its field is whole (reading 5.2). Else field 2 is checked, field 3 is checked
/// whole, and the name is followed in it. "\"no such zone\" is given once an ID above 3 has begun or the whole of field 3
/// lacks it."
pub fn ask_named(bytes: &[u8], name: &[u8], ticks: i64, mark: Mark, edition: Edition) -> Result<Answer, Refusal> {
    if !in_range(ticks) {
        return Err(Number::InstantRange.at(0));
    }
    let mut fields = Fields::new(bytes, mark)?;
    let mut pool = Pool::new();
    let mut zones: Vec<Zone> = Vec::new();
    while let Some(id) = fields.id()? {
        if id > ALIASES {
            return Err(Number::NotFound.at(fields.place()));
        }
        let field = fields.field(id)?;
        // "Places for 18, 19 and a 12 found in field 3 are that field's ID byte".
        let refuse = |number: Number| number.at(field.place);
        match id {
            POOL => pool = read_pool(field.data, field.data_place).map_err(refuse)?,
            ZONE => {
                let zone = read_zone(field.data, pool.len()).map_err(refuse)?;
                if &bytes[pool[zone.id].clone()] == name {
                    return Ok(answer(&pool, &zone, ticks, edition));
                }
                zones.push(zone);
            }
            VERSION_TEXT => {
                read_version(field.data).map_err(refuse)?;
            }
            _ => {
                // "faults of the field come before 18 and 12", and before an answer (reading 5.5).
                let pairs = read_aliases(field.data, bytes, &pool).map_err(refuse)?;
                let string = |number: usize| &bytes[pool[number].clone()];
                let pairs: Vec<(&[u8], &[u8])> =
                    pairs.iter().map(|&(key, target)| (string(key), string(target))).collect();
                let zone = |name: &[u8]| zones.iter().find(|zone| string(zone.id) == name);
                return follow(name, zone, &pairs).map(|zone| answer(&pool, zone, ticks, edition)).map_err(refuse);
            }
        }
    }
    Err(mark.unseen().at(bytes.len()))
}
