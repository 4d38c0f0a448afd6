//! 02, Ask 14: closing up the pool.

use crate::aliases::aliases_from;
use crate::codes;
use crate::data::{Data, Mention};
use crate::file::{read_file, Contents, Field, LAST_END};
use crate::locations::{locations_from, LocationField};
use crate::number::{Number, Refusal};
use crate::zone::zone_from;

/// "start one use count of zero for each possible pool string, count every mention in the fields we read, drop unused
/// strings, and put the most used first, ties by old place. All mentions are renumbered".
///
/// "After the check's faults, files with field 4, 5 or any above 7 are refused with 22 at the first such ID byte; then 4 if
/// the result would pass a largest size, then 15."
pub fn close_pool(bytes: &[u8], out: &mut [u8]) -> Result<usize, Refusal> {
    let file = closed(bytes)?;
    out.get_mut(..file.len()).ok_or(Number::OutputShort.at(0))?.copy_from_slice(&file);
    Ok(file.len())
}

/// The file with its pool closed up.
pub fn closed(bytes: &[u8]) -> Result<Vec<u8>, Refusal> {
    let contents = read_file(bytes)?;
    if let Some(field) = contents.fields.iter().find(|field| matches!(field.id, 4 | 5 | 8..)) {
        return Err(Number::UnreadField.at(field.place));
    }
    let uses = uses(bytes, &contents);
    let order = order(&uses);
    let mut new_numbers = vec![0; uses.len()];
    for (new, &old) in order.iter().enumerate() {
        new_numbers[old] = new;
    }
    let mut out = bytes[..4].to_vec();
    for field in &contents.fields {
        let data = match field.id {
            0 => pool_data(bytes, &contents, &order),
            _ => renumbered(field.data, &mentions(bytes, &contents, field), &new_numbers),
        };
        out.push(field.id);
        out.extend(code(data.len()));
        out.extend(data);
        // Only the place just past a field can pass a largest size; there are no more strings, and no longer ones.
        if out.len() > LAST_END {
            return Err(Number::TooLarge.at(0));
        }
    }
    Ok(out)
}

/// How often each pool string is mentioned.
pub fn uses(bytes: &[u8], contents: &Contents) -> Vec<usize> {
    let mut uses = vec![0; contents.pool.len()];
    for field in &contents.fields {
        for mention in mentions(bytes, contents, field) {
            uses[mention.number] += 1;
        }
    }
    uses
}

/// The old numbers in their new order. A stable sort keeps the old order among strings with as many uses.
fn order(uses: &[usize]) -> Vec<usize> {
    let mut used: Vec<usize> = (0..uses.len()).filter(|&number| uses[number] > 0).collect();
    used.sort_by(|one, other| uses[*other].cmp(&uses[*one]));
    used
}

/// Every pool number of a well-formed field's data, in its order: zones, field 3, and fields 6 and 7 (reading 14.36).
fn mentions(bytes: &[u8], contents: &Contents, field: &Field) -> Vec<Mention> {
    let count = contents.pool.len();
    let mut data = Data::with_mentions(field.data);
    let read = match field.id {
        1 => zone_from(&mut data, count).map(drop),
        3 => aliases_from(&mut data, bytes, &contents.pool).map(drop),
        6 => locations_from(&mut data, count, LocationField::Zone).map(drop),
        7 => locations_from(&mut data, count, LocationField::Zone1970).map(drop),
        _ => Ok(()),
    };
    assert_eq!(read, Ok(()), "the check has read it");
    data.mentions()
}

/// A count of a well-formed file's has a code.
fn code(value: usize) -> Vec<u8> {
    codes::encode_count(value as i64).unwrap_or_default()
}

fn pool_data(bytes: &[u8], contents: &Contents, order: &[usize]) -> Vec<u8> {
    let mut data = code(order.len());
    for &number in order {
        let string = &bytes[contents.pool[number].clone()];
        data.extend(code(string.len()));
        data.extend(string);
    }
    data
}

/// The data with the new number in the place of each mention; "all else is copied".
fn renumbered(data: &[u8], mentions: &[Mention], new_numbers: &[usize]) -> Vec<u8> {
    let mut out = Vec::new();
    let mut copied = 0;
    for mention in mentions {
        out.extend(&data[copied..mention.code.start]);
        out.extend(code(new_numbers[mention.number]));
        copied = mention.code.end;
    }
    out.extend(&data[copied..]);
    out
}
