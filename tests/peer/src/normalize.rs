//! The check of a whole file, and its preferred form, in one pass.
//!
//! A preferred transition is shorter than every other form of it, so a zone whose length stays is preferred already.
//! Only zones that change are read a second time; all else is copied, but for a size that is padded.

use crate::codes::{count_length, Form};
use crate::fields::Field;
use crate::whole::{check, walk, VisitFields, ZoneData};
use crate::write::{Write, TOO_SHORT};
use crate::zone::{read_rest, Visit};
use crate::Refusal;

/// A field that isn't in preferred form.
struct Change<'a> {
    field: Field<'a>,
    /// A zone of which a transition changes.
    zone: Option<ZoneData<'a>>,
    /// The length of the preferred data.
    length: usize,
}

/// Checks a file, writes its preferred form to the front of `out`, and gives the length of that.
pub fn normalize(file: &[u8], out: &mut [u8]) -> Result<usize, Refusal> {
    // No file is that short: the check alone.
    if out.len() < 4 {
        check(file)?;
        return Err(TOO_SHORT);
    }
    let mut found = Changes { list: Vec::new(), length: file.len(), saved: 0 };
    walk(file, &mut found)?;
    if out.len() < found.length {
        return Err(TOO_SHORT);
    }
    let mut write = Write { out, at: 0 };
    let mut copied = 0;
    for Change { field, zone, length } in found.list {
        write.bytes(&file[copied..=field.place]);
        write.count(length as u32);
        let mut rewrite = Rewrite { write: &mut write, data: field.data, copied: 0 };
        if let Some(zone) = zone {
            read_rest(zone.rest, zone.id, zone.pool_count, &mut rewrite).map_err(|number| field.refuse(number))?;
        }
        let left = rewrite.copied;
        write.bytes(&field.data[left..]);
        copied = field.end;
    }
    write.bytes(&file[copied..]);
    Ok(write.at)
}

/// The preferred form of a transition, if it is shorter than its code of `length` bytes. Marks and hours, which have up
/// to three bytes, are always preferred.
#[inline]
fn shorter(value: i64, previous: i64, length: usize) -> Option<Form> {
    if length <= 3 {
        return None;
    }
    Some(Form::of(value, previous)).filter(|form| form.length() < length)
}

/// The fields that change.
struct Changes<'a> {
    list: Vec<Change<'a>>,
    /// The length of the file with these changes.
    length: usize,
    /// How many bytes the preferred forms save in the field that is read.
    saved: usize,
}

impl Visit for Changes<'_> {
    #[inline]
    fn transition(&mut self, value: i64, previous: i64, before: usize, after: usize) {
        if let Some(form) = shorter(value, previous, before - after) {
            self.saved += before - after - form.length();
        }
    }
}

impl<'a> VisitFields<'a> for Changes<'a> {
    #[inline]
    fn field(&mut self, _id: u8, field: &Field<'a>, zone: Option<ZoneData<'a>>) {
        let saved = std::mem::take(&mut self.saved);
        if saved > 0 || field.is_padded() {
            let change = Change { field: *field, zone: zone.filter(|_| saved > 0), length: field.data.len() - saved };
            self.length -= field.end - field.place;
            self.length += 1 + count_length(change.length as u32) + change.length;
            self.list.push(change);
        }
    }
}

/// Writes a zone's data up to and with the last transition that changes.
struct Rewrite<'a, 'b> {
    write: &'a mut Write<'b>,
    data: &'a [u8],
    copied: usize,
}

impl Visit for Rewrite<'_, '_> {
    #[inline]
    fn transition(&mut self, value: i64, previous: i64, before: usize, after: usize) {
        if let Some(form) = shorter(value, previous, before - after) {
            self.write.bytes(&self.data[self.copied..self.data.len() - before]);
            self.write.form(form);
            self.copied = self.data.len() - after;
        }
    }
}
