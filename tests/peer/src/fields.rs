//! The version and the fields, stepped through in file order.

use crate::codes::{count_length, Cursor};
use crate::number::{BAD_DATA, FIELD_ORDER, FIRST_FIELD, TOO_LARGE, WRONG_VERSION};
use crate::Refusal;

/// The largest place just past a field.
pub const LAST_END: usize = 4_194_304;

/// One whole field.
#[derive(Clone, Copy)]
pub struct Field<'a> {
    /// The place of the ID byte.
    pub place: usize,
    pub data: &'a [u8],
    /// The place just past the data.
    pub end: usize,
}

impl Field<'_> {
    pub fn refuse(&self, number: u8) -> Refusal {
        Refusal { number, place: self.place }
    }

    /// Whether the size takes more bytes than it needs.
    pub fn is_padded(&self) -> bool {
        self.end - self.place > 1 + count_length(self.data.len() as u32) + self.data.len()
    }
}

pub struct Fields<'a> {
    bytes: &'a [u8],
    at: usize,
    before: Option<u8>,
    /// The number for bytes that end in the version or in a field.
    cut: u8,
}

impl<'a> Fields<'a> {
    pub fn new(bytes: &'a [u8], cut: u8) -> Result<Fields<'a>, Refusal> {
        match bytes {
            [0, 0, 0, 0, ..] => Ok(Fields { bytes, at: 4, before: None, cut }),
            [_, _, _, _, ..] => Err(Refusal { number: WRONG_VERSION, place: 0 }),
            _ => Err(Refusal { number: cut, place: 0 }),
        }
    }

    /// From the place of a field on, where the ID of the one before it is known.
    pub fn onward(bytes: &'a [u8], at: usize, before: Option<u8>, cut: u8) -> Fields<'a> {
        Fields { bytes, at, before, cut }
    }

    /// The place of the next field.
    pub fn place(&self) -> usize {
        self.at
    }

    fn refuse(&self, number: u8) -> Refusal {
        Refusal { number, place: self.at }
    }

    /// The first field, which is field 0; none where the version is all.
    pub fn first(&mut self) -> Result<Option<Field<'a>>, Refusal> {
        self.id()?.map(|id| self.field(id)).transpose()
    }

    /// The next field's ID, judged; none at the bytes' end.
    #[inline]
    pub fn id(&self) -> Result<Option<u8>, Refusal> {
        let Some(&id) = self.bytes.get(self.at) else {
            return Ok(None);
        };
        match self.before {
            None if id != 0 => Err(self.refuse(FIRST_FIELD)),
            Some(before) if id < before || id == before && matches!(id, 0 | 2..=7) => Err(self.refuse(FIELD_ORDER)),
            _ => Ok(Some(id)),
        }
    }

    /// Steps over the next field, whose ID was judged.
    #[inline]
    pub fn field(&mut self, id: u8) -> Result<Field<'a>, Refusal> {
        let mut cursor = Cursor::new(&self.bytes[self.at + 1..]);
        let size = cursor.size().map_err(|number| self.refuse(if number == BAD_DATA { self.cut } else { number }))?;
        let start = self.bytes.len() - cursor.left();
        let end = start + size as usize;
        if end > LAST_END {
            return Err(self.refuse(TOO_LARGE));
        }
        let data = self.bytes.get(start..end).ok_or(self.refuse(self.cut))?;
        let place = std::mem::replace(&mut self.at, end);
        self.before = Some(id);
        Ok(Field { place, data, end })
    }

    /// All fields with their IDs.
    pub fn all(mut self) -> impl Iterator<Item = Result<(u8, Field<'a>), Refusal>> {
        std::iter::from_fn(move || {
            let id = self.id().transpose()?;
            Some(id.and_then(|id| Ok((id, self.field(id)?))))
        })
    }
}
