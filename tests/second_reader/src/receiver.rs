//! 02, Ask 9: bytes in pieces.

use crate::file::{Fields, Mark};
use crate::number::{Number, Refusal};

/// "a receiver changed in place as each piece arrives, over a buffer that we lend and nobody else writes to"
#[derive(Clone, Copy, Debug, Default, PartialEq, Eq)]
pub struct Receiver {
    /// "how many bytes are held"
    pub held: usize,
    /// "the place of the first unfinished field"
    pub place: usize,
}

impl Receiver {
    /// "a new receiver is as after" a reset.
    pub fn new() -> Receiver {
        Receiver::default()
    }

    /// "A reset empties it, not the buffer".
    pub fn reset(&mut self) {
        *self = Receiver::new();
    }

    /// "A piece is refused with 15, and nothing of it kept, exactly if held and new bytes pass the buffer's length; any other
    /// is added behind what is held". The place is found by walking all that is held anew.
    pub fn add(&mut self, buffer: &mut [u8], piece: &[u8]) -> Result<(), Refusal> {
        let fits = self.held.checked_add(piece.len()).filter(|&held| held <= buffer.len());
        let held = fits.ok_or(Number::OutputShort.at(0))?;
        buffer[self.held..held].copy_from_slice(piece);
        *self = Receiver { held, place: unfinished(&buffer[..held]) };
        Ok(())
    }

    /// "Every question gets what it would on the held bytes"; "a question on one that holds more than the buffer gets 15
    /// first."
    pub fn ask<T>(&self, buffer: &[u8], question: impl Fn(&[u8]) -> Result<T, Refusal>) -> Result<T, Refusal> {
        question(buffer.get(..self.held).ok_or(Number::OutputShort.at(0))?)
    }
}

/// "the place of the first unfinished field (0 in the version, or after 3; the held length if all are whole; where 4 to 7
/// at an ID or size stops the walk, that ID byte for good)". It is the check's walk without its contents (reading 9.2).
pub fn unfinished(held: &[u8]) -> usize {
    let Ok(mut fields) = Fields::new(held, Mark::MoreMayCome) else {
        return 0;
    };
    loop {
        let place = fields.place();
        match fields.id() {
            Ok(Some(id)) if fields.field(id).is_ok() => {}
            // The bytes' end, a field that isn't whole, or one that stops the walk.
            _ => return place,
        }
    }
}
