//! A file in pieces.

use crate::fields::Fields;
use crate::number::{NOT_YET, OUTPUT_SHORT};
use crate::Refusal;

/// How much of a buffer is held, and where the walk over its fields goes on.
#[derive(Clone, Copy, Debug, Default)]
pub struct Receiver {
    /// How many bytes are held.
    pub held: usize,
    /// The place of the first unfinished field.
    pub place: usize,
    before: Option<u8>,
}

impl Receiver {
    /// Adds a piece behind what is held.
    pub fn add(&mut self, buffer: &mut [u8], piece: &[u8]) -> Result<(), Refusal> {
        let room = buffer.get_mut(self.held..).and_then(|free| free.get_mut(..piece.len()));
        room.ok_or(Refusal { number: OUTPUT_SHORT, place: 0 })?.copy_from_slice(piece);
        self.held += piece.len();
        self.walk(&buffer[..self.held]);
        Ok(())
    }

    /// Goes on over the whole fields.
    fn walk(&mut self, held: &[u8]) {
        let fields = if self.place == 0 {
            Fields::new(held, NOT_YET)
        } else {
            Ok(Fields::onward(held, self.place, self.before, NOT_YET))
        };
        let Ok(mut fields) = fields else { return };
        while let Ok(Some(id)) = fields.id() {
            if fields.field(id).is_err() {
                break;
            }
            self.before = Some(id);
        }
        self.place = fields.place();
    }
}

/// The place of the first unfinished field, from the front on.
pub fn unfinished(held: &[u8]) -> usize {
    let mut receiver = Receiver::default();
    receiver.walk(held);
    receiver.place
}
