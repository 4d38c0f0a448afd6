//! Lent output.

use crate::codes::Form;
use crate::number::OUTPUT_SHORT;
use crate::Refusal;

/// For every output, list or table that is too short.
pub const TOO_SHORT: Refusal = Refusal { number: OUTPUT_SHORT, place: 0 };

/// The output and how much of it is written.
pub struct Write<'a> {
    pub out: &'a mut [u8],
    pub at: usize,
}

impl Write<'_> {
    #[inline]
    pub fn byte(&mut self, byte: u8) {
        self.out[self.at] = byte;
        self.at += 1;
    }

    #[inline]
    pub fn bytes(&mut self, bytes: &[u8]) {
        // Three at once, the details of an interval, take no call.
        if let &[one, two, three] = bytes {
            self.out[self.at..][..3].copy_from_slice(&[one, two, three]);
            self.at += 3;
            return;
        }
        self.out[self.at..][..bytes.len()].copy_from_slice(bytes);
        self.at += bytes.len();
    }

    #[inline]
    pub fn count(&mut self, mut count: u32) {
        while count >= 0x80 {
            self.byte(count as u8 | 0x80);
            count >>= 7;
        }
        self.byte(count as u8);
    }

    #[inline]
    pub fn form(&mut self, form: Form) {
        match form {
            Form::Count(count) => self.count(count),
            Form::Ticks(ticks) => {
                self.byte(2);
                self.bytes(&ticks.to_be_bytes());
            }
        }
    }
}
