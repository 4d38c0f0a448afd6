//! Field 0, the string pool.

use crate::codes::Cursor;
use crate::number::TOO_LARGE;

pub const MOST_STRINGS: usize = 8192;

/// The pool's strings, by number.
pub struct Pool<'a> {
    data: &'a [u8],
    /// The place of each string's length.
    starts: Vec<u32>,
}

impl<'a> Pool<'a> {
    pub fn read(data: &'a [u8]) -> Result<Pool<'a>, u8> {
        let mut cursor = Cursor::new(data);
        let count = cursor.count()?;
        if count as usize > MOST_STRINGS {
            return Err(TOO_LARGE);
        }
        let mut at = data.len() - cursor.left();
        // Most pools are ASCII: one look tells for all strings up to this place.
        let mut plain = at + ascii_front(&data[at..]);
        let mut starts = Vec::with_capacity(count as usize);
        let count = count as usize;
        while starts.len() < count {
            // Four strings take at most 512 bytes where these are ASCII, so they need no tests.
            while starts.len() + 4 <= count && at + 512 <= plain {
                let second = at + 1 + usize::from(data[at]);
                let third = second + 1 + usize::from(data[second]);
                let fourth = third + 1 + usize::from(data[third]);
                starts.extend_from_slice(&[at as u32, second as u32, third as u32, fourth as u32]);
                at = fourth + 1 + usize::from(data[fourth]);
            }
            if starts.len() == count {
                break;
            }
            starts.push(at as u32);
            at += match data.get(at) {
                // An ASCII byte is a whole count.
                Some(&length) if at + usize::from(length) < plain => 1 + usize::from(length),
                _ => {
                    let mut cursor = Cursor::new(&data[at..]);
                    cursor.text_behind(plain.saturating_sub(at))?;
                    let length = data.len() - at - cursor.left();
                    // Behind a block that isn't ASCII, others may be: not where the next string's length or its first character isn't.
                    let next = at + length;
                    if next >= plain + BLOCK / 2 && data.get(next..next + 2).is_some_and(<[u8]>::is_ascii) {
                        plain = next + ascii_front(&data[next..]);
                    }
                    length
                }
            };
        }
        Cursor::new(&data[at..]).end()?;
        Ok(Pool { data, starts })
    }

    #[inline]
    pub fn count(&self) -> u32 {
        self.starts.len() as u32
    }

    /// The string of a number below the count.
    #[inline]
    pub fn string(&self, number: u32) -> &'a [u8] {
        match self.data[self.starts[number as usize] as usize..] {
            [length @ 0..0x80, ref rest @ ..] => &rest[..usize::from(length)],
            [low, high, ref rest @ ..] => &rest[..usize::from(low & 0x7f) | usize::from(high) << 7],
            _ => &[],
        }
    }

    /// Whether a string is `text`: the last byte tells strings apart that begin alike.
    pub fn is(&self, number: u32, text: &[u8]) -> bool {
        let string = self.string(number);
        string.len() == text.len() && string.last() == text.last() && string == text
    }
}

const BLOCK: usize = 128;

/// How many bytes at the front are ASCII, found block by block: there may be more.
fn ascii_front(bytes: &[u8]) -> usize {
    bytes.chunks(BLOCK).take_while(|block| block.is_ascii()).map(<[u8]>::len).sum()
}
