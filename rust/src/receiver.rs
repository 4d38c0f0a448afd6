//! A file that arrives in pieces.

use crate::error::decode;
use crate::local::instants;
use crate::locations::located;
use crate::{answer, checked, ffi, part, text, Answer, Edition, Error, LocalInstants, Location, LocationField, Mark};

/// A receiver of a file's bytes in pieces, over a lent buffer.
///
/// It holds the pieces that it took since the last [`reset`](Receiver::reset), end to end at the buffer's front. Every
/// question gets what it would on the held bytes; what one is told that expects more, save [`Number::NotYet`], stays as it
/// is until a reset.
///
/// ```
/// use nzd::{Edition, Mark, Number, Receiver};
///
/// let mut buffer = [0; 64];
/// let mut receiver = Receiver::new(&mut buffer);
/// receiver.add(b"\0\0\0\0\x00\x05\x01\x03UT")?;
/// // The string pool, at place 4, isn't whole yet.
/// assert_eq!(receiver.place(), 4);
/// assert_eq!(receiver.ask("UTC", 0, Mark::MoreMayCome, Edition::Two).unwrap_err().number, Number::NotYet);
///
/// receiver.add(b"C\x01\x04\x00\x01\x30\x00")?;
/// assert_eq!(receiver.ask("UTC", 0, Mark::MoreMayCome, Edition::Two)?.name_str(), "UTC");
/// assert_eq!((receiver.held().len(), receiver.place()), (17, 17));
/// # Ok::<(), nzd::Error>(())
/// ```
///
/// [`Number::NotYet`]: crate::Number::NotYet
#[derive(Debug)]
pub struct Receiver<'buf> {
    buffer: &'buf mut [u8],
    state: ffi::Receiver,
}

impl<'buf> Receiver<'buf> {
    /// A new receiver, which holds nothing.
    pub fn new(buffer: &'buf mut [u8]) -> Receiver<'buf> {
        Receiver { buffer, state: ffi::Receiver::default() }
    }

    /// Adds a piece, which may be empty, behind what is held.
    ///
    /// Takes time for the piece and for the fields that it completes only.
    ///
    /// # Errors
    ///
    /// [`Number::OutputTooShort`](crate::Number::OutputTooShort) if held and new bytes are more than the buffer has;
    /// nothing of the piece is kept then.
    #[inline]
    pub fn add(&mut self, piece: &[u8]) -> Result<(), Error> {
        decode(ffi::receiver_add(&mut self.state, self.buffer, piece)).map(|_| ())
    }

    /// Holds nothing from here on. The buffer's bytes stay as they are.
    pub fn reset(&mut self) {
        ffi::receiver_reset(&mut self.state);
    }

    /// The held bytes.
    pub fn held(&self) -> &[u8] {
        &self.buffer[..self.state.held]
    }

    /// The place of the first field that isn't whole: its ID byte, or how many bytes are held if all are whole. 0 in the
    /// version, or if that isn't 0. A field that 4 to 7 refuse by its ID or size is never whole; its contents play no
    /// part.
    pub fn place(&self) -> usize {
        self.state.place
    }

    /// [`ask`](crate::ask) of the held bytes.
    pub fn ask(&self, id: impl AsRef<[u8]>, ticks: i64, mark: Mark, edition: Edition) -> Result<Answer<'_>, Error> {
        let (more, first, mut out) = (mark == Mark::MoreMayCome, edition == Edition::One, [0; 7]);
        decode(ffi::receiver_ask(self.state, self.buffer, id.as_ref(), ticks, more, first, &mut out))?;
        Ok(answer(self.buffer, out))
    }

    /// [`ask_plain`](crate::ask_plain) of the held bytes.
    pub fn ask_plain(&self, id: impl AsRef<[u8]>, ticks: i64, edition: Edition) -> Result<Answer<'_>, Error> {
        let (first, mut out) = (edition == Edition::One, [0; 7]);
        decode(ffi::receiver_ask_plain(self.state, self.buffer, id.as_ref(), ticks, first, &mut out))?;
        Ok(answer(self.buffer, out))
    }

    /// [`ask_named`](crate::ask_named) of the held bytes.
    pub fn ask_named(
        &self,
        name: impl AsRef<[u8]>,
        ticks: i64,
        mark: Mark,
        edition: Edition,
    ) -> Result<Answer<'_>, Error> {
        let (more, first, mut out) = (mark == Mark::MoreMayCome, edition == Edition::One, [0; 7]);
        decode(ffi::receiver_ask_named(self.state, self.buffer, name.as_ref(), ticks, more, first, &mut out))?;
        Ok(answer(self.buffer, out))
    }

    /// [`map_local`](crate::map_local) of the held bytes, which are all there is.
    pub fn map_local(&self, id: impl AsRef<[u8]>, local: i64) -> Result<LocalInstants, Error> {
        let mut out = [0; 3];
        instants(ffi::receiver_map_local(self.state, self.buffer, id.as_ref(), local, &mut out), out)
    }

    /// [`location`](crate::location) of the held bytes, which are all there is.
    pub fn location(&self, field: LocationField, number: u64) -> Result<Location<'_>, Error> {
        located(self.held(), field, |id, pin, out| {
            ffi::receiver_location(self.state, self.buffer, id, number, pin, out)
        })
    }

    /// [`check`](crate::check) of the held bytes, which are all there is.
    pub fn check(&self) -> Result<(), Error> {
        // What is held never passes the buffer, so 15 is about the output.
        checked(self.normalize(&mut []))
    }

    /// [`version_text`](crate::version_text) of the held bytes, which are all there is.
    pub fn version_text(&self) -> Result<&str, Error> {
        let mut out = [0; 2];
        decode(ffi::receiver_version_text(self.state, self.buffer, &mut out))?;
        let [place, length] = out;
        Ok(text(part(self.buffer, place, length)))
    }

    /// [`normalize`](crate::normalize) of the held bytes, which are all there is.
    pub fn normalize(&self, out: &mut [u8]) -> Result<usize, Error> {
        decode(ffi::receiver_normalize(self.state, self.buffer, out))
    }
}
