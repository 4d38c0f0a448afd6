//! A receiver of bytes in pieces: its state and the buffer after each call, and every question of what it holds, by the C
//! functions and by the wrapper.

use crate::lent;
use crate::local;
use crate::locations;
use crate::questions::{numbers_of, wrapped_numbers, Question, Way, EDITIONS};
use crate::tally::{Difference, Outcome, Tally};
use crate::whole::{error_pair, pair};
use nzd::ffi;
use second_reader::generate::Prng;
use second_reader::{Edition, Mark, Refusal};

/// What a buffer holds before the first call, and what stands beside it.
const FOUND: u8 = 0xa7;
const MARGIN: usize = 3;
/// Files up to this length come byte by byte too.
const BYTE_BY_BYTE: usize = 200;
/// The place just past a field is at most this.
const LARGEST: usize = 4_194_304;

/// Held length and place.
type State = (usize, usize);

/// One receiver by the C functions, one by the wrapper and one of the second reader, each over a buffer of its own.
struct Receivers<'a> {
    ours: ffi::Receiver,
    lent: Vec<u8>,
    wrapped: nzd::Receiver<'a>,
    theirs: second_reader::Receiver,
    buffer: Vec<u8>,
    /// What the calls were, for people.
    calls: String,
}

impl<'a> Receivers<'a> {
    /// Over buffers of the same length.
    fn new(wrapped: &'a mut [u8]) -> Receivers<'a> {
        wrapped.fill(FOUND);
        Receivers {
            ours: ffi::Receiver::default(),
            lent: vec![FOUND; wrapped.len() + 2 * MARGIN],
            buffer: vec![FOUND; wrapped.len()],
            wrapped: nzd::Receiver::new(wrapped),
            theirs: second_reader::Receiver::new(),
            calls: String::new(),
        }
    }

    fn room(&self) -> usize {
        self.buffer.len()
    }

    /// The buffer of the C functions.
    fn lent(&self) -> &[u8] {
        &self.lent[MARGIN..][..self.buffer.len()]
    }

    fn reset(&mut self, tally: &mut Tally) -> Result<(), Difference> {
        self.calls += " reset";
        ffi::receiver_reset(&mut self.ours);
        self.wrapped.reset();
        self.theirs.reset();
        self.same(tally, Ok(()), Ok(()), Ok(()))
    }

    fn add(&mut self, tally: &mut Tally, piece: &[u8]) -> Result<(), Difference> {
        self.calls += &format!(" {}", piece.len());
        let room = self.room();
        let ours = lent::nothing(piece, ffi::receiver_add(&mut self.ours, &mut self.lent[MARGIN..][..room], piece))?;
        let wrapped = self.wrapped.add(piece).map_err(error_pair);
        let theirs = self.theirs.add(&mut self.buffer, piece).map_err(pair);
        self.same(tally, ours, wrapped, theirs)
    }

    /// Compares what a call gave and what it left.
    fn same(
        &self,
        tally: &mut Tally,
        ours: Outcome<()>,
        wrapped: Outcome<()>,
        theirs: Outcome<()>,
    ) -> Result<(), Difference> {
        let what = format!("pieces of{} in room for {}", self.calls, self.room());
        let held = &self.buffer[..self.theirs.held];
        let state: State = (self.theirs.held, self.theirs.place);
        tally.same(&what, held, ours.map(|()| (self.ours.held, self.ours.place)), theirs.map(|()| state))?;
        let place = self.wrapped.place();
        tally.same(&what, held, wrapped.map(|()| (self.wrapped.held().len(), place)), theirs.map(|()| state))?;
        // A refusal changes nothing either.
        let beside = |bytes: &[u8]| bytes.iter().all(|byte| *byte == FOUND);
        let (before, behind) = (&self.lent[..MARGIN], &self.lent[MARGIN + self.room()..]);
        if (self.ours.held, self.ours.place) != state
            || self.lent() != self.buffer
            || self.wrapped.held() != held
            || !beside(before)
            || !beside(behind)
        {
            return Err(Difference::new(format!("{what} left {:?} or another buffer", self.ours), held));
        }
        Ok(())
    }

    /// Every question of what is held.
    fn ask(&self, tally: &mut Tally, (id, ticks): &Question, local: i64) -> Result<(), Difference> {
        let (r, lent, buffer, theirs) = (self.ours, self.lent(), &self.buffer, &self.theirs);
        let ours = (r, lent);
        let held = &buffer[..theirs.held.min(buffer.len())];
        for (edition, their_edition) in EDITIONS {
            for way in [Way::More, Way::All, Way::Plain, Way::NamedMore, Way::NamedAll] {
                let said = theirs
                    .ask(buffer, |held| match way {
                        Way::More => second_reader::ask(held, id, *ticks, Mark::MoreMayCome, their_edition),
                        Way::All => second_reader::ask(held, id, *ticks, Mark::ThisIsAll, their_edition),
                        Way::Plain => second_reader::ask_plain(held, id, *ticks, their_edition),
                        Way::NamedMore => second_reader::ask_named(held, id, *ticks, Mark::MoreMayCome, their_edition),
                        Way::NamedAll => second_reader::ask_named(held, id, *ticks, Mark::ThisIsAll, their_edition),
                    })
                    .map(|answer| numbers_of(&answer))
                    .map_err(pair);
                let name = id.escape_ascii().to_string();
                let what = format!("a receiver of{}: {name:?} at {ticks}, {way:?}, edition {edition:?}", self.calls);
                let first = edition == nzd::Edition::One;
                tally.same(&what, held, ask_ours(ours, id, *ticks, way, first)?, said)?;
                let wrapped = match way {
                    Way::More => self.wrapped.ask(id, *ticks, nzd::Mark::MoreMayCome, edition),
                    Way::All => self.wrapped.ask(id, *ticks, nzd::Mark::ThisIsAll, edition),
                    Way::Plain => self.wrapped.ask_plain(id, *ticks, edition),
                    Way::NamedMore => self.wrapped.ask_named(id, *ticks, nzd::Mark::MoreMayCome, edition),
                    Way::NamedAll => self.wrapped.ask_named(id, *ticks, nzd::Mark::ThisIsAll, edition),
                };
                tally.same(&what, held, wrapped_numbers(self.wrapped.held(), wrapped), said)?;
            }
        }
        let said = theirs
            .ask(buffer, |held| second_reader::map_local(held, id, local))
            .map(|found| [found.count as i64, found.earliest, found.latest])
            .map_err(pair);
        let what = format!("a receiver of{}: the local time {local}", self.calls);
        tally.same(&what, held, lent::numbers(lent, |out| ffi::receiver_map_local(r, lent, id, local, out))?, said)?;
        let wrapped = self.wrapped.map_local(id, local).map_err(error_pair).and_then(local::numbers_of);
        tally.same(&what, held, wrapped, said)?;
        self.whole(tally, held)
    }

    /// Version text, locations, and normalizing of what is held, without room too.
    fn whole(&self, tally: &mut Tally, held: &[u8]) -> Result<(), Difference> {
        let (r, lent, buffer, theirs) = (self.ours, self.lent(), &self.buffer, &self.theirs);
        let what = |job: &str| format!("a receiver of{}: {job}", self.calls);
        let said = theirs.ask(buffer, |held| second_reader::file::read_file(held).map(|_| ())).map_err(pair);
        tally.same(&what("check"), held, self.wrapped.check().map_err(error_pair), said)?;
        let said = theirs.ask(buffer, second_reader::version_text).map_err(pair);
        let numbers = said.clone().map(|part| [part.start as i64, part.len() as i64]);
        let ours = lent::numbers(held, |out| ffi::receiver_version_text(r, lent, out))?;
        tally.same(&what("version text"), held, ours, numbers)?;
        let wrapped = self.wrapped.version_text().map_err(error_pair).map(str::as_bytes);
        tally.same(&what("version text"), held, wrapped, said.map(|part| &held[part]))?;
        locations::of_receiver(
            tally,
            &what("location"),
            held,
            |field| theirs.ask(buffer, |held| second_reader::locations::location(held, field, 0)),
            |field, pin, out| ffi::receiver_location(r, lent, field, 0, pin, out),
            &self.wrapped,
        )?;
        for room in [held.len(), held.len() / 2, 0] {
            let normalized = |held: &[u8]| -> Result<Vec<u8>, Refusal> {
                let mut out = vec![0; room];
                second_reader::normalize(held, &mut out).map(|length| out[..length].to_vec())
            };
            let said = theirs.ask(buffer, normalized).map_err(pair);
            let ours = lent::written(room, held, |out| ffi::receiver_normalize(r, lent, out))?;
            tally.same(&what("normalize"), held, ours, said.clone())?;
            let mut out = vec![0; room];
            let wrapped = self.wrapped.normalize(&mut out).map_err(error_pair).map(|length| out[..length].to_vec());
            tally.same(&what("normalize"), held, wrapped, said)?;
        }
        Ok(())
    }
}

fn ask_ours(
    (r, buffer): (ffi::Receiver, &[u8]),
    id: &[u8],
    ticks: i64,
    way: Way,
    first_edition: bool,
) -> Result<Outcome<[i64; 7]>, Difference> {
    lent::numbers(buffer, |out| match way {
        Way::More => ffi::receiver_ask(r, buffer, id, ticks, true, first_edition, out),
        Way::All => ffi::receiver_ask(r, buffer, id, ticks, false, first_edition, out),
        Way::Plain => ffi::receiver_ask_plain(r, buffer, id, ticks, first_edition, out),
        Way::NamedMore => ffi::receiver_ask_named(r, buffer, id, ticks, true, first_edition, out),
        Way::NamedAll => ffi::receiver_ask_named(r, buffer, id, ticks, false, first_edition, out),
    })
}

/// A file in pieces: cut anywhere, with empty pieces, pieces that don't fit and resets between, and questions on the way;
/// a short one byte by byte too.
pub fn pieces(
    tally: &mut Tally,
    file: &[u8],
    asked: &[Question],
    locals: &[Question],
    prng: &mut Prng,
) -> Result<(), Difference> {
    let room = if prng.one_in(8) { prng.below(file.len() + 1) } else { file.len() + prng.below(4) };
    let mut buffer = vec![0; room];
    let mut receivers = Receivers::new(&mut buffer);
    let mut left = file;
    for _ in 0..2 + prng.below(12) {
        let unheld = room - receivers.theirs.held;
        match prng.below(12) {
            0 => {
                receivers.reset(tally)?;
                left = file;
            }
            1 => receivers.add(tally, &vec![1; unheld + 1 + prng.below(3)])?,
            2 => receivers.add(tally, &[])?,
            _ => {
                let most = if prng.one_in(2) { left.len().min(9) } else { left.len() };
                let (piece, rest) = left.split_at(prng.below(most + 1));
                receivers.add(tally, piece)?;
                left = rest;
            }
        }
        if prng.one_in(4) {
            receivers.ask(tally, prng.pick(asked), prng.pick(locals).1)?;
        }
    }
    receivers.add(tally, left)?;
    receivers.ask(tally, prng.pick(asked), prng.pick(locals).1)?;
    if file.len() <= BYTE_BY_BYTE {
        receivers.reset(tally)?;
        for byte in file {
            receivers.add(tally, &[*byte])?;
        }
    }
    by_hand(tally, file, prng.pick(asked), prng)
}

/// States that no call made: one that holds more than the buffer gets 15 first, and any other the questions of its front.
/// A piece goes by the held length alone.
fn by_hand(tally: &mut Tally, file: &[u8], (id, ticks): &Question, prng: &mut Prng) -> Result<(), Difference> {
    let any = |prng: &mut Prng| match prng.below(3) {
        0 => usize::MAX - prng.below(3),
        1 => prng.below(2 * file.len() + 2),
        _ => prng.next_u64() as usize,
    };
    let r = ffi::Receiver { held: any(prng), place: any(prng), prev: any(prng) };
    let theirs = second_reader::Receiver { held: r.held, place: r.place };
    let what = format!("the state {r:?}");
    for ticks in [*ticks, i64::MAX] {
        let said = theirs.ask(file, |held| second_reader::ask_plain(held, id, ticks, Edition::Two)).map_err(pair);
        let ours = ask_ours((r, file), id, ticks, Way::Plain, false)?;
        tally.same(&what, file, ours, said.map(|answer| numbers_of(&answer)))?;
    }
    let said = theirs.ask(file, second_reader::version_text).map_err(pair);
    let ours = lent::numbers(file, |out| ffi::receiver_version_text(r, file, out))?;
    tally.same(&what, file, ours, said.map(|part| [part.start as i64, part.len() as i64]))?;
    let (mut after, mut added, mut buffer) = (r, theirs, file.to_vec());
    let mut lent = file.to_vec();
    let count = prng.below(3);
    let piece = prng.bytes(count);
    let said = added.add(&mut buffer, &piece).map_err(pair);
    let ours = lent::nothing(file, ffi::receiver_add(&mut after, &mut lent, &piece))?;
    tally.same(&what, file, ours, said)?;
    if after.held != added.held || lent != buffer || (ours.is_err() && after != r) {
        return Err(Difference::new(format!("{what} became {after:?}, or another buffer"), file));
    }
    Ok(())
}

/// The worked values: what fits, a buffer of length 0, and the largest place.
pub fn worked(tally: &mut Tally) -> Result<(), Difference> {
    let (asked, local) = ((b"A".to_vec(), 0), 0);
    for (room, pieces) in [(4, [4, 0, 1, 0]), (4, [2, 3, 2, 1]), (0, [0, 1, 0, 2]), (3, [4, 3, 0, 1])] {
        let mut buffer = vec![0; room];
        let mut receivers = Receivers::new(&mut buffer);
        for length in pieces {
            receivers.add(tally, &vec![0; length])?;
            receivers.ask(tally, &asked, local)?;
            receivers.ask(tally, &(asked.0.clone(), i64::MAX), local)?;
        }
    }
    // A field 8 behind an empty pool that ends at the largest place, or just past it, and what follows.
    for past in [0, 1] {
        let size = LARGEST - 12 + past;
        let head = [0, 0, 0, 0, 0, 1, 0, 8, size as u8 | 0x80, (size >> 7) as u8 | 0x80, (size >> 14) as u8 | 0x80, 1];
        let mut buffer = vec![0; LARGEST + 8];
        let mut receivers = Receivers::new(&mut buffer);
        receivers.add(tally, &head)?;
        receivers.add(tally, &vec![0; size - 1])?;
        for piece in [&[0][..], &[200], &[0x80], &[0]] {
            receivers.add(tally, piece)?;
        }
    }
    Ok(())
}
