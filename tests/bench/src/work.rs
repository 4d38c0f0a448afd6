//! What is measured: normalizing, with room and without, a question by ID or by name, all intervals of a zone, a local time, a location, all
//! countries of a field, a file in pieces, a found zone or a tool, by the library and by the peer; and the floor, which memory sets.

use crate::found::Found;
use crate::measure::Piece;
use crate::tools::Tool;
use nzd::{Bound, Edition, LocationField, Mark};
use std::hint::black_box;

/// One kind of work on a file.
pub enum Work {
    /// With an output as long as the file, or of length 0, which is the check alone.
    Normalize {
        room: bool,
    },
    Ask {
        id: Vec<u8>,
        ticks: i64,
        edition: Edition,
    },
    AskNamed {
        name: Vec<u8>,
        ticks: i64,
        edition: Edition,
    },
    /// On a zone that was found before, beside the peer's plain value or the one that trusts the bytes.
    Found {
        work: Found,
        trusts: bool,
    },
    /// All intervals of a zone from year 1 on, each asked for at the end of the one before.
    Intervals {
        id: Vec<u8>,
    },
    /// A name over an older dictionary.
    AskNamedOld {
        older: Vec<u8>,
        name: Vec<u8>,
        ticks: i64,
    },
    /// The older dictionary alone, without the file.
    OldDictionary {
        older: Vec<u8>,
    },
    MapLocal {
        id: Vec<u8>,
        local: i64,
    },
    /// A location by number, in field 6 or 7.
    Location {
        field: u8,
        number: u64,
    },
    /// All countries of all locations of a field.
    Countries {
        field: u8,
    },
    /// The whole file, in pieces of so many bytes.
    Receive {
        size: usize,
    },
    Tool(Tool),
}

/// What a question gives: number and place of a refusal, or the values of an answer.
pub type Said<'a> = Result<([i64; 3], &'a [u8], i64, i64), (u8, usize)>;

pub fn pair(error: nzd::Error) -> (u8, usize) {
    (error.number.value(), error.place)
}

pub fn peer_pair(refusal: peer::Refusal) -> (u8, usize) {
    (refusal.number, refusal.place)
}

pub fn said(answer: Result<nzd::Answer<'_>, nzd::Error>) -> Said<'_> {
    answer
        .map(|a| ([a.wall_offset_ms, a.savings_ms, a.standard_offset_ms], a.name, ticks_of(a.start), ticks_of(a.end)))
        .map_err(pair)
}

pub fn peer_said(answer: Result<peer::Answer<'_>, peer::Refusal>) -> Said<'_> {
    answer.map(|a| ([a.wall_offset_ms, a.savings_ms, a.standard_offset_ms], a.name, a.start, a.end)).map_err(peer_pair)
}

/// What a local time gives: number and place of a refusal, or how many instants read as it, the earliest and the latest.
pub type Mapped = Result<(usize, i64, i64), (u8, usize)>;

pub fn mapped(found: nzd::LocalInstants) -> Mapped {
    match (found.earliest(), found.latest()) {
        (Some(earliest), Some(latest)) => Ok((found.count(), earliest, latest)),
        _ => Err((17, 0)),
    }
}

pub fn peer_mapped(found: Result<peer::LocalInstants, peer::Refusal>) -> Mapped {
    found.map(|found| (found.count as usize, found.earliest, found.latest)).map_err(peer_pair)
}

fn ticks_of(bound: Bound) -> i64 {
    match bound {
        Bound::StartOfTime => i64::MIN,
        Bound::At(ticks) => ticks,
        Bound::EndOfTime => i64::MAX,
    }
}

impl Work {
    /// On a found zone, beside the peer's plain value.
    pub fn found(work: Found) -> Work {
        Work::Found { work, trusts: false }
    }

    /// The same beside the peer that trusts the bytes, where a zone was found before.
    pub fn trusting(self) -> Option<Work> {
        match self {
            Work::Found { work, .. } => Some(Work::Found { work, trusts: true }),
            _ => None,
        }
    }

    /// Whether both give the same on a file.
    pub fn agrees(&self, file: &[u8]) -> bool {
        match self {
            Work::Ask { id, ticks, edition } => {
                let ours = said(nzd::ask(file, id, *ticks, Mark::ThisIsAll, *edition));
                ours == peer_said(peer::ask(file, id, *ticks, false, *edition == Edition::One))
            }
            Work::AskNamed { name, ticks, edition } => {
                let ours = said(nzd::ask_named(file, name, *ticks, Mark::ThisIsAll, *edition));
                ours == peer_said(peer::ask_named(file, name, *ticks, false, *edition == Edition::One))
            }
            Work::Found { work, trusts } => work.agrees(file, *trusts),
            Work::Intervals { id } => intervals(file, id) == peer_intervals(file, id),
            Work::AskNamedOld { older, name, ticks } => {
                let ours = said(nzd::ask_named_old(file, older, name, *ticks, Edition::Two));
                ours == peer_said(peer::ask_named_old(file, older, name, *ticks, false))
            }
            Work::OldDictionary { older } => {
                let ours = nzd::older::read_dictionary(older).map(|(entries, length)| (entries.len(), length));
                let theirs = peer::old_dictionary(older).map(|(entries, length)| (entries.len(), length));
                ours.map_err(|error| error.number.value()) == theirs
            }
            Work::MapLocal { id, local } => {
                let ours = nzd::map_local(file, id, *local).map_err(pair).and_then(mapped);
                ours == peer_mapped(peer::map_local(file, id, *local))
            }
            Work::Location { field, number } => ours_at(file, *field, *number) == theirs_at(file, *field, *number),
            Work::Countries { field } => countries(file, *field) == peer_countries(file, *field),
            Work::Normalize { room } => {
                let (mut ours, mut theirs) = (output(file, *room), output(file, *room));
                let given = nzd::normalize(file, &mut ours).map_err(pair);
                given == peer::normalize(file, &mut theirs).map_err(peer_pair) && ours == theirs
            }
            Work::Receive { size } => {
                let (mut ours, mut theirs) = (vec![0; file.len()], vec![0; file.len()]);
                received(file, *size, &mut ours) == received_by_peer(file, *size, &mut theirs) && ours == theirs
            }
            Work::Tool(tool) => tool.agrees(file),
        }
    }

    /// The work done by the library, and by the peer.
    pub fn pieces<'a>(&'a self, file: &'a [u8]) -> [Piece<'a>; 2] {
        match self {
            Work::Ask { id, ticks, edition } => {
                let first = *edition == Edition::One;
                [
                    piece(move || nzd::ask(black_box(file), black_box(id), *ticks, Mark::ThisIsAll, *edition)),
                    piece(move || peer::ask(black_box(file), black_box(id), *ticks, false, first)),
                ]
            }
            Work::AskNamed { name, ticks, edition } => {
                let first = *edition == Edition::One;
                [
                    piece(move || nzd::ask_named(black_box(file), black_box(name), *ticks, Mark::ThisIsAll, *edition)),
                    piece(move || peer::ask_named(black_box(file), black_box(name), *ticks, false, first)),
                ]
            }
            Work::Found { work, trusts } => work.pieces(file, *trusts),
            Work::Intervals { id } => [
                piece(move || intervals(black_box(file), black_box(id))),
                piece(move || peer_intervals(black_box(file), black_box(id))),
            ],
            Work::AskNamedOld { older, name, ticks } => [
                piece(move || {
                    nzd::ask_named_old(black_box(file), black_box(older), black_box(name), *ticks, Edition::Two)
                }),
                piece(move || peer::ask_named_old(black_box(file), black_box(older), black_box(name), *ticks, false)),
            ],
            Work::OldDictionary { older } => [
                piece(move || nzd::older::read_dictionary(black_box(older)).map(|(_, length)| length)),
                piece(move || peer::old_dictionary(black_box(older)).map(|(_, length)| length)),
            ],
            Work::MapLocal { id, local } => [
                piece(move || nzd::map_local(black_box(file), black_box(id), *local)),
                piece(move || peer::map_local(black_box(file), black_box(id), *local)),
            ],
            Work::Location { field, number } => [
                piece(move || nzd::location(black_box(file), field_of(*field), *number)),
                piece(move || peer::location(black_box(file), *field, *number)),
            ],
            Work::Countries { field } => [
                piece(move || countries(black_box(file), *field)),
                piece(move || peer_countries(black_box(file), *field)),
            ],
            Work::Normalize { room } => {
                let (mut ours, mut theirs) = (output(file, *room), output(file, *room));
                [
                    piece(move || nzd::normalize(black_box(file), black_box(&mut ours))),
                    piece(move || peer::normalize(black_box(file), black_box(&mut theirs))),
                ]
            }
            Work::Receive { size } => {
                let (mut ours, mut theirs) = (vec![0; file.len()], vec![0; file.len()]);
                [
                    piece(move || received(black_box(file), *size, black_box(&mut ours))),
                    piece(move || received_by_peer(black_box(file), *size, black_box(&mut theirs))),
                ]
            }
            Work::Tool(tool) => tool.pieces(file),
        }
    }
}

/// What no reader of a file is quicker than: a copy of its bytes, and the sum of them in one pass.
pub fn floor(file: &[u8]) -> [Piece<'_>; 2] {
    let mut copy = vec![0; file.len()];
    [
        piece(move || black_box(&mut copy).copy_from_slice(black_box(file))),
        piece(move || black_box(file).iter().fold(0, |sum, &byte| sum + u64::from(byte))),
    ]
}

/// An output as long as the file, or none.
fn output(file: &[u8], room: bool) -> Vec<u8> {
    vec![0; if room { file.len() } else { 0 }]
}

/// How many intervals a zone has that hold an instant, and the sum of their wall offsets.
fn intervals(file: &[u8], id: &[u8]) -> (usize, i64) {
    let all = nzd::intervals(file, id, nzd::FIRST_INSTANT, Mark::ThisIsAll, Edition::Two).filter_map(Result::ok);
    all.fold((0, 0), |(number, sum), interval| (number + 1, sum + interval.wall_offset_ms))
}

fn peer_intervals(file: &[u8], id: &[u8]) -> (usize, i64) {
    let (mut number, mut sum, mut ticks) = (0, 0, nzd::FIRST_INSTANT);
    while let Ok(interval) = peer::ask(file, id, ticks, false, false) {
        (number, sum, ticks) = (number + 1, sum + interval.wall_offset_ms, interval.end);
    }
    (number, sum)
}

/// The place at the end of a file in pieces that the buffer has room for.
fn received(file: &[u8], size: usize, buffer: &mut [u8]) -> Option<usize> {
    let mut receiver = nzd::Receiver::new(buffer);
    for piece in file.chunks(size) {
        receiver.add(piece).ok()?;
    }
    Some(receiver.place())
}

fn received_by_peer(file: &[u8], size: usize, buffer: &mut [u8]) -> Option<usize> {
    let mut receiver = peer::Receiver::default();
    for piece in file.chunks(size) {
        receiver.add(buffer, piece).ok()?;
    }
    Some(receiver.place)
}

/// The same without a place to go on from: the peer walks from the front after each piece.
pub fn from_the_front<'a>(file: &'a [u8], size: usize) -> Piece<'a> {
    let mut buffer = vec![0; file.len()];
    piece(move || {
        let mut held = 0;
        for piece in black_box(file).chunks(size) {
            buffer[held..][..piece.len()].copy_from_slice(piece);
            held += piece.len();
            black_box(peer::unfinished(&buffer[..held]));
        }
    })
}

/// A file in pieces, with a question that expects more after each.
pub fn asked_after_each<'a>(file: &'a [u8], size: usize, id: &'a [u8], ticks: i64) -> Piece<'a> {
    let mut buffer = vec![0; file.len()];
    piece(move || {
        let mut receiver = nzd::Receiver::new(&mut buffer);
        for piece in black_box(file).chunks(size) {
            let _ = black_box(receiver.add(piece));
            let _ = black_box(receiver.ask(id, ticks, Mark::MoreMayCome, Edition::Two));
        }
    })
}

fn field_of(field: u8) -> LocationField {
    if field == 6 {
        LocationField::Zone
    } else {
        LocationField::Zone1970
    }
}

/// What a location gives: number and place of a refusal, or the bits of its pin, its texts and its countries.
type At<'a> = Result<([u64; 2], &'a [u8], &'a [u8], Vec<(&'a [u8], &'a [u8])>), (u8, usize)>;

fn ours_at(file: &[u8], field: u8, number: u64) -> At<'_> {
    let found = nzd::location(file, field_of(field), number).map_err(pair)?;
    let pin = [found.pin.latitude.to_bits(), found.pin.longitude.to_bits()];
    let countries = found.countries.map(|country| (country.name.as_bytes(), country.code.as_bytes())).collect();
    Ok((pin, found.zone.as_bytes(), found.comment.as_bytes(), countries))
}

fn theirs_at(file: &[u8], field: u8, number: u64) -> At<'_> {
    let found = peer::location(file, field, number).map_err(peer_pair)?;
    let pin = [found.latitude.to_bits(), found.longitude.to_bits()];
    Ok((pin, found.zone, found.comment, found.countries.collect()))
}

/// How many countries the locations of a field have, and how many bytes their texts.
fn countries(file: &[u8], field: u8) -> (usize, usize) {
    let all = nzd::locations(file, field_of(field)).filter_map(Result::ok).flat_map(|found| found.countries);
    all.fold((0, 0), |(number, bytes), country| (number + 1, bytes + country.name.len() + country.code.len()))
}

fn peer_countries(file: &[u8], field: u8) -> (usize, usize) {
    let all = (0..).map_while(|number| peer::location(file, field, number).ok()).flat_map(|found| found.countries);
    all.fold((0, 0), |(number, bytes), (name, code)| (number + 1, bytes + name.len() + code.len()))
}

/// What is given is lent to the black box, since handing it over would be a copy.
pub fn piece<'a, T>(mut work: impl FnMut() -> T + 'a) -> Piece<'a> {
    Box::new(move || {
        black_box(&work());
    })
}
