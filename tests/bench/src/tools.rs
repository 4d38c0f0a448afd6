//! The tools: difference, replay, table of starts, halving and closing up the pool, by the library and by the peer.

use crate::measure::Piece;
use crate::work::{pair, peer_pair, piece};
use nzd::Stretch;
use std::hint::black_box;

/// One tool on a file.
pub enum Tool {
    /// The difference to another file in each of these zones, from an instant to before another.
    Difference {
        other: Vec<u8>,
        ids: Vec<Vec<u8>>,
        first: i64,
        last: i64,
    },
    Replay {
        trace: Vec<u8>,
    },
    /// The starts of a zone's listed intervals.
    Starts {
        id: Vec<u8>,
    },
    /// Searches in a table, without the file.
    Search {
        table: Vec<i64>,
        instants: Vec<i64>,
    },
    ClosePool,
}

/// How many stretches a lent list has room for: more than a tail has intervals.
const LIST: usize = 40_000;
/// How many starts a lent table has room for: the most that a zone has.
pub const TABLE: usize = 4096;

/// What a difference of several zones gives in all: how many stretches, or the first refusal.
type Listed = Result<usize, (u8, usize)>;

fn difference(files: [&[u8]; 2], ids: &[Vec<u8>], first: i64, last: i64, list: &mut [Stretch]) -> Listed {
    let [file, other] = files;
    ids.iter().map(|id| nzd::difference(file, other, id, first, last, list).map_err(pair)).sum()
}

fn peer_difference(files: [&[u8]; 2], ids: &[Vec<u8>], first: i64, last: i64, list: &mut [(i64, i64)]) -> Listed {
    ids.iter().map(|id| peer::difference(files, id, first, last, list).map_err(peer_pair)).sum()
}

/// The sum of the entries found, and of the looks.
fn search(table: &[i64], instants: &[i64]) -> Option<(usize, usize)> {
    instants.iter().try_fold((0, 0), |(entries, looks), &instant| {
        let found = nzd::find_start(table, instant).ok()?;
        Some((entries + found.entry, looks + found.looks))
    })
}

fn peer_search(table: &[i64], instants: &[i64]) -> Option<(usize, usize)> {
    instants.iter().try_fold((0, 0), |(entries, looks), &instant| {
        let found = peer::find_start(table, instant).ok()?;
        Some((entries + found.position, looks + found.looks))
    })
}

/// Room for a closed file, which may be longer than its source by a few bytes for each field.
fn closed_room(file: &[u8]) -> Vec<u8> {
    vec![0; file.len() + 65_536]
}

impl Tool {
    /// Whether both give the same on a file.
    pub fn agrees(&self, file: &[u8]) -> bool {
        match self {
            Tool::Difference { other, ids, first, last } => ids.iter().all(|id| {
                let (mut ours, mut theirs) = (vec![Stretch::default(); LIST], vec![(0, 0); LIST]);
                let given = nzd::difference(file, other, id, *first, *last, &mut ours).map_err(pair);
                given == peer::difference([file, other], id, *first, *last, &mut theirs).map_err(peer_pair)
                    && ours.iter().map(|stretch| (stretch.first, stretch.end)).eq(theirs)
            }),
            Tool::Replay { trace } => {
                nzd::replay(file, trace).map_err(pair)
                    == peer::replay(file, trace).map(|record| record.map(u64::from)).map_err(peer_pair)
            }
            Tool::Starts { id } => {
                let (mut ours, mut theirs) = ([0; TABLE], [0; TABLE]);
                let given = nzd::interval_starts(file, id, &mut ours).map_err(pair);
                given == peer::interval_starts(file, id, &mut theirs).map_err(peer_pair) && ours == theirs
            }
            Tool::Search { table, instants } => search(table, instants) == peer_search(table, instants),
            Tool::ClosePool => {
                let (mut ours, mut theirs) = (closed_room(file), closed_room(file));
                let given = nzd::close_pool(file, &mut ours).map_err(pair);
                given == peer::close_pool(file, &mut theirs).map_err(peer_pair) && ours == theirs
            }
        }
    }

    /// The work done by the library, and by the peer.
    pub fn pieces<'a>(&'a self, file: &'a [u8]) -> [Piece<'a>; 2] {
        match self {
            Tool::Difference { other, ids, first, last } => {
                let (mut ours, mut theirs) = (vec![Stretch::default(); LIST], vec![(0, 0); LIST]);
                let files = [file, &other[..]];
                [
                    piece(move || difference(black_box(files), ids, *first, *last, black_box(&mut ours))),
                    piece(move || peer_difference(black_box(files), ids, *first, *last, black_box(&mut theirs))),
                ]
            }
            Tool::Replay { trace } => [
                piece(move || nzd::replay(black_box(file), black_box(trace))),
                piece(move || peer::replay(black_box(file), black_box(trace))),
            ],
            Tool::Starts { id } => {
                let (mut ours, mut theirs) = ([0; TABLE], [0; TABLE]);
                [
                    piece(move || nzd::interval_starts(black_box(file), black_box(id), black_box(&mut ours))),
                    piece(move || peer::interval_starts(black_box(file), black_box(id), black_box(&mut theirs))),
                ]
            }
            Tool::Search { table, instants } => [
                piece(move || search(black_box(table), black_box(instants))),
                piece(move || peer_search(black_box(table), black_box(instants))),
            ],
            Tool::ClosePool => {
                let (mut ours, mut theirs) = (closed_room(file), closed_room(file));
                [
                    piece(move || nzd::close_pool(black_box(file), black_box(&mut ours))),
                    piece(move || peer::close_pool(black_box(file), black_box(&mut theirs))),
                ]
            }
        }
    }
}
