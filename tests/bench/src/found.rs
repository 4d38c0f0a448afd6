//! A zone found before: questions, local times, tables of its answers and questions over these, by the library and by one of the peer's two
//! found zones: the plain value, as the library's is, whose zone each question checks, or the one that keeps what it read and trusts the bytes.

use crate::measure::Piece;
use crate::work::{mapped, pair, peer_mapped, peer_said, piece, said};
use nzd::{Edition, FIRST_INSTANT, ROW_NUMBERS};
use peer::{Answer, LocalInstants, Places, Refusal, Zone};
use std::hint::black_box;

/// One kind of work on a found zone.
pub enum Found {
    Ask {
        id: Vec<u8>,
        ticks: i64,
    },
    MapLocal {
        id: Vec<u8>,
        local: i64,
    },
    /// Questions over a table of at most so many of its answers, which was made before.
    AskListed {
        id: Vec<u8>,
        rows: usize,
        instants: Vec<i64>,
    },
    /// A table of at most so many of its answers.
    List {
        id: Vec<u8>,
        rows: usize,
    },
}

/// A found zone of the peer, asked under edition 2.
trait PeerZone<'a>: Sized {
    /// What holds a table.
    type Rows;
    fn find(file: &'a [u8], id: &[u8]) -> Result<Self, Refusal>;
    fn ask(&self, ticks: i64) -> Result<Answer<'a>, Refusal>;
    fn map_local(&self, local: i64) -> Result<LocalInstants, Refusal>;
    /// Room for so many rows.
    fn room(rows: usize) -> Self::Rows;
    /// A table of the answers from year 1 on; how many there are.
    fn list(&self, rows: &mut Self::Rows) -> Result<usize, Refusal>;
    fn ask_listed(&self, rows: &Self::Rows, ticks: i64) -> Result<Answer<'a>, Refusal>;
}

/// The plain value, with the file; the numbers of a table, and how many of them are rows.
struct Plain<'a> {
    file: &'a [u8],
    places: Places,
}

impl<'a> PeerZone<'a> for Plain<'a> {
    type Rows = (Vec<i64>, usize);

    fn find(file: &'a [u8], id: &[u8]) -> Result<Self, Refusal> {
        Ok(Plain { file, places: Places::find(file, id)? })
    }

    fn ask(&self, ticks: i64) -> Result<Answer<'a>, Refusal> {
        self.places.ask(self.file, ticks, false)
    }

    fn map_local(&self, local: i64) -> Result<LocalInstants, Refusal> {
        self.places.map_local(self.file, local)
    }

    fn room(rows: usize) -> Self::Rows {
        (vec![0; rows * ROW_NUMBERS], 0)
    }

    fn list(&self, (numbers, end): &mut Self::Rows) -> Result<usize, Refusal> {
        let count = self.places.list(self.file, FIRST_INSTANT, false, numbers)?;
        *end = count * ROW_NUMBERS;
        Ok(count)
    }

    fn ask_listed(&self, (numbers, end): &Self::Rows, ticks: i64) -> Result<Answer<'a>, Refusal> {
        self.places.ask_listed(self.file, &numbers[..*end], ticks, false)
    }
}

/// A table is a list of answers, and how many there may be.
impl<'a> PeerZone<'a> for Zone<'a> {
    type Rows = (Vec<Answer<'a>>, usize);

    fn find(file: &'a [u8], id: &[u8]) -> Result<Self, Refusal> {
        Zone::find(file, id)
    }

    fn ask(&self, ticks: i64) -> Result<Answer<'a>, Refusal> {
        Zone::ask(self, ticks, false)
    }

    fn map_local(&self, local: i64) -> Result<LocalInstants, Refusal> {
        Zone::map_local(self, local)
    }

    fn room(rows: usize) -> Self::Rows {
        (Vec::with_capacity(rows), rows)
    }

    fn list(&self, (answers, most): &mut Self::Rows) -> Result<usize, Refusal> {
        Zone::list(self, FIRST_INSTANT, false, *most, answers)?;
        Ok(answers.len())
    }

    fn ask_listed(&self, (answers, _): &Self::Rows, ticks: i64) -> Result<Answer<'a>, Refusal> {
        Zone::ask_listed(self, answers, ticks, false)
    }
}

impl Found {
    /// Whether both give the same on a file.
    pub fn agrees(&self, file: &[u8], trusts: bool) -> bool {
        if trusts {
            self.agrees_with::<Zone>(file)
        } else {
            self.agrees_with::<Plain>(file)
        }
    }

    /// The work done by the library, and by the peer.
    pub fn pieces<'a>(&'a self, file: &'a [u8], trusts: bool) -> [Piece<'a>; 2] {
        if trusts {
            self.pieces_with::<Zone>(file)
        } else {
            self.pieces_with::<Plain>(file)
        }
    }

    fn agrees_with<'a, P: PeerZone<'a>>(&'a self, file: &'a [u8]) -> bool {
        match self {
            Found::Ask { id, ticks } => {
                let ours = said(nzd::Zone::find(file, id).and_then(|zone| zone.ask(*ticks, Edition::Two)));
                ours == peer_said(P::find(file, id).and_then(|zone| zone.ask(*ticks)))
            }
            Found::MapLocal { id, local } => {
                let ours = nzd::Zone::find(file, id).map_err(pair).and_then(|zone| mapped(zone.map_local(*local)));
                ours == peer_mapped(P::find(file, id).and_then(|zone| zone.map_local(*local)))
            }
            Found::AskListed { id, rows, instants } => match (table(file, id, *rows), peer_table::<P>(file, id, *rows))
            {
                (Ok(ours), Ok((zone, theirs, _))) => {
                    instants.iter().all(|&ticks| said(ours.ask(ticks)) == peer_said(zone.ask_listed(&theirs, ticks)))
                }
                _ => false,
            },
            Found::List { id, rows } => match (table(file, id, *rows), peer_table::<P>(file, id, *rows)) {
                (Ok(ours), Ok((zone, theirs, count))) => {
                    let mut ticks = FIRST_INSTANT;
                    // Each row by a question at its start.
                    let mut same = || {
                        let row = zone.ask_listed(&theirs, ticks);
                        let same = said(ours.ask(ticks)) == peer_said(row);
                        ticks = row.map_or(ticks, |row| row.end);
                        same
                    };
                    ours.count() == count && (0..count).all(|_| same())
                }
                _ => false,
            },
        }
    }

    fn pieces_with<'a, P: PeerZone<'a> + 'a>(&'a self, file: &'a [u8]) -> [Piece<'a>; 2] {
        match self {
            Found::Ask { id, ticks } => {
                let (ours, theirs) = (nzd::Zone::find(file, id).ok(), P::find(file, id).ok());
                [
                    piece(move || black_box(&ours).as_ref().map(|zone| zone.ask(black_box(*ticks), Edition::Two))),
                    piece(move || black_box(&theirs).as_ref().map(|zone| zone.ask(black_box(*ticks)))),
                ]
            }
            Found::MapLocal { id, local } => {
                let (ours, theirs) = (nzd::Zone::find(file, id).ok(), P::find(file, id).ok());
                [
                    piece(move || black_box(&ours).as_ref().map(|zone| zone.map_local(black_box(*local)))),
                    piece(move || black_box(&theirs).as_ref().map(|zone| zone.map_local(black_box(*local)))),
                ]
            }
            Found::AskListed { id, rows, instants } => {
                let (ours, theirs) = (table(file, id, *rows).ok(), peer_table::<P>(file, id, *rows).ok());
                [
                    piece(move || {
                        if let Some(table) = black_box(&ours) {
                            for &ticks in black_box(instants) {
                                black_box(&table.ask(ticks));
                            }
                        }
                    }),
                    piece(move || {
                        if let Some((zone, rows, _)) = black_box(&theirs) {
                            for &ticks in black_box(instants) {
                                black_box(&zone.ask_listed(rows, ticks));
                            }
                        }
                    }),
                ]
            }
            Found::List { id, rows } => {
                let (ours, theirs) = (nzd::Zone::find(file, id).ok(), P::find(file, id).ok());
                let (room, mut rows) = (room(*rows), P::room(*rows));
                [
                    piece(move || {
                        let zone = black_box(&ours).as_ref();
                        zone.map(|zone| zone.table(FIRST_INSTANT, Edition::Two, room).map(|table| table.count()))
                    }),
                    piece(move || {
                        let zone = black_box(&theirs).as_ref();
                        zone.map(|zone| zone.list(black_box(&mut rows)))
                    }),
                ]
            }
        }
    }
}

/// Room for a table, which lasts as long as the program.
fn room(rows: usize) -> &'static mut [i64] {
    vec![0; rows * ROW_NUMBERS].leak()
}

/// A table of a zone's answers from year 1 on.
fn table<'a>(file: &'a [u8], id: &[u8], rows: usize) -> Result<nzd::ZoneTable<'a, 'static>, nzd::Error> {
    nzd::Zone::find(file, id)?.table(FIRST_INSTANT, Edition::Two, room(rows))
}

/// The peer's, with its zone and how many answers there are.
fn peer_table<'a, P: PeerZone<'a>>(file: &'a [u8], id: &[u8], rows: usize) -> Result<(P, P::Rows, usize), Refusal> {
    let (zone, mut table) = (P::find(file, id)?, P::room(rows));
    let count = zone.list(&mut table)?;
    Ok((zone, table, count))
}
