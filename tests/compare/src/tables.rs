//! Tables of a found zone's answers and the questions over them, by the C functions and by the wrapper. What the rows are and what a
//! question gives is worked out with the second reader's questions, one for each.

use crate::lent;
use crate::questions::{wrapped_numbers, EDITIONS};
use crate::tally::{Difference, Outcome, Tally};
use crate::whole::error_pair;
use nzd::ffi;
use second_reader::generate::Prng;
use second_reader::transition::{in_range, FIRST, LAST};
use second_reader::Edition;

/// How many numbers a row has.
const ROW: usize = nzd::ROW_NUMBERS;
/// For how many rows there is room.
const ROOMS: [usize; 6] = [0, 1, 2, 3, 9, 60];
/// How many rows of a table are asked around their start and end.
const ASKED_ROWS: usize = 4;

/// The numbers of an answer, by the second reader.
pub type Question<'a> = &'a dyn Fn(i64, Edition) -> Outcome<[i64; ROW]>;

/// The rows of a table with room for `most`: asked again at each end.
fn rows_from(from: i64, most: usize, ask: &dyn Fn(i64) -> Outcome<[i64; ROW]>) -> Outcome<Vec<i64>> {
    let mut row = ask(from)?;
    if most == 0 {
        return Err((15, 0));
    }
    let mut rows = row.to_vec();
    while rows.len() < ROW * most && row[6] != i64::MAX {
        row = ask(row[6])?;
        rows.extend(row);
    }
    Ok(rows)
}

/// A question over any rows for `length` bytes: the one that halving leaves, where it holds the instant and its name is in the bytes.
fn over(length: usize, rows: &[i64], ticks: i64, ask: &dyn Fn(i64) -> Outcome<[i64; ROW]>) -> Outcome<[i64; ROW]> {
    let starts: Vec<i64> = rows.chunks_exact(ROW).map(|row| row[5]).collect();
    if let (true, Ok(found)) = (in_range(ticks), second_reader::find_start(&starts, ticks)) {
        let mut row = [0; ROW];
        row.copy_from_slice(&rows[ROW * found.position..][..ROW]);
        row[3] = row[3].max(0);
        row[4] = row[4].max(0);
        if row[5] <= ticks && ticks < row[6] && i128::from(row[3]) + i128::from(row[4]) <= length as i128 {
            return Ok(row);
        }
    }
    ask(ticks)
}

/// Instants in and around some of the rows.
fn asked(rows: &[i64], prng: &mut Prng) -> Vec<i64> {
    let mut asked = vec![FIRST - 1, FIRST, prng.range(FIRST, LAST), LAST, i64::MAX];
    for _ in 0..ASKED_ROWS {
        let row = ROW * prng.below(rows.len() / ROW);
        for end in [rows[row + 5], rows[row + 6]] {
            asked.extend([end.wrapping_sub(1), end]);
        }
    }
    asked
}

/// A table of the zone with the five numbers, from an instant on, and questions over it, and over others near it.
pub fn any(
    tally: &mut Tally,
    file: &[u8],
    five: [u64; 5],
    from: i64,
    prng: &mut Prng,
    question: Question,
) -> Result<(), Difference> {
    for (edition, their_edition) in EDITIONS {
        let first = edition == nzd::Edition::One;
        let ask = |ticks| question(ticks, their_edition);
        let most = *prng.pick(&ROOMS);
        let room = ROW * most + prng.below(ROW);
        let what = format!("a table of the zone at {five:?} from {from} with room for {room}, edition {edition:?}");
        let theirs = rows_from(from, most, &ask);
        let ours =
            lent::listed(room, ROW, file, |rows, count| ffi::list_answers(file, &five, from, first, rows, count))?;
        tally.same_of("list_answers", &what, file, ours, theirs.clone())?;
        let Ok(mut rows) = theirs else { continue };
        let asked = asked(&rows, prng);
        for &ticks in &asked {
            let what = format!("{ticks} over {what}");
            let ours = lent::numbers(file, |out| ffi::ask_listed(file, &five, &rows, ticks, first, out))?;
            tally.same_of("ask_listed", &what, file, ours, ask(ticks))?;
        }
        for _ in 0..prng.below(4) {
            let near = *prng.pick(&rows);
            let choices =
                [near, near.wrapping_add(1), near.wrapping_sub(1), i64::MIN, -1, 0, i64::MAX, prng.next_u64() as i64];
            let place = prng.below(rows.len());
            rows[place] = *prng.pick(&choices);
        }
        rows.truncate(prng.below(rows.len() + 1));
        for &ticks in &asked {
            let what = format!("{ticks} over the numbers {rows:?} for the zone at {five:?}, edition {edition:?}");
            let ours = lent::numbers(file, |out| ffi::ask_listed(file, &five, &rows, ticks, first, out))?;
            tally.same_of("ask_listed", &what, file, ours, over(file.len(), &rows, ticks, &ask))?;
        }
    }
    Ok(())
}

/// The same of a zone that is found in a file, by the wrapper; and its intervals one after the other.
pub fn found(
    tally: &mut Tally,
    file: &[u8],
    id: &[u8],
    from: i64,
    prng: &mut Prng,
    question: Question,
) -> Result<(), Difference> {
    let Ok(zone) = nzd::Zone::find(file, id) else { return Ok(()) };
    for (edition, their_edition) in EDITIONS {
        let ask = |ticks| question(ticks, their_edition);
        let most = *prng.pick(&ROOMS);
        let theirs = rows_from(from, most, &ask);
        let what = format!(
            "a table of {:?} from {from} with room for {most}, edition {edition:?}",
            id.escape_ascii().to_string()
        );
        let mut room = vec![0; ROW * most];
        let table = zone.table(from, edition, &mut room).map_err(error_pair);
        let count = theirs.as_ref().map(|rows| rows.len() / ROW).map_err(|refusal| *refusal);
        tally.same_of("list_answers", &what, file, table.map(|table| table.count()), count)?;
        if let (Ok(table), Ok(rows)) = (table, &theirs) {
            for ticks in asked(rows, prng) {
                let what = format!("{ticks} over {what}");
                tally.same_of("ask_listed", &what, file, wrapped_numbers(file, table.ask(ticks)), ask(ticks))?;
            }
        }
        // The intervals come in pieces, the first few in pieces of their own.
        let mut intervals = zone.intervals(from, edition);
        let most = if prng.one_in(10) { 90 } else { 18 };
        for row in rows_from(from, most, &ask).unwrap_or_default().chunks_exact(ROW) {
            let next = intervals.next().unwrap_or(Err(nzd::Error { number: nzd::Number::NotFound, place: 0 }));
            tally.same_of(
                "list_answers",
                &what,
                file,
                wrapped_numbers(file, next).map(|row| row.to_vec()),
                Ok(row.to_vec()),
            )?;
        }
    }
    Ok(())
}
