//! A table of a found zone's answers, for repeated questions.

use crate::found::Shape;
use crate::number::{INSTANT_RANGE, OUTPUT_SHORT};
use crate::places::Parts;
use crate::zone::Interval;
use crate::{Answer, Places, Refusal, Zone, FIRST, LAST};
use std::hint::select_unpredictable;

impl<'a> Zone<'a> {
    /// The answers from the one at `ticks` on, `most` of them or as many as the zone has.
    pub fn list(
        &self,
        ticks: i64,
        first_edition: bool,
        most: usize,
        rows: &mut Vec<Answer<'a>>,
    ) -> Result<(), Refusal> {
        let mut answer = self.ask(ticks, first_edition)?;
        if most == 0 {
            return Err(Refusal { number: OUTPUT_SHORT, place: 0 });
        }
        rows.clear();
        rows.push(answer);
        let mut steps = self.kept.steps(ticks);
        while rows.len() < most && answer.end <= LAST {
            let (held, end) = steps.seek(answer.end);
            answer = held.answer(end, self.pool.string(held.name));
            rows.push(answer);
        }
        Ok(())
    }

    /// The interval that holds `ticks`, out of the answers of this zone or not.
    pub fn ask_listed(&self, rows: &[Answer<'a>], ticks: i64, first_edition: bool) -> Result<Answer<'a>, Refusal> {
        if !(FIRST..=LAST).contains(&ticks) {
            return Err(Refusal { number: INSTANT_RANGE, place: 0 });
        }
        let after = rows.partition_point(|row| row.start <= ticks);
        match after.checked_sub(1).map(|number| rows[number]) {
            Some(row) if ticks < row.end => Ok(row),
            _ => self.ask(ticks, first_edition),
        }
    }
}

/// The numbers of an answer: wall offset, savings, standard offset, place and length of the name, start and end.
type Row = [i64; ROW];

const ROW: usize = 7;

impl Places {
    /// The answers from the one at `ticks` on, seven numbers each, put in `rows`: as many as there is room for or the zone has, and how
    /// many these are.
    pub fn list(&self, file: &[u8], ticks: i64, first_edition: bool, rows: &mut [i64]) -> Result<usize, Refusal> {
        if !(FIRST..=LAST).contains(&ticks) {
            return Err(Refusal { number: INSTANT_RANGE, place: 0 });
        }
        let strings = self.strings(file);
        let mut shape = Shape::new();
        self.read(file, &strings, &mut shape)?;
        let kept = shape.keep(self.data(file), strings.count);
        let (first, rest) =
            rows.as_chunks_mut().0.split_first_mut().ok_or(Refusal { number: OUTPUT_SHORT, place: 0 })?;
        let mut parts = Parts::new(&strings, self);
        let (held, mut last) = kept.at(ticks, first_edition);
        *first = row_of(held, last, &mut parts);
        let mut steps = kept.steps(ticks);
        let mut count = 1;
        for row in rest {
            if last > LAST {
                break;
            }
            let (held, end) = steps.seek(last);
            *row = row_of(held, end, &mut parts);
            (last, count) = (end, count + 1);
        }
        Ok(count)
    }

    /// The interval that holds `ticks`, out of these rows or not. Any numbers are safe: the row that halving leaves counts where it holds
    /// the instant and its name is a part of the file.
    pub fn ask_listed<'a>(
        &self,
        file: &'a [u8],
        rows: &[i64],
        ticks: i64,
        first_edition: bool,
    ) -> Result<Answer<'a>, Refusal> {
        if !(FIRST..=LAST).contains(&ticks) {
            return Err(Refusal { number: INSTANT_RANGE, place: 0 });
        }
        match row_at(file, rows, ticks) {
            Some(answer) => Ok(answer),
            None => self.ask(file, ticks, first_edition),
        }
    }
}

#[inline]
fn row_of(held: Interval, end: i64, parts: &mut Parts) -> Row {
    let [place, length] = parts.part(held.name);
    let (wall, savings) = (i64::from(held.wall), i64::from(held.savings));
    [wall, savings, wall - savings, place, length, held.start, end]
}

/// The row that halving the starts leaves, if it holds the instant and its name is a part of the file.
#[inline]
fn row_at<'a>(file: &'a [u8], rows: &[i64], ticks: i64) -> Option<Answer<'a>> {
    let count = rows.len() / ROW;
    // As in the table of starts; that the place is multiplied already takes less than a multiplication for each look.
    let (mut at, mut left) = (0, count);
    for _ in 0..count.checked_ilog2()? {
        let half = left / 2;
        let middle = at + ROW * half;
        let kept = rows[middle + 5] <= ticks;
        at = select_unpredictable(kept, middle, at);
        left = select_unpredictable(kept, left - half, half);
    }
    let middle = at + ROW * (left / 2);
    let row: &Row = rows[select_unpredictable(rows[middle + 5] <= ticks, middle, at)..].first_chunk()?;
    if ticks < row[5] || row[6] <= ticks {
        return None;
    }
    let [wall_offset_ms, savings_ms, standard_offset_ms, place, length, start, end] = *row;
    let name = file.get(place.max(0) as usize..)?.get(..length.max(0) as usize)?;
    Some(Answer { wall_offset_ms, savings_ms, standard_offset_ms, name, start, end })
}
