//! Output lent to the library, and what must be found in it afterwards: "Every refusal keeps all lent output as found."
//! "A rewrite gives its length and leaves later output bytes as found."

use crate::tally::{Difference, Outcome};

/// What lent numbers hold before a call.
const FOUND_NUMBER: i64 = -0x5a5a_5a5a_5a5a_5a5a;
/// What lent bytes hold before a call.
const FOUND_BYTE: u8 = 0xa7;
/// How many elements beside the lent ones are watched.
const MARGIN: usize = 3;
/// More numbers than any function gives, with a margin before and behind them.
const MOST_NUMBERS: usize = 16;

/// Takes a result apart: number in the low byte, the rest above.
fn outcome(result: u64) -> Outcome<u64> {
    match (result % 256) as u8 {
        0 => Ok(result / 256),
        number => Err((number, result / 256)),
    }
}

/// Calls a function that gives `N` numbers, with an output that has others before and behind it.
pub fn numbers<const N: usize>(
    bytes: &[u8],
    function: impl FnOnce(&mut [i64; N]) -> u64,
) -> Result<Outcome<[i64; N]>, Difference> {
    let mut lent = [FOUND_NUMBER; MOST_NUMBERS];
    let (before, rest) = lent.split_at_mut(MARGIN);
    let (out, behind) = rest.split_first_chunk_mut::<N>().expect("room for the output");
    let given = outcome(function(out));
    let left = |numbers: &[i64]| numbers.iter().all(|number| *number == FOUND_NUMBER);
    if !left(before) || !left(behind) || (given.is_err() && !left(out)) {
        return Err(Difference::new(format!("{given:?} with an out of {N} left {lent:?}"), bytes));
    }
    match given {
        Ok(0) => Ok(Ok(*out)),
        Ok(rest) => Err(Difference::new(format!("0 with {rest} above it"), bytes)),
        Err(refusal) => Ok(Err(refusal)),
    }
}

/// Calls a function that writes bytes and gives their length, with `room` bytes of output.
pub fn written(
    room: usize,
    bytes: &[u8],
    function: impl FnOnce(&mut [u8]) -> u64,
) -> Result<Outcome<Vec<u8>>, Difference> {
    let mut out = vec![FOUND_BYTE; room + MARGIN];
    let given = outcome(function(&mut out[..room]));
    let length = given.map_or(0, |length| length as usize);
    if length > room || out[length..].iter().any(|byte| *byte != FOUND_BYTE) {
        return Err(Difference::new(format!("{given:?} with room for {room} wrote past {length}"), bytes));
    }
    out.truncate(length);
    Ok(given.map(|_| out))
}

/// Calls a function that fills the front of a list of `room` numbers and gives how many entries of `width` numbers it has. The list has
/// others before and behind it.
pub fn listed(
    room: usize,
    width: usize,
    bytes: &[u8],
    function: impl FnOnce(&mut [i64], &mut [i64; 1]) -> u64,
) -> Result<Outcome<Vec<i64>>, Difference> {
    let mut lent = vec![FOUND_NUMBER; MARGIN + room + MARGIN];
    let given = numbers(bytes, |count| function(&mut lent[MARGIN..MARGIN + room], count))?;
    let length = given.map_or(Some(0), |[count]| usize::try_from(count).ok()?.checked_mul(width));
    let filled = MARGIN..MARGIN + length.filter(|length| *length <= room).unwrap_or(room);
    let left = |numbers: &[i64]| numbers.iter().all(|number| *number == FOUND_NUMBER);
    if length.is_none_or(|length| length > room) || !left(&lent[..MARGIN]) || !left(&lent[filled.end..]) {
        return Err(Difference::new(format!("{given:?} with room for {room} left {lent:?}"), bytes));
    }
    Ok(given.map(|_| lent[filled].to_vec()))
}

/// A function that gives neither numbers nor a length.
pub fn nothing(bytes: &[u8], result: u64) -> Result<Outcome<()>, Difference> {
    match outcome(result) {
        Ok(0) => Ok(Ok(())),
        Ok(rest) => Err(Difference::new(format!("0 with {rest} above it"), bytes)),
        Err(refusal) => Ok(Err(refusal)),
    }
}

#[cfg(test)]
mod tests {
    use super::*;

    #[test]
    fn output_that_must_stay_is_watched() {
        let three = |out: &mut [i64; 3]| {
            *out = [7, 8, 9];
            0
        };
        assert!(numbers(&[], three).is_ok_and(|given| given == Ok([7, 8, 9])));
        assert!(numbers::<3>(&[], |_| 15).is_ok_and(|given| given == Err((15, 0))));
        // A length above 0, and a write on a refusal.
        assert!(numbers(&[], |out| three(out) + 256).is_err());
        assert!(numbers(&[], |out| three(out) + 15).is_err());
    }

    #[test]
    fn a_list_ends_at_its_entries() {
        let fill = |filled: usize, count: i64| {
            move |list: &mut [i64], given: &mut [i64; 1]| {
                list[..filled].fill(1);
                *given = [count];
                0
            }
        };
        assert!(listed(4, 2, &[], fill(4, 2)).is_ok_and(|given| given == Ok(vec![1; 4])));
        assert!(listed(5, 2, &[], fill(4, 2)).is_ok_and(|given| given == Ok(vec![1; 4])));
        assert!(listed(0, 1, &[], |_, _| 15).is_ok_and(|given| given == Err((15, 0))));
        // One entry too many, more than there is room for, and a write on a refusal.
        assert!(listed(5, 2, &[], fill(5, 2)).is_err());
        assert!(listed(3, 2, &[], fill(3, 2)).is_err());
        assert!(listed(3, 1, &[], fill(3, -1)).is_err());
        let refused = |list: &mut [i64], _: &mut [i64; 1]| {
            list[0] = 1;
            15
        };
        assert!(listed(3, 1, &[], refused).is_err());
    }

    #[test]
    fn written_bytes_end_at_the_length() {
        let fill = |length: u64| {
            move |out: &mut [u8]| {
                out.fill(1);
                256 * length
            }
        };
        assert!(written(2, &[], fill(2)).is_ok_and(|given| given == Ok(vec![1, 1])));
        assert!(written(3, &[], fill(2)).is_err());
        assert!(written(1, &[], fill(2)).is_err());
        assert!(written(2, &[], |out| fill(0)(out) + 15).is_err());
    }
}
