//! The small codes: read from every short input and from many others, and written with every room.

use crate::lent;
use crate::tally::{Difference, Outcome, Tally};
use crate::whole::error_pair;
use nzd::{ffi, Bound};
use second_reader::codes;
use second_reader::generate::Prng;
use second_reader::transition::{FIRST, LAST, TICKS_PER_HOUR, TICKS_PER_MINUTE};
use second_reader::{Number, Transition};

const YEAR_1800: i64 = -53_646_624_000_000_000;

/// Bytes at which something changes in UTF-8 or in one of the codes.
const EDGE_BYTES: [u8; 14] = [0, 1, 2, 0x30, 0x41, 0x7f, 0x80, 0x8f, 0x90, 0x9f, 0xa0, 0xbf, 0xc0, 0xff];

/// "has place 0"
fn refused(number: Number) -> (u8, u64) {
    (number.value(), 0)
}

/// A previous transition as the C functions take it: ticks, and whether it is an instant.
type Previous = (i64, bool);

/// Compares readers and writers; more of the random inputs with more rounds.
pub fn all(tally: &mut Tally, prng: &mut Prng, rounds: u64) -> Result<(), Difference> {
    short_inputs(tally, prng)?;
    texts(tally, prng)?;
    for value in number_edges() {
        write_numbers(tally, value)?;
    }
    for second in -86_401..=86_401 {
        write_offset(tally, second * 1000)?;
    }
    for kind in 0..=255 {
        for ticks in [0, FIRST - 1, LAST + 1] {
            write_transition(tally, kind, ticks, (0, true))?;
        }
    }
    for previous in previous_edges() {
        for ticks in instant_edges(previous.0) {
            write_transition(tally, 2, ticks, previous)?;
        }
    }
    for _ in 0..rounds * 25 {
        random_codes(tally, prng)?;
    }
    Ok(())
}

fn read_all(tally: &mut Tally, s: &[u8], previous: Previous) -> Result<(), Difference> {
    read_number(tally, "count", s, ffi::read_count, nzd::codes::read_count, codes::read_count)?;
    let signed = (ffi::read_signed_count, nzd::codes::read_signed_count);
    read_number(tally, "signed count", s, signed.0, signed.1, codes::read_signed_count)?;
    read_number(tally, "offset", s, ffi::read_offset, nzd::codes::read_offset, codes::read_offset)?;
    read_text(tally, s)?;
    read_transition(tally, s, previous)
}

pub fn read_number<T: Into<i64>>(
    tally: &mut Tally,
    what: &str,
    s: &[u8],
    ours: impl Fn(&[u8], &mut [i64; 2]) -> u64,
    wrapped: impl Fn(&[u8]) -> Result<(i64, usize), nzd::Error>,
    theirs: impl Fn(&[u8]) -> codes::Read<T>,
) -> Result<(), Difference> {
    let theirs = theirs(s).map(|(value, length)| [value.into(), length as i64]).map_err(refused);
    tally.same(&what, s, lent::numbers(s, |out| ours(s, out))?, theirs)?;
    let wrapped = wrapped(s).map(|(value, length)| [value, length as i64]).map_err(error_pair);
    tally.same(&what, s, wrapped, theirs)
}

fn read_text(tally: &mut Tally, s: &[u8]) -> Result<(), Difference> {
    let theirs = codes::read_text(s).map_err(refused);
    let numbers = theirs.clone().map(|(part, _)| [part.start as i64, part.len() as i64]);
    tally.same(&"text", s, lent::numbers(s, |out| ffi::read_text(s, out))?, numbers)?;
    let wrapped = nzd::codes::read_text(s).map_err(error_pair).map(|(text, length)| (text.as_bytes(), length));
    let text = theirs.map(|(part, length)| (&s[part], length));
    tally.same(&"text by the wrapper", s, wrapped, text)
}

fn instant((ticks, finite): Previous) -> Option<Transition> {
    finite.then_some(Transition::Finite(ticks))
}

fn read_transition(tally: &mut Tally, s: &[u8], previous: Previous) -> Result<(), Difference> {
    let theirs = codes::read_transition(s, instant(previous)).map_err(refused);
    let numbers = theirs.map(|(value, length)| match value {
        Transition::StartOfTime => [0, 0, length as i64],
        Transition::EndOfTime => [1, 0, length as i64],
        Transition::Finite(ticks) => [2, ticks, length as i64],
    });
    let what = format!("transition after {previous:?}");
    let (ticks, finite) = previous;
    tally.same(&what, s, lent::numbers(s, |out| ffi::read_transition(s, ticks, finite, out))?, numbers)?;
    let ours = nzd::codes::read_transition(s, finite.then_some(ticks)).map_err(error_pair);
    let ours = ours.map(|(value, length)| match value {
        Bound::StartOfTime => [0, 0, length as i64],
        Bound::EndOfTime => [1, 0, length as i64],
        Bound::At(ticks) => [2, ticks, length as i64],
    });
    tally.same(&what, s, ours, numbers)
}

/// Writes with every room from none to more than enough; `theirs` is the code.
pub fn write(
    tally: &mut Tally,
    what: &str,
    theirs: Result<Vec<u8>, Number>,
    ours: impl Fn(&mut [u8]) -> u64,
    wrapped: impl Fn(&mut [u8]) -> Result<usize, nzd::Error>,
) -> Result<(), Difference> {
    let code = theirs.clone().unwrap_or_default();
    // A long text has too many rooms to try: those about its length are enough.
    let least = code.len().saturating_sub(10);
    for room in (least..code.len() + 2).chain([0]) {
        let theirs: Outcome<Vec<u8>> = match &theirs {
            Ok(code) if code.len() > room => Err((15, 0)),
            Ok(code) => Ok(code.clone()),
            Err(number) => Err(refused(*number)),
        };
        tally.same(&what, &code, lent::written(room, &code, &ours)?, theirs.clone())?;
        let mut out = vec![0; room];
        let wrapped = wrapped(&mut out).map_err(error_pair).map(|length| out[..length].to_vec());
        tally.same(&what, &code, wrapped, theirs)?;
    }
    Ok(())
}

/// A number as a count, a signed count and an offset.
fn write_numbers(tally: &mut Tally, value: i64) -> Result<(), Difference> {
    let what = format!("writing {value}");
    let count = codes::encode_count(value);
    write(tally, &what, count, |out| ffi::write_count(value, out), |out| nzd::codes::write_count(value, out))?;
    let signed = codes::encode_signed_count(value);
    let wrapped = |out: &mut [u8]| nzd::codes::write_signed_count(value, out);
    write(tally, &what, signed, |out| ffi::write_signed_count(value, out), wrapped)?;
    write_offset(tally, value)
}

fn write_offset(tally: &mut Tally, ms: i64) -> Result<(), Difference> {
    let wrapped = |out: &mut [u8]| nzd::codes::write_offset(ms, out);
    let what = format!("writing {ms} as an offset");
    write(tally, &what, codes::encode_offset(ms), |out| ffi::write_offset(ms, out), wrapped)?;
    // What was written is read again, by both.
    match codes::encode_offset(ms) {
        Ok(code) => read_number(tally, "offset", &code, ffi::read_offset, nzd::codes::read_offset, codes::read_offset),
        Err(_) => Ok(()),
    }
}

fn write_text(tally: &mut Tally, text: &[u8]) -> Result<(), Difference> {
    let what = format!("writing the text {:?}", text.escape_ascii().to_string());
    let ours = |out: &mut [u8]| ffi::write_text(text, out);
    write(tally, &what, codes::encode_text(text), ours, |out| nzd::codes::write_text(text, out))
}

/// "kind above 2 or ticks outside the range: 7"; the marks carry no ticks.
fn write_transition(tally: &mut Tally, kind: u8, ticks: i64, previous: Previous) -> Result<(), Difference> {
    let (before, finite) = previous;
    let value = match kind {
        0 => Ok(Bound::StartOfTime),
        1 => Ok(Bound::EndOfTime),
        2 => Ok(Bound::At(ticks)),
        _ => Err(Number::BadCode),
    };
    let code = value.and_then(|value| codes::encode_transition(transition(value), instant(previous)));
    let what = format!("writing a transition of kind {kind}, {ticks} after {previous:?}");
    let ours = |out: &mut [u8]| ffi::write_transition(kind, ticks, before, finite, out);
    let wrapped = |out: &mut [u8]| match value {
        Ok(value) => nzd::codes::write_transition(value, finite.then_some(before), out),
        // The wrapper has no other kinds.
        Err(_) => Err(nzd::Error { number: nzd::Number::BadCode, place: 0 }),
    };
    write(tally, &what, code.clone(), ours, wrapped)?;
    match code {
        Ok(code) => read_transition(tally, &code, previous),
        Err(_) => Ok(()),
    }
}

fn transition(value: Bound) -> Transition {
    match value {
        Bound::StartOfTime => Transition::StartOfTime,
        Bound::At(ticks) => Transition::Finite(ticks),
        Bound::EndOfTime => Transition::EndOfTime,
    }
}

/// Every input of up to two bytes, and longer ones of bytes at which something changes.
fn short_inputs(tally: &mut Tally, prng: &mut Prng) -> Result<(), Difference> {
    read_all(tally, &[], (0, true))?;
    for first in 0..=255 {
        read_all(tally, &[first], (0, true))?;
        for second in 0..=255 {
            read_all(tally, &[first, second], (0, true))?;
            for third in EDGE_BYTES {
                let rest = [*prng.pick(&EDGE_BYTES), prng.byte(), *prng.pick(&EDGE_BYTES)];
                let previous = *prng.pick(&previous_edges());
                read_all(tally, &[&[first, second, third], &rest[..prng.below(4)]].concat(), previous)?;
            }
        }
    }
    Ok(())
}

/// Texts of two to four bytes at every edge of UTF-8, and of about the longest length.
fn texts(tally: &mut Tally, prng: &mut Prng) -> Result<(), Difference> {
    for first in 0x41..=255 {
        for second in 0..=255 {
            read_text(tally, &[2, first, second])?;
            for third in EDGE_BYTES {
                read_text(tally, &[3, first, second, third])?;
                let fourth = *prng.pick(&EDGE_BYTES);
                read_text(tally, &[4, first, second, third, fourth])?;
                // The same behind and before other characters.
                read_text(tally, &[8, b'x', 0xc3, 0xa9, first, second, third, fourth, b'y'])?;
            }
        }
    }
    for length in [0, 1, 127, 128, 1023, 1024, 1025, 1026, 5000] {
        for last in [b'x', 0xc3, 0xff] {
            let mut text = vec![b'x'; length];
            if let Some(byte) = text.last_mut() {
                *byte = last;
            }
            write_text(tally, &text)?;
            let code = [codes::encode_count(length as i64).unwrap_or_default(), text].concat();
            read_text(tally, &code)?;
            read_text(tally, &code[..code.len() - 1])?;
        }
    }
    Ok(())
}

/// Numbers at and around each length of a code and each end of a range.
fn number_edges() -> Vec<i64> {
    let mut edges = vec![i64::MIN, i64::MIN + 1, i64::MAX - 1, i64::MAX];
    let near = [0, 86_400_000, 86_398_200, 1_800_000, 60_000, 1_000, 4_294_967_296, 42_949_672_960]
        .into_iter()
        .chain((6..63).map(|power| 1 << power));
    for value in near {
        for by in -2..=2 {
            edges.extend([value + by, -value + by]);
        }
    }
    edges
}

/// Previous transitions: none with any number in its place, the ends of the range, and just outside them.
fn previous_edges() -> [Previous; 12] {
    [
        (0, false),
        (i64::MIN, false),
        (i64::MAX, false),
        (0, true),
        (FIRST, true),
        (LAST, true),
        (FIRST - 1, true),
        (LAST + 1, true),
        (i64::MIN, true),
        (i64::MAX, true),
        (YEAR_1800, true),
        (17_118_468_000_000_000, true),
    ]
}

/// Instants at and around the ends of the range and of each form's.
fn instant_edges(previous: i64) -> Vec<i64> {
    let mut edges = vec![i64::MIN, i64::MAX, FIRST, LAST, 0];
    edges.extend([0, 1, 127, 128, 129, 2_097_151, 2_097_152].map(|h| previous.wrapping_add(h * TICKS_PER_HOUR)));
    let minutes = [0, 127, 128, 2_097_151, 2_097_152, 2_147_483_647, 2_147_483_648];
    edges.extend(minutes.map(|count| YEAR_1800 + count * TICKS_PER_MINUTE));
    edges.into_iter().flat_map(|edge| [edge.wrapping_sub(1), edge, edge.wrapping_add(1)]).collect()
}

/// Random values written, and what was written read again: whole, cut, changed, and with bytes behind.
fn random_codes(tally: &mut Tally, prng: &mut Prng) -> Result<(), Difference> {
    let shift = prng.below(64);
    let value = (prng.next_u64() as i64) >> shift;
    write_numbers(tally, value)?;
    write_offset(tally, prng.range(-86_400_100, 86_400_100))?;
    let count = prng.below(12);
    write_text(tally, &prng.bytes(count))?;
    let before = prng.range(FIRST, LAST);
    let edge = *prng.pick(&previous_edges());
    let previous = *prng.pick(&[(before, true), (before, false), edge]);
    let ticks = match prng.below(4) {
        0 => prng.next_u64() as i64,
        1 => prng.range(FIRST, LAST),
        2 => previous.0.wrapping_add(prng.range(100, 2_100_000) * TICKS_PER_HOUR),
        _ => YEAR_1800 + prng.range(2_000_000, 2_147_500_000) * TICKS_PER_MINUTE,
    };
    write_transition(tally, 2, ticks, previous)?;
    let mut code = match codes::encode_transition(Transition::Finite(ticks), instant(previous)) {
        Ok(code) if prng.one_in(2) => code,
        _ => prng.bytes(9),
    };
    let behind = prng.below(4);
    code.extend(prng.bytes(behind));
    if prng.one_in(2) {
        let at = prng.below(code.len());
        code[at] ^= 1 << prng.below(8);
    }
    for length in 0..=code.len() {
        read_all(tally, &code[..length], previous)?;
    }
    Ok(())
}
