//! The older edition: its codes read from every first byte and at the borders of every form, written with every room, its dictionary, and
//! names asked over one.

use crate::codes::{read_number, write};
use crate::lent;
use crate::questions::{numbers_of, wrapped_numbers, EDITIONS};
use crate::tally::{Difference, Outcome, Tally};
use crate::whole::{error_pair, pair};
use nzd::{ffi, older};
use second_reader::generate::{damaged_dictionary, dictionary, Entries, Prng};
use second_reader::old;
use second_reader::Number;

/// The first values of the count's forms, and the last of all.
const COUNT_EDGES: [i64; 7] = [0, 0x0f, 0x8f, 0x408f, 0x20_408f, 0x1020_408f, 0x8000_0000];

/// Compares readers and writers; more of the random inputs with more rounds.
pub fn all(tally: &mut Tally, prng: &mut Prng, rounds: u64) -> Result<(), Difference> {
    read_all(tally, &[])?;
    for first in 0..=255 {
        for length in 0..6 {
            for rest in [[0x00; 5], [0x7f; 5], [0x80; 5], [0xff; 5]] {
                read_all(tally, &[&[first], &rest[..length]].concat())?;
            }
            read_all(tally, &[&[first], &prng.bytes(length)[..]].concat())?;
        }
    }
    for edge in COUNT_EDGES {
        for value in edge - 2..=edge + 2 {
            write_count(tally, value)?;
        }
    }
    // The five bytes of counts that have a shorter form, or none.
    for value in [0u32, 0x1020_408e, 0x1020_408f, 0x7fff_ffff, 0x8000_0000, u32::MAX] {
        read_all(tally, &[&[0xff], &value.to_be_bytes()[..]].concat())?;
    }
    for second in -86_401..=86_401 {
        write_offset(tally, second * 1000)?;
    }
    for ms in [1, 999, 86_399_999, 86_400_000, 86_400_001, i64::MAX] {
        for ms in [ms, -ms] {
            write_offset(tally, ms)?;
        }
    }
    for length in [0, 1, 0x0e, 0x0f, 0x8e, 0x8f, 1023, 1024, 1025, 5000] {
        for last in [b'x', 0xc3, 0xff] {
            let mut text = vec![b'x'; length];
            if let Some(byte) = text.last_mut() {
                *byte = last;
            }
            write_string(tally, &text)?;
            let code = [old::encode_count(length as i64).unwrap_or_default(), text].concat();
            read_all(tally, &code)?;
            read_all(tally, &code[..code.len() - 1])?;
        }
    }
    for _ in 0..rounds * 5 {
        let shift = 33 + prng.below(31);
        write_count(tally, ((prng.next_u64() as i64) >> shift).abs())?;
        write_offset(tally, prng.range(-86_400_100, 86_400_100))?;
    }
    Ok(())
}

fn refused(number: Number) -> (u8, u64) {
    (number.value(), 0)
}

/// Every reader on the same bytes.
fn read_all(tally: &mut Tally, s: &[u8]) -> Result<(), Difference> {
    read_number(tally, "older count", s, ffi::old_read_count, older::read_count, old::read_count)?;
    read_number(tally, "older offset", s, ffi::old_read_offset, older::read_offset, old::read_offset)?;
    let theirs = old::read_string(s).map_err(refused);
    let numbers = theirs.clone().map(|(part, _)| [part.start as i64, part.len() as i64]);
    tally.same(&"older string", s, lent::numbers(s, |out| ffi::old_read_string(s, out))?, numbers)?;
    let wrapped = older::read_string(s).map_err(error_pair).map(|(text, length)| (text.as_bytes(), length));
    tally.same(&"older string by the wrapper", s, wrapped, theirs.map(|(part, length)| (&s[part], length)))?;
    read_dictionary(tally, s)
}

fn read_dictionary(tally: &mut Tally, s: &[u8]) -> Result<(), Difference> {
    let theirs = old::read_dictionary(s).map_err(refused);
    let numbers = theirs.clone().map(|(entries, length)| [entries.len() as i64, length as i64]);
    tally.same(&"older dictionary", s, lent::numbers(s, |out| ffi::old_read_dictionary(s, out))?, numbers)?;
    let wrapped = older::read_dictionary(s).map_err(error_pair).map(|(entries, length)| {
        (entries.map(|(key, value)| (key.as_bytes(), value.as_bytes())).collect::<Vec<_>>(), length)
    });
    let theirs = theirs
        .map(|(entries, length)| (entries.into_iter().map(|(key, value)| (&s[key], &s[value])).collect(), length));
    tally.same(&"older dictionary by the wrapper", s, wrapped, theirs)
}

fn write_count(tally: &mut Tally, value: i64) -> Result<(), Difference> {
    let what = format!("writing {value} as an older count");
    let ours = |out: &mut [u8]| ffi::old_write_count(value as u64, out);
    write(tally, &what, old::encode_count(value), ours, |out| older::write_count(value as u64, out))?;
    old::encode_count(value).map_or(Ok(()), |code| read_all(tally, &code))
}

fn write_offset(tally: &mut Tally, ms: i64) -> Result<(), Difference> {
    let what = format!("writing {ms} as an older offset");
    let ours = |out: &mut [u8]| ffi::old_write_offset(ms, out);
    write(tally, &what, old::encode_offset(ms), ours, |out| older::write_offset(ms, out))?;
    old::encode_offset(ms).map_or(Ok(()), |code| read_all(tally, &code))
}

fn write_string(tally: &mut Tally, text: &[u8]) -> Result<(), Difference> {
    let what = format!("writing the older string {:?}", text.escape_ascii().to_string());
    let ours = |out: &mut [u8]| ffi::old_write_string(text, out);
    write(tally, &what, old::encode_string(text), ours, |out| older::write_string(text, out))
}

/// A dictionary of these pairs, with room just enough, one byte short, none, and more; a text is lent behind its length whatever it is.
pub fn write_dictionary(tally: &mut Tally, entries: &[(Vec<u8>, Vec<u8>)]) -> Result<(), Difference> {
    let lend = |text: &[u8]| [&old::encode_count(text.len() as i64).unwrap_or_default()[..], text].concat();
    let pairs: Vec<u8> = entries.iter().flat_map(|(key, value)| [lend(key), lend(value)].concat()).collect();
    let borrowed: Vec<(&[u8], &[u8])> = entries.iter().map(|(key, value)| (&key[..], &value[..])).collect();
    let code = old::encode_dictionary(&borrowed).map_err(refused);
    let length = code.as_ref().map_or(pairs.len(), Vec::len);
    for room in [length, length.saturating_sub(1), 0, length + 5] {
        let theirs = match &code {
            Ok(code) if code.len() > room => Err((15, 0)),
            known => known.clone(),
        };
        let what = format!("writing an older dictionary of {} with room for {room}", entries.len());
        tally.same(&what, &pairs, written(room, entries.len() as u64, &pairs)?, theirs.clone())?;
        let mut out = vec![0; room];
        let wrapped = older::write_dictionary(entries.len() as u64, &pairs, &mut out).map_err(error_pair);
        tally.same(&what, &pairs, wrapped.map(|length| out[..length].to_vec()), theirs)?;
    }
    Ok(())
}

/// By the C function, with memory beside both outputs that must stay.
fn written(room: usize, count: u64, pairs: &[u8]) -> Result<Outcome<Vec<u8>>, Difference> {
    const FOUND: u64 = 0x5a5a_5a5a_5a5a_5a5a;
    let mut lengths = [FOUND; 3];
    let given = lent::written(room, pairs, |out| {
        let length: &mut [u64; 1] = (&mut lengths[1..2]).try_into().expect("one");
        match ffi::old_write_dictionary(count, pairs, out, length) {
            0 => 256 * length[0],
            refusal => refusal,
        }
    })?;
    let left = if given.is_ok() { [lengths[0], lengths[2], FOUND] } else { lengths };
    if left != [FOUND; 3] {
        return Err(Difference::new(format!("{given:?} left the lengths {lengths:x?}"), pairs));
    }
    Ok(given)
}

/// Reads a dictionary, writes its pairs and others, and asks names over it in the place of a file's field 3.
pub fn dictionaries(
    tally: &mut Tally,
    file: &[u8],
    entries: &Entries,
    names: &[(Vec<u8>, i64)],
    prng: &mut Prng,
) -> Result<(), Difference> {
    let good = dictionary(entries);
    let bad = damaged_dictionary(entries, prng);
    let longer = [&good[..], &prng.bytes(3)].concat();
    for lent in [&good, &bad, &longer, &Vec::new()] {
        read_dictionary(tally, lent)?;
        for (name, ticks) in names {
            ask_named(tally, file, lent, name, *ticks)?;
        }
    }
    write_dictionary(tally, entries)?;
    let mut more = entries.clone();
    let texts =
        [b"".to_vec(), vec![0xff], vec![b'x'; 1025], entries.first().map_or(Vec::new(), |(key, _)| key.clone())];
    more.push((prng.pick(&texts).clone(), prng.pick(&texts).clone()));
    write_dictionary(tally, &more)
}

fn ask_named(tally: &mut Tally, file: &[u8], older: &[u8], name: &[u8], ticks: i64) -> Result<(), Difference> {
    let name_shown = name.escape_ascii().to_string();
    for (edition, said_edition) in EDITIONS {
        let what = format!("{name_shown:?} at {ticks} over an older dictionary of {older:02x?}, {edition:?}");
        let said = second_reader::ask_named_old(file, older, name, ticks, said_edition);
        let theirs = said.map(|answer| numbers_of(&answer)).map_err(pair);
        let first = edition == nzd::Edition::One;
        let ours = lent::numbers(file, |out| ffi::ask_named_old(file, older, name, ticks, first, out))?;
        tally.same(&what, file, ours, theirs)?;
        let wrapped = nzd::ask_named_old(file, older, name, ticks, edition);
        tally.same(&what, file, wrapped_numbers(file, wrapped), theirs)?;
    }
    Ok(())
}
