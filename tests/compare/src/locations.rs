//! Locations: pins bit by bit, texts and countries, by the C functions and by the wrapper.

use crate::cases::field;
use crate::tally::{Difference, Outcome, Tally};
use crate::whole::{error_pair, pair};
use nzd::ffi;
use second_reader::codes::encode_signed_count;
use second_reader::generate::Prng;
use second_reader::locations::{self as second, LocationField};
use second_reader::number::Refusal;
use std::ops::Range;

/// What lent memory holds before a call.
const FOUND: u64 = 0x5a5a_5a5a_5a5a_5a5a;

/// The bits of latitude and longitude, zone ID, comment, and name and code of each country.
#[derive(Debug, PartialEq)]
struct Located {
    pin: [u64; 2],
    texts: [Range<usize>; 2],
    countries: Vec<[Range<usize>; 2]>,
}

/// Compares both fields of a file at numbers from 0 up to one that neither has, and at the ends of all numbers.
pub fn all(tally: &mut Tally, file: &[u8]) -> Result<(), Difference> {
    for field in [LocationField::Zone, LocationField::Zone1970] {
        for number in (0..).take(1 << 20) {
            if !one(tally, file, field, number)? {
                break;
            }
        }
        for number in [i32::MAX as u64, 1 << 32, u64::MAX] {
            one(tally, file, field, number)?;
        }
    }
    other_fields(tally, file)
}

/// Every longitude, and every latitude, in whole seconds: their degrees bit by bit.
pub fn every_second(tally: &mut Tally) -> Result<(), Difference> {
    let start = [&[0; 4], &field(0, &[1, 1, b'A'])[..]].concat();
    for longitude in -648_000..=648_000 {
        let seconds =
            [longitude / 2, longitude].map(|seconds| encode_signed_count(seconds).unwrap_or_default()).concat();
        let file = [&start[..], &field(6, &[&[1], &seconds[..], &[0; 4]].concat())].concat();
        let found = second_reader::locations::location(&file, LocationField::Zone, 0);
        let bits = found.map_err(pair).map(|found| [found.latitude.to_bits(), found.longitude.to_bits()]);
        let ours = given(&file, 6, 0)?.map(|located| located.pin);
        tally.same(&format!("the pin at {longitude} seconds"), &file, ours, bits)?;
    }
    Ok(())
}

/// Compares a few locations of a file, each field's first among them.
pub fn some(tally: &mut Tally, file: &[u8], prng: &mut Prng) -> Result<(), Difference> {
    for field in [LocationField::Zone, LocationField::Zone1970] {
        for number in [0, 1, prng.below(8) as u64] {
            one(tally, file, field, number)?;
        }
    }
    Ok(())
}

/// A field that can't be named is no such field.
fn other_fields(tally: &mut Tally, file: &[u8]) -> Result<(), Difference> {
    let theirs: Outcome<Located> = match second_reader::check(file) {
        (0, _) => Err((12, file.len() as u64)),
        refusal => Err(refusal),
    };
    for field in [0, 5, 8, 6 + 256, u64::MAX] {
        tally.same(&format!("location 0 of field {field}"), file, given(file, field, 0)?, clone(&theirs))?;
    }
    Ok(())
}

fn clone(outcome: &Outcome<Located>) -> Outcome<Located> {
    outcome.as_ref().map_or_else(|refusal| Err(*refusal), |_| panic!("a refusal"))
}

/// What the second reader gives.
fn expected(found: &Result<second::Pin, Refusal>) -> Outcome<Located> {
    found.clone().map_err(pair).map(|found| Located {
        pin: [found.latitude.to_bits(), found.longitude.to_bits()],
        texts: [found.zone, found.comment],
        countries: found.countries.into_iter().map(|(name, code)| [name, code]).collect(),
    })
}

/// Compares one location, and says whether there is one.
fn one(tally: &mut Tally, file: &[u8], field: LocationField, number: u64) -> Result<bool, Difference> {
    let asked = format!("location {number} of field {}", field.id());
    let found = second::location(file, field, number);
    let there = found.is_ok();
    let theirs = || expected(&found);
    tally.same(&asked, file, given(file, u64::from(field.id()), number)?, theirs())?;
    tally.same(&format!("{asked}, by the wrapper"), file, wrapped(file, field, number), theirs())?;
    Ok(there)
}

fn range(place: u64, length: u64) -> Range<usize> {
    place as usize..(place + length) as usize
}

/// Compares the first location of each field by what a receiver holds: as the second reader's receiver has it.
pub fn of_receiver(
    tally: &mut Tally,
    what: &str,
    held: &[u8],
    said: impl Fn(LocationField) -> Result<second::Pin, Refusal>,
    ask: impl Fn(u64, &mut [f64; 2], &mut [u64; 8]) -> u64,
    wrapped: &nzd::Receiver<'_>,
) -> Result<(), Difference> {
    for field in [LocationField::Zone, LocationField::Zone1970] {
        let found = said(field);
        let ours = given_by(held, |pin, out| ask(u64::from(field.id()), pin, out))?;
        tally.same(&what, held, ours, expected(&found))?;
        let by_wrapper = wrapped_parts(wrapped.held(), wrapped.location(named(field), 0));
        tally.same(&what, held, by_wrapper, expected(&found))?;
    }
    Ok(())
}

fn named(field: LocationField) -> nzd::LocationField {
    match field {
        LocationField::Zone => nzd::LocationField::Zone,
        LocationField::Zone1970 => nzd::LocationField::Zone1970,
    }
}

/// By the C functions, with memory beside what is lent that must stay.
fn given(file: &[u8], field: u64, number: u64) -> Result<Outcome<Located>, Difference> {
    given_by(file, |pin, out| ffi::location(file, field, number, pin, out))
}

/// By a C function, of the file's bytes.
fn given_by(
    file: &[u8],
    ask: impl FnOnce(&mut [f64; 2], &mut [u64; 8]) -> u64,
) -> Result<Outcome<Located>, Difference> {
    let left = |numbers: &[u64]| numbers.iter().all(|number| *number == FOUND);
    let mut pins = [f64::from_bits(FOUND); 6];
    let mut lent = [FOUND; 14];
    let pin = (&mut pins[2..4]).try_into().expect("two");
    let out = (&mut lent[3..11]).try_into().expect("eight");
    let result = ask(pin, out);
    let bits = pins.map(f64::to_bits);
    let refused = result != 0;
    if !left(&bits[..2])
        || !left(&bits[4..])
        || !left(&lent[..3])
        || !left(&lent[11..])
        || refused && !(left(&bits) && left(&lent))
    {
        return Err(Difference::new(format!("{result} left {bits:x?} and {lent:x?}"), file));
    }
    if refused {
        return Ok(Err(((result % 256) as u8, result / 256)));
    }
    let [zone, zone_length, comment, comment_length, start, end, place, count] = lent[3..11].try_into().expect("eight");
    let mut view = [start, end, place, count];
    let mut countries = Vec::new();
    loop {
        let before = view;
        let mut lent = [FOUND; 10];
        let out = (&mut lent[3..7]).try_into().expect("four");
        let more = ffi::next_country(file, &mut view, out);
        if !left(&lent[..3]) || !left(&lent[7..]) || !more && (!left(&lent) || view != before) {
            return Err(Difference::new(format!("{more} left {view:?} and {lent:x?}"), file));
        }
        if !more {
            break;
        }
        countries.push([range(lent[3], lent[4]), range(lent[5], lent[6])]);
    }
    if countries.len() as u64 != count {
        return Err(Difference::new(format!("{} countries of {count}", countries.len()), file));
    }
    Ok(Ok(Located {
        pin: [bits[2], bits[3]],
        texts: [range(zone, zone_length), range(comment, comment_length)],
        countries,
    }))
}

/// By the wrapper.
fn wrapped(file: &[u8], field: LocationField, number: u64) -> Outcome<Located> {
    wrapped_parts(file, nzd::location(file, named(field), number))
}

fn wrapped_parts(file: &[u8], found: Result<nzd::Location<'_>, nzd::Error>) -> Outcome<Located> {
    let part = |text: &str| {
        let place = text.as_ptr() as usize - file.as_ptr() as usize;
        place..place + text.len()
    };
    let found = found.map_err(error_pair)?;
    Ok(Located {
        pin: [found.pin.latitude.to_bits(), found.pin.longitude.to_bits()],
        texts: [part(found.zone), part(found.comment)],
        countries: found.countries.map(|country| [part(country.name), part(country.code)]).collect(),
    })
}

/// Views of any numbers over any file: the texts are parts of the file, and the view comes to an end.
pub fn any_view(file: &[u8], prng: &mut Prng) -> Result<(), Difference> {
    let any = |prng: &mut Prng| match prng.below(4) {
        0 => prng.next_u64(),
        1 => u64::MAX - prng.below(4) as u64,
        _ => prng.below(file.len() + 3) as u64,
    };
    let mut view: [u64; 4] = std::array::from_fn(|_| any(prng));
    for _ in 0..=file.len() {
        let (mut out, left) = ([FOUND; 4], view[3]);
        if !ffi::next_country(file, &mut view, &mut out) {
            return Ok(());
        }
        let inside = |place: u64, length: u64| place.checked_add(length).is_some_and(|end| end <= file.len() as u64);
        if !inside(out[0], out[1]) || !inside(out[2], out[3]) || view[3] >= left {
            return Err(Difference::new(format!("a step to {view:?} gave {out:?}"), file));
        }
    }
    Err(Difference::new(format!("the view {view:?} has no end"), file))
}
