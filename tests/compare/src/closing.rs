//! Closing up the pool: by the C function and by the wrapper, and what must stay of a closed file.

use crate::cases::{hex, zone_file};
use crate::lent;
use crate::questions::{Question, EDITIONS};
use crate::tally::{Difference, Outcome, Tally};
use crate::whole::{error_pair, pair};
use nzd::{ffi, Answer, Error, LocationField, Mark, Number};
use second_reader::close_pool::closed;
use second_reader::file::LAST_END;
use second_reader::generate::{growing, plan, FileContent, Forms};

/// Compares the closed file, with room just enough, one byte short, none, as much as the source takes, and more. Gives it where there is
/// one.
pub fn close(tally: &mut Tally, file: &[u8]) -> Result<Option<Vec<u8>>, Difference> {
    let theirs = closed(file).map_err(pair);
    let length = theirs.as_ref().map_or(file.len(), Vec::len);
    for room in [length, length.saturating_sub(1), 0, file.len(), length + 5] {
        close_into(tally, file, room, &theirs)?;
    }
    Ok(theirs.ok())
}

/// Compares the closed file in one room.
fn close_into(tally: &mut Tally, file: &[u8], room: usize, theirs: &Outcome<Vec<u8>>) -> Result<(), Difference> {
    let expected = match theirs {
        Ok(closed) if closed.len() > room => Err((15, 0)),
        known => known.clone(),
    };
    let what = format!("room for {room}");
    let ours = lent::written(room, file, |out| ffi::close_pool(file, out))?;
    tally.same_of("close_pool", &what, file, ours, expected.clone())?;
    tally.same_of("close_pool", &what, file, wrapped(file, room).map_err(error_pair), expected)
}

fn wrapped(file: &[u8], room: usize) -> Result<Vec<u8>, Error> {
    let mut out = vec![0; room];
    let length = nzd::close_pool(file, &mut out)?;
    out.truncate(length);
    Ok(out)
}

fn normalized(file: &[u8]) -> Result<Vec<u8>, Error> {
    let mut out = vec![0; file.len()];
    let length = nzd::normalize(file, &mut out)?;
    out.truncate(length);
    Ok(out)
}

/// Of a file that can be closed: closing the closed file gives it again, closing and normalizing give one file in either order, and all
/// questions are answered as before, by the library itself.
pub fn stays(tally: &mut Tally, file: &[u8], asked: &[Question], locals: &[Question]) -> Result<(), Difference> {
    let Some(closed) = close(tally, file)? else { return Ok(()) };
    let room = file.len() + closed.len();
    let again = close(tally, &closed)?;
    let either = [normalized(&closed), normalized(file).and_then(|preferred| wrapped(&preferred, room))];
    if again.as_ref() != Some(&closed) || either[0] != either[1] || either[0].is_err() {
        return Err(Difference::new("closing twice, or closing and normalizing, gives another file", file));
    }
    let same = |what: &str, same: bool| match same {
        true => Ok(()),
        false => Err(Difference::new(format!("the closed file says other things: {what}"), file)),
    };
    for (id, ticks) in asked {
        for (edition, _) in EDITIONS {
            for mark in [Mark::MoreMayCome, Mark::ThisIsAll] {
                let asked = [file, &closed].map(|file| shown(nzd::ask(file, id, *ticks, mark, edition)));
                let named = [file, &closed].map(|file| shown(nzd::ask_named(file, id, *ticks, mark, edition)));
                let what = format!("{:?} at {ticks}, {mark:?}, {edition:?}", id.escape_ascii().to_string());
                same(&what, asked[0] == asked[1] && named[0] == named[1])?;
            }
        }
    }
    for (id, local) in locals {
        let mapped = [file, &closed].map(|file| nzd::map_local(file, id, *local).map_err(|error| error.number));
        same("a local time", mapped[0] == mapped[1])?;
    }
    for field in [LocationField::Zone, LocationField::Zone1970] {
        let all = [file, &closed].map(|file| nzd::locations(file, field).map(located).collect::<Vec<_>>());
        same("a location", all[0] == all[1])?;
    }
    let text = [file, &closed].map(|file| nzd::version_text(file).map_err(|error| error.number));
    same("the version text", text[0] == text[1])
}

/// An answer with its name's bytes, or the number of a refusal: a place may be another.
fn shown(answer: Result<Answer<'_>, Error>) -> Result<Answer<'_>, Number> {
    answer.map_err(|error| error.number)
}

/// All of a location: the bits of its pin, and its texts.
fn located(location: Result<nzd::Location<'_>, Error>) -> Result<([u64; 2], Vec<&str>), Number> {
    let location = location.map_err(|error| error.number)?;
    let pin = [location.pin.latitude.to_bits(), location.pin.longitude.to_bits()];
    let countries = location.countries.flat_map(|country| [country.name, country.code]);
    Ok((pin, [location.zone, location.comment].into_iter().chain(countries).collect()))
}

/// The worked cases of the readings, and every prefix of them.
pub fn worked(tally: &mut Tally) -> Result<(), Difference> {
    for file in [
        // 14.30 to 14.32, 14.36 and 14.37.
        "00000000 0009 040141014201430142 0104 00013002 0104 01013002 0303 010302",
        "00000000 0007 03014101420143",
        "00000000 000100",
        "00000000 0007 03014101420143 011d 00020100003030 020000000000000000 01 32 01 1c0a0132 02 1c030132 32",
        "00000000 0007 03014101420143 0103 020130",
        "00000000 0007 03014101420143 0103 020130 0202 0141",
        "00000000 00 878000 03014101420143 0184 00 00013000 02 818000 00",
        "00000000 0007 03014101420143 0104 00013000 0305 0201020201",
        "00000000 0007 03014101420143 0103 020130 0607 01000001010102",
        "00000000 0007 03014101420143 070a 01000004020102010201",
        // 14.34: fields that aren't read, and the check's faults before them.
        "00000000 0007 03014101420143 0104 00013000 0400",
        "00000000 0007 03014101420143 0104 00013000 0400 00",
        "00000000 0007 03014101420143 030100 0500 0900",
        "00000000 0007 03014101420143 0104 00013000 0800",
        "00000000 0007 03014101420143 0104 00013000 ff00",
        "00000000 0007 03014101420143 0104 00013000 0201 00 030100 060100 070100 0800",
        "00000000 0007 03014101420143 0104 00013000 0400 0700",
        "00000000 0007 03014101420143 0104 00013000 0604 01c2c627",
    ] {
        let file = hex(file);
        for length in 0..=file.len() {
            let asked: Vec<Question> = ["A", "B", "C"].map(|id| (id.as_bytes().to_vec(), 0)).to_vec();
            stays(tally, &file[..length], &asked, &asked)?;
        }
    }
    // A fixed zone with a name, without one, and with a byte behind it.
    for zone in ["00013000", "000130", "0001300000"] {
        close(tally, &zone_file(&hex(zone)))?;
    }
    grown(tally)
}

/// 14.33: files that closing makes longer, up to the largest place, just met and just passed.
fn grown(tally: &mut Tally) -> Result<(), Difference> {
    for zones in [1, 2, 3, 11] {
        let file = plan(&growing(zones, 0), &mut Forms::Preferred).bytes();
        stays(tally, &file, &[(b"001".to_vec(), 0), (b"000".to_vec(), 0)], &[])?;
    }
    // Each further pair takes two bytes, and each of the version text one.
    let file = |pairs: usize, text: usize| {
        let content = FileContent { version: Some(vec![b'x'; text]), ..growing(11, pairs) };
        plan(&content, &mut Forms::Preferred).bytes()
    };
    let left = |pairs: usize| LAST_END - closed(&file(pairs, 0)).map_or(0, |closed| closed.len());
    // A few pairs less than would go in, since the counts of as many take more bytes.
    let pairs = left(0) / 2 - 8;
    let left = left(pairs);
    for (more, said) in [(0, Ok(LAST_END)), (1, Err((4, 0)))] {
        let file = file(pairs + left / 2, left % 2 + more);
        let theirs = closed(&file).map_err(pair);
        assert_eq!(theirs.as_ref().map(Vec::len).map_err(|refusal| *refusal), said, "the largest place");
        close_into(tally, &file, LAST_END, &theirs)?;
    }
    Ok(())
}
