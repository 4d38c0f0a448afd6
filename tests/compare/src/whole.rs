//! The functions on whole files: normalizing, which is the check without room, and the version text.

use crate::lent;
use crate::tally::{Difference, Outcome, Tally};
use nzd::ffi;
use second_reader::Refusal;

pub fn pair(refusal: Refusal) -> (u8, u64) {
    (refusal.number.value(), refusal.place)
}

pub fn error_pair(error: nzd::Error) -> (u8, u64) {
    (error.number.value(), error.place as u64)
}

/// Compares all of them on a file, by the C functions and by the wrapper.
pub fn whole(tally: &mut Tally, file: &[u8]) -> Result<(), Difference> {
    check(tally, file)?;
    version_text(tally, file)?;
    normalize(tally, file)
}

/// Without room: "An output of length 0 gets 15 once the file is good: that is the bare check."
pub fn check(tally: &mut Tally, file: &[u8]) -> Result<(), Difference> {
    let theirs: Outcome<()> = match second_reader::check(file) {
        (0, _) => Ok(()),
        refusal => Err(refusal),
    };
    let bare = theirs.and(Err((15, 0)));
    tally.same(&"normalize without room", file, lent::written(0, file, |out| ffi::normalize(file, out))?, bare)?;
    tally.same(&"check by the wrapper", file, nzd::check(file).map_err(error_pair), theirs)
}

fn version_text(tally: &mut Tally, file: &[u8]) -> Result<(), Difference> {
    let theirs = second_reader::version_text(file).map_err(pair);
    let numbers = theirs.clone().map(|part| [part.start as i64, part.len() as i64]);
    tally.same(&"version text", file, lent::numbers(file, |out| ffi::version_text(file, out))?, numbers)?;
    let wrapped = nzd::version_text(file).map_err(error_pair).map(str::as_bytes);
    let text = theirs.map(|part| &file[part]);
    tally.same(&"version text by the wrapper", file, wrapped, text)
}

/// With room just enough, one byte short, for the version alone, as long as the file, and more.
fn normalize(tally: &mut Tally, file: &[u8]) -> Result<(), Difference> {
    let preferred = second_reader::rewrite::preferred(file).map_err(pair);
    let length = preferred.as_ref().map_or(file.len(), Vec::len);
    for room in [length, length.saturating_sub(1), 4, file.len(), file.len() + 5] {
        let theirs = match &preferred {
            Ok(new) if new.len() > room => Err((15, 0)),
            known => known.clone(),
        };
        let what = format!("normalize with room for {room}");
        tally.same(&what, file, lent::written(room, file, |out| ffi::normalize(file, out))?, theirs.clone())?;
        let mut out = vec![0; room];
        let ours = nzd::normalize(file, &mut out).map_err(error_pair);
        let ours = ours.map(|length| out[..length].to_vec());
        tally.same(&format!("{what} by the wrapper"), file, ours, theirs)?;
    }
    Ok(())
}
