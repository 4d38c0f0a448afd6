//! Rewriting to the preferred form.

use crate::codes;
use crate::file::read_file;
use crate::number::{Number, Refusal};

/// The preferred file: "every transition in the writer's form below and each size to match; all else is copied". 02, Ask 6:
/// "Rewriting always shortens such a size", of every field (reading 6.6).
pub fn preferred(bytes: &[u8]) -> Result<Vec<u8>, Refusal> {
    let contents = read_file(bytes)?;
    let mut zones = contents.zones.iter().peekable();
    let mut out = bytes[..4].to_vec();
    for (number, field) in contents.fields.iter().enumerate() {
        // A well-formed file's values all have a code; a number here would be a fault of this reader.
        let refuse = |fault: Number| fault.at(field.place);
        let data = match zones.next_if(|(zone_field, _)| *zone_field == number) {
            Some((_, zone)) => zone.encode().map_err(refuse)?,
            None => field.data.to_vec(),
        };
        out.push(field.id);
        out.extend(codes::encode_count(data.len() as i64).map_err(refuse)?);
        out.extend(data);
    }
    Ok(out)
}

/// "A rewrite gives its length and leaves later output bytes as found." "Every refusal keeps all lent output as
/// found."
pub fn rewrite(bytes: &[u8], out: &mut [u8]) -> Result<usize, Refusal> {
    let file = preferred(bytes)?;
    out.get_mut(..file.len()).ok_or(Number::OutputShort.at(0))?.copy_from_slice(&file);
    Ok(file.len())
}

/// 02, Ask 10: "one operation that gives the check's refusal, or rewrites; on any bytes and room its result and output are
/// those of the two in turn. An output of length 0 gets 15 once the file is good: that is the bare check."
pub fn normalize(bytes: &[u8], out: &mut [u8]) -> Result<usize, Refusal> {
    read_file(bytes)?;
    rewrite(bytes, out)
}
