//! Files and other forms of them.

use second_reader::codes::read_transition;
use second_reader::file::read_file;
use second_reader::generate::plan::Kind;
use second_reader::generate::{plan, FileContent, Forms};
use second_reader::{Refusal, Transition};

/// A realistic file.
pub fn realistic_file(name: &str) -> Result<Vec<u8>, String> {
    let path = format!("{}/../data/{name}", env!("CARGO_MANIFEST_DIR"));
    std::fs::read(&path).map_err(|error| format!("{path}: {error}"))
}

/// The content of a well-formed file.
pub fn content(file: &[u8]) -> Result<FileContent, Refusal> {
    let contents = read_file(file)?;
    let others = contents.fields.iter().filter(|field| matches!(field.id, 4 | 5 | 8..));
    let has = |id| contents.fields.iter().any(|field| field.id == id);
    Ok(FileContent {
        locations: has(6).then_some(contents.locations),
        locations_1970: has(7).then_some(contents.locations_1970),
        pool: contents.pool.iter().map(|part| file[part.clone()].to_vec()).collect(),
        zones: contents.zones.into_iter().map(|(_, zone)| zone).collect(),
        version: contents.version_text.map(|part| file[part].to_vec()),
        aliases: contents.aliases,
        others: others.map(|field| (field.id, field.data.to_vec())).collect(),
    })
}

pub fn preferred(content: &FileContent) -> Vec<u8> {
    plan(content, &mut Forms::Preferred).bytes()
}

/// The file of a content with every instant in the ticks form, the longest one, so that normalizing has much to change.
pub fn in_ticks(content: &FileContent) -> Vec<u8> {
    let mut file = plan(content, &mut Forms::Preferred);
    for code in file.fields.iter_mut().flat_map(|field| &mut field.codes) {
        if let Kind::Transition(previous) = code.kind {
            if let Ok((Transition::Finite(ticks), _)) = read_transition(&code.bytes, previous) {
                code.bytes = [&[2][..], &ticks.to_be_bytes()].concat();
            }
        }
    }
    file.bytes()
}

/// A well-formed file with each of its sizes in five bytes, those that it needs and groups of zero.
pub fn padded(file: &[u8]) -> Result<Vec<u8>, Refusal> {
    let mut out = vec![0; 4];
    for field in read_file(file)?.fields {
        let size = field.data.len();
        out.push(field.id);
        out.extend((0..4).map(|group| (size >> (7 * group)) as u8 | 0x80));
        out.push((size >> 28) as u8);
        out.extend(field.data);
    }
    Ok(out)
}
