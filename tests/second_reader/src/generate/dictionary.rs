//! Dictionaries of the older edition that stand for a file's field 3.

use crate::generate::content::FileContent;
use crate::generate::prng::Prng;
use crate::old::{encode_count, encode_dictionary, encode_string};

/// Keys and values as they are written.
pub type Entries = Vec<(Vec<u8>, Vec<u8>)>;

/// The pairs of a content's field 3, and now and then what an older dictionary has besides: "all known time zone IDs
/// (aliases and non-aliases)", so IDs that lead to themselves.
pub fn random_entries(content: &FileContent, prng: &mut Prng) -> Entries {
    let string = |number: usize| content.pool[number].clone();
    let pairs = content.aliases.iter().flatten();
    let mut entries: Entries = pairs.map(|&(key, target)| (string(key), string(target))).collect();
    let mut more: Vec<Vec<u8>> = vec![b"Old/Name".to_vec()];
    more.extend(content.zones.iter().map(|zone| content.id(zone).to_vec()));
    for name in more {
        if prng.one_in(3) && entries.iter().all(|(key, _)| *key != name) {
            entries.insert(prng.below(entries.len() + 1), (name.clone(), name));
        }
    }
    entries
}

/// The bytes of a dictionary of at most some thousand entries with good texts.
pub fn dictionary(entries: &Entries) -> Vec<u8> {
    let entries: Vec<(&[u8], &[u8])> = entries.iter().map(|(key, value)| (key.as_slice(), value.as_slice())).collect();
    encode_dictionary(&entries).unwrap_or_default()
}

/// A dictionary that is refused, or that is at least not the same.
pub fn damaged_dictionary(entries: &Entries, prng: &mut Prng) -> Vec<u8> {
    let mut bytes = dictionary(entries);
    match prng.below(7) {
        0 => bytes.truncate(prng.below(bytes.len().max(1))),
        1 => {
            let place = prng.below(bytes.len());
            bytes[place] ^= 1 << prng.below(8);
        }
        // Another count: more than there are, or one that is no code.
        2 => bytes[0] = bytes[0].wrapping_add(1),
        3 => {
            let code = *prng.pick(&[[0xff, 0x10, 0x20, 0x40, 0x8e], [0xff, 0x80, 0, 0, 0]]);
            bytes = [&code, &bytes[1..]].concat();
        }
        // A key that stands already, a text that is too long, a text that isn't UTF-8.
        kind => {
            let key = match (kind, entries.first()) {
                (4, Some((key, _))) => encode_string(key).unwrap_or_default(),
                (5, _) => [encode_count(1025).unwrap_or_default(), vec![b'x'; 1025]].concat(),
                _ => vec![0xf2, 0xc3, 0x28],
            };
            let before = encode_count(entries.len() as i64).unwrap_or_default().len();
            let count = encode_count(entries.len() as i64 + 1).unwrap_or_default();
            bytes = [count, bytes[before..].to_vec(), key, vec![0xf0]].concat();
        }
    }
    bytes
}
