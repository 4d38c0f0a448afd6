//! 02, Ask 10: one call for check and rewrite.

use crate::common::{generated, worked};
use second_reader::generate::{damaged, Damage, Size};
use second_reader::{check, normalize, rewrite, Refusal};
use std::collections::BTreeSet;

#[test]
fn reading_10_1_the_two_in_turn() {
    worked(&[
        ("normalize 0", "V 0003010141 0102 0003", "9 9"),
        ("normalize 0", "V 0003010141", "15 0"),
        ("normalize 8", "V 0003010141", "15 0"),
        ("normalize 9", "V 0003010141", "0 000000000003010141"),
        ("normalize 99", "V 0003010141", "0 000000000003010141"),
        ("normalize 0", "", "2 0"),
        ("normalize 0", "V", "6 4"),
    ]);
}

/// What a call gives and what it leaves in a room of that length.
fn done(
    call: fn(&[u8], &mut [u8]) -> Result<usize, Refusal>,
    file: &[u8],
    room: usize,
) -> (Result<usize, (u8, u64)>, Vec<u8>) {
    let mut out = vec![0xaa; room];
    let given = call(file, &mut out).map_err(|refusal| (refusal.number.value(), refusal.place));
    (given, out)
}

#[test]
fn on_any_bytes_and_room() {
    let mut numbers = BTreeSet::new();
    for seed in 80_000..82_000 {
        let (_, whole, mut prng) = generated(seed, Size::Small);
        let kind = *prng.pick(&Damage::ALL);
        for file in [whole.bytes(), damaged(&whole, kind, &mut prng)] {
            let checked = check(&file);
            let best = second_reader::rewrite::preferred(&file).map_or(0, |best| best.len());
            for room in [0, 1, best.saturating_sub(1), best, best + 1, prng.below(file.len() + 9)] {
                let given = done(normalize, &file, room);
                if checked != (0, 0) {
                    // The check's refusal, whatever the room, and the output as found.
                    assert_eq!(given, (Err(checked), vec![0xaa; room]));
                } else {
                    assert_eq!(given, done(rewrite, &file, room));
                    assert_eq!(given.0, if room < best { Err((15, 0)) } else { Ok(best) });
                }
                numbers.insert(given.0.map_or_else(|(number, _)| number, |_| 0));
            }
            // No room: the bare check.
            assert_eq!(done(normalize, &file, 0).0 == Err((15, 0)), checked == (0, 0));
        }
    }
    assert_eq!(numbers, BTreeSet::from([0, 2, 3, 4, 5, 6, 7, 8, 9, 10, 11, 13, 15, 19, 20]));
}
