//! 02, Ask 9: bytes in pieces.

use crate::common::{ask, ask_named, ask_plain, bytes_of, generated, pair};
use second_reader::generate::{damaged, names, Damage, FilePlan, Prng, Size};
use second_reader::receiver::unfinished;
use second_reader::transition::{FIRST, LAST};
use second_reader::{location, map_local, rewrite, version_text, LocationField, Mark, Number, Receiver, Refusal};
use std::collections::BTreeSet;

/// The place after these bytes came as one piece, byte by byte, and in the words' own pieces.
fn place_of(words: &str) -> usize {
    let bytes = bytes_of(words);
    let pieces: Vec<Vec<u8>> = words.split_whitespace().map(bytes_of).collect();
    let one_by_one: Vec<Vec<u8>> = bytes.iter().map(|byte| vec![*byte]).collect();
    let places: BTreeSet<usize> = [vec![bytes.clone()], pieces, one_by_one]
        .iter()
        .map(|pieces| {
            let (mut receiver, mut buffer) = (Receiver::new(), vec![0xaa; bytes.len() + 5]);
            for piece in pieces {
                assert_eq!(receiver.add(&mut buffer, piece), Ok(()));
            }
            assert_eq!(receiver.held, bytes.len());
            assert_eq!(buffer, [bytes.clone(), vec![0xaa; 5]].concat());
            receiver.place
        })
        .collect();
    assert_eq!(places.len(), 1, "{words}");
    *places.first().expect("a place")
}

#[test]
fn readings_9_1_to_9_4_the_place() {
    for (words, place) in [
        // In the version, and after 3.
        ("", 0),
        ("000000", 0),
        ("01", 0),
        ("00000001", 0),
        ("00000001 0003010141", 0),
        ("V", 4),
        // Contents don't stop the walk, and no ID does as 12 does a question.
        ("V 0001ff 0100", 9),
        ("V 000100 0201000300", 12),
        ("V 01", 4),
        ("V 01 0003010141", 4),
        ("V 000100 02ffffffff07", 7),
        ("V 000100 02ffffffff08 00", 7),
        ("V 000100 00", 7),
        // That ID byte for good.
        ("V 000100 0900 0800 ff00", 9),
        ("V 000100 0800 0800 ff00", 13),
        // A field whose head or data is cut.
        ("V 000100 02010003", 10),
        ("V 000100 0201000300", 12),
        ("V 000100 02", 7),
        ("V 000100 0280", 7),
        ("V 000100 028080808080", 7),
        ("V 000100 0202 00", 7),
        ("V 008100 00", 8),
    ] {
        assert_eq!(place_of(words), place, "{words}");
    }
}

#[test]
fn reading_9_5_what_fits() {
    let (mut receiver, mut buffer) = (Receiver::new(), vec![0xaa; 4]);
    let state = |receiver: &Receiver| (receiver.held, receiver.place);
    let no_room = Err(Number::OutputShort.at(0));
    assert_eq!(receiver.add(&mut buffer, &[0; 4]), Ok(()));
    assert_eq!(receiver.add(&mut buffer, &[]), Ok(()));
    assert_eq!(receiver.add(&mut buffer, &[0]), no_room);
    assert_eq!((state(&receiver), buffer.as_slice()), ((4, 4), &[0; 4][..]));
    // A piece that is longer is refused whole, its front too.
    let (mut receiver, mut buffer) = (Receiver::new(), vec![0xaa; 4]);
    assert_eq!(receiver.add(&mut buffer, &[0, 0]), Ok(()));
    assert_eq!(receiver.add(&mut buffer, &[1, 2, 3]), no_room);
    assert_eq!((state(&receiver), buffer.as_slice()), ((2, 0), &[0, 0, 0xaa, 0xaa][..]));
    assert_eq!(receiver.add(&mut buffer, &[3, 4]), Ok(()));
    assert_eq!((state(&receiver), buffer.as_slice()), ((4, 0), &[0, 0, 3, 4][..]));
}

#[test]
fn reading_9_6_more_is_held_than_there_is() {
    let no_room: (u8, u64) = (15, 0);
    let receiver = Receiver { held: 4, place: 4 };
    let mut buffer = vec![0; 3];
    for ticks in [0, FIRST - 1, LAST + 1] {
        assert_eq!(pair(&receiver.ask(&buffer, |held| ask_plain(held, b"A", ticks))), no_room);
        assert_eq!(pair(&receiver.ask(&buffer, |held| ask_named(held, b"A", ticks, Mark::ThisIsAll))), no_room);
    }
    assert_eq!(receiver.ask(&buffer, version_text), Err(Number::OutputShort.at(0)));
    for mut receiver in [receiver, Receiver { held: usize::MAX, place: 0 }] {
        let before = receiver;
        assert_eq!(receiver.add(&mut buffer, &[]), Err(Number::OutputShort.at(0)));
        assert_eq!(receiver.add(&mut buffer, &[1]), Err(Number::OutputShort.at(0)));
        assert_eq!((receiver, buffer.as_slice()), (before, &[0; 3][..]));
        receiver.reset();
        assert_eq!(receiver, Receiver::new());
        assert_eq!(receiver.add(&mut buffer, &[0]), Ok(()));
    }
}

#[test]
fn reading_9_8_a_reset_leaves_the_buffer() {
    let (mut receiver, mut buffer) = (Receiver::new(), vec![0xaa; 20]);
    let file = bytes_of("V P A");
    assert_eq!(receiver.add(&mut buffer, &file), Ok(()));
    assert!(receiver.ask(&buffer, |held| ask_plain(held, b"A", 0)).is_ok());
    let before = buffer.clone();
    receiver.reset();
    assert_eq!((receiver, &buffer), (Receiver { held: 0, place: 0 }, &before));
    assert_eq!(pair(&receiver.ask(&buffer, |held| ask_plain(held, b"A", 0))), (1, 0));
}

#[test]
fn reading_9_9_at_the_largest_place() {
    // A field 8 that ends at 4,194,304 behind an empty pool.
    let size = 4_194_304 - 7 - 5;
    let mut full = bytes_of("V 000100 08");
    full.extend(second_reader::codes::encode_count(size as i64).expect("a size"));
    full.resize(4_194_304, 0);
    assert_eq!(unfinished(&full), 4_194_304);
    for (more, place) in [("c8", 4_194_304), ("c800", 4_194_304), ("c88000", 4_194_304), ("02", 4_194_304)] {
        assert_eq!(unfinished(&[full.clone(), bytes_of(more)].concat()), place, "{more}");
    }
    // One byte more in the field: all there, but past the limit.
    full[8] += 1;
    full.push(0);
    assert_eq!((full.len(), unfinished(&full)), (4_194_305, 7));
}

#[test]
fn reading_9_11_a_buffer_of_length_0() {
    let mut receiver = Receiver::new();
    assert_eq!(receiver.add(&mut [], &[]), Ok(()));
    assert_eq!(receiver.add(&mut [], &[0]), Err(Number::OutputShort.at(0)));
    for (mark, ticks, said) in
        [(Mark::MoreMayCome, 0, (1, 0)), (Mark::ThisIsAll, 0, (2, 0)), (Mark::ThisIsAll, i64::MAX, (14, 0))]
    {
        assert_eq!(pair(&receiver.ask(&[], |held| ask(held, b"A", ticks, mark))), said);
    }
}

/// A model that takes one byte at a time and never looks back.
enum Walk {
    Version {
        count: usize,
        wrong: bool,
    },
    /// At an ID byte, with the ID before.
    Id(Option<u8>),
    Size {
        id: u8,
        value: u64,
        count: u32,
    },
    Data {
        id: u8,
        left: u64,
    },
    Stopped,
}

fn modelled(bytes: &[u8]) -> usize {
    let mut walk = Walk::Version { count: 0, wrong: false };
    // The ID byte of the field that is begun.
    let mut place = 0;
    for (at, &byte) in bytes.iter().enumerate() {
        walk = match walk {
            Walk::Version { count: 3, wrong } => {
                if wrong || byte != 0 {
                    Walk::Stopped
                } else {
                    Walk::Id(None)
                }
            }
            Walk::Version { count, wrong } => Walk::Version { count: count + 1, wrong: wrong || byte != 0 },
            Walk::Id(before) => {
                place = at;
                let good = match before {
                    None => byte == 0,
                    Some(before) => byte > before || byte == before && (byte == 1 || byte > 7),
                };
                if good {
                    Walk::Size { id: byte, value: 0, count: 0 }
                } else {
                    Walk::Stopped
                }
            }
            Walk::Size { id, value, count } => {
                let value = value + (u64::from(byte & 0x7f) << (7 * count));
                let end = at as u64 + 1 + value;
                match byte & 0x80 {
                    0 if value > 2_147_483_647 || end > 4_194_304 => Walk::Stopped,
                    0 if value == 0 => Walk::Id(Some(id)),
                    0 => Walk::Data { id, left: value },
                    _ if count == 4 => Walk::Stopped,
                    _ => Walk::Size { id, value, count: count + 1 },
                }
            }
            Walk::Data { id, left: 1 } => Walk::Id(Some(id)),
            Walk::Data { id, left } => Walk::Data { id, left: left - 1 },
            Walk::Stopped => Walk::Stopped,
        };
        if let Walk::Id(_) = walk {
            place = at + 1;
        }
    }
    place
}

/// Cuts the bytes anywhere, empty pieces among them.
fn cut<'a>(bytes: &'a [u8], prng: &mut Prng) -> Vec<&'a [u8]> {
    let mut at: Vec<usize> = (0..prng.below(9)).map(|_| prng.below(bytes.len() + 1)).collect();
    at.extend([0, bytes.len()]);
    at.sort_unstable();
    at.windows(2).map(|pair| &bytes[pair[0]..pair[1]]).collect()
}

fn files(seed: u64) -> (FilePlan, Vec<Vec<u8>>, Vec<Vec<u8>>, Prng) {
    let (content, whole, mut prng) = generated(seed, Size::Small);
    let kind = *prng.pick(&Damage::ALL);
    let bad = damaged(&whole, kind, &mut prng);
    let names = names(&content, &mut prng);
    (whole.clone(), vec![whole.bytes(), bad], names, prng)
}

#[test]
fn any_cutting_gives_the_same_state_and_answers() {
    let mut stopped = 0;
    for seed in 70_000..70_600 {
        let (_, files, names, mut prng) = files(seed);
        for file in files.iter().filter(|file| file.len() < 5_000) {
            let room = file.len() + prng.below(4);
            let found: Vec<u8> = prng.bytes(room);
            let mut buffer = found.clone();
            let mut receiver = Receiver::new();
            let mut held = 0;
            for piece in cut(file, &mut prng) {
                assert_eq!(receiver.add(&mut buffer, piece), Ok(()));
                held += piece.len();
                assert_eq!((receiver.held, receiver.place), (held, modelled(&file[..held])), "seed {seed}");
                // One that doesn't fit changes nothing.
                let (before, kept) = (receiver, buffer.clone());
                assert!(receiver.add(&mut buffer, &vec![1; room - held + 1]).is_err());
                assert_eq!((receiver, &buffer), (before, &kept));
            }
            assert_eq!((&buffer[..held], &buffer[held..]), (file.as_slice(), &found[held..]));
            stopped += usize::from(receiver.place < held);
            let name = prng.pick(&names);
            for ticks in [0, LAST + 1] {
                for mark in [Mark::MoreMayCome, Mark::ThisIsAll] {
                    assert_eq!(
                        receiver.ask(&buffer, |held| ask(held, name, ticks, mark)),
                        ask(file, name, ticks, mark)
                    );
                    let named = receiver.ask(&buffer, |held| ask_named(held, name, ticks, mark));
                    assert_eq!(named, ask_named(file, name, ticks, mark));
                }
                assert_eq!(receiver.ask(&buffer, |held| ask_plain(held, name, ticks)), ask_plain(file, name, ticks));
            }
            assert_eq!(receiver.ask(&buffer, |held| map_local(held, name, 0)), map_local(file, name, 0));
            assert_eq!(receiver.ask(&buffer, version_text), version_text(file));
            let pin = |held: &[u8]| location(held, LocationField::Zone, 0);
            assert_eq!(receiver.ask(&buffer, pin), pin(file));
            let rewritten = |held: &[u8]| -> Result<Vec<u8>, Refusal> {
                let mut out = vec![0; held.len()];
                rewrite(held, &mut out).map(|length| out[..length].to_vec())
            };
            assert_eq!(receiver.ask(&buffer, rewritten), rewritten(file));
        }
    }
    assert!(stopped > 150, "{stopped}");
}

#[test]
fn the_place_is_that_of_the_plan() {
    for seed in 71_000..71_300 {
        let (plan, files, _, _) = files(seed);
        let extents = plan.extents();
        for length in 0..=files[0].len() {
            let cut = extents.iter().find(|extent| extent.start < length && length < extent.end);
            let wanted = match cut {
                _ if length < 4 => 0,
                Some(extent) => extent.start,
                None => length,
            };
            assert_eq!(unfinished(&files[0][..length]), wanted);
        }
        // Damaged, at each length of a file that isn't long.
        for length in 0..=files[1].len().min(400) {
            assert_eq!(unfinished(&files[1][..length]), modelled(&files[1][..length]), "seed {seed}");
        }
    }
}

#[test]
fn answers_stand_until_a_reset() {
    for seed in 72_000..72_200 {
        let (_, files, names, mut prng) = files(seed);
        for file in files.iter().filter(|file| file.len() < 5_000) {
            let (mut receiver, mut buffer) = (Receiver::new(), vec![0; file.len()]);
            let name = prng.pick(&names).clone();
            let question = |held: &[u8]| ask_named(held, &name, 0, Mark::MoreMayCome);
            let mut said = None;
            for piece in cut(file, &mut prng) {
                assert_eq!(receiver.add(&mut buffer, piece), Ok(()));
                let now = receiver.ask(&buffer, question);
                match &said {
                    Some(said) => assert_eq!(&now, said),
                    None if pair(&now).0 == 1 => {}
                    None => said = Some(now),
                }
            }
            receiver.reset();
            assert_eq!(pair(&receiver.ask(&buffer, question)), (1, 0));
        }
    }
}
