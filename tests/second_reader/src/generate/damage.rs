//! Damaged files, each from a well-formed one.

use crate::calendar;
use crate::codes;
use crate::generate::plan::{Code, FieldPlan, FilePlan, Kind};
use crate::generate::prng::Prng;
use crate::transition::{Transition, FIRST, LAST};

/// A way to damage a file.
#[derive(Clone, Copy, Debug, PartialEq, Eq)]
pub enum Damage {
    /// The bytes end early.
    Cut,
    /// A few bits or bytes are changed.
    Flip,
    /// The version isn't 0.
    Version,
    /// A count has a byte more than it needs, or a size more than five bytes.
    PaddedCount,
    /// Two fields change places.
    WrongOrder,
    /// A field stands twice.
    DoubledField,
    /// A zone stands twice, the second time perhaps behind other zones.
    DoubledZone,
    /// An alias stands twice.
    DoubledKey,
    /// A largest size is passed.
    LimitPassed,
    /// One code is broken, the sizes kept right.
    BrokenCode,
    /// A field's data ends early, its size kept right.
    DataCut,
    /// A field's data goes on, its size kept right.
    DataLeftOver,
    /// The whole file, with bytes behind it.
    BytesBehind,
}

impl Damage {
    /// Every way; a broken code, which can be many things, stands more than once.
    pub const ALL: [Damage; 17] = [
        Damage::Cut,
        Damage::Flip,
        Damage::Version,
        Damage::PaddedCount,
        Damage::WrongOrder,
        Damage::DoubledField,
        Damage::DoubledZone,
        Damage::DoubledKey,
        Damage::LimitPassed,
        Damage::BrokenCode,
        Damage::BrokenCode,
        Damage::BrokenCode,
        Damage::BrokenCode,
        Damage::BrokenCode,
        Damage::DataCut,
        Damage::DataLeftOver,
        Damage::BytesBehind,
    ];
}

/// The file of `whole`, damaged. Now and then it is still well formed (a bit of field 4 flipped, say).
pub fn damaged(whole: &FilePlan, kind: Damage, prng: &mut Prng) -> Vec<u8> {
    let mut file = whole.clone();
    match kind {
        Damage::Cut => {
            let mut bytes = file.bytes();
            bytes.truncate(prng.below(bytes.len()));
            return bytes;
        }
        Damage::Flip => return flipped(file.bytes(), prng),
        Damage::BytesBehind => {
            let count = 1 + prng.below(8);
            return [file.bytes(), prng.bytes(count)].concat();
        }
        Damage::Version => file.version[prng.below(4)] = 1 + prng.below(255) as u8,
        Damage::PaddedCount => pad_count(&mut file, prng),
        Damage::WrongOrder => {
            let (one, other) = (prng.below(file.fields.len()), prng.below(file.fields.len()));
            file.fields.swap(one, other);
        }
        Damage::DoubledField => {
            let number = prng.below(file.fields.len());
            file.fields.insert(number + 1, file.fields[number].clone());
        }
        Damage::DoubledZone => double_zone(&mut file, prng),
        Damage::DoubledKey => double_key(&mut file, prng),
        Damage::LimitPassed => pass_limit(&mut file, prng),
        Damage::BrokenCode => break_code(&mut file, prng),
        Damage::DataCut => {
            let field = pick_field(&mut file, prng);
            let mut data: Vec<u8> = field.codes.iter().flat_map(|code| code.bytes.clone()).collect();
            data.truncate(prng.below(data.len().max(1)));
            field.codes = vec![Code { kind: Kind::Opaque, bytes: data }];
        }
        Damage::DataLeftOver => {
            let count = 1 + prng.below(3);
            let bytes = prng.bytes(count);
            pick_field(&mut file, prng).codes.push(Code { kind: Kind::Opaque, bytes });
        }
    }
    file.bytes()
}

/// A field, more often one of those whose data is read.
fn pick_field<'a>(file: &'a mut FilePlan, prng: &mut Prng) -> &'a mut FieldPlan {
    let read = |field: &FieldPlan| matches!(field.id, 0..=3 | 6 | 7);
    let any = prng.one_in(8);
    let among: Vec<usize> = (0..file.fields.len()).filter(|&number| any || read(&file.fields[number])).collect();
    let number = *prng.pick(&among);
    &mut file.fields[number]
}

fn flipped(mut bytes: Vec<u8>, prng: &mut Prng) -> Vec<u8> {
    for _ in 0..1 + prng.below(3) {
        let place = prng.below(bytes.len());
        bytes[place] = if prng.one_in(3) { prng.byte() } else { bytes[place] ^ (1 << prng.below(8)) };
    }
    bytes
}

/// The same number with a last byte 0 behind: not the shortest form.
fn padded(code: &[u8], length: usize) -> Vec<u8> {
    let mut out = code[..length].to_vec();
    out[length - 1] |= 0x80;
    out.push(0);
    out.extend(&code[length..]);
    out
}

/// The length of the count at the front of a code, where there is one.
fn count_length(code: &Code) -> Option<usize> {
    match code.kind {
        Kind::Flag | Kind::Offset | Kind::TailByte | Kind::RuleByte | Kind::Time => None,
        Kind::Savings(_) | Kind::TailSavings(_) | Kind::Opaque => None,
        _ => code.bytes.iter().position(|byte| byte & 0x80 == 0).map(|last| last + 1),
    }
}

fn pad_count(file: &mut FilePlan, prng: &mut Prng) {
    let field = pick_field(file, prng);
    if !field.codes.is_empty() && !prng.one_in(4) {
        let number = prng.below(field.codes.len());
        let code = &mut field.codes[number];
        if let Some(length) = count_length(code) {
            code.bytes = padded(&code.bytes, length);
            return;
        }
    }
    field.size = codes::encode_count(field.data_length() as i64).ok().map(|mut size| {
        while size.len() < 6 {
            size = padded(&size, size.len());
        }
        size
    });
}

fn double_zone(file: &mut FilePlan, prng: &mut Prng) {
    let zones: Vec<usize> = (0..file.fields.len()).filter(|&number| file.fields[number].id == 1).collect();
    if zones.is_empty() {
        return break_code(file, prng);
    }
    let one = *prng.pick(&zones);
    let behind = prng.pick(&zones[one - zones[0]..]) + 1;
    file.fields.insert(behind, file.fields[one].clone());
}

fn double_key(file: &mut FilePlan, prng: &mut Prng) {
    let Some(field) = file.fields.iter_mut().find(|field| field.id == 3 && field.codes.len() > 1) else {
        return break_code(file, prng);
    };
    let pairs = (field.codes.len() - 1) / 2;
    let key = field.codes[1 + 2 * prng.below(pairs)].clone();
    // What follows the second key is never looked at: a target, nothing, or what is no code.
    let behind = match prng.below(3) {
        0 => key.bytes.clone(),
        1 => Vec::new(),
        _ => vec![0x80, 0x00],
    };
    field.codes.extend([key, Code { kind: Kind::Opaque, bytes: behind }]);
    field.codes[0].bytes = codes::encode_count(pairs as i64 + 1).unwrap_or_default();
}

/// "Largest sizes: the place just past a field is at most 4,194,304; 8,192 pool strings; 1,024 bytes a string; 4,096
/// intervals a zone."
fn pass_limit(file: &mut FilePlan, prng: &mut Prng) {
    let count = |value: usize| codes::encode_count(value as i64).unwrap_or_default();
    match prng.below(5) {
        0 => {
            // As many strings as the count says, all but the first ones empty.
            let pool = &mut file.fields[0].codes;
            let missing = 8193 - (pool.len() - 1).min(8193);
            pool[0].bytes = count(8193);
            pool.extend((0..missing).map(|_| Code { kind: Kind::Text, bytes: vec![0] }));
        }
        1 => replace(file, prng, |kind| kind == Kind::Text, |_| [count(1025), vec![b'y'; 1025]].concat()),
        2 => replace(file, prng, |kind| kind == Kind::IntervalCount, |_| count(4097)),
        3 => {
            // The size alone passes the limit, or just doesn't; its padding counts.
            let number = prng.below(file.fields.len());
            let place = file.extents()[number].start;
            let end = 4_194_304 + prng.below(2);
            file.fields[number].size = Some(match prng.one_in(2) {
                true => count(end - place - 5),
                false => padded(&count(end - place - 6), 4),
            });
        }
        _ => {
            let field = pick_field(file, prng);
            field.size = Some(count(2_147_483_647 - prng.below(3)));
        }
    }
}

/// Replaces one code of the wanted kind; any one code if there is none.
fn replace(file: &mut FilePlan, prng: &mut Prng, wanted: impl Fn(Kind) -> bool, new: impl Fn(&mut Prng) -> Vec<u8>) {
    let found: Vec<(usize, usize)> = file
        .fields
        .iter()
        .enumerate()
        .flat_map(|(number, field)| (0..field.codes.len()).map(move |code| (number, code)))
        .filter(|&(number, code)| wanted(file.fields[number].codes[code].kind))
        .collect();
    if found.is_empty() {
        return break_code(file, prng);
    }
    let (number, code) = *prng.pick(&found);
    file.fields[number].codes[code].bytes = new(prng);
}

fn break_code(file: &mut FilePlan, prng: &mut Prng) {
    let pool_count = file.fields.iter().find(|field| field.id == 0).map_or(0, |field| field.codes.len() - 1);
    let field = pick_field(file, prng);
    if field.codes.is_empty() {
        return;
    }
    let number = prng.below(field.codes.len());
    let code = &mut field.codes[number];
    code.bytes = broken(code, pool_count, prng);
}

/// A code in the place of `code` that is refused there, or that makes what follows be refused.
fn broken(code: &Code, pool_count: usize, prng: &mut Prng) -> Vec<u8> {
    if count_length(code).is_some() && prng.one_in(5) {
        return broken_count(&code.bytes, prng);
    }
    let count = |value: i64| codes::encode_count(value).unwrap_or_default();
    let signed = |value: i64| codes::encode_signed_count(value).unwrap_or_default();
    match code.kind {
        Kind::PoolCount => {
            let change = *prng.pick(&[-1, 1, 8193]);
            count((pool_count as i64 + change).max(0))
        }
        Kind::Text => broken_text(&code.bytes, prng),
        Kind::PoolNumber => count(pool_count as i64 + prng.range(0, 200) * prng.range(0, 1)),
        Kind::Flag => vec![*prng.pick(&[0, 1, 2, 3, 0x80, 0xff])],
        Kind::Offset => broken_offset(prng),
        Kind::IntervalCount => {
            let wrong = *prng.pick(&[0, 4097, 2, 1]);
            count(wrong)
        }
        Kind::Transition(previous) => broken_transition(previous, prng),
        Kind::TailByte => vec![*prng.pick(&[0, 1, 2, 0xff])],
        Kind::RuleByte => vec![*prng.pick(&[0x80, 0x60, 0xe0, 0x1c]) | code.bytes[0]],
        Kind::Month => count(*prng.pick(&[0, 13, 127, 128])),
        Kind::Day(month) => {
            let (longest, shortest) = (calendar::longest_length(month), calendar::shortest_length(month));
            signed(*prng.pick(&[0, longest + 1, -shortest - 1, 64, i64::from(i32::MAX), i64::from(i32::MIN)]))
        }
        Kind::Time => match prng.below(3) {
            0 => broken_offset(prng),
            _ => codes::encode_offset(prng.range(-86_399_999, -1)).unwrap_or_default(),
        },
        Kind::Savings(wall) => match prng.below(3) {
            0 => broken_offset(prng),
            // The standard offset is 24 hours exactly, away from zero; broken another way where no code can say so.
            _ => {
                let standard = if wall >= 0 { 86_400_000 } else { -86_400_000 };
                codes::encode_offset(i64::from(wall) - standard).unwrap_or_else(|_| broken_offset(prng))
            }
        },
        Kind::TailSavings(standard) => match prng.below(3) {
            0 => broken_offset(prng),
            // The sum is 24 hours exactly, away from zero; broken another way where no code can say so.
            _ => {
                let sum = if standard >= 0 { 86_400_000 } else { -86_400_000 };
                codes::encode_offset(sum - i64::from(standard)).unwrap_or_else(|_| broken_offset(prng))
            }
        },
        Kind::PairCount => {
            let pairs = code.bytes[0] & 0x7f;
            let wrong = *prng.pick(&[0, 1, i64::from(pairs) + 1, i64::from(pairs) + 200, i64::from(i32::MAX)]);
            count(wrong)
        }
        Kind::LocationCount => {
            let wrong = *prng.pick(&[0, 1, i64::from(code.bytes[0]) + 1, i64::from(i32::MAX)]);
            count(wrong)
        }
        Kind::Coordinate(most) => {
            let wrong = *prng.pick(&[i64::from(most) + 1, i64::from(i32::MAX)]);
            signed(if prng.one_in(2) { wrong } else { -wrong })
        }
        Kind::CountryCount => signed(*prng.pick(&[-1, -2, i64::from(i32::MIN), i64::from(i32::MAX), 0, 5])),
        Kind::Opaque => flipped([code.bytes.clone(), vec![0]].concat(), prng),
    }
}

fn broken_count(code: &[u8], prng: &mut Prng) -> Vec<u8> {
    match prng.below(6) {
        0 => vec![0xff, 0xff, 0xff, 0xff, 0x08],
        1 => vec![0xff, 0xff, 0xff, 0xff, 0x10],
        2 => vec![0x80, 0x80, 0x80, 0x80, 0x80],
        3 => vec![0x80, 0x80, 0x80, 0x80, 0x00],
        4 => vec![0xff; 1 + prng.below(5)],
        _ => padded(code, 1),
    }
}

fn broken_text(code: &[u8], prng: &mut Prng) -> Vec<u8> {
    // Not UTF-8 by RFC 3629: overlong forms, surrogates, above 10FFFF, bytes that never stand, cut characters.
    let not_utf8: [&[u8]; 9] = [
        &[0xc0, 0x80],
        &[0xe0, 0x9f, 0xbf],
        &[0xf0, 0x8f, 0xbf, 0xbf],
        &[0xed, 0xa0, 0x80],
        &[0xf4, 0x90, 0x80, 0x80],
        &[0xff],
        &[0x80],
        &[0xe4, 0xb8],
        &[0x41, 0xc3],
    ];
    match prng.below(6) {
        0 => [vec![0x81, 0x08], vec![b'z'; prng.below(1026)]].concat(),
        1 => {
            // One byte short, or one too many.
            let mut out = code.to_vec();
            out[0] = out[0].wrapping_add(*prng.pick(&[1, 0xff]));
            out
        }
        _ => {
            let text = prng.pick(&not_utf8);
            [&[text.len() as u8], *text].concat()
        }
    }
}

/// Prefix 111, the ends of the range in each form, and later forms of values that fit an earlier one.
fn broken_offset(prng: &mut Prng) -> Vec<u8> {
    let choices: [&[u8]; 14] = [
        &[0xe0],
        &[0xff, 0xff, 0xff, 0xff],
        &[0x00],
        &[0x60],
        &[0x7f],
        &[0x85, 0xa0],
        &[0x8b, 0x41],
        &[0x9f, 0xff],
        &[0xa1, 0x51, 0x80],
        &[0xa2, 0xa3, 0x01],
        &[0xc5, 0x26, 0x5c, 0x00],
        &[0xca, 0x4c, 0xb8, 0x00],
        &[0xca, 0x4c, 0xb8, 0x01],
        &[0x8c],
    ];
    prng.pick(&choices).to_vec()
}

/// Codes that no place allows, and values that the place doesn't.
fn broken_transition(previous: Option<Transition>, prng: &mut Prng) -> Vec<u8> {
    let ticks = codes::encode_ticks;
    match prng.below(9) {
        0 => vec![prng.range(3, 127) as u8],
        1 => ticks(*prng.pick(&[FIRST - 1, LAST + 1, i64::MIN, i64::MAX])),
        2 => vec![0],
        3 => vec![1],
        4 => vec![0x80, 0x01],
        5 => vec![0xff, 0xff, 0x7f],
        6 => vec![2, 0x7f],
        _ => match previous {
            Some(Transition::Finite(before)) => ticks((before - prng.range(0, 2)).max(FIRST)),
            _ => ticks(prng.range(FIRST, LAST)),
        },
    }
}
