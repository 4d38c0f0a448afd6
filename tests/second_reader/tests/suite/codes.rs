use crate::common::hex;
use second_reader::codes::*;
use second_reader::generate::Prng;
use second_reader::transition::{FIRST, LAST, TICKS_PER_HOUR};
use second_reader::Number::{BadCode, BadData, BadText, OutputShort, TooLarge};
use second_reader::{Number, Transition};

const HOUR: i64 = TICKS_PER_HOUR;

/// Reads to a value, whatever follows; writes back; and each shorter room is 15 with the output as found.
fn both<T: PartialEq + std::fmt::Debug>(
    code: &str,
    value: T,
    read: impl Fn(&[u8]) -> Read<T>,
    write: impl Fn(&mut [u8]) -> Result<usize, Number>,
) {
    let code = hex(code);
    let mut longer = code.clone();
    longer.extend([0xff, 0x00]);
    assert_eq!(read(&longer), Ok((value, code.len())), "{code:02x?}");
    let mut out = vec![0xaa; code.len() + 1];
    assert_eq!(write(&mut out), Ok(code.len()), "{code:02x?}");
    assert_eq!((&out[..code.len()], out[code.len()]), (code.as_slice(), 0xaa));
    for room in 0..code.len() {
        assert_eq!(read(&code[..room]).err(), Some(BadData), "{code:02x?} cut to {room}");
        let mut short = vec![0xaa; room];
        assert_eq!(write(&mut short), Err(OutputShort));
        assert_eq!(short, vec![0xaa; room]);
    }
}

fn count(code: &str, value: u32) {
    both(code, value, read_count, |out| write_count(i64::from(value), out));
}

fn signed(code: &str, value: i32) {
    both(code, value, read_signed_count, |out| write_signed_count(i64::from(value), out));
}

fn offset(code: &str, value: i32) {
    both(code, value, read_offset, |out| write_offset(i64::from(value), out));
}

fn transition(code: &str, value: Transition, previous: Option<Transition>) {
    both(code, value, |bytes| read_transition(bytes, previous), |out| write_transition(value, previous, out));
}

#[test]
fn counts() {
    // Worked in 01.
    count("EA02", 0x16a);
    count("FFFFFFFF07", 2_147_483_647);
    count("00", 0);
    count("7F", 127);
    count("8001", 128);
    count("FF7F", 16_383);
    count("808001", 16_384);
    count("FFFF7F", 2_097_151);
    count("80808001", 2_097_152);
    count("8080808001", 268_435_456);
    for (code, number) in [
        ("", BadData),
        ("80", BadData),
        ("FFFFFFFF", BadData),
        ("8000", BadCode),
        ("EA8200", BadCode),
        ("FFFFFFFF08", BadCode),
        ("FFFFFFFF0F", BadCode),
        ("8080808000", BadCode),
        ("8080808080", BadCode),
        ("FFFFFFFF87", BadCode),
    ] {
        assert_eq!(read_count(&hex(code)), Err(number), "{code}");
    }
    for value in [-1, 2_147_483_648, i64::MIN, i64::MAX] {
        assert_eq!(write_count(value, &mut [0; 9]), Err(BadCode), "{value}");
        // 7 comes before 15.
        assert_eq!(write_count(value, &mut []), Err(BadCode));
    }
}

#[test]
fn signed_counts() {
    for (code, value) in [("00", 0), ("01", -1), ("02", 1), ("03", -2), ("04", 2), ("10", 8), ("3F", -32), ("7F", -64)]
    {
        signed(code, value);
    }
    // Worked in 01.
    signed("FFFFFFFF0F", -2_147_483_648);
    signed("FEFFFFFF0F", 2_147_483_647);
    signed("8001", 64);
    for (code, number) in
        [("", BadData), ("FFFFFFFF", BadData), ("FFFFFFFF10", BadCode), ("8100", BadCode), ("8080808080", BadCode)]
    {
        assert_eq!(read_signed_count(&hex(code)), Err(number), "{code}");
    }
    for value in [2_147_483_648, -2_147_483_649] {
        assert_eq!(write_signed_count(value, &mut [0; 9]), Err(BadCode), "{value}");
    }
}

#[test]
fn offsets() {
    // Worked in 01.
    offset("30", 0);
    offset("32", 3_600_000);
    offset("86F9", 20_700_000);
    offset("A15135", -75_000);
    offset("C5265C01", 1);
    offset("5F", 84_600_000);
    // The ends of each form.
    offset("01", -84_600_000);
    offset("8001", -86_340_000);
    offset("8B3F", 86_340_000);
    offset("A00001", -86_399_000);
    offset("A2A2FF", 86_399_000);
    offset("C0000001", -86_399_999);
    offset("CA4CB7FF", 86_399_999);
    for (code, number) in [
        ("", BadData),
        // "Byte 00 (-24 h) and 60 (+24 h) are refused"
        ("00", BadCode),
        ("60", BadCode),
        ("7F", BadCode),
        // Later forms: 24:00 in minutes, a half hour in minutes, minutes in seconds, seconds in milliseconds.
        ("8000", BadCode),
        ("85A0", BadCode),
        ("85BE", BadCode),
        ("A15180", BadCode),
        ("A15144", BadCode),
        ("C5265C00", BadCode),
        ("C5265818", BadCode),
        // Out of range.
        ("8B41", BadCode),
        ("9FFF", BadCode),
        ("A2A301", BadCode),
        ("BFFFFF", BadCode),
        ("CA4CB801", BadCode),
        ("DFFFFFFF", BadCode),
        // Prefix 111 needs no more bytes.
        ("E0", BadCode),
        ("FF", BadCode),
        // Cut, even where no further byte could make it good (reading 6).
        ("8C", BadData),
        ("DFFFFF", BadData),
    ] {
        assert_eq!(read_offset(&hex(code)), Err(number), "{code}");
    }
    for ms in [-86_400_000, 86_400_000, i64::MIN, i64::MAX] {
        assert_eq!(write_offset(ms, &mut [0; 9]), Err(BadCode), "{ms}");
    }
}

#[test]
fn every_offset_byte_pair_reads_to_one_value() {
    // Over all codes of one and two bytes: what reads also writes back.
    for first in 0..=255u8 {
        for second in 0..=255u8 {
            if let Ok((value, length)) = read_offset(&[first, second]) {
                let mut out = [0; 4];
                assert_eq!(write_offset(i64::from(value), &mut out), Ok(length));
                assert_eq!(out[..length], [first, second][..length]);
            }
        }
    }
}

#[test]
fn transitions() {
    use Transition::{EndOfTime, Finite, StartOfTime};
    transition("00", StartOfTime, None);
    transition("01", EndOfTime, Some(Finite(0)));
    // Worked in 01: 5,040 hours is B0 27; 128 is 80 01.
    transition("B027", Finite(5_040 * HOUR), Some(Finite(0)));
    transition("8001", Finite(128 * HOUR), Some(Finite(0)));
    transition("8001", Finite(-1 + 128 * HOUR), Some(Finite(-1)));
    transition("FFFF7F", Finite(2_097_151 * HOUR), Some(Finite(0)));
    transition("8001", Finite(LAST), Some(Finite(LAST - 128 * HOUR)));
    // Minutes since 1800, from 2097152 (1803-12-28T08:32Z) on; 1970 is 89411040 of them.
    transition("80808001", Finite(-53_646_624_000_000_000 + 2_097_152 * 600_000_000), None);
    transition("E09BD12A", Finite(0), None);
    transition("E09BD12A", Finite(0), Some(Finite(-127 * HOUR)));
    transition("E09BD12A", Finite(0), Some(Finite(0)));
    transition("E09BD12A", Finite(0), Some(Finite(128 * HOUR)));
    transition("E09BD12A", Finite(0), Some(Finite(-2_097_152 * HOUR)));
    transition("FFFFFFFF07", Finite(-53_646_624_000_000_000 + 2_147_483_647 * 600_000_000), None);
    // Ticks for all else.
    transition("020000000000000001", Finite(1), None);
    transition("02FFFFFFFFFFFFFFFF", Finite(-1), Some(Finite(-2)));
    transition("02F760800A084A8000", Finite(FIRST), None);
    transition("02FF45E1169D517A00", Finite(-53_646_624_000_000_000 + 2_097_151 * 600_000_000), None);
    transition("02232AA87FFC81BFFF", Finite(LAST), None);
    // Any form is read.
    for code in ["8001", "E0D7D12A", "0200000430E2340000"] {
        let read = read_transition(&hex(code), Some(Finite(0)));
        assert_eq!(read.map(|(value, _)| value), Ok(Finite(128 * HOUR)), "{code}");
    }
    // 000 would read 1048576 to 2097151 as minutes; 01 reads hours.
    assert_eq!(read_transition(&hex("808040"), Some(Finite(0))), Ok((Finite(1_048_576 * HOUR), 3)));
}

#[test]
fn refused_transitions() {
    use Transition::{EndOfTime, Finite, StartOfTime};
    let zero = Some(Finite(0));
    for code in 3..=127u8 {
        assert_eq!(read_transition(&[code], zero), Err(BadCode), "{code}");
    }
    for (code, previous, number) in [
        ("", zero, BadData),
        ("02", zero, BadData),
        ("027F", zero, BadData),
        ("0280000000000000", zero, BadData),
        ("028000000000000000", zero, BadCode),
        ("027FFFFFFFFFFFFFFF", zero, BadCode),
        ("8200", zero, BadCode),
        ("FFFFFFFF08", zero, BadCode),
        // Hours need a finite previous.
        ("8001", None, BadCode),
        ("8001", Some(StartOfTime), BadCode),
        ("8001", Some(EndOfTime), BadCode),
        // An instant outside the range is no finite one (reading 34).
        ("8001", Some(Finite(FIRST - 1)), BadCode),
        ("8001", Some(Finite(i64::MIN)), BadCode),
        // Past the end of 9999.
        ("8001", Some(Finite(LAST - 128 * HOUR + 1)), BadCode),
        ("FFFF7F", Some(Finite(LAST)), BadCode),
    ] {
        assert_eq!(read_transition(&hex(code), previous), Err(number), "{code} after {previous:?}");
    }
    let mut ticks = vec![2];
    ticks.extend((FIRST - 1).to_be_bytes());
    assert_eq!(read_transition(&ticks, zero), Err(BadCode));
    ticks.truncate(1);
    ticks.extend((LAST + 1).to_be_bytes());
    assert_eq!(read_transition(&ticks, zero), Err(BadCode));
    for value in [FIRST - 1, LAST + 1, i64::MIN, i64::MAX] {
        assert_eq!(write_transition(Finite(value), zero, &mut [0; 9]), Err(BadCode));
        assert_eq!(write_transition(Finite(value), zero, &mut []), Err(BadCode));
    }
    // The writer skips hours after an instant outside the range.
    let far = Some(Finite(FIRST - HOUR));
    assert_eq!(write_transition(Finite(FIRST + 127 * HOUR), far, &mut [0; 9]), Ok(9));
}

#[test]
fn texts() {
    let part = |code: &str| read_text(&hex(code));
    assert_eq!(part("00"), Ok((1..1, 1)));
    assert_eq!(part("0355544358"), Ok((1..4, 4)));
    assert_eq!(part("02C3A9"), Ok((1..3, 3)));
    assert_eq!(part("04F48FBFBF"), Ok((1..5, 5)));
    for (code, number) in [
        ("", BadData),
        ("80", BadData),
        ("8000", BadCode),
        ("035554", BadData),
        // 4 before 9 before 8.
        ("8108", TooLarge),
        ("8108FF", TooLarge),
        ("8008FF", BadData),
        ("02FF", BadData),
        ("01FF", BadText),
        ("0180", BadText),
        ("01C3", BadText),
        ("02C080", BadText),
        ("03EDA080", BadText),
        ("03E09FBF", BadText),
        ("04F4908080", BadText),
        ("04F08FBFBF", BadText),
        ("04F5808080", BadText),
    ] {
        assert_eq!(part(code), Err(number), "{code}");
    }
    let longest = [hex("8008"), vec![b'x'; 1024]].concat();
    assert_eq!(read_text(&longest), Ok((2..1026, 1026)));
    let mut out = [0; 2000];
    assert_eq!(write_text(&[b'x'; 1024], &mut out), Ok(1026));
    assert_eq!(out[..1026], longest);
    assert_eq!(write_text(b"UTC", &mut out), Ok(4));
    assert_eq!(out[..4], hex("03555443"));
    // "for a text 4, then 8", then 15.
    assert_eq!(write_text(&[0xff; 1025], &mut []), Err(TooLarge));
    assert_eq!(write_text(&[0xff; 3], &mut []), Err(BadText));
    let mut short = [7; 3];
    assert_eq!(write_text(b"UTC", &mut short), Err(OutputShort));
    assert_eq!(short, [7; 3]);
}

#[test]
fn random_values_come_back() {
    let mut prng = Prng::new(11);
    for _ in 0..200_000 {
        let mut out = [0; 9];
        // Values of every length.
        let most = 1 << prng.range(0, 31);
        let value = prng.range(0, most - 1);
        let length = write_count(value, &mut out).expect("a count");
        assert_eq!(read_count(&out[..length]), Ok((value as u32, length)));
        let value = prng.range(-most, most - 1);
        let length = write_signed_count(value, &mut out).expect("a signed count");
        assert_eq!(read_signed_count(&out[..length]), Ok((value as i32, length)));
        let unit = *prng.pick(&[1_800_000, 60_000, 1_000, 1]);
        let value = prng.range(-86_399_999 / unit, 86_399_999 / unit) * unit;
        let length = write_offset(value, &mut out).expect("an offset");
        assert_eq!(read_offset(&out[..length]), Ok((value as i32, length)));
        let previous = Some(Transition::Finite(prng.range(FIRST, LAST)));
        let value = Transition::Finite(prng.range(FIRST, LAST) / unit * unit);
        let length = write_transition(value, previous, &mut out).expect("a transition");
        assert_eq!(read_transition(&out[..length], previous), Ok((value, length)));
    }
}

#[test]
fn random_bytes_read_to_the_writers_form() {
    // What reads as a count, signed count or offset is the only code of its value.
    let mut prng = Prng::new(12);
    for _ in 0..500_000 {
        let mut bytes = prng.bytes(5);
        bytes[0] |= if prng.one_in(2) { 0x80 } else { 0 };
        let mut out = [0; 9];
        if let Ok((value, length)) = read_count(&bytes) {
            assert_eq!(write_count(i64::from(value), &mut out), Ok(length));
            assert_eq!(out[..length], bytes[..length]);
        }
        if let Ok((value, length)) = read_signed_count(&bytes) {
            assert_eq!(write_signed_count(i64::from(value), &mut out), Ok(length));
            assert_eq!(out[..length], bytes[..length]);
        }
        if let Ok((value, length)) = read_offset(&bytes) {
            assert_eq!(write_offset(i64::from(value), &mut out), Ok(length));
            assert_eq!(out[..length], bytes[..length]);
        }
    }
}
