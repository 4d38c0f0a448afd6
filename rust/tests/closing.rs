//! Closing up the pool: the worked cases of the readings, by the wrapper.

use nzd::{ask_named, check, close_pool, normalize, Edition, Error, Mark, Number};

/// Bytes in hex; `V` is the version, `P` the pool "A", "B", "C", and `Z` a fixed zone "A".
fn bytes(text: &str) -> Vec<u8> {
    let text = text.replace('V', "00000000").replace('P', "0007 03014101420143").replace('Z', "0104 00013000");
    let digits: Vec<u32> = text.chars().filter_map(|digit| digit.to_digit(16)).collect();
    digits.chunks(2).map(|pair| (pair[0] * 16 + pair[1]) as u8).collect()
}

fn closed(file: &[u8]) -> Result<Vec<u8>, (Number, usize)> {
    let mut out = vec![0; file.len() + 16];
    let length = close_pool(file, &mut out).map_err(|Error { number, place }| (number, place))?;
    Ok(out[..length].to_vec())
}

#[test]
fn closed_files() {
    let tail = "V P 011d 00020100003030 020000000000000000 01 32 01 1c0a0132 02 1c030132 32";
    for (file, wanted) in [
        // Equal strings under two numbers are two strings.
        (
            "V 0009 040141014201430142 0104 00013002 0104 01013002 0303 010302",
            "V 0009 040143014101420142 0104 01013000 0104 02013000 0303 010300",
        ),
        ("V P", "V 000100"),
        ("V 000100", "V 000100"),
        // Transitions keep their form.
        (tail, tail),
        // An absent name is no mention and stays absent; field 2's text is none.
        ("V P 0103 020130", "V 0003 010143 0103 000130"),
        ("V P 0103 020130 0202 0141", "V 0003 010143 0103 000130 0202 0141"),
        // Sizes are shortest.
        ("V 00 878000 03014101420143 0184 00 00013000 02 818000 00", "V 0003010141 Z 020100"),
        // Fields 3, 6 and 7.
        ("V P Z 0305 0201020201", "V P Z 0305 0201020201"),
        ("V P 0103 020130 0607 01000001010102", "V 0005 0201420143 0103 010130 0607 01000000000001"),
        ("V P 070a 01000004020102010201", "V 0005 0201420143 070a 01000004010001000100"),
    ] {
        assert_eq!(closed(&bytes(file)), Ok(bytes(wanted)), "{file}");
    }
}

#[test]
fn fields_that_are_not_read() {
    for (file, number, place) in [
        ("V P Z 0400", Number::UnreadField, 19),
        ("V P 030100 0500 0900", Number::UnreadField, 16),
        ("V P Z 0800", Number::UnreadField, 19),
        ("V P Z ff00", Number::UnreadField, 19),
        ("V P Z 0201 00 030100 060100 070100 0800", Number::UnreadField, 31),
        // After the check's faults.
        ("V P Z 0400 00", Number::FieldOrder, 21),
        ("V P Z 0400 0700", Number::BadData, 21),
        ("V P Z 0604 01c2c627", Number::BadLocation, 19),
        ("", Number::CutShort, 0),
        ("V", Number::FirstField, 4),
    ] {
        assert_eq!(closed(&bytes(file)), Err((number, place)), "{file}");
        // Before 15.
        assert_eq!(close_pool(&bytes(file), &mut []), Err(Error { number, place }), "{file}");
    }
}

#[test]
fn room() {
    let (file, wanted) = (bytes("V P Z"), bytes("V 0003010141 Z"));
    for room in 0..file.len() + 3 {
        let mut out = vec![0xaa; room];
        let said = close_pool(&file, &mut out);
        if room < wanted.len() {
            let short = Err(Error { number: Number::OutputTooShort, place: 0 });
            assert_eq!((said, out), (short, vec![0xaa; room]));
        } else {
            assert_eq!((said, out), (Ok(15), [&wanted[..], &vec![0xaa; room - wanted.len()]].concat()));
        }
    }
}

#[test]
fn the_realistic_file() {
    let file = std::fs::read(concat!(env!("CARGO_MANIFEST_DIR"), "/../tests/data/all.nzd")).expect("all.nzd");
    let once = closed(&file).expect("a closed file");
    assert!(check(&once).is_ok() && once.len() <= file.len());
    assert_eq!(closed(&once).as_ref(), Ok(&once));
    let preferred = |file: &[u8]| {
        let mut out = vec![0; file.len()];
        let length = normalize(file, &mut out).expect("a preferred file");
        out.truncate(length);
        out
    };
    assert_eq!(closed(&preferred(&file)), Ok(preferred(&once)));
    for name in ["Europe/Oslo", "Asia/Calcutta", "Nowhere"] {
        let [before, after] = [&file, &once].map(|file| {
            let answer = ask_named(file, name, 0, Mark::MoreMayCome, Edition::Two);
            answer.map(|answer| (answer.wall_offset_ms, answer.name_str())).map_err(|error| error.number)
        });
        assert_eq!(before, after);
    }
}
