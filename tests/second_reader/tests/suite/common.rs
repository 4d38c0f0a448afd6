//! What the tests share.

use second_reader::generate::{plan, random_content, FileContent, FilePlan, Forms, Prng, Size};
use second_reader::transition::{FIRST, LAST};
use second_reader::{check, lines, location, map_local, normalize, version_text};
use second_reader::{Answer, Edition, LocationField, Mark, Pin, Refusal, Transition};

/// Bytes from hex digits; spaces are skipped.
pub fn hex(text: &str) -> Vec<u8> {
    let digits: Vec<u8> = text
        .chars()
        .filter(|digit| *digit != ' ')
        .map(|digit| digit.to_digit(16).expect("a hex digit") as u8)
        .collect();
    assert!(digits.len().is_multiple_of(2), "odd number of hex digits: {text}");
    digits.chunks(2).map(|pair| pair[0] * 16 + pair[1]).collect()
}

/// `V` and a pool that holds "A" only: the next field is at place 9.
pub const A: &str = "00000000 0003010141";

/// `A` and a zone field with this data in hex, at place 9.
pub fn zone_file(data: &str) -> Vec<u8> {
    let data = hex(data);
    let size = second_reader::codes::encode_count(data.len() as i64).expect("a size");
    [hex(A), vec![1], size, data].concat()
}

/// The marked question under edition 2.
pub fn ask(bytes: &[u8], zone: &[u8], ticks: i64, mark: Mark) -> Result<Answer, Refusal> {
    second_reader::ask(bytes, zone, ticks, mark, Edition::Two)
}

/// The plain question under edition 2.
pub fn ask_plain(bytes: &[u8], zone: &[u8], ticks: i64) -> Result<Answer, Refusal> {
    second_reader::ask_plain(bytes, zone, ticks, Edition::Two)
}

/// The named question under edition 2.
pub fn ask_named(bytes: &[u8], name: &[u8], ticks: i64, mark: Mark) -> Result<Answer, Refusal> {
    second_reader::ask_named(bytes, name, ticks, mark, Edition::Two)
}

/// Number and place of a question; 0 0 if it is answered.
pub fn asked(bytes: &[u8], zone: &[u8], ticks: i64, mark: Mark) -> (u8, u64) {
    pair(&ask(bytes, zone, ticks, mark))
}

/// Number and place; 0 0 for an answer.
pub fn pair(result: &Result<Answer, Refusal>) -> (u8, u64) {
    match result {
        Ok(_) => (0, 0),
        Err(refusal) => (refusal.number.value(), refusal.place),
    }
}

/// The question that means "this is all".
pub fn ask_all(bytes: &[u8], zone: &[u8], ticks: i64) -> Result<Answer, Refusal> {
    ask(bytes, zone, ticks, Mark::ThisIsAll)
}

/// Number and place of a question for `A` at instant 0 that means "more may come".
pub fn part(bytes: &[u8]) -> (u8, u64) {
    asked(bytes, b"A", 0, Mark::MoreMayCome)
}

/// Number and place of a question for `A` at instant 0 that means "this is all".
pub fn all(bytes: &[u8]) -> (u8, u64) {
    asked(bytes, b"A", 0, Mark::ThisIsAll)
}

/// The day number of a date by a closed form, apart from the reader's counted calendar.
pub fn closed_form_day(year: i64, month: i64, day: i64) -> i64 {
    // Years are shifted to begin in March, so that the leap day comes last.
    let shifted = if month <= 2 { year - 1 } else { year };
    let era = shifted.div_euclid(400);
    let year_of_era = shifted.rem_euclid(400);
    let day_of_year = (153 * ((month + 9) % 12) + 2) / 5 + day - 1;
    era * 146_097 + year_of_era * 365 + year_of_era / 4 - year_of_era / 100 + day_of_year - 719_468
}

/// The ticks of a UTC date and time.
pub fn utc(year: i64, month: i64, day: i64, hour: i64, minute: i64, second: i64) -> i64 {
    (closed_form_day(year, month, day) * 86_400 + hour * 3_600 + minute * 60 + second) * 10_000_000
}

/// A generated well-formed file with transitions in any form, and what it holds.
pub fn generated(seed: u64, size: Size) -> (FileContent, FilePlan, Prng) {
    let mut prng = Prng::new(seed);
    let content = random_content(&mut prng, size);
    let file = plan(&content, &mut Forms::Any(&mut prng));
    (content, file, prng)
}

/// The worked values of the readings on 02: a call, the bytes that it is made on and what it gives, in their words.
pub fn worked(values: &[(&str, &str, &str)]) {
    for (call, bytes, given) in values {
        assert_eq!(called(call, &bytes_of(bytes)), *given, "{call} on {bytes}");
    }
}

/// Bytes in the words of the readings: `V` is the version, `P` a pool of A, B and C (the next field stands at 13), and `A` the
/// zone A, fixed, UTC, named A (the next field stands at 19).
pub fn bytes_of(words: &str) -> Vec<u8> {
    let word = |word: &str| match word {
        "V" => hex("00000000"),
        "P" => hex("0007 03014101420143"),
        "A" => hex("0104 00013000"),
        other => hex(other),
    };
    words.split_whitespace().flat_map(word).collect()
}

/// What a call gives: "a refusal is \"number place\"", a good check is "0", a rewriting "0" and its bytes.
fn called(call: &str, file: &[u8]) -> String {
    let words: Vec<&str> = call.split(' ').collect();
    match words.as_slice() {
        ["line", ..] => {
            let output = lines(file, call.trim_start_matches("line ").as_bytes());
            String::from_utf8_lossy(&output).trim_end_matches('\n').to_string()
        }
        ["check"] => match check(file) {
            (0, 0) => "0".to_string(),
            (number, place) => format!("{number} {place}"),
        },
        ["version"] => shown(version_text(file), |part| format!("{part:?}")),
        ["normalize", room] => {
            let mut out = vec![0xaa; room.parse().expect("a room")];
            shown(normalize(file, &mut out), |length| to_hex(&out[..length]))
        }
        ["ask", id, ticks, mark, edition @ ..] => {
            let (id, ticks) = (named_bytes(id), ticks_of(ticks));
            let asked = match marked(mark) {
                Some(mark) => second_reader::ask(file, id, ticks, mark, edition_of(edition)),
                None => second_reader::ask_plain(file, id, ticks, edition_of(edition)),
            };
            shown(asked, |answer| answer_text(file, &answer))
        }
        ["named", name, ticks, mark, edition @ ..] => {
            let (name, mark) = (named_bytes(name), marked(mark).expect("a mark"));
            let asked = second_reader::ask_named(file, name, ticks_of(ticks), mark, edition_of(edition));
            shown(asked, |answer| answer_text(file, &answer))
        }
        ["wall", id, local] => shown(map_local(file, named_bytes(id), ticks_of(local)), |found| {
            format!("{} {} {}", found.count, found.earliest, found.latest)
        }),
        ["location", field, number] => {
            let field = if *field == "6" { LocationField::Zone } else { LocationField::Zone1970 };
            shown(location(file, field, number.parse().expect("a number")), |pin| pin_text(file, &pin))
        }
        _ => panic!("{call} is no call"),
    }
}

fn shown<T>(result: Result<T, Refusal>, text: impl Fn(T) -> String) -> String {
    result.map_or_else(|refusal| refusal.to_string(), |value| format!("0 {}", text(value)))
}

/// "0 wall savings standard NAME@place start end".
fn answer_text(file: &[u8], answer: &Answer) -> String {
    let name = String::from_utf8_lossy(&file[answer.name.clone()]);
    let place = answer.name.start;
    let Answer { wall, savings, standard, start, end, .. } = answer;
    format!("{wall} {savings} {standard} {name}@{place} {start} {end}")
}

/// Latitude, longitude, zone ID, comment, and each country's name and code.
fn pin_text(file: &[u8], pin: &Pin) -> String {
    let text = |part: &std::ops::Range<usize>| String::from_utf8_lossy(&file[part.clone()]).to_string();
    let mut words = vec![pin.latitude.to_string(), pin.longitude.to_string(), text(&pin.zone), text(&pin.comment)];
    words.extend(pin.countries.iter().map(|(name, code)| format!("{}/{}", text(name), text(code))));
    words.join(" ")
}

fn to_hex(bytes: &[u8]) -> String {
    bytes.iter().map(|byte| format!("{byte:02x}")).collect()
}

/// None for `plain`.
fn marked(word: &str) -> Option<Mark> {
    match word {
        "part" => Some(Mark::MoreMayCome),
        "all" => Some(Mark::ThisIsAll),
        "plain" => None,
        _ => panic!("{word} is no mark"),
    }
}

/// Edition 2 where none is said.
fn edition_of(words: &[&str]) -> Edition {
    match words {
        [] | ["2"] => Edition::Two,
        ["1"] => Edition::One,
        _ => panic!("{words:?} is no edition"),
    }
}

/// `""` is no bytes.
fn named_bytes(word: &str) -> &[u8] {
    word.trim_matches('"').as_bytes()
}

/// "MIN and MAX are the first and last tick of the range, I64MIN and I64MAX of 64 bits."
fn ticks_of(word: &str) -> i64 {
    match word {
        "MIN" => FIRST,
        "MAX" => LAST,
        "I64MIN" => i64::MIN,
        "I64MAX" => i64::MAX,
        ticks => ticks.parse().expect("ticks"),
    }
}

/// All of an answer but the name's place: offsets, the name's bytes, and the bounds.
pub type Values = ([i32; 3], Vec<u8>, [Transition; 2]);

/// What an answer on `file` carries, wherever the name stands.
pub fn values(file: &[u8], answer: Answer) -> Values {
    ([answer.wall, answer.savings, answer.standard], file[answer.name].to_vec(), [answer.start, answer.end])
}
