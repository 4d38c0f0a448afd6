//! The commands on files.

use crate::cases;
use crate::Done;
use second_reader::generate;
use second_reader::{ask, ask_named, ask_named_old, close_pool, difference, file, interval_starts, lines, location};
use second_reader::{map_local, normalize, replay, rewrite, version_text};
use second_reader::{Answer, Edition, LocationField, Mark, Pin, Refusal};
use std::ffi::{OsStr, OsString};
use std::fs;
use std::io::{ErrorKind, Read};
use std::ops::Range;
use std::path::Path;

/// Why a command wasn't carried out.
pub(crate) enum Misuse {
    /// The words don't make a command.
    Usage,
    /// What is wrong.
    Words(String),
}

impl From<String> for Misuse {
    fn from(words: String) -> Misuse {
        Misuse::Words(words)
    }
}

/// Carries out the command that the arguments name.
pub(crate) fn run(arguments: &[OsString]) -> Result<Done, Misuse> {
    let (command, rest) = arguments.split_first().ok_or(Misuse::Usage)?;
    let words: Vec<&OsStr> = rest.iter().map(OsString::as_os_str).collect();
    match (command.to_str(), words.as_slice()) {
        (Some("check"), [file]) => {
            let bytes = read(file)?;
            Ok(done(file::read_file(&bytes).map(|_| b"0".to_vec())))
        }
        (Some("ask"), [file, zone, ticks, rest @ ..]) => ask_file(ask, [file, zone, ticks], rest),
        (Some("named"), [file, name, ticks, rest @ ..]) if !rest.is_empty() => {
            ask_file(ask_named, [file, name, ticks], rest)
        }
        (Some("named-old"), [file, dictionary, name, ticks, rest @ ..]) if rest.len() < 2 => {
            let edition = rest.first().map_or(Ok(Edition::Two), |word| edition(word))?;
            let (bytes, dictionary) = (read(file)?, read(dictionary)?);
            let asked = ask_named_old(&bytes, &dictionary, name.as_encoded_bytes(), number(ticks)?, edition);
            Ok(answered(&bytes, asked))
        }
        (Some("local"), [file, zone, local]) => {
            let bytes = read(file)?;
            let found = map_local(&bytes, zone.as_encoded_bytes(), number(local)?);
            Ok(done(found.map(|found| format!("{} {} {}", found.count, found.earliest, found.latest).into_bytes())))
        }
        (Some("location"), [file, field, number_]) => {
            let field = match field.to_str() {
                Some("6") => LocationField::Zone,
                Some("7") => LocationField::Zone1970,
                _ => return Err(Misuse::Words("the field is neither 6 nor 7".to_string())),
            };
            let bytes = read(file)?;
            Ok(done(location(&bytes, field, number(number_)?).map(|pin| pin_text(&bytes, &pin))))
        }
        (Some("version"), [file]) => {
            let bytes = read(file)?;
            Ok(done(version_text(&bytes).map(|part| bytes[part].to_vec())))
        }
        (Some("rewrite"), [file, out]) => rewrite_file(file, out),
        (Some("normalize"), [file, out, room]) => {
            let bytes = read(file)?;
            let mut output = vec![0; number::<u32>(room)? as usize];
            write_file(normalize(&bytes, &mut output), &output, out)
        }
        (Some("lines"), [file]) => answer_lines(file),
        (Some("generate"), [seed, count, dir]) => generate_files(number(seed)?, number(count)?, Path::new(dir)),
        (Some("difference"), [one, two, zone, first, last, room]) => {
            let (one, two) = (read(one)?, read(two)?);
            let mut list = vec![(0, 0); number::<u16>(room)? as usize];
            let zone = zone.as_encoded_bytes();
            let count = difference([&one, &two], zone, number(first)?, number(last)?, &mut list);
            Ok(done(count.map(|count| {
                let stretches = list[..count].iter().map(|(first, end)| format!(" {first} {end}"));
                [count.to_string()].into_iter().chain(stretches).collect::<String>().into_bytes()
            })))
        }
        (Some("replay"), [file, trace]) => {
            let found = replay(&read(file)?, &read(trace)?);
            Ok(done(found.map(|record| record.map_or("none".to_string(), |number| number.to_string()).into_bytes())))
        }
        (Some("starts"), [file, zone, room]) => {
            let mut table = vec![0; number::<u16>(room)? as usize];
            let count = interval_starts(&read(file)?, zone.as_encoded_bytes(), &mut table);
            Ok(done(count.map(|count| {
                let starts = table[..count].iter().map(|start| format!(" {start}"));
                [count.to_string()].into_iter().chain(starts).collect::<String>().into_bytes()
            })))
        }
        (Some("close"), [file, out, room]) => {
            let bytes = read(file)?;
            let mut output = vec![0; number::<u32>(room)? as usize];
            write_file(close_pool(&bytes, &mut output), &output, out)
        }
        (Some("receive"), words) => cases::receive(words),
        (Some(name @ ("code" | "rule" | "tail" | "date" | "find")), words) => cases::run(name, words),
        _ => Err(Misuse::Usage),
    }
}

/// `0` and the text, or number and place.
fn done(result: Result<Vec<u8>, Refusal>) -> Done {
    match result {
        Ok(text) => Done { output: [b"0 ", text.as_slice(), b"\n"].concat(), refused: None },
        Err(refusal) => Done { output: format!("{refusal}\n").into_bytes(), refused: Some(refusal.number.words()) },
    }
}

fn number<T: std::str::FromStr>(word: &OsStr) -> Result<T, Misuse> {
    let parsed = word.to_str().and_then(|text| text.parse().ok());
    parsed.ok_or_else(|| Misuse::Words(format!("{} is not a number that fits", word.display())))
}

fn read(file: &OsStr) -> Result<Vec<u8>, Misuse> {
    fs::read(file).map_err(|fault| Misuse::Words(format!("{} can't be read: {fault}", file.display())))
}

fn write(file: &Path, bytes: &[u8]) -> Result<(), Misuse> {
    fs::write(file, bytes).map_err(|fault| Misuse::Words(format!("{} can't be written: {fault}", file.display())))
}

/// Standard input to its end.
pub(crate) fn standard_input() -> Result<Vec<u8>, Misuse> {
    let mut input = Vec::new();
    let read = std::io::stdin().read_to_end(&mut input);
    read.map_err(|fault| Misuse::Words(format!("standard input can't be read: {fault}")))?;
    Ok(input)
}

fn marked(word: &OsStr) -> Result<Mark, Misuse> {
    match word.to_str() {
        Some("part") => Ok(Mark::MoreMayCome),
        Some("all") => Ok(Mark::ThisIsAll),
        _ => Err(Misuse::Words("the mark is neither part nor all".to_string())),
    }
}

fn edition(word: &OsStr) -> Result<Edition, Misuse> {
    match word.to_str() {
        Some("1") => Ok(Edition::One),
        Some("2") => Ok(Edition::Two),
        _ => Err(Misuse::Words("the edition is neither 1 nor 2".to_string())),
    }
}

/// A question, marked or named.
type Question = fn(&[u8], &[u8], i64, Mark, Edition) -> Result<Answer, Refusal>;

/// Asks for an ID at an instant. The words behind them are the mark, without which it is the plain question, and the edition,
/// without which it is 2.
fn ask_file(question: Question, [file, id, ticks]: [&OsStr; 3], rest: &[&OsStr]) -> Result<Done, Misuse> {
    let (mark, edition) = match rest {
        [] => (Mark::MoreMayCome, Edition::Two),
        [mark] => (marked(mark)?, Edition::Two),
        [mark, word] => (marked(mark)?, edition(word)?),
        _ => return Err(Misuse::Usage),
    };
    let bytes = read(file)?;
    Ok(answered(&bytes, question(&bytes, id.as_encoded_bytes(), number(ticks)?, mark, edition)))
}

fn answered(bytes: &[u8], asked: Result<Answer, Refusal>) -> Done {
    done(asked.map(|answer| {
        let Answer { wall, savings, standard, start, end, .. } = answer;
        let mut text = format!("{wall} {savings} {standard} {start} {end} ").into_bytes();
        text.extend(&bytes[answer.name]);
        text
    }))
}

/// Latitude and longitude, zone ID, comment, and how many countries with each name and code.
fn pin_text(bytes: &[u8], pin: &Pin) -> Vec<u8> {
    let text = |part: &Range<usize>| format!("{}@{}", cases::to_hex(&bytes[part.clone()]), part.start);
    let mut words = vec![pin.latitude.to_string(), pin.longitude.to_string(), text(&pin.zone), text(&pin.comment)];
    words.push(pin.countries.len().to_string());
    words.extend(pin.countries.iter().flat_map(|(name, code)| [text(name), text(code)]));
    words.join(" ").into_bytes()
}

fn rewrite_file(file: &OsStr, out: &OsStr) -> Result<Done, Misuse> {
    let bytes = read(file)?;
    // "It is never longer than its source."
    let mut output = vec![0; bytes.len()];
    write_file(rewrite(&bytes, &mut output), &output, out)
}

/// Writes what was put into the output to a file, and gives its length.
fn write_file(length: Result<usize, Refusal>, output: &[u8], out: &OsStr) -> Result<Done, Misuse> {
    if let Ok(length) = length {
        write(Path::new(out), &output[..length])?;
    }
    Ok(done(length.map(|length| length.to_string().into_bytes())))
}

/// "A missing file counts as no bytes".
fn answer_lines(file: &OsStr) -> Result<Done, Misuse> {
    let bytes = match fs::read(file) {
        Err(fault) if fault.kind() == ErrorKind::NotFound => Vec::new(),
        _ => read(file)?,
    };
    Ok(Done { output: lines(&bytes, &standard_input()?), refused: None })
}

fn generate_files(seed: u64, count: u64, dir: &Path) -> Result<Done, Misuse> {
    fs::create_dir_all(dir).map_err(|fault| format!("{} can't be made: {fault}", dir.display()))?;
    for number in 1..=count {
        let case = generate::case(seed, number);
        for (ending, bytes) in [("nzd", &case.file), ("questions", &case.questions), ("expected", &case.expected)] {
            write(&dir.join(format!("{number:04}.{ending}")), bytes)?;
        }
    }
    Ok(Done { output: format!("{count} files\n").into_bytes(), refused: None })
}
