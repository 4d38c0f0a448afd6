//! Instants, offsets and names in words.

const TICKS_PER_DAY: i64 = 86_400 * nzd::TICKS_PER_SECOND;
/// From 0000-03-01 to 1970-01-01.
pub const DAYS_BEFORE_1970: i64 = 719_468;

/// A name in quotes.
pub fn name(bytes: &[u8]) -> String {
    let text: String = bytes.iter().map(|&byte| shown(byte)).collect();
    format!("\"{text}\"")
}

/// A byte of a name: printable ASCII as it is, but for quotes and backslashes.
fn shown(byte: u8) -> String {
    match byte {
        b'"' | b'\\' => format!("\\{}", char::from(byte)),
        b' '..=b'~' => char::from(byte).to_string(),
        _ => format!("\\x{byte:02x}"),
    }
}

/// Milliseconds as +HH:MM, with seconds and thousandths where there are any.
pub fn offset(ms: i64) -> String {
    let (sign, ms) = (if ms < 0 { '-' } else { '+' }, ms.abs());
    let (minutes, ms) = (ms / 60_000, ms % 60_000);
    let mut text = format!("{sign}{:02}:{:02}", minutes / 60, minutes % 60);
    if ms > 0 {
        text += &format!(":{:02}", ms / 1000);
    }
    if ms % 1000 > 0 {
        text += &format!(".{:03}", ms % 1000);
    }
    text
}

/// An instant in ISO 8601, with a fraction of a second where there is one.
pub fn instant(ticks: i64) -> String {
    let days = ticks.div_euclid(TICKS_PER_DAY) + DAYS_BEFORE_1970;
    // Years from March on, so that a leap day comes last, in eras of 400.
    let (era, day) = (days.div_euclid(146_097), days.rem_euclid(146_097));
    let year = (day - day / 1460 + day / 36_524 - day / 146_096) / 365;
    let day = day - (365 * year + year / 4 - year / 100);
    let month = (5 * day + 2) / 153;
    let (date, late) = (day - (153 * month + 2) / 5 + 1, month >= 10);
    let (year, month) = (era * 400 + year + i64::from(late), if late { month - 9 } else { month + 3 });
    let second = ticks.rem_euclid(TICKS_PER_DAY) / nzd::TICKS_PER_SECOND;
    let (hour, minute, second) = (second / 3600, second / 60 % 60, second % 60);
    let fraction = match ticks.rem_euclid(nzd::TICKS_PER_SECOND) {
        0 => String::new(),
        fraction => format!(".{fraction:07}").trim_end_matches('0').to_string(),
    };
    format!("{year:04}-{month:02}-{date:02}T{hour:02}:{minute:02}:{second:02}{fraction}Z")
}
