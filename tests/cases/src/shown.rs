//! What is written of results.

/// The low byte of a result and what stands above it: number and place of a refusal, or 0 and a length.
pub fn pair(result: u64) -> String {
    format!("{} {}", result % 256, result / 256)
}

/// 0 and what was given, or the refusal.
pub fn given(result: u64, what: String) -> String {
    if result == 0 {
        format!("0 {what}")
    } else {
        pair(result)
    }
}

/// Calls a function that gives `N` numbers.
pub fn numbers<const N: usize>(call: impl FnOnce(&mut [i64; N]) -> u64) -> String {
    let mut out = [0; N];
    let result = call(&mut out);
    given(result, out.map(|number| number.to_string()).join(" "))
}

/// Asks for an answer, and gives its wall offset, savings, standard offset, start, end and name.
pub fn answer(file: &[u8], ask: impl FnOnce(&mut [i64; 7]) -> u64) -> String {
    let mut out = [0; 7];
    let result = ask(&mut out);
    let [wall, savings, standard, place, length, start, end] = out;
    let name = text(file, place as usize, length as usize);
    given(result, format!("{wall} {savings} {standard} {} {} {name}", bound(start), bound(end)))
}

fn bound(ticks: i64) -> String {
    match ticks {
        i64::MIN => "start".to_string(),
        i64::MAX => "end".to_string(),
        _ => ticks.to_string(),
    }
}

/// A part of a file.
pub fn text(file: &[u8], place: usize, length: usize) -> String {
    bytes(&file[place..][..length])
}

/// Each number, a space before it.
pub fn list(numbers: &[i64]) -> String {
    numbers.iter().map(|number| format!(" {number}")).collect()
}

pub fn bytes(bytes: &[u8]) -> String {
    if bytes.is_empty() {
        return "-".to_string();
    }
    bytes.iter().map(|byte| format!("{byte:02x}")).collect()
}

/// A whole output. One of more than 512 bytes is shown by its first 256 bytes, its Adler-32 checksum and its last 32.
pub fn output(out: &[u8]) -> String {
    if out.len() <= 512 {
        return bytes(out);
    }
    format!("{}..{:08x}..{}", bytes(&out[..256]), checksum(out), bytes(&out[out.len() - 32..]))
}

fn checksum(out: &[u8]) -> u32 {
    let (a, b) = out.iter().fold((1, 0), |(a, b), byte| {
        let a = (a + u32::from(*byte)) % 65521;
        (a, (b + a) % 65521)
    });
    b << 16 | a
}
