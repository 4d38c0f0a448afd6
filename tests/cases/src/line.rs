//! The words of a line: numbers, bytes, and bytes spelled in parts.

use std::str::FromStr;

/// A case: words with a space between two.
pub struct Line<'a>(Vec<&'a str>);

impl<'a> Line<'a> {
    pub fn new(text: &'a str) -> Line<'a> {
        Line(text.split(' ').collect())
    }

    /// The word with a number, from 0; empty where there is none.
    pub fn word(&self, k: usize) -> &'a str {
        self.0.get(k).copied().unwrap_or_default()
    }

    /// The words from one on.
    pub fn words_from(&self, k: usize) -> impl Iterator<Item = &'a str> + '_ {
        self.0.iter().skip(k).copied()
    }

    pub fn number<T: FromStr>(&self, k: usize) -> T {
        number(self.word(k))
    }

    pub fn bytes(&self, k: usize) -> Vec<u8> {
        bytes(self.word(k))
    }

    /// The number of some bytes, high first.
    pub fn size(&self, k: usize) -> usize {
        self.bytes(k).iter().fold(0, |size, byte| 256 * size + usize::from(*byte))
    }

    /// The bytes of four words or fewer: a front, a unit, how many times that stands there, and an end.
    pub fn built(&self, k: usize) -> Vec<u8> {
        [self.bytes(k), self.bytes(k + 1).repeat(self.size(k + 2)), self.bytes(k + 3)].concat()
    }
}

pub fn number<T: FromStr>(word: &str) -> T {
    word.parse().unwrap_or_else(|_| panic!("`{word}` is no number of its range"))
}

/// The bytes that a word spells; a word that isn't there spells none.
pub fn bytes(word: &str) -> Vec<u8> {
    let digits = if word == "-" { "" } else { word };
    let byte = |at| u8::from_str_radix(digits.get(at..at + 2)?, 16).ok();
    let pairs = (0..digits.len()).step_by(2);
    pairs.map(|at| byte(at).unwrap_or_else(|| panic!("`{word}` is no hexadecimal text"))).collect()
}
