//! What was compared, and the first difference.

use std::collections::BTreeSet;
use std::fmt::{self, Debug, Write};

/// Number and place of a refusal, or what was given.
pub type Outcome<T> = Result<T, (u8, u64)>;

/// The numbers go up to below this.
const NUMBERS: usize = 23;
/// The number of a question line that isn't understood: the library gives all but this.
const PROGRAM_ONLY: usize = 16;
/// Numbers that these functions themselves must have given. Those of a file are any question's or the check's.
const OF_FUNCTIONS: [(&str, &[u8]); 7] = [
    ("difference", &[0, 2, 12, 14, 15]),
    ("replay", &[0, 21]),
    ("interval_starts", &[0, 2, 12, 15]),
    ("find_start", &[0, 12]),
    ("list_answers", &[0, 7, 8, 9, 10, 14, 15]),
    ("ask_listed", &[0, 14]),
    ("close_pool", &[0, 4, 5, 15, 22]),
];
/// How many bytes of a file are shown with a difference.
const SHOWN: usize = 4000;

/// Counts of what was compared.
#[derive(Default)]
pub struct Tally {
    comparisons: u64,
    by_number: [u64; NUMBERS],
    of_functions: BTreeSet<(&'static str, u8)>,
}

/// Where the two readers differ.
pub struct Difference(String);

impl fmt::Display for Difference {
    fn fmt(&self, f: &mut fmt::Formatter<'_>) -> fmt::Result {
        f.write_str(&self.0)
    }
}

impl Difference {
    /// A difference or a broken promise about `bytes`.
    pub fn new(what: impl fmt::Display, bytes: &[u8]) -> Difference {
        let mut text = format!("{what}\nof {} bytes: ", bytes.len());
        for byte in bytes.iter().take(SHOWN) {
            // Writing to a string does not fail.
            let _ = write!(text, "{byte:02x}");
        }
        if bytes.len() > SHOWN {
            text.push_str("...");
        }
        Difference(text)
    }
}

impl Tally {
    /// Compares what the two give for `bytes`; `what` says what was asked.
    pub fn same<T: PartialEq + Debug>(
        &mut self,
        what: &dyn fmt::Display,
        bytes: &[u8],
        ours: Outcome<T>,
        theirs: Outcome<T>,
    ) -> Result<(), Difference> {
        self.comparisons += 1;
        let number = theirs.as_ref().map_or_else(|(number, _)| *number, |_| 0);
        self.by_number[usize::from(number)] += 1;
        if ours == theirs {
            return Ok(());
        }
        Err(Difference::new(format!("{what}\n  library       {ours:?}\n  second reader {theirs:?}"), bytes))
    }

    /// The same, of a function whose own numbers must come up.
    pub fn same_of<T: PartialEq + Debug>(
        &mut self,
        function: &'static str,
        what: &dyn fmt::Display,
        bytes: &[u8],
        ours: Outcome<T>,
        theirs: Outcome<T>,
    ) -> Result<(), Difference> {
        self.of_functions.insert((function, theirs.as_ref().map_or_else(|(number, _)| *number, |_| 0)));
        self.same(&format_args!("{function}: {what}"), bytes, ours, theirs)
    }

    /// How many comparisons were made.
    pub fn comparisons(&self) -> u64 {
        self.comparisons
    }

    /// The numbers that never came up.
    pub fn missing(&self) -> Vec<usize> {
        (0..NUMBERS).filter(|&number| number != PROGRAM_ONLY && self.by_number[number] == 0).collect()
    }

    /// The numbers that a function never gave and must have.
    pub fn missing_of_functions(&self) -> Vec<(&'static str, u8)> {
        let all = OF_FUNCTIONS.iter().flat_map(|(function, numbers)| numbers.iter().map(|&number| (*function, number)));
        all.filter(|pair| !self.of_functions.contains(pair)).collect()
    }
}

impl fmt::Display for Tally {
    fn fmt(&self, f: &mut fmt::Formatter<'_>) -> fmt::Result {
        for (number, count) in self.by_number.iter().enumerate().filter(|(number, _)| *number != PROGRAM_ONLY) {
            writeln!(f, "number {number:2}: {count}")?;
        }
        write!(f, "{} comparisons", self.comparisons)
    }
}

#[cfg(test)]
mod tests {
    use super::*;

    #[test]
    fn a_number_that_never_came_up_is_missing() {
        let mut tally = Tally::default();
        assert_eq!(tally.missing(), (0..16).chain(17..23).collect::<Vec<_>>());
        assert!(tally.same(&"", &[], Ok(1), Ok(1)).is_ok());
        for number in (1..16).chain(17..23).filter(|&number| number != 13) {
            assert!(tally.same::<()>(&"", &[], Err((number, 0)), Err((number, 0))).is_ok());
        }
        assert_eq!((tally.missing(), tally.comparisons()), (vec![13], 21));
    }

    #[test]
    fn a_number_of_another_function_does_not_count() {
        let mut tally = Tally::default();
        for (function, numbers) in OF_FUNCTIONS {
            for &number in numbers.iter().filter(|&&number| (function, number) != ("close_pool", 4)) {
                let said = if number == 0 { Ok(()) } else { Err((number, 0)) };
                assert!(tally.same_of(function, &"", &[], said, said).is_ok());
            }
        }
        assert!(tally.same_of::<()>("difference", &"", &[], Err((4, 0)), Err((4, 0))).is_ok());
        assert_eq!(tally.missing_of_functions(), [("close_pool", 4)]);
    }

    #[test]
    fn a_difference_in_number_place_or_value_is_one() {
        let mut tally = Tally::default();
        for (ours, theirs) in
            [(Ok(1), Ok(2)), (Ok(1), Err((1, 0))), (Err((1, 0)), Err((2, 0))), (Err((1, 0)), Err((1, 4)))]
        {
            assert!(tally.same(&"", &[], ours, theirs).is_err());
        }
    }
}
