//! Refusals: a number fixed for the fault, and where the fault is.

use std::error::Error;
use std::fmt;

/// Why a call was refused: a number fixed for the fault, and the place of the first record at fault.
///
/// ```
/// use gusemrak::{Book, Refusal};
///
/// let refusal = Book::check(b"no book").unwrap_err();
/// assert_eq!(refusal, Refusal { number: 1, place: 0 });
/// assert_eq!(refusal.to_string(), "refused 1 at 0: book under 12 bytes");
/// ```
#[derive(Clone, Copy, PartialEq, Eq, Hash)]
pub struct Refusal {
    /// The number, 1 to 24. (25 is the listing program's own, for a log file over 32,768 bytes.)
    pub number: u32,
    /// The offset in bytes, from the state table of a book or the start of an image, of the first record at fault:
    /// state `s` of a book is at 4s, its edge `j` at 4S+4j; place `p` of an image is at 14p, its edge `j` at 14Q+4j. It
    /// is 0 where the number names no record.
    pub place: u32,
}

impl Refusal {
    /// What the number means: the refusal is given exactly when this holds.
    ///
    /// ```
    /// # use gusemrak::Refusal;
    /// assert_eq!(Refusal { number: 11, place: 0 }.words(), "state 0 marked");
    /// ```
    pub fn words(&self) -> &'static str {
        match self.number {
            1 => "book under 12 bytes",
            2 => "book over 65,536 bytes",
            3 => "letters wrong",
            4 => "form not 1",
            5 => "S or E outside its range",
            6 => "distance not 4S+4E+12, or beyond the file",
            7 => "a zero byte that is not zero",
            8 => "the states' edge counts do not add up to E",
            9 => "event not above the one before it in the same state",
            10 => "target not above its own state, or not below S",
            11 => "state 0 marked",
            12 => "a state other than 0 with no edge into it",
            13 => "a state other than 0, unmarked, with no edge out",
            14 => "compile: over 1,024 places",
            15 => "compile: over 4,096 edges",
            16 => "compile: lent buffer shorter than the image",
            17 => "image trailer wrong, or image length wrong",
            18 => "image state record wrong",
            19 => "image edge record wrong",
            20 => "a place given to a run, a walk or a question not below the place count",
            21 => "base plus log length over 4,294,967,295",
            22 => "record list length not a multiple of 8",
            23 => "short list longer than its buffer",
            24 => "record does not name a part of this log",
            25 => "program only: log file over 32,768 bytes",
            _ => "no refusal has this number",
        }
    }
}

impl fmt::Display for Refusal {
    fn fmt(&self, f: &mut fmt::Formatter<'_>) -> fmt::Result {
        write!(f, "refused {} at {}: {}", self.number, self.place, self.words())
    }
}

/// The words too: a `main` that answers a refusal, and an `unwrap` that meets one, print it by this.
impl fmt::Debug for Refusal {
    fn fmt(&self, f: &mut fmt::Formatter<'_>) -> fmt::Result {
        fmt::Display::fmt(self, f)
    }
}

impl Error for Refusal {}

#[cfg(test)]
mod tests {
    use super::Refusal;
    use std::collections::BTreeSet;

    #[test]
    fn each_number_has_words_of_its_own() {
        let words: BTreeSet<&str> = (0..=25).map(|number| Refusal { number, place: 0 }.words()).collect();
        assert_eq!(words.len(), 26);
        assert_eq!(Refusal { number: 26, place: 0 }.words(), Refusal { number: 0, place: 0 }.words());
    }

    /// The header's table is where a C reader finds the words: both tables are one.
    #[test]
    fn the_header_says_the_same() {
        let header = include_str!("../../include/gusemrak.h");
        for number in 1..=25 {
            let line = header
                .lines()
                .find(|line| line.starts_with(&format!(" *     {number:2}   ")))
                .unwrap_or_else(|| panic!("the header has no line for {number}"));
            assert!(line.contains(Refusal { number, place: 0 }.words()), "{line}");
        }
    }

    #[test]
    fn it_is_an_error() {
        let boxed: Box<dyn std::error::Error + Send + Sync> = Box::new(Refusal { number: 9, place: 24 });
        let said = "refused 9 at 24: event not above the one before it in the same state";
        assert_eq!(boxed.to_string(), said);
        assert_eq!(format!("{boxed:?}"), said);
    }
}
