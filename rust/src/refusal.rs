//! Refusals: a number and a place, in the words of document 01.

use std::fmt;

/// What a call answers: the accepted value, or why it refused.
pub type Answer = Result<usize, Refusal>;

/// A refusal is a number (1 to 12) and a place, whose meaning the number fixes.
#[derive(Clone, Copy, PartialEq, Eq, Debug)]
pub struct Refusal {
    pub number: u32,
    pub place: usize,
}

/// The refusal numbers by name.
pub const CUT_SHORT: u32 = 1;
pub const KIND: u32 = 2;
pub const FIELD: u32 = 3;
pub const LINK_ORDER: u32 = 4;
pub const AFTER_END: u32 = 5;
pub const NO_OPPOSITE: u32 = 6;
pub const ROW_SUM: u32 = 7;
pub const LOOP: u32 = 8;
pub const OUTPUT_SHORT: u32 = 9;
pub const NOT_WAITING: u32 = 10;
pub const LIST_ENDS: u32 = 11;
pub const NO_SUCH_LINK: u32 = 12;

/// For each number from 1 up: when it is given, and what its place means.
const WORDS: [(&str, &str); 12] = [
    ("no byte left where a record is due, or its body is cut short", "offset of the record"),
    ("a kind that may not stand there", "offset of the record"),
    ("a field out of range, from = to, or a node record out of turn", "offset of the record"),
    ("links not strictly rising, or a 513th", "offset of the record"),
    ("bytes after the end record", "first of them"),
    ("a link without its opposite", "first such link"),
    ("a row with a wrong sum", "lowest such node"),
    ("a loop", "lowest node on one"),
    ("output too short", "length needed"),
    ("the message named doesn't wait", "index in the list"),
    ("the list ends before all links are delivered", "length of the list"),
    ("a link number not below the number of links", "index in the list"),
];

impl Refusal {
    /// When a refusal of this number is given; nothing for a number that is not in the table.
    pub fn reason(&self) -> Option<&'static str> {
        self.words().map(|words| words.0)
    }

    /// What the place of a refusal of this number means.
    pub fn place_meaning(&self) -> Option<&'static str> {
        self.words().map(|words| words.1)
    }

    fn words(&self) -> Option<&'static (&'static str, &'static str)> {
        let row = (self.number as usize).checked_sub(1)?;
        WORDS.get(row)
    }
}

impl fmt::Display for Refusal {
    fn fmt(&self, f: &mut fmt::Formatter<'_>) -> fmt::Result {
        write!(f, "refused {} at {}", self.number, self.place)?;
        match self.words() {
            Some((reason, place)) => write!(f, ": {reason} (the place: {place})"),
            None => write!(f, ": a number that document 01 does not have"),
        }
    }
}

impl std::error::Error for Refusal {}

/// Short way to refuse.
pub(crate) fn refuse<T>(number: u32, place: usize) -> Result<T, Refusal> {
    Err(Refusal { number, place })
}

#[cfg(test)]
mod tests {
    use super::*;

    #[test]
    fn words_of_a_loop() {
        let text = Refusal { number: LOOP, place: 1 }.to_string();
        assert_eq!(text, "refused 8 at 1: a loop (the place: lowest node on one)");
    }

    #[test]
    fn every_number_has_words_and_no_other() {
        for number in 1..=12 {
            assert!(Refusal { number, place: 0 }.reason().is_some());
        }
        for number in [0, 13, u32::MAX] {
            assert!(Refusal { number, place: 0 }.reason().is_none());
        }
    }
}
