//! What is refused, by document 01's numbers.

use crate::text;

/// A refusal: its number, its place, and the refused line.
#[derive(Clone, Copy, Debug, PartialEq, Eq)]
pub struct Refusal<'a> {
    /// Document 01's number.
    pub number: u8,
    /// A line, a position in the order, the bytes needed, or 0.
    pub place: usize,
    /// The refused line without its LF; empty where the place is no line.
    pub line: &'a [u8],
}

impl<'a> Refusal<'a> {
    /// A refusal whose place is no line.
    pub(crate) fn at(number: u8, place: usize) -> Refusal<'a> {
        Refusal { number, place, line: b"" }
    }

    /// A refusal whose place is a line of a text.
    pub(crate) fn of_line(number: u8, text: &'a [u8], place: usize) -> Refusal<'a> {
        let line = text::lines(text).nth(place).expect("the place is a line of the text");
        Refusal { number, place, line }
    }

    /// Whether the place is a line.
    pub fn has_line(&self) -> bool {
        matches!(self.number, 4..=8 | 14..=16 | 54 | 55)
    }
}

/// Refuses, by a number, a lent buffer that is shorter than what is to be written.
pub(crate) fn check_room(number: u8, needed: usize, room: usize) -> Result<(), Refusal<'static>> {
    if room < needed {
        return Err(Refusal::at(number, needed));
    }
    Ok(())
}
