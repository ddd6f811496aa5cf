use crate::ffi;
use std::fmt;

/// Why a call is refused: document 01's table of refusals.
#[derive(Clone, Copy, Debug, PartialEq, Eq, Hash)]
pub enum Reason {
    /// 1: the trace has over 65,535 bytes.
    TraceTooLong,
    /// 2: the trace's last byte isn't LF.
    TraceUnended,
    /// 3: the trace has over 256 lines.
    TraceTooManyLines,
    /// 4: a line of the trace is malformed, or a value lies outside its range.
    TraceMalformed,
    /// 5: `ev` isn't the line number.
    EventMisnumbered,
    /// 6: an address in the trace has a bit past its prefix.
    TraceAddressBit,
    /// 7: a token stands in `out` of two lines; the place is the later one.
    TokenTwice,
    /// 8: an `in` token's `out` stands on this or a later line; the place is the line of the `in`.
    TokenTooEarly,
    /// 11: the table text has over 65,535 bytes.
    TablesTooLong,
    /// 12: the table text's last byte isn't LF.
    TablesUnended,
    /// 13: the table text has over 256 lines.
    TablesTooManyLines,
    /// 14: a line of the table text is malformed, or a value lies outside its range.
    TablesMalformed,
    /// 15: an address in the table text has a bit past its prefix.
    TablesAddressBit,
    /// 16: a switch and key stand twice in the table text; the place is the later line.
    KeyTwice,
    /// 21: the order's length is wrong, or an event is missing.
    OrderIncomplete,
    /// 22: an event stands before one that happens before it; the place is the lowest such position.
    EventTooEarly,
    /// 31: the list's buffer is too short; the place is the number of bytes needed.
    ListShort,
    /// 32: the tables' buffer is too short; the place is the number of bytes needed.
    TablesShort,
    /// 33: the answers' buffer is too short; the place is the number of bytes needed.
    AnswersShort,
    /// 51: the page's buffer is too short; the place is the number of bytes needed.
    PageShort,
    /// 52: the length of the orders is not a multiple of the event count, or not 0 where there is no event.
    OrdersUneven,
    /// 53: the buffer for what is told of each order is too short; the place is the number of orders.
    TrialsShort,
    /// 54: a line of the trace has a `from` above its `to`.
    RangeReversed,
    /// 55: their times and the delay put a later line of the trace before an earlier one; the place is the lowest such
    /// earlier line.
    TimeBackward,
}

/// A refusal: why, where, and the refused line.
#[derive(Clone, Copy, Debug, PartialEq, Eq, Hash)]
pub struct Refusal<'a> {
    /// Why the call is refused.
    pub reason: Reason,
    /// A line, a position in the order, the bytes needed, or 0, as [`Reason`] says. Lines and positions count
    /// from 0.
    pub place: usize,
    /// The refused line without its LF, a part of the trace or of the table text; empty where the place is no
    /// line.
    pub line: &'a [u8],
}

impl Reason {
    const ALL: [(Reason, usize, &'static str); 24] = [
        (Reason::TraceTooLong, 1, "trace over 65,535 bytes"),
        (Reason::TraceUnended, 2, "last byte of the trace is not LF"),
        (Reason::TraceTooManyLines, 3, "trace over 256 lines"),
        (Reason::TraceMalformed, 4, "trace line malformed or a value outside its range"),
        (Reason::EventMisnumbered, 5, "`ev` is not the line number"),
        (Reason::TraceAddressBit, 6, "address bit past the prefix in the trace"),
        (Reason::TokenTwice, 7, "token in `out` of two lines"),
        (Reason::TokenTooEarly, 8, "`in` token whose `out` stands on this or a later line"),
        (Reason::TablesTooLong, 11, "table text over 65,535 bytes"),
        (Reason::TablesUnended, 12, "last byte of the table text is not LF"),
        (Reason::TablesTooManyLines, 13, "table text over 256 lines"),
        (Reason::TablesMalformed, 14, "table line malformed or a value outside its range"),
        (Reason::TablesAddressBit, 15, "address bit past the prefix in the table text"),
        (Reason::KeyTwice, 16, "switch and key twice in the table text"),
        (Reason::OrderIncomplete, 21, "order of a wrong length or an event missing"),
        (Reason::EventTooEarly, 22, "event put before one that happens before it"),
        (Reason::ListShort, 31, "list buffer too short"),
        (Reason::TablesShort, 32, "tables buffer too short"),
        (Reason::AnswersShort, 33, "answers buffer too short"),
        (Reason::PageShort, 51, "page buffer too short"),
        (Reason::OrdersUneven, 52, "length of the orders not a multiple of the event count"),
        (Reason::TrialsShort, 53, "buffer for the orders' results too short"),
        (Reason::RangeReversed, 54, "`from` above `to`"),
        (Reason::TimeBackward, 55, "later line before an earlier one by their times"),
    ];

    /// Document 01's number.
    pub fn number(self) -> usize {
        Self::ALL[self as usize].1
    }

    fn from_number(number: usize) -> Option<Reason> {
        Self::ALL.iter().find(|row| row.1 == number).map(|row| row.0)
    }

    /// Whether the place is a line of the trace.
    pub fn is_in_trace(self) -> bool {
        matches!(self.number(), 4..=8 | 54 | 55)
    }

    /// Whether the place is a line of the table text.
    pub fn is_in_tables(self) -> bool {
        matches!(self.number(), 14..=16)
    }
}

impl fmt::Display for Reason {
    fn fmt(&self, f: &mut fmt::Formatter) -> fmt::Result {
        f.write_str(Self::ALL[*self as usize].2)
    }
}

/// As the programs print it, with the reason in words: `refused=4 place=2: ..`.
impl fmt::Display for Refusal<'_> {
    fn fmt(&self, f: &mut fmt::Formatter) -> fmt::Result {
        write!(f, "refused={} place={}: {}", self.reason.number(), self.place, self.reason)
    }
}

impl std::error::Error for Refusal<'_> {}

impl ffi::Refused {
    /// Nothing where nothing is refused, which is number 0; else the refusal.
    pub fn check<'a>(self, trace: &'a [u8], tables: &'a [u8]) -> Result<(), Refusal<'a>> {
        if self.number == 0 {
            return Ok(());
        }
        let reason = Reason::from_number(self.number).expect("a number of document 01's table");
        let text = if reason.is_in_tables() { tables } else { trace };
        let line = &text[self.start..][..self.length];
        Err(Refusal { reason, place: self.place, line })
    }
}

#[cfg(test)]
mod tests {
    use super::Reason;

    /// The numbers of the specification's refusal table.
    fn in_specification() -> Vec<usize> {
        let (_, table) = include_str!("../../docs/SPECIFICATION.md").split_once("## Refusal table").unwrap();
        let (table, _) = table.split_once("**Order of checks.**").unwrap();
        let first = |line: &str| line.strip_prefix("| ")?.split(' ').next()?.parse().ok();
        table.lines().filter_map(first).collect()
    }

    /// Those of the table in the C header: the numbers that a line begins with.
    fn in_header() -> Vec<usize> {
        let (_, table) = include_str!("../../include/gellunka.h").split_once("number    cause").unwrap();
        let (table, _) = table.split_once("Of several causes").unwrap();
        let words = |line: &'static str| line.trim_start_matches([' ', '*']).split_whitespace();
        table.lines().flat_map(|line| words(line).map_while(|word| word.parse().ok())).collect()
    }

    /// Those of the proved library.
    fn in_library() -> Vec<usize> {
        let rows = include_str!("../../crates/refusals/src/refusal.rt").split("=> row(").skip(1);
        rows.map(|row| row.split_once(',').unwrap().0.parse().unwrap()).collect()
    }

    /// 41 is no refusal's, and isn't used again.
    #[test]
    fn the_numbers_are_those_of_all_tables() {
        let numbers: Vec<usize> = Reason::ALL.iter().map(|row| row.1).collect();
        assert_eq!(numbers, in_specification());
        assert_eq!(numbers, in_header());
        assert_eq!(numbers, in_library());
        assert!(numbers.is_sorted_by(|a, b| a < b) && !numbers.contains(&41));
        assert_eq!(Reason::from_number(41), None);
    }

    #[test]
    fn every_reason_has_its_row() {
        for (index, &(reason, number, _)) in Reason::ALL.iter().enumerate() {
            assert_eq!(reason as usize, index);
            assert_eq!(Reason::from_number(number), Some(reason));
        }
        assert_eq!(Reason::from_number(0), None);
    }
}
