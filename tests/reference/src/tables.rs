//! Table texts: the tables of all switches, and their normal form.

use crate::flow::{Entry, Match, Prefix};
use crate::packed::Row;
use crate::refusal::{check_room, Refusal};
use crate::table::Table;
use crate::text::{self, Items};
use crate::write;
use std::fmt::{self, Display};

/// How many switches there are.
pub const SWITCHES: usize = 16;

/// The most bytes of a table line with its LF.
const LONGEST_LINE: usize = 115;

/// One table for each switch.
pub type Tables = [Table; SWITCHES];

/// A line of a table text.
struct Line<'a> {
    number: usize,
    /// With its LF.
    text: &'a [u8],
    switch: u8,
    row: Row,
}

/// The tables of a table text, or the first refusal in document 01's order of checks.
pub fn read_tables(text: &[u8]) -> Result<Tables, Refusal<'_>> {
    let mut tables = Tables::default();
    for line in sorted_lines(text)? {
        tables[usize::from(line.switch)].push(line.row);
    }
    Ok(tables)
}

/// The lines by switch and in table order, or the first refusal.
fn sorted_lines(text: &[u8]) -> Result<Vec<Line<'_>>, Refusal<'_>> {
    let mut lines = read_lines(text)?;
    lines.sort_by_cached_key(|line| (line.switch, line.row.rank()));
    match key_twice(&lines) {
        Some(number) => Err(Refusal::of_line(16, text, number)),
        None => Ok(lines),
    }
}

/// The lines as they stand, or the first refusal about the whole text or a line.
fn read_lines(text: &[u8]) -> Result<Vec<Line<'_>>, Refusal<'_>> {
    let count = text::line_count(text).map_err(|number| Refusal::at(10 + number, 0))?;
    let mut lines = Vec::with_capacity(count);
    let mut items = Items::of(text);
    while !items.is_empty() {
        let number = lines.len();
        let rest = items.rest();
        let (switch, entry) = read_line(&mut items).ok_or_else(|| Refusal::of_line(14, text, number))?;
        if !entry.key.matching.is_clear() {
            return Err(Refusal::of_line(15, text, number));
        }
        let text = &rest[..rest.len() - items.rest().len()];
        lines.push(Line { number, text, switch, row: Row::of(&entry) });
    }
    Ok(lines)
}

/// The switch and the entry of a line, or nothing where it is malformed or a value is out of range.
fn read_line(items: &mut Items) -> Option<(u8, Entry)> {
    items.pass(b"sw=")?;
    let switch = items.switch()?;
    let entry = items.entry()?;
    items.end_of_line()?;
    Some((switch, entry))
}

/// Of sorted lines, the lowest that has the switch and key of an earlier one. Equal ones stand side by side as
/// they did in the text.
fn key_twice(lines: &[Line]) -> Option<usize> {
    let same = |two: &&[Line]| two[0].switch == two[1].switch && two[0].row.has_key_of(&two[1].row);
    lines.windows(2).filter(same).map(|two| two[1].number).min()
}

/// The normal text of some tables: switches rising, then table order.
pub fn normal_text(tables: &Tables) -> Vec<u8> {
    let entries: usize = tables.iter().map(Table::len).sum();
    let mut text = Vec::with_capacity(entries * LONGEST_LINE);
    for (switch, table) in (0..).zip(tables) {
        table.rows().iter().for_each(|row| write::table_line(&mut text, switch, row));
    }
    text
}

/// Writes the normal form of a table text to the start of `out` and gives its length. A refusal
/// leaves `out` as it was.
///
/// Each value is spelled in one way, so the lines of the normal form are those of the text.
pub fn normalise<'a>(text: &'a [u8], out: &mut [u8]) -> Result<usize, Refusal<'a>> {
    let lines = sorted_lines(text)?;
    check_room(32, text.len(), out.len())?;
    let mut rest = &mut out[..text.len()];
    for line in lines {
        let (start, end) = rest.split_at_mut(line.text.len());
        start.copy_from_slice(line.text);
        rest = end;
    }
    Ok(text.len())
}

/// An entry as the items of a line, from `prio` to `act`.
pub struct EntryItems(pub Entry);

impl Display for EntryItems {
    fn fmt(&self, f: &mut fmt::Formatter) -> fmt::Result {
        written(f, |text| write::entry(text, &Row::of(&self.0)))
    }
}

/// A match as the items of a line, from `port` to `dport`.
pub struct MatchItems(pub Match);

impl Display for MatchItems {
    fn fmt(&self, f: &mut fmt::Formatter) -> fmt::Result {
        written(f, |text| write::matching(text, &self.0))
    }
}

impl Display for Prefix {
    fn fmt(&self, f: &mut fmt::Formatter) -> fmt::Result {
        written(f, |text| write::prefix(text, *self))
    }
}

fn written(f: &mut fmt::Formatter, put: impl Fn(&mut Vec<u8>)) -> fmt::Result {
    let mut text = Vec::new();
    put(&mut text);
    f.write_str(std::str::from_utf8(&text).expect("ASCII"))
}
