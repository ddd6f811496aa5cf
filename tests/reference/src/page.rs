//! The list as a page, 60 columns wide.

use crate::causality::happens_before;
use crate::races::{racing_pairs, Counts};
use crate::refusal::{check_room, Refusal};
use crate::trace::{read_trace, Event};

/// The columns of a line.
const COLUMNS: usize = 60;

/// A line with its LF.
type Line = [u8; COLUMNS + 1];

/// The most bytes of a page: 256 events of one switch, all of whose pairs are listed.
pub const PAGE_ROOM: usize = size_of::<Line>() * (256 * 255 / 2 + 4);

/// Writes the page of a trace to the start of `out` and gives its length. A refusal leaves `out` as it was.
pub fn page<'a>(trace: &'a [u8], delay: u32, out: &mut [u8]) -> Result<usize, Refusal<'a>> {
    let events = read_trace(trace, delay)?;
    let (counts, pairs) = racing_pairs(&events, &happens_before(&events, delay));
    let last = count_lines(&counts);
    let length = size_of::<Line>() * (pairs.len() + last.len());
    check_room(51, length, out.len())?;
    let parts: Vec<Option<Parts>> =
        (0..).zip(&events).map(|(number, event)| Parts::of(number, event)).collect();
    let part = |event: u8| parts[usize::from(event)].as_ref().expect("a listed event uses a table");
    let lines = pairs.iter().map(|&[low, high]| pair_line(part(low), part(high)));
    let (room, _) = out.as_chunks_mut();
    for (room, line) in room.iter_mut().zip(lines.chain(last)) {
        *room = line;
    }
    Ok(length)
}

/// What the lines of an event's pairs have of it, each part as wide as its columns.
struct Parts {
    number: [u8; 3],
    switch: [u8; 2],
    word: [u8; 4],
    priority: [u8; 5],
}

impl Parts {
    /// Of an event that uses a table.
    fn of(number: usize, event: &Event) -> Option<Parts> {
        let (switch, operation) = event.on_table()?;
        let priority = operation.priority().map_or("-".to_owned(), |priority| priority.to_string());
        Some(Parts {
            number: as_wide(format!("{number:>3}")),
            switch: as_wide(format!("{switch:>2}")),
            word: as_wide(format!("{:<4}", operation.word())),
            priority: as_wide(format!("{priority:>5}")),
        })
    }
}

/// The line of a pair of one switch.
fn pair_line(low: &Parts, high: &Parts) -> Line {
    let mut line = [b' '; COLUMNS + 1];
    // Column 1 is byte 0.
    line[0..3].copy_from_slice(&low.number);
    line[4..7].copy_from_slice(&high.number);
    line[8..10].copy_from_slice(&low.switch);
    line[11..15].copy_from_slice(&low.word);
    line[16..20].copy_from_slice(&high.word);
    line[21..26].copy_from_slice(&low.priority);
    line[27..32].copy_from_slice(&high.priority);
    line[COLUMNS] = b'\n';
    line
}

/// A line for each count.
fn count_lines(counts: &Counts) -> [Line; 4] {
    let Counts { pairs, ordered, commuting, listed } = *counts;
    [("pairs", pairs), ("ordered", ordered), ("commuting", commuting), ("listed", listed)]
        .map(|(name, count)| as_wide(format!("{name}{count:>width$}\n", width = COLUMNS - name.len())))
}

/// A text of so many bytes.
fn as_wide<const N: usize>(text: String) -> [u8; N] {
    text.into_bytes().try_into().expect("as wide as its columns")
}
