//! The list of racing pairs, and its counts.

use crate::causality::{happens_before, EventSet};
use crate::commute::Flat;
use crate::refusal::{check_room, Refusal};
use crate::tables::SWITCHES;
use crate::trace::{read_trace, Event};

/// How many pairs there are of each kind.
#[derive(Clone, Copy, Debug, Default, PartialEq, Eq)]
pub struct Counts {
    /// All two table events of one switch.
    pub pairs: usize,
    /// Those of which one happens before the other.
    pub ordered: usize,
    /// Those that are not ordered, and commute.
    pub commuting: usize,
    /// The rest.
    pub listed: usize,
}

/// Writes the list of a trace to the start of `out`, two bytes for each listed pair. A refusal
/// leaves `out` as it was.
pub fn list<'a>(trace: &'a [u8], delay: u32, out: &mut [u8]) -> Result<Counts, Refusal<'a>> {
    let (counts, pairs) = races(trace, delay)?;
    let bytes = pairs.as_flattened();
    check_room(31, bytes.len(), out.len())?;
    out[..bytes.len()].copy_from_slice(bytes);
    Ok(counts)
}

/// The counts and the listed pairs of a trace.
pub(crate) fn races(trace: &[u8], delay: u32) -> Result<(Counts, Vec<[u8; 2]>), Refusal<'_>> {
    let events = read_trace(trace, delay)?;
    Ok(racing_pairs(&events, &happens_before(&events, delay)))
}

/// A table event, with those that happen before it.
struct TableEvent<'a> {
    number: u8,
    before: &'a EventSet,
    operation: Flat,
}

/// The counts, and the listed pairs (lower event, higher event) in rising order.
pub fn racing_pairs(events: &[Event], before: &[EventSet]) -> (Counts, Vec<[u8; 2]>) {
    let mut counts = Counts::default();
    let mut listed = Vec::new();
    let switches = by_switch(events, before);
    let mut rest = switches.each_ref().map(Vec::as_slice);
    for (switch, _) in events.iter().filter_map(Event::on_table) {
        let later = &mut rest[usize::from(switch)];
        if let Some((first, others)) = later.split_first() {
            *later = others;
            pairs_with(first, others, &mut counts, &mut listed);
        }
    }
    counts.listed = listed.len();
    (counts, listed)
}

/// The table events of each switch.
fn by_switch<'a>(events: &[Event], before: &'a [EventSet]) -> [Vec<TableEvent<'a>>; SWITCHES] {
    let mut switches = [const { Vec::new() }; SWITCHES];
    for (number, (event, before)) in (0..=u8::MAX).zip(events.iter().zip(before)) {
        if let Some((switch, operation)) = event.on_table() {
            let operation = Flat::of(operation);
            switches[usize::from(switch)].push(TableEvent { number, before, operation });
        }
    }
    switches
}

/// Counts the pairs of an event with later ones of its switch, and lists those that race.
fn pairs_with(first: &TableEvent, later: &[TableEvent], counts: &mut Counts, listed: &mut Vec<[u8; 2]>) {
    let (mut ordered, mut commuting, mut racing) = (0, 0, listed.len());
    // Room for all, cut afterwards: cheaper than a push for each.
    listed.resize(racing + later.len(), [0; 2]);
    for second in later {
        if second.before.contains(usize::from(first.number)) {
            ordered += 1;
        } else if first.operation.commutes(&second.operation) {
            commuting += 1;
        } else {
            listed[racing] = [first.number, second.number];
            racing += 1;
        }
    }
    listed.truncate(racing);
    counts.pairs += later.len();
    counts.ordered += ordered;
    counts.commuting += commuting;
}
