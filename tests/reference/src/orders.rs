//! Many orders of one trace, each held against the recorded one.

use crate::causality::happens_before;
use crate::refusal::{check_room, Refusal};
use crate::replay::{check_order, recorded_order, run};
use crate::tables::read_tables;
use crate::trace::read_trace;

/// The byte of an order that leaves the tables and gives the answers of the recorded one.
pub const AGREES: u8 = 0;
/// The byte of an order that leaves other tables or gives an event another answer.
pub const DIFFERS: u8 = 1;
/// The byte of an order that a replay refuses, by 21 or 22.
pub const REFUSED: u8 = 2;

/// Tries orders of a trace's events, end to end and each with one byte for each event, from the tables of a table text;
/// writes one byte for each order to the start of `out` and gives their number. A refusal leaves `out` as it was.
///
/// What all orders share is worked out once: the events, the tables, happens-before and the recorded run.
pub fn try_orders<'a>(
    trace: &'a [u8],
    tables: &'a [u8],
    orders: &[u8],
    delay: u32,
    out: &mut [u8],
) -> Result<usize, Refusal<'a>> {
    let events = read_trace(trace, delay)?;
    let tables = read_tables(tables)?;
    let count = order_count(orders.len(), events.len()).ok_or(Refusal::at(52, 0))?;
    check_room(53, count, out.len())?;
    if count == 0 {
        return Ok(0);
    }
    let before = happens_before(&events, delay);
    let outcome = |order: &[u8]| {
        let mut tables = tables.clone();
        let answers = run(&events, order, &mut tables);
        (tables, answers)
    };
    let recorded = outcome(&recorded_order(events.len()));
    for (byte, order) in out.iter_mut().zip(orders.chunks_exact(events.len())) {
        *byte = match check_order(order, &before) {
            Err(_) => REFUSED,
            Ok(()) if outcome(order) == recorded => AGREES,
            Ok(()) => DIFFERS,
        };
    }
    Ok(count)
}

/// How many orders of some number of events have so many bytes, if they have no byte more or less. Of no events, no
/// bytes are no orders.
fn order_count(bytes: usize, events: usize) -> Option<usize> {
    bytes.is_multiple_of(events).then(|| bytes.checked_div(events).unwrap_or(0))
}
