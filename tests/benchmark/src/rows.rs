//! What is measured.

use cases::orders::{accepted_orders, shuffled_orders};
use cases::print::trace_text;
use cases::{tables, traces, Random};
use gellunka::DEFAULT_DELAY as DELAY;
use reference::happens_before;
use reference::table::Origin::{Received, SentOut};

/// A row of the tables: a call, or the process that makes it.
pub struct Row {
    /// What the input is.
    pub name: &'static str,
    /// The call and its input.
    pub input: Input,
}

/// A call and its input.
pub enum Input {
    /// `list` of a trace.
    List(Vec<u8>),
    /// `page` of a trace.
    Page(Vec<u8>),
    /// `share` of a trace.
    Share(Vec<u8>),
    /// `normalise` of a table text.
    Normalise(Vec<u8>),
    /// `replay` of a trace from a table text, in the recorded order.
    Replay(Vec<u8>, Vec<u8>),
    /// `try_orders` of a trace from a table text, and the orders.
    Orders(Vec<u8>, Vec<u8>, Vec<u8>),
}

impl Input {
    /// How often a call or a process of this input is timed, where others are so often: those of many orders take as
    /// long as many of theirs.
    pub fn turns(&self, others: usize) -> usize {
        match self {
            Input::Orders(.., orders) if !orders.is_empty() => others / 20,
            _ => others,
        }
    }
}

/// All rows.
pub fn rows() -> Vec<Row> {
    let list = |name, trace| Row { name, input: Input::List(trace) };
    let page = |name, trace| Row { name, input: Input::Page(trace) };
    let share = |name, trace| Row { name, input: Input::Share(trace) };
    let normalise = |name, tables| Row { name, input: Input::Normalise(tables) };
    let replay = |name, trace| Row { name, input: Input::Replay(trace, tables::reversed()) };
    vec![
        list("empty input (floor)", Vec::new()),
        list("256 adds of one key: 32,640 pairs listed", traces::all_racing()),
        list("256 modifies of one key: 32,640 pairs listed", traces::all_racing_modifies()),
        list("256 adds, different keys: 32,640 pairs commute", traces::long_adds()),
        list("256 `addc`: 32,640 pairs commute", traces::long_checked_adds()),
        list("token chain of 256 adds", traces::token_chain()),
        list("128 adds with a barrier after each", traces::barriers()),
        list("256 barriers", traces::only_barriers()),
        normalise("empty input (floor)", Vec::new()),
        normalise("256 lines typed in reverse", tables::reversed()),
        Row { name: "empty inputs (floor)", input: Input::Replay(Vec::new(), Vec::new()) },
        replay("256 adds onto 256 entries", traces::long_adds()),
        replay("256 `addc` onto 256 entries", traces::long_checked_adds()),
        replay("256 `modn` of 256 entries", traces::all_racing_modifies()),
        replay("256 `pkt` onto 256 entries", traces::packets_to_the_last(Received)),
        page("empty input (floor)", Vec::new()),
        page("256 adds of one key: 32,640 pairs listed", traces::all_racing()),
        page("256 modifies of one key: 32,640 pairs listed", traces::all_racing_modifies()),
        list("128 `pout` with a barrier after each", traces::barriers_and_packets()),
        replay("256 `pout` onto 256 entries", traces::packets_to_the_last(SentOut)),
        mixed("no order (floor)", 4, 64, 0),
        adds("1,000 orders of 256 adds, empty tables", Vec::new()),
        adds("1,000 orders of 256 adds onto 256 entries", tables::reversed()),
        mixed("1,000 orders of 256 mixed events, 4 switches, onto 64 entries", 4, 64, 1_000),
        mixed("100 orders of the same", 4, 64, 100),
        mixed("1,000 orders of 256 mixed events, 1 switch, onto 256 entries", 1, 256, 1_000),
        share("empty input (floor)", Vec::new()),
        share("256 adds of one key: 32,640 pairs listed", traces::all_racing()),
        share("256 adds, different keys: 32,640 pairs commute", traces::long_adds()),
        share("256 mixed events, 1 switch", trace_text(&traces::mixed(1))),
        list("256 adds of one key, all ordered by clocks", traces::clock_chain(DELAY)),
        list("256 `msg` whose times fall by the delay", traces::falling_clocks(DELAY)),
    ]
}

/// 1,000 random orders of adds of different keys. All are accepted.
fn adds(name: &'static str, tables: Vec<u8>) -> Row {
    let orders = shuffled_orders(&mut Random::from_seed(1), 256, 1_000);
    Row { name, input: Input::Orders(traces::long_adds(), tables, orders) }
}

/// Random orders of events of all words that keep happens-before, and so are accepted.
fn mixed(name: &'static str, switches: usize, lines: usize, orders: usize) -> Row {
    let events = traces::mixed(switches);
    let orders = accepted_orders(&mut Random::from_seed(2), &happens_before(&events, DELAY), orders);
    Row { name, input: Input::Orders(trace_text(&events), tables::mixed(switches, lines), orders) }
}
