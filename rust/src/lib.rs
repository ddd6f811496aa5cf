//! A proved checker for OpenFlow rehearsals.
//!
//! Switches and controller record their events as a trace. [`list_races`] lists the pairs of events on one
//! switch whose order was open and matters, [`page`] writes that list for paper, [`share`] tells how many thousandths
//! of the pairs whose order was open commute, [`normalise`] brings the text of flow tables into a normal form,
//! [`replay`] tells what an order of the events does to given tables, and [`try_orders`] which of many orders do what
//! the recorded one does.
//!
//! The work is done by a static library whose source (`crates/exports` of the repository) is proved against
//! definitions of the specification, document 01 (`docs/SPECIFICATION.md`). What is said below of results,
//! refusals and buffers is proved for every input, the lengths [`LIST_ROOM`] to [`ANSWERS_ROOM`] too. This crate
//! declares its functions and gives their answers Rust's types; that part is tested and not proved.
//!
//! A call allocates nothing and takes up to 1 MB of stack.
//!
//! # Happens-before and the delay
//!
//! Every call on a trace takes a delay in milliseconds; [`DEFAULT_DELAY`] is that of the programs. One event happens
//! before another if a chain of steps leads to it:
//!
//! - to a later line, by a token that is put out and taken in;
//! - to a later line of one switch, from a `bar` to a write, `bar`, `msg` or `pout`, or from one of these to a `bar`; no
//!   barrier orders a `pkt`;
//! - by their times: switches handled both (every word but `oth`; on one switch or on two), they are not both `pkt`, and
//!   the `from` of the second minus the `to` of the first is above the delay. Where this leads to an earlier line the
//!   trace is refused by 55.
//!
//! So with `from=0 to=0` on every line the times order nothing, whatever the delay. A longer delay refuses no more traces,
//! orders no more pairs, and lists every pair that a shorter one lists.
//!
//! The checks of a trace, which each of these calls makes first, are in this order: 1, 2, 3; on each line from the first
//! 4, 5, 6, 54; then 7, 8, 55 over the whole trace.
//!
//! # Example
//!
//! ```
//! let trace = b"\
//! ev=0 do=pkt in=- out=1 from=0 to=0 sw=1 port=1 vlan=1 src=0a000001 dst=0a000002 proto=6 sport=4000 dport=80
//! ev=1 do=oth in=1 out=2,3,4 from=0 to=0
//! ev=2 do=add in=2 out=- from=0 to=0 sw=1 prio=10 port=* vlan=* src=00000000/0 dst=0a000002/32 proto=* sport=* dport=* act=p2
//! ev=3 do=add in=3 out=- from=0 to=0 sw=2 prio=10 port=* vlan=* src=00000000/0 dst=0a000002/32 proto=* sport=* dport=* act=p3
//! ev=4 do=pkt in=4 out=- from=0 to=0 sw=2 port=1 vlan=1 src=0a000001 dst=0a000002 proto=6 sport=4000 dport=80
//! ";
//! let mut list = [0; gellunka::LIST_ROOM];
//! let delay = gellunka::DEFAULT_DELAY;
//! let counts = gellunka::list_races(trace, delay, &mut list)?;
//! assert_eq!((counts.pairs, counts.ordered, counts.commuting, counts.listed), (2, 1, 0, 1));
//! // The packet may reach switch 2 before its rule does.
//! assert_eq!(counts.pairs_in(&list).collect::<Vec<_>>(), [(3, 4)]);
//!
//! let mut page = vec![0; gellunka::PAGE_ROOM];
//! let length = gellunka::page(trace, delay, &mut page)?;
//! let lines = [
//!     format!("{:<60}\n", "  3   4  2 add  pkt     10     -"),
//!     format!("{:<9}{:>51}\n", "pairs", 2),
//!     format!("{:<9}{:>51}\n", "ordered", 1),
//!     format!("{:<9}{:>51}\n", "commuting", 0),
//!     format!("{:<9}{:>51}\n", "listed", 1),
//! ];
//! assert_eq!(page[..length], *lines.concat().as_bytes());
//!
//! // One pair's order was open, and it doesn't commute.
//! assert_eq!(gellunka::share(trace, delay)?, gellunka::Share { quotient: 0, remainder: 0, divisor: 1 });
//!
//! // The recorded order, the two rules exchanged, the packet before its rule, a rule before what sent it.
//! let orders = [[0, 1, 2, 3, 4], [0, 1, 3, 2, 4], [0, 1, 2, 4, 3], [0, 2, 1, 3, 4]];
//! let mut results = [gellunka::Trial::Refused; 4];
//! assert_eq!(gellunka::try_orders(trace, b"", orders.as_flattened(), delay, &mut results)?, 4);
//! use gellunka::Trial::{Agrees, Differs, Refused};
//! assert_eq!(results, [Agrees, Agrees, Differs, Refused]);
//!
//! let refusal = gellunka::list_races(b"ev=7 do=oth in=- out=- from=0 to=0\n", delay, &mut list).unwrap_err();
//! assert_eq!(refusal.reason, gellunka::Reason::EventMisnumbered);
//! assert_eq!((refusal.reason.number(), refusal.place), (5, 0));
//! assert_eq!(refusal.line, b"ev=7 do=oth in=- out=- from=0 to=0");
//! # Ok::<(), gellunka::Refusal>(())
//! ```
//!
//! A rule, and a packet that the clocks put 2500 milliseconds behind it:
//!
//! ```
//! let trace = b"\
//! ev=0 do=add in=- out=- from=10000 to=10500 sw=2 prio=10 port=* vlan=* src=00000000/0 dst=0a000002/32 proto=* sport=* dport=* act=p3
//! ev=1 do=pkt in=- out=- from=13000 to=13400 sw=2 port=1 vlan=1 src=0a000001 dst=0a000002 proto=6 sport=4000 dport=80
//! ";
//! let mut list = [0; gellunka::LIST_ROOM];
//! assert_eq!(gellunka::list_races(trace, gellunka::DEFAULT_DELAY, &mut list)?.listed, 0);
//! assert_eq!(gellunka::list_races(trace, 2499, &mut list)?.listed, 0);
//! // Above the delay is asked for, and 2500 is not above 2500.
//! assert_eq!(gellunka::list_races(trace, 2500, &mut list)?.listed, 1);
//!
//! // The lines exchanged, the times lead backward.
//! let trace = b"\
//! ev=0 do=msg in=- out=- from=13000 to=13400 sw=2
//! ev=1 do=msg in=- out=- from=10000 to=10500 sw=1
//! ";
//! assert!(gellunka::list_races(trace, 2500, &mut list).is_ok());
//! let refusal = gellunka::list_races(trace, 2499, &mut list).unwrap_err();
//! assert_eq!((refusal.reason, refusal.place), (gellunka::Reason::TimeBackward, 0));
//! assert_eq!(refusal.line, b"ev=0 do=msg in=- out=- from=13000 to=13400 sw=2");
//! # Ok::<(), gellunka::Refusal>(())
//! ```

mod ffi;
mod refusal;

pub use refusal::{Reason, Refusal};

/// The delay that the programs use, in milliseconds. A call may be given any other.
pub const DEFAULT_DELAY: u32 = 2_000;

/// A buffer of this length is never too short for [`list_races`].
pub const LIST_ROOM: usize = 65_280;
/// A buffer of this length is never too short for [`page`].
pub const PAGE_ROOM: usize = 1_991_284;
/// A buffer of this length is never too short for [`normalise`].
pub const NORMAL_ROOM: usize = 29_440;
/// A buffer of this length is never too short for the end tables of [`replay`].
pub const TABLES_ROOM: usize = 58_880;
/// A buffer of this length is never too short for the answers of [`replay`].
pub const ANSWERS_ROOM: usize = 7_168;

/// How many pairs of table events of one switch a trace has, by kind.
#[derive(Clone, Copy, Debug, Default, PartialEq, Eq, Hash)]
pub struct Counts {
    /// All two table events of one switch.
    pub pairs: usize,
    /// Those of which one happens before the other.
    pub ordered: usize,
    /// Those that are not ordered, and commute.
    pub commuting: usize,
    /// The rest, which are in the list.
    pub listed: usize,
}

impl Counts {
    /// The listed pairs, lower event and higher event, from the buffer that [`list_races`] wrote them to.
    pub fn pairs_in(self, list: &[u8]) -> impl Iterator<Item = (u8, u8)> + '_ {
        list.chunks_exact(2).take(self.listed).map(|pair| (pair[0], pair[1]))
    }
}

/// 1000 times the pairs that commute, divided by all pairs that are not ordered.
#[derive(Clone, Copy, Debug, Default, PartialEq, Eq, Hash)]
pub struct Share {
    /// How often the divisor goes into `1000 * commuting`.
    pub quotient: usize,
    /// What remains of `1000 * commuting`.
    pub remainder: usize,
    /// The pairs that are not ordered, `commuting + listed`.
    pub divisor: usize,
}

/// How many bytes [`replay`] wrote to each of its buffers.
#[derive(Clone, Copy, Debug, PartialEq, Eq, Hash)]
pub struct Lengths {
    /// Of the end tables.
    pub tables: usize,
    /// Of the answers.
    pub answers: usize,
}

/// What [`try_orders`] tells of an order.
#[derive(Clone, Copy, Debug, PartialEq, Eq, Hash)]
#[repr(u8)]
pub enum Trial {
    /// Its end tables and its answers equal those of the recorded order.
    Agrees = 0,
    /// Either differs.
    Differs = 1,
    /// The order itself is refused, by 21 or 22.
    Refused = 2,
}

/// Lists the racing pairs of a trace.
///
/// The first `2 * listed` bytes of `out` are then the listed pairs, two bytes each, lower event and then higher
/// event, in rising order; the bytes after them are as they were. [`Counts::pairs_in`] reads them.
///
/// A pair is listed exactly if both events use the table of one switch, neither [happens before](crate) the other at
/// the delay, and there is a table on which the two orders leave different tables or give one of them a different
/// answer.
///
/// # Errors
///
/// Refuses by the [checks of the trace](crate), 1 to 8, 54 and 55, then by 31, and leaves `out` as it was then.
pub fn list_races<'a>(trace: &'a [u8], delay: u32, out: &mut [u8]) -> Result<Counts, Refusal<'a>> {
    let answer = ffi::list_races(trace, delay, out);
    answer.refused.check(trace, b"")?;
    let ffi::Listed { pairs, ordered, commuting, listed, .. } = answer;
    Ok(Counts { pairs, ordered, commuting, listed })
}

/// Writes the list of a trace as a page, 60 columns wide, and gives its length, `61 * (listed + 4)`.
///
/// That many bytes of `out` are then the page; the bytes after them are as they were. Each pair that is listed at the
/// delay is a line of 60 bytes and LF, in the list's order:
///
/// | columns | hold | justified |
/// |---|---|---|
/// | 1 to 3 | the lower event | right |
/// | 5 to 7 | the higher event | right |
/// | 9 and 10 | the switch | right |
/// | from 12 | the `do` word of the lower event | left |
/// | from 17 | the `do` word of the higher event | left |
/// | 22 to 26 | the priority of the lower event, `-` where there is none | right |
/// | 28 to 32 | the priority of the higher event, `-` where there is none | right |
///
/// The rest are blanks. The four counts follow, a line of 60 bytes and LF each, in the order of [`Counts`]: the
/// name from column 1 on, the number right-justified to column 60. Two different lists never make the same page.
///
/// # Errors
///
/// Refuses by the [checks of the trace](crate), 1 to 8, 54 and 55, then by 51, and leaves `out` as it was then.
pub fn page<'a>(trace: &'a [u8], delay: u32, out: &mut [u8]) -> Result<usize, Refusal<'a>> {
    let answer = ffi::page(trace, delay, out);
    answer.refused.check(trace, b"")?;
    Ok(answer.length)
}

/// Tells how many of a trace's pairs that are not ordered commute, in thousandths and with what remains.
///
/// With the [`Counts`] of the same trace at the same delay, `divisor` is `commuting + listed`, which is `pairs - ordered`;
/// `quotient * divisor + remainder` is `1000 * commuting`; and `remainder` is below `divisor`, where that is not 0. The
/// divisor is 0 exactly if all pairs are ordered or there is none, and then all three numbers are 0.
///
/// # Errors
///
/// Refuses by the [checks of the trace](crate), 1 to 8, 54 and 55.
pub fn share(trace: &[u8], delay: u32) -> Result<Share, Refusal<'_>> {
    let answer = ffi::share(trace, delay);
    answer.refused.check(trace, b"")?;
    let ffi::Shared { quotient, remainder, divisor, .. } = answer;
    Ok(Share { quotient, remainder, divisor })
}

/// Brings a table text into its normal form, switches rising and then table order, and gives its length.
///
/// That many bytes of `out` are then the normal text; the bytes after them are as they were. Two accepted texts
/// have the same normal text exactly if they hold the same entries on the same switches.
///
/// # Errors
///
/// Refuses by 11 to 16, then by 32, and leaves `out` as it was then.
pub fn normalise<'a>(tables: &'a [u8], out: &mut [u8]) -> Result<usize, Refusal<'a>> {
    let answer = ffi::normalise(tables, out);
    answer.refused.check(b"", tables)?;
    Ok(answer.length)
}

/// Runs the events of a trace in an order, one byte for each event, from the tables of a text.
///
/// `tables_out` then starts with the end tables in normal form and `answers_out` with the answer lines by rising
/// event, one for each `pkt`, `pout` and `addc`; the bytes after them are as they were. Orders that keep
/// happens-before at the delay and have every pair in recorded order that is listed at it all write the same bytes.
///
/// # Errors
///
/// Refuses by the [checks of the trace](crate), 1 to 8, 54 and 55, then by 11 to 16, 21, 22, 32 and 33, in this order, and
/// leaves both buffers as they were then.
pub fn replay<'a>(
    trace: &'a [u8],
    tables: &'a [u8],
    order: &[u8],
    delay: u32,
    tables_out: &mut [u8],
    answers_out: &mut [u8],
) -> Result<Lengths, Refusal<'a>> {
    let answer = ffi::replay(trace, tables, order, delay, tables_out, answers_out);
    answer.refused.check(trace, tables)?;
    Ok(Lengths { tables: answer.tables, answers: answer.answers })
}

/// Tells which of many orders of a trace's events do to the tables of a text what the recorded order does, and gives
/// the number of orders. The orders stand end to end, each with one byte for each event; there may be none.
///
/// `out` then starts with what is told of each order, in their order; the rest is as it was. An order is
/// [`Trial::Refused`] exactly if [`replay`] at the same delay refuses it by 21 or 22, and [`Trial::Agrees`] exactly if
/// [`replay`] writes for it, into long enough buffers, what it writes for the recorded order. One that keeps
/// happens-before at the delay and has every pair in recorded order that is listed at it agrees.
///
/// # Errors
///
/// Refuses by the [checks of the trace](crate), 1 to 8, 54 and 55, then by 11 to 16, 52 and 53, in this order, and leaves
/// `out` as it was then.
pub fn try_orders<'a>(
    trace: &'a [u8],
    tables: &'a [u8],
    orders: &[u8],
    delay: u32,
    out: &mut [Trial],
) -> Result<usize, Refusal<'a>> {
    let answer = ffi::try_orders(trace, tables, orders, delay, out);
    answer.refused.check(trace, tables)?;
    Ok(answer.orders)
}
