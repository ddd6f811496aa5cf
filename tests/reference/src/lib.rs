//! The trace checker, replayer and table normaliser, written plainly from document 01.
//!
//! Nothing here was taken from the proved code, and no proof touches it: it is what the proved
//! library is compared with. Each module follows one section of document 01:
//!
//! | module | section |
//! |---|---|
//! | [`flow`] | Matches; the entries and the order of a Flow table |
//! | [`table`] | Flow table: what each event leaves and answers |
//! | [`commute`] | Commuting |
//! | [`trace`] | Trace text |
//! | [`causality`] | Happens-before |
//! | [`races`] | The list |
//! | [`page`](mod@page) | The page |
//! | [`share`](mod@share) | The share |
//! | [`tables`] | Tables: table texts and their normal form |
//! | [`replay`](mod@replay) | Replay, and what an order of events does |
//! | [`orders`] | Many orders in one call |
//! | [`refusal`] | Refusal table |
//! | [`output`] | Program and worked lines |
//!
//! It is also the peer of docs/MEASUREMENTS.md, so it is made fast where that costs little: matches and entries are
//! compared and ordered as integers (`packed`), texts are read in one pass (`text`) and written without formatting
//! (`write`), what precedes an event is looked up. What the fast forms mean stays beside them, and tests hold one
//! against the other.
//!
//! Five of the calls write into buffers that the caller lends, as the proved ones do:
//! [`list`], [`page()`], [`normalise`], [`replay()`] and [`try_orders`]. [`share()`] writes nothing. All but
//! [`normalise`] take the delay of the time rule.

pub mod causality;
pub mod commute;
pub mod flow;
pub mod orders;
pub mod output;
pub mod page;
pub mod races;
pub mod refusal;
pub mod replay;
pub mod share;
pub mod table;
pub mod tables;
pub mod trace;

mod packed;
mod text;
mod write;

pub use causality::{happens_before, EventSet};
pub use commute::commutes;
pub use orders::try_orders;
pub use page::{page, PAGE_ROOM};
pub use races::{list, Counts};
pub use refusal::Refusal;
pub use replay::{replay, Lengths};
pub use share::{share, Share};
pub use tables::{normal_text, normalise, read_tables};
pub use trace::read_trace;
