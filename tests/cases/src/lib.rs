//! Traces, table texts and orders for tests, each from a seed: valid and damaged, short and at the
//! limits of 256 lines and 65,535 bytes.
//!
//! - [`World`]: where the values of matches, packets, priorities and actions come from.
//! - [`traces`], [`tables`]: valid texts, and the worst cases of the benchmark.
//! - [`clocks`]: when the events of a trace were, and delays.
//! - [`damage`]: faults put into a text, one or several that compete.
//! - [`orders`]: all orders of few events, random allowed ones, damaged ones; many end to end.

pub mod clocks;
pub mod damage;
pub mod orders;
pub mod print;
pub mod tables;
pub mod traces;
mod world;

pub use random::Random;
pub use world::World;

/// Buffer lengths around the one that is needed: none at all, just short, enough, and longer.
pub fn lengths_around(needed: usize) -> Vec<usize> {
    let mut lengths: Vec<usize> = (needed.saturating_sub(3)..=needed + 3).collect();
    lengths.extend([0, 1, needed / 2, needed + 100]);
    lengths.sort_unstable();
    lengths.dedup();
    lengths
}
