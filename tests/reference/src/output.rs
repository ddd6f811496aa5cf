//! What the project's programs print, as document 01 says under "Program and worked lines".

use crate::orders::try_orders;
use crate::page::{page, PAGE_ROOM};
use crate::races::races;
use crate::refusal::Refusal;
use crate::replay::{outcome, put_answers};
use crate::share::{share, Share};
use crate::tables::{normal_text, normalise};
use crate::text::milliseconds;
use crate::write;
use crate::Counts;
use std::io::Write;

/// The delay of the programs, where none is given.
pub const DEFAULT_DELAY: u32 = 2_000;

/// The delay that an argument is: decimal digits without leading zeros, 0 to 4294967295.
pub fn delay_of(argument: &str) -> Option<u32> {
    milliseconds(argument)
}

/// `racelist` of a trace: a `race` line for each listed pair, then the counts line; or the refusal.
pub fn racelist(trace: &[u8]) -> Vec<u8> {
    match races(trace, DEFAULT_DELAY) {
        Ok((counts, pairs)) => {
            let Counts { pairs: all, ordered, commuting, listed } = counts;
            let last = format!("pairs={all} ordered={ordered} commuting={commuting} listed={listed}\n");
            let mut text = race_lines(&pairs);
            text.extend_from_slice(last.as_bytes());
            text
        }
        Err(refusal) => refused(&refusal),
    }
}

/// A `race` line for each pair. The pairs with one lower event stand side by side.
fn race_lines(pairs: &[[u8; 2]]) -> Vec<u8> {
    let ends: Vec<Piece<4>> = (0..=u8::MAX).map(|high| Piece::of(b"", high, b'\n')).collect();
    let mut text = vec![0; pairs.len() * "race=255,255\n".len()];
    let mut length = 0;
    for pairs in pairs.chunk_by(|a, b| a[0] == b[0]) {
        let start = Piece::<9>::of(b"race=", pairs[0][0], b',');
        for &[_, high] in pairs {
            length += start.put(&mut text[length..]);
            length += ends[usize::from(high)].put(&mut text[length..]);
        }
    }
    text.truncate(length);
    text
}

/// A part of a line of at most N bytes. All N are written at once; what is written next covers those past its
/// length.
struct Piece<const N: usize> {
    bytes: [u8; N],
    length: usize,
}

impl<const N: usize> Piece<N> {
    /// A number with what stands before and after it.
    fn of(before: &[u8], number: u8, after: u8) -> Piece<N> {
        let mut part = before.to_vec();
        write::number(&mut part, u16::from(number));
        part.push(after);
        let mut bytes = [0; N];
        bytes[..part.len()].copy_from_slice(&part);
        Piece { bytes, length: part.len() }
    }

    /// Writes the part to the start of a room of at least N bytes and gives its length.
    fn put(&self, room: &mut [u8]) -> usize {
        room[..N].copy_from_slice(&self.bytes);
        self.length
    }
}

/// `racepage` of a trace: the page, or the refusal.
pub fn racepage(trace: &[u8]) -> Vec<u8> {
    written(PAGE_ROOM, |room| page(trace, DEFAULT_DELAY, room))
}

/// `raceshare` of a trace: the share on one line, or the refusal.
pub fn raceshare(trace: &[u8]) -> Vec<u8> {
    match share(trace, DEFAULT_DELAY) {
        Ok(Share { quotient, remainder, divisor }) => {
            format!("share={quotient} remainder={remainder} divisor={divisor}\n").into_bytes()
        }
        Err(refusal) => refused(&refusal),
    }
}

/// `normalise` of a table text: the normal text, or the refusal.
pub fn normalised(tables: &[u8]) -> Vec<u8> {
    written(tables.len(), |room| normalise(tables, room))
}

/// What a call writes into a buffer of so many bytes, or the refusal.
fn written<'a>(room: usize, call: impl FnOnce(&mut [u8]) -> Result<usize, Refusal<'a>>) -> Vec<u8> {
    let mut text = vec![0; room];
    match call(&mut text) {
        Ok(length) => {
            text.truncate(length);
            text
        }
        Err(refusal) => refused(&refusal),
    }
}

/// `replay_trace` of a trace, tables, an order, the recorded one where none is given, and a delay: the end tables, then
/// the answers; or the refusal.
pub fn replayed(trace: &[u8], tables: &[u8], order: Option<&[u8]>, delay: u32) -> Vec<u8> {
    match outcome(trace, tables, order, delay) {
        Ok((tables, answers)) => {
            let mut text = normal_text(&tables);
            put_answers(&mut text, &answers);
            text
        }
        Err(refusal) => refused(&refusal),
    }
}

/// `replay_orders` of a trace, tables, orders and a delay: a line for each order, or the refusal.
pub fn tried(trace: &[u8], tables: &[u8], orders: &[u8], delay: u32) -> Vec<u8> {
    // No order is shorter than a byte.
    let mut results = vec![0; orders.len()];
    match try_orders(trace, tables, orders, delay, &mut results) {
        Ok(count) => {
            let mut text = Vec::with_capacity(count * "order=1048575 result=0\n".len());
            for (order, result) in results[..count].iter().enumerate() {
                writeln!(text, "order={order} result={result}").expect("a text takes all that is written");
            }
            text
        }
        Err(refusal) => refused(&refusal),
    }
}

/// `refused=4 place=2`, then the refused line, where the place is a line.
pub fn refused(refusal: &Refusal) -> Vec<u8> {
    let mut text = format!("refused={} place={}\n", refusal.number, refusal.place).into_bytes();
    if refusal.has_line() {
        text.extend_from_slice(refusal.line);
        text.push(b'\n');
    }
    text
}
