//! The calls, at the delay of the programs. Buffers are made once for each row and are not cleared between calls.

use crate::rows::{Input, Row};
use crate::turns;
use gellunka::DEFAULT_DELAY as DELAY;
use std::fmt::Debug;
use std::hint::black_box;

/// How often each call is timed.
const TURNS: usize = 301;

/// A call that can be made again and again.
pub type Call<'a> = Box<dyn FnMut() + 'a>;

/// Prints the line of a row.
pub fn compare(row: &Row) {
    let call = match row.input {
        Input::List(_) => "list",
        Input::Page(_) => "page",
        Input::Share(_) => "share",
        Input::Normalise(_) => "normalise",
        Input::Replay(..) => "replay",
        Input::Orders(..) => "orders",
    };
    let [proved, peer] = sides(&row.input);
    turns::compare(&format!("{call}, {}", row.name), row.input.turns(TURNS), proved, peer);
}

/// The call of the proved library and that of the peer.
pub fn sides(input: &Input) -> [Call<'_>; 2] {
    match input {
        Input::List(trace) => one_text(
            trace,
            65_280,
            |trace, out| gellunka::list_races(trace, DELAY, out),
            |trace, out| reference::list(trace, DELAY, out),
        ),
        Input::Page(trace) => one_text(
            trace,
            reference::PAGE_ROOM,
            |trace, out| gellunka::page(trace, DELAY, out),
            |trace, out| reference::page(trace, DELAY, out),
        ),
        Input::Share(trace) => share(trace),
        Input::Normalise(tables) => one_text(tables, 65_535, gellunka::normalise, reference::normalise),
        Input::Replay(trace, tables) => replay(trace, tables),
        Input::Orders(trace, tables, orders) => try_orders(trace, tables, orders),
    }
}

/// A call that takes one text and writes into one buffer of so many bytes.
fn one_text<'a, T: 'a, U: 'a>(
    input: &'a [u8],
    room: usize,
    proved: fn(&'a [u8], &mut [u8]) -> Result<T, gellunka::Refusal<'a>>,
    peer: fn(&'a [u8], &mut [u8]) -> Result<U, reference::Refusal<'a>>,
) -> [Call<'a>; 2] {
    let [mut ours, mut theirs] = [(); 2].map(|()| vec![0; room]);
    [
        Box::new(move || used(proved(black_box(input), &mut ours))),
        Box::new(move || used(peer(black_box(input), &mut theirs))),
    ]
}

fn share(trace: &[u8]) -> [Call<'_>; 2] {
    [
        Box::new(move || used(gellunka::share(black_box(trace), DELAY))),
        Box::new(move || used(reference::share(black_box(trace), DELAY))),
    ]
}

fn replay<'a>(trace: &'a [u8], tables: &'a [u8]) -> [Call<'a>; 2] {
    let events = trace.iter().filter(|&&byte| byte == b'\n').count();
    let [order, same] = [(); 2].map(|()| reference::replay::recorded_order(events));
    let [mut end, mut their_end] = [(); 2].map(|()| vec![0; 58_880]);
    let [mut answers, mut their_answers] = [(); 2].map(|()| vec![0; 7_168]);
    [
        Box::new(move || {
            used(gellunka::replay(black_box(trace), tables, &order, DELAY, &mut end, &mut answers));
        }),
        Box::new(move || {
            used(reference::replay(
                black_box(trace),
                tables,
                &same,
                DELAY,
                &mut their_end,
                &mut their_answers,
            ));
        }),
    ]
}

fn try_orders<'a>(trace: &'a [u8], tables: &'a [u8], orders: &'a [u8]) -> [Call<'a>; 2] {
    // Longer than any of these needs.
    let (mut out, mut their_out) = (vec![gellunka::Trial::Refused; 1_000], vec![0; 1_000]);
    [
        Box::new(move || used(gellunka::try_orders(black_box(trace), tables, orders, DELAY, &mut out))),
        Box::new(move || {
            used(reference::try_orders(black_box(trace), tables, orders, DELAY, &mut their_out))
        }),
    ]
}

/// Takes what a call gave, so that the call is made.
fn used<T, E: Debug>(answer: Result<T, E>) {
    black_box(answer.expect("all inputs are valid and all buffers long enough"));
}
