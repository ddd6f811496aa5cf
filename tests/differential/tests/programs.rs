//! What the project's programs print, against the reference.

use cases::clocks::{any_delay, any_unsorted_clocks};
use cases::damage::damaged;
use cases::orders::{any_damaged, any_orders, any_uneven};
use cases::print::{tables_text, trace_text};
use cases::tables::any_tables;
use cases::traces::{any_length, any_trace};
use cases::{tables, traces, Random, World};
use differential::{program, Folder, DELAY};
use reference::happens_before;
use reference::output::{normalised, racelist, racepage, raceshare, replayed, tried};
use reference::replay::recorded_order;
use reference::table::Origin;
use std::io::Write;
use std::process::Stdio;

/// What a program prints of an input.
fn printed(name: &str, input: &[u8]) -> Vec<u8> {
    let mut running =
        program(name).stdin(Stdio::piped()).stdout(Stdio::piped()).spawn().expect("the program starts");
    // A program that needs no more of its input than told may close it.
    let _ = running.stdin.take().expect("piped").write_all(input);
    running.wait_with_output().expect("the program ends").stdout
}

fn check(name: &str, input: &[u8], printed: &[u8], expected: &[u8]) {
    assert!(
        printed == expected,
        "{name} printed\n{}\nand not\n{}\nof b\"{}\"",
        printed.escape_ascii(),
        expected.escape_ascii(),
        input.escape_ascii()
    );
}

#[test]
fn lists_pages_and_shares() {
    let mut random = Random::from_seed(201);
    let check = |trace: &[u8]| {
        check("racelist", trace, &printed("racelist", trace), &racelist(trace));
        check("racepage", trace, &printed("racepage", trace), &racepage(trace));
        check("raceshare", trace, &printed("raceshare", trace), &raceshare(trace));
    };
    for trace in
        [traces::all_racing(), traces::long_adds(), traces::token_chain(), traces::barriers(), Vec::new()]
    {
        check(&trace);
    }
    for _ in 0..300 {
        let world = World::any(&mut random);
        let length = any_length(&mut random);
        let mut events = any_trace(&mut random, world, length);
        let trace = trace_text(&events);
        check(&trace);
        check(&damaged(&mut random, &trace));
        if random.one_in(4) {
            any_unsorted_clocks(&mut random, &mut events);
            check(&trace_text(&events));
        }
    }
}

#[test]
fn normal_forms() {
    let mut random = Random::from_seed(202);
    let check =
        |tables: &[u8]| check("normalise", tables, &printed("normalise", tables), &normalised(tables));
    for tables in [tables::reversed(), tables::sorted(), Vec::new()] {
        check(&tables);
    }
    for _ in 0..300 {
        let world = World::any(&mut random);
        let length = any_length(&mut random);
        let tables = tables_text(&any_tables(&mut random, world, length));
        check(&tables);
        check(&damaged(&mut random, &tables));
    }
}

#[test]
fn replays() {
    let folder = Folder::new("replays");
    let replay_at = |trace: &[u8], tables: &[u8], order: Option<&[u8]>, delay: Option<u32>| {
        let mut command = program("replay_trace");
        for (name, bytes) in [("trace", Some(trace)), ("tables", Some(tables)), ("order", order)] {
            if let Some(bytes) = bytes {
                command.arg(folder.file(name, bytes));
            }
        }
        command.args(delay.map(|delay| delay.to_string()));
        let printed = command.output().expect("the program ends").stdout;
        let input = [trace, b"\n--\n", tables, b"\n--\n", order.unwrap_or_default()].concat();
        check("replay_trace", &input, &printed, &replayed(trace, tables, order, delay.unwrap_or(DELAY)));
    };
    let replay = |trace: &[u8], tables: &[u8], order: Option<&[u8]>| replay_at(trace, tables, order, None);
    for trace in [
        traces::long_adds(),
        traces::long_checked_adds(),
        traces::all_racing_modifies(),
        traces::packets_to_the_last(Origin::Received),
        traces::packets_to_the_last(Origin::SentOut),
    ] {
        replay(&trace, &tables::reversed(), None);
    }
    replay(&traces::packets_to_all(), &tables::all_fitting(), None);
    replay(b"", b"", None);
    replay(b"", b"", Some(b""));
    let mut random = Random::from_seed(203);
    for _ in 0..150 {
        let world = World::any(&mut random);
        let (length, lines) = (any_length(&mut random), any_length(&mut random));
        let trace = trace_text(&any_trace(&mut random, world, length));
        let tables = tables_text(&any_tables(&mut random, world, lines));
        replay(&trace, &tables, None);
        replay(&trace, &tables, Some(&any_damaged(&mut random, &recorded_order(length))));
        replay(&damaged(&mut random, &trace), &tables, None);
        replay(&trace, &damaged(&mut random, &tables), None);
        let order = any_damaged(&mut random, &recorded_order(length));
        replay(&damaged(&mut random, &trace), &damaged(&mut random, &tables), Some(&order));
        replay_at(&trace, &tables, Some(&order), Some(any_delay(&mut random)));
        replay_at(&trace, &tables, Some(&order), Some(random.bits() as u32));
    }
}

/// As many as are read, so that the orders' numbers have all lengths that they can have.
#[test]
fn a_megabyte_of_orders() {
    let folder = Folder::new("megabyte");
    let (trace, orders) = (b"ev=0 do=oth in=- out=- from=0 to=0\n", [0, 0, 0, 1].repeat(262_144));
    let files = [("trace", &trace[..]), ("tables", b""), ("orders", &orders)];
    let arguments = files.map(|(name, bytes)| folder.file(name, bytes));
    let printed = program("replay_orders").args(arguments).output().expect("the program ends").stdout;
    let expected = tried(trace, b"", &orders, DELAY);
    assert!(expected.ends_with(b"order=1048575 result=2\n"));
    let at = printed.iter().zip(&expected).position(|(a, b)| a != b);
    assert!(printed == expected, "{} of {} bytes, first other {at:?}", printed.len(), expected.len());
}

#[test]
fn orders() {
    let folder = Folder::new("orders");
    let try_at = |trace: &[u8], tables: &[u8], orders: &[u8], delay: Option<u32>| {
        let mut command = program("replay_orders");
        for (name, bytes) in [("trace", trace), ("tables", tables), ("orders", orders)] {
            command.arg(folder.file(name, bytes));
        }
        command.args(delay.map(|delay| delay.to_string()));
        let printed = command.output().expect("the program ends").stdout;
        let input = [trace, b"\n--\n", tables, b"\n--\n", orders].concat();
        check("replay_orders", &input, &printed, &tried(trace, tables, orders, delay.unwrap_or(DELAY)));
    };
    let try_all = |trace: &[u8], tables: &[u8], orders: &[u8]| try_at(trace, tables, orders, None);
    try_all(b"", b"", b"");
    try_all(b"", b"", b"\0");
    let other = b"ev=0 do=oth in=- out=- from=0 to=0\n";
    try_all(other, b"", b"");
    try_all(&trace_text(&traces::mixed(4)), b"", &recorded_order(256).repeat(20));
    let mut random = Random::from_seed(204);
    for _ in 0..150 {
        let world = World::any(&mut random);
        let (length, lines) = (any_length(&mut random), any_length(&mut random));
        let events = any_trace(&mut random, world, length);
        let trace = trace_text(&events);
        let tables = tables_text(&any_tables(&mut random, world, lines));
        let count = random.pick(&[0, 1, 11, 101]);
        let delay = any_delay(&mut random);
        let orders = any_orders(&mut random, &happens_before(&events, delay), &[], count);
        try_all(&trace, &tables, &orders);
        try_at(&trace, &tables, &orders, Some(delay));
        try_all(&trace, &tables, &any_uneven(&mut random, &orders));
        try_all(&damaged(&mut random, &trace), &tables, &orders);
        try_all(&trace, &damaged(&mut random, &tables), &orders);
    }
}
