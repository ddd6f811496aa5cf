//! What the test programs print of their data files, at the delay 2000, worked out by the reference. Each function
//! follows the `main.rt` of the crate that it is named after in what is printed around the answers.

use crate::notation::{Case, Kind};
use reference::output::{normalised, racelist, refused, replayed, DEFAULT_DELAY};
use reference::replay::recorded_order;
use reference::{normalise, read_trace, replay, Lengths};

/// Room for all tables.
const TABLES_ROOM: usize = 65_536;
/// Room for all answers.
const ANSWERS_ROOM: usize = 8192;

/// The numbered texts: how many events each has, or its refusal.
pub fn trace_test(cases: &[Case]) -> Vec<u8> {
    let mut out = Vec::new();
    for case in cases {
        out.extend(format!("text {}\n", case.name).bytes());
        match read_trace(&case.bytes(), DEFAULT_DELAY) {
            Ok(events) => out.extend(format!("accepted events={}\n", events.len()).bytes()),
            Err(refusal) => out.extend(refused(&refusal)),
        }
    }
    out
}

/// The named traces and then the numbered ones, each as `racelist` prints it.
pub fn list_test(cases: &[Case]) -> Vec<u8> {
    let mut out = Vec::new();
    for case in named_first(cases) {
        out.extend(format!("trace {}\n", case.name).bytes());
        out.extend(racelist(&case.bytes()));
    }
    out
}

/// The named table texts and then the numbered ones, each as `normalise` prints it, and then into a
/// buffer that is a byte too short.
pub fn tables_test(cases: &[Case]) -> Vec<u8> {
    let mut out = Vec::new();
    for case in named_first(cases) {
        let text = case.bytes();
        let mut room = vec![0; TABLES_ROOM];
        out.extend(format!("text {}\n", case.name).bytes());
        out.extend(normalised(&text));
        if let Ok(length @ 1..) = normalise(&text, &mut room) {
            let refusal = normalise(&text, &mut room[..length - 1]).expect_err("a byte too short");
            out.extend(refused(&refusal));
        }
    }
    out
}

fn named_first(cases: &[Case]) -> impl Iterator<Item = &Case> {
    let of_kind = |kind| cases.iter().filter(move |case| case.kind == kind);
    of_kind(Kind::Named).chain(of_kind(Kind::Numbered))
}

/// Each set NAME of the files NAME_trace, NAME_tables and NAME_orders: the recorded order, the same into
/// buffers that are a byte too short, and the orders of the third file, a line for each.
pub fn replay_test(cases: &[Case]) -> Vec<u8> {
    let text = |name: String| {
        cases.iter().find(|case| case.name == name).map(Case::bytes).expect("a set has three files")
    };
    let mut out = Vec::new();
    for set in replay_sets(cases) {
        let trace = text(format!("{set}_trace"));
        let (tables, orders) = (text(format!("{set}_tables")), text(format!("{set}_orders")));
        out.extend(format!("trace {set}\norder recorded\n").bytes());
        out.extend(replayed(&trace, &tables, None, DEFAULT_DELAY));
        out.extend(replayed_short(&trace, &tables));
        let lines = orders.split_inclusive(|&byte| byte == b'\n').filter_map(|line| line.strip_suffix(b"\n"));
        for (index, order) in lines.enumerate() {
            out.extend(format!("order {index}\n").bytes());
            out.extend(replayed(&trace, &tables, Some(order), DEFAULT_DELAY));
        }
    }
    out
}

/// The names of the sets.
pub fn replay_sets(cases: &[Case]) -> impl Iterator<Item = &str> {
    cases.iter().filter_map(|case| case.name.strip_suffix("_trace"))
}

/// The recorded order into a tables buffer and then into an answers buffer that is a byte too short, and
/// each time the first byte of the tables buffer, which is as it was.
fn replayed_short(trace: &[u8], tables: &[u8]) -> Vec<u8> {
    let events = read_trace(trace, DEFAULT_DELAY).map_or(0, |events| events.len());
    let order = recorded_order(events);
    let run = |room: Lengths| {
        let (mut ends, mut answers) = (vec![0; room.tables], vec![0; room.answers]);
        let result = replay(trace, tables, &order, DEFAULT_DELAY, &mut ends, &mut answers);
        let answer = result.map_err(|refusal| refused(&refusal));
        let first = ends.first().map_or(String::new(), |first| format!("first={first}\n"));
        (answer, first)
    };
    let (Ok(needed), _) = run(Lengths { tables: TABLES_ROOM, answers: ANSWERS_ROOM }) else {
        return Vec::new();
    };
    let shorter = [
        needed.tables.checked_sub(1).map(|tables| Lengths { tables, ..needed }),
        needed.answers.checked_sub(1).map(|answers| Lengths { answers, ..needed }),
    ];
    let mut out = Vec::new();
    for room in shorter.into_iter().flatten() {
        let (answer, first) = run(room);
        out.extend(answer.expect_err("a byte too short"));
        out.extend(first.bytes());
    }
    out
}
