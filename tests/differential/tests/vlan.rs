//! The VLAN of matches and packets: all its values, its place in a line, what it fits and its place in table order. Library
//! and reference agree, and both do what is said here.

use cases::Random;
use differential::{assert_listed, list, normalise, replay, trace, Answer, DELAY};
use gellunka::{ANSWERS_ROOM, NORMAL_ROOM, TABLES_ROOM};
use reference::replay::recorded_order;
use std::fmt::Display;

const ROOMS: [usize; 2] = [TABLES_ROOM, ANSWERS_ROOM];

/// A match with a VLAN, a number or `*`.
fn matching(vlan: impl Display) -> String {
    format!("port=* vlan={vlan} src=00000000/0 dst=00000000/0 proto=* sport=* dport=*")
}

fn packet(vlan: impl Display) -> String {
    format!("port=1 vlan={vlan} src=0a000001 dst=0a000002 proto=6 sport=4000 dport=80")
}

fn add(vlan: impl Display) -> (&'static str, String) {
    ("add", format!("prio=1 {} act=drop", matching(vlan)))
}

/// An entry for each value, typed in reverse: the normal form has them rising, and each packet meets the one of its VLAN.
#[test]
fn every_value_in_tables_and_in_packets() {
    for first in (0..4096).step_by(256) {
        let values = || first..first + 256;
        let entry = |vlan| format!("sw=1 prio=1 {} act=p{vlan}\n", matching(vlan));
        let typed: String = values().rev().map(entry).collect();
        let normal = values().map(entry).collect::<String>().into_bytes();
        assert_eq!(normalise(typed.as_bytes(), NORMAL_ROOM).as_ref(), Ok(&normal));
        for word in ["pkt", "pout"] {
            let packets: Vec<_> = values().map(|vlan| (word, packet(vlan))).collect();
            let written = replay(&trace(&packets), typed.as_bytes(), &recorded_order(256), DELAY, ROOMS);
            let written = written.expect("all valid");
            let answer = |(event, vlan)| format!("ev={event} hit=1,1,p{vlan}\n");
            assert_eq!(written.answers, (0..).zip(values()).map(answer).collect::<String>().into_bytes());
            assert_eq!(written.tables, normal);
        }
    }
}

/// Adds and packets race where they have the same VLAN, and the adds leave tables with all values.
#[test]
fn every_value_in_writes_and_in_packets() {
    for first in (0..4096).step_by(128) {
        let values = || first..first + 128;
        let packets = values().map(|vlan| (if vlan % 2 == 0 { "pkt" } else { "pout" }, packet(vlan)));
        let events: Vec<_> = values().map(add).chain(packets).collect();
        assert_listed(&events, |low, high| low + 128 == high);
        let entry = |vlan| format!("sw=1 prio=1 {} act=drop\n", matching(vlan));
        let written = replay(&trace(&events), b"", &recorded_order(256), DELAY, ROOMS).expect("all valid");
        assert_eq!(written.tables, values().map(entry).collect::<String>().into_bytes());
    }
}

/// Each kind of line with a VLAN, with some change to its items.
fn lines(vlan: &str, change: impl Fn(&str) -> String) -> [(&'static str, String); 8] {
    let (matching, packet) = (change(&matching(vlan)), change(&packet(vlan)));
    let entry = format!("prio=1 {matching} act=drop");
    [
        ("pkt", packet.clone()),
        ("pout", packet),
        ("add", entry.clone()),
        ("addc", entry.clone()),
        ("mods", entry.clone()),
        ("modn", entry),
        ("dels", format!("prio=1 {matching}")),
        ("deln", matching),
    ]
}

fn refusal<T>(answer: Answer<T>) -> (usize, usize, Vec<u8>) {
    answer.map_or_else(|refused| (refused.number, refused.place, refused.line), |_| (0, 0, Vec::new()))
}

/// Whether the line of each kind is accepted behind a good line; if not, it is refused by 4 at its place, in a table text by 14.
fn accepted(vlan: &str, change: impl Fn(&str) -> String) -> ([bool; 8], bool) {
    let verdict = |refusal: (usize, usize, Vec<u8>), number: usize, text: &[u8]| {
        let line = text.split(|&byte| byte == b'\n').nth(1).expect("a second line");
        let is_accepted = refusal == (0, 0, Vec::new());
        assert!(
            is_accepted || refusal == (number, 1, line.to_vec()),
            "{refusal:?} of {}",
            line.escape_ascii()
        );
        is_accepted
    };
    let in_traces = lines(vlan, &change).map(|line| {
        let text = trace(&[add(0), line]);
        verdict(refusal(list(&text, DELAY, 2)), 4, &text)
    });
    let good = format!("sw=1 prio=1 {} act=drop\n", matching(0));
    let tables = format!("{good}sw=2 prio=1 {} act=drop\n", change(&matching(vlan)));
    (in_traces, verdict(refusal(normalise(tables.as_bytes(), 256)), 14, tables.as_bytes()))
}

#[test]
fn values_that_are_refused() {
    let as_it_is = |items: &str| items.to_owned();
    for good in ["0", "1", "9", "10", "99", "100", "999", "1000", "4090", "4095"] {
        assert_eq!(accepted(good, as_it_is), ([true; 8], true), "{good}");
    }
    // Any VLAN in a match, but not in a packet.
    assert_eq!(accepted("*", as_it_is), ([false, false, true, true, true, true, true, true], true));
    for bad in [
        "4096",
        "4097",
        "4100",
        "5000",
        "9999",
        "10000",
        "40950",
        "65535",
        "65536",
        "69631",
        "4294967296",
        "00",
        "04",
        "04095",
        "00001",
        "",
        "-",
        "-1",
        "+1",
        "**",
        "*1",
        "1*",
        "1-2",
        "x",
        "a",
        "0x1",
        "1e3",
        " 1",
        "1 ",
        "1\r",
    ] {
        assert_eq!(accepted(bad, as_it_is), ([false; 8], false), "{bad:?}");
    }
}

#[test]
fn keys_that_are_refused() {
    let none = ([false; 8], false);
    // A line without the key.
    assert_eq!(accepted("1", |items| items.replace(" vlan=1", "")), none);
    // The key at each other place.
    for place in [0, 2, 3, 4, 5, 6] {
        let moved = |items: &str| {
            let mut items: Vec<&str> = items.split(' ').collect();
            let vlan = items.remove(1);
            items.insert(place, vlan);
            items.join(" ")
        };
        assert_eq!(accepted("1", moved), none, "place {place}");
    }
    for bad in [
        " Vlan=",
        " VLAN=",
        " vlan",
        " vlan =",
        "  vlan=",
        " vlans=",
        " vla=",
        "\tvlan=",
        "vlan=",
        " vlan=1 vlan=",
        " vid=",
    ] {
        assert_eq!(accepted("1", |items| items.replace(" vlan=", bad)), none, "{bad:?}");
    }
}

const SOME: [&str; 6] = ["*", "0", "1", "2048", "4094", "4095"];

/// Two overlap if they are the same or one is any.
#[test]
fn which_overlap() {
    let checked = |vlan: &str| ("addc", format!("prio=1 {} act=drop", matching(vlan)));
    let events = [SOME.map(checked), SOME.map(checked)].concat();
    assert_listed(&events, |low, high| {
        let (low, high) = (SOME[low % 6], SOME[high % 6]);
        low == high || low == "*" || high == "*"
    });
}

/// One lies within another that is the same or any.
#[test]
fn which_lie_within() {
    let delete = |vlan: &str| ("deln", matching(vlan));
    let events = [SOME.map(delete), SOME.map(add)].concat();
    assert_listed(&events, |low, high| {
        low < 6 && high >= 6 && (SOME[low] == "*" || SOME[low] == SOME[high - 6])
    });
}

/// `vlan` comes behind `port` and before `src`, `*` before numbers and these by their values.
#[test]
fn table_order() {
    let mut rising = Vec::new();
    for port in ["*", "0", "1", "65535"] {
        for vlan in ["*", "0", "1", "2", "9", "10", "99", "1000", "4094", "4095"] {
            for src in ["00000000/0", "00000000/32", "80000000/1", "ffffffff/32"] {
                let items = format!("port={port} vlan={vlan} src={src} dst=00000000/0");
                rising.push(format!("prio=1 {items} proto=* sport=* dport=* act=drop"));
            }
        }
    }
    let text =
        |lines: &[String]| lines.iter().map(|line| format!("sw=1 {line}\n")).collect::<String>().into_bytes();
    let normal = text(&rising);
    let mut random = Random::from_seed(301);
    let mut typed = rising.clone();
    typed.reverse();
    for _ in 0..20 {
        assert_eq!(normalise(&text(&typed), NORMAL_ROOM).as_ref(), Ok(&normal));
        let adds: Vec<_> = typed.iter().map(|items| ("add", items.clone())).collect();
        let written =
            replay(&trace(&adds), b"", &recorded_order(adds.len()), DELAY, ROOMS).expect("all valid");
        assert_eq!(written.tables, normal);
        random.shuffle(&mut typed);
    }
}
