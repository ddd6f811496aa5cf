//! Matches that differ in one field: what the list says of each two of them, with all words, where the others are open and
//! where they are exact. The library compares all fields at once, as words of bits, and the reference in its own way.

use differential::{assert_listed, list, trace, DELAY};

const FIELDS: [&str; 7] = ["port", "vlan", "src", "dst", "proto", "sport", "dport"];
const WORDS: [&str; 8] = ["add", "addc", "mods", "modn", "dels", "deln", "pkt", "pout"];

/// Values of a field: open, the least and the greatest, one with the lowest and one with the highest bit; of an address
/// lengths from 0 to 32, also with the same bits at two lengths.
fn values(field: &str) -> Vec<String> {
    let greatest = match field {
        "src" | "dst" => {
            let prefixes = [
                "00000000/0",
                "00000000/1",
                "80000000/1",
                "0a000000/8",
                "0a000000/31",
                "0a000000/32",
                "ffffffff/32",
            ];
            return prefixes.map(String::from).to_vec();
        }
        "vlan" => 4095,
        "proto" => 255,
        _ => 65535,
    };
    let numbers = [0, 1, (greatest + 1) / 2, greatest].map(|number: u32| number.to_string());
    std::iter::once("*".into()).chain(numbers).collect()
}

/// The items of a match or, without what is open and without lengths, of a packet.
fn items(field: &str, value: &str, others_open: bool, packet: bool) -> String {
    let item = |name: &str| {
        let value = match name {
            _ if name == field => value,
            "src" | "dst" if others_open => "00000000/0",
            "src" | "dst" => "0a000001/32",
            _ if others_open => "*",
            _ => "7",
        };
        match (packet, value) {
            (true, "*") => format!("{name}=7"),
            (true, prefix) => format!("{name}={}", prefix.split('/').next().expect("the address")),
            (false, value) => format!("{name}={value}"),
        }
    };
    FIELDS.map(item).join(" ")
}

/// An event of a word: the write of a match at a priority with an action, or a packet that fits it.
fn event(
    word: &'static str,
    matching: &str,
    packet: &str,
    priority: usize,
    action: usize,
) -> (&'static str, String) {
    let items = match word {
        "pkt" | "pout" => packet.to_string(),
        "deln" => matching.to_string(),
        "dels" => format!("prio={priority} {matching}"),
        _ => format!("prio={priority} {matching} act=p{action}"),
    };
    (word, items)
}

/// Every two values of a field with every two words, at one priority and at two, with one action and with two.
#[test]
fn each_field_alone_decides() {
    for field in FIELDS {
        for others_open in [true, false] {
            let mut listed = 0;
            for (second_priority, second_action) in [(1, 1), (1, 2), (2, 1), (2, 2)] {
                let mut events = Vec::new();
                for (priority, action) in [(1, 1), (second_priority, second_action)] {
                    for value in values(field) {
                        let [matching, packet] =
                            [false, true].map(|it| items(field, &value, others_open, it));
                        events.extend(WORDS.map(|word| event(word, &matching, &packet, priority, action)));
                    }
                }
                let (counts, _) = list(&trace(&events), DELAY, 65_280).expect("a valid trace");
                assert_eq!(counts.pairs, events.len() * (events.len() - 1) / 2);
                listed += counts.listed;
            }
            assert!(listed > 0, "{field}");
        }
    }
}

/// Adds with different actions race exactly where they have the same match, in every field and with every length.
#[test]
fn adds_race_where_all_fields_are_the_same() {
    for others_open in [true, false] {
        let of = |field| values(field).into_iter().map(move |value| items(field, &value, others_open, false));
        let matches: Vec<String> = FIELDS.into_iter().flat_map(of).collect();
        let add = |(action, matching): (usize, &String)| event("add", matching, "", 1, action);
        let events: Vec<_> = matches.iter().enumerate().map(add).collect();
        assert_listed(&events, |low, high| matches[low] == matches[high]);
    }
}
