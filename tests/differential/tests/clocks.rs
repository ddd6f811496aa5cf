//! Clocks known to a range, and the delay: the keys `from` and `to`, what the time rule orders, refusals 54 and 55. Library
//! and reference agree, and both do what is said here.

use cases::clocks::{any_clocks, any_delay, any_unsorted_clocks};
use cases::orders::any_allowed;
use cases::print::{tables_text, trace_text};
use cases::tables::any_tables;
use cases::traces::{self, any_length, any_untimed};
use cases::{Random, World};
use differential::{assert_share, list, page, replay, share, try_orders, Answer, DELAY};
use gellunka::{ANSWERS_ROOM, LIST_ROOM, TABLES_ROOM};
use reference::happens_before;
use reference::races::racing_pairs;
use reference::replay::recorded_order;
use std::collections::BTreeSet;

const ANY: &str = "port=* vlan=* src=00000000/0 dst=00000000/0 proto=* sport=* dport=*";
const PACKET: &str = "port=1 vlan=1 src=00000000 dst=00000000 proto=1 sport=1 dport=1";
const WORDS: [&str; 11] = ["pkt", "pout", "add", "addc", "mods", "modn", "dels", "deln", "bar", "msg", "oth"];
const ROOMS: [usize; 2] = [TABLES_ROOM, ANSWERS_ROOM];
const MAX: u32 = u32::MAX;
const DELAYS: [u32; 4] = [0, 1, DELAY, MAX];

/// What follows the clock in a line of a word, with the space before it.
fn items(word: &str, switch: u8) -> String {
    match word {
        "oth" => String::new(),
        "bar" | "msg" => format!(" sw={switch}"),
        "pkt" | "pout" => format!(" sw={switch} {PACKET}"),
        "dels" => format!(" sw={switch} prio=1 {ANY}"),
        "deln" => format!(" sw={switch} {ANY}"),
        _ => format!(" sw={switch} prio=1 {ANY} act=p1"),
    }
}

/// A line without tokens, from its number, its word, its switch, its `from` and its `to`.
fn line(number: usize, word: &str, switch: u8, from: u32, to: u32) -> String {
    format!("ev={number} do={word} in=- out=- from={from} to={to}{}\n", items(word, switch))
}

/// Messages of switch 1, each at one time.
fn messages(times: &[u32]) -> String {
    times.iter().enumerate().map(|(number, &time)| line(number, "msg", 1, time, time)).collect()
}

/// Number and place of the refusal of a trace at a delay, both 0 where it is accepted. The refused line is that of the
/// place, and every call on a trace says the same, whatever else it is given.
fn refusal(trace: &str, delay: u32) -> (usize, usize) {
    let bytes = trace.as_bytes();
    let found = |answer: Answer<()>| {
        answer.map_or_else(
            |refused| {
                let line = trace.lines().nth(refused.place).expect("a line");
                assert_eq!(refused.line, line.as_bytes());
                (refused.number, refused.place)
            },
            |()| (0, 0),
        )
    };
    let listed = found(list(bytes, delay, LIST_ROOM).map(drop));
    assert_eq!(found(share(bytes, delay).map(drop)), listed);
    if listed != (0, 0) {
        assert_eq!(found(page(bytes, delay, 0).map(drop)), listed);
        assert_eq!(found(replay(bytes, b"x", &[], delay, [0, 0]).map(drop)), listed);
        assert_eq!(found(try_orders(bytes, b"x", &[9], delay, 0).map(drop)), listed);
    }
    listed
}

/// Whether the events of a trace of two may be replayed in the other order. What each call says goes with that.
fn is_free(trace: &str, delay: u32) -> bool {
    let trace = trace.as_bytes();
    let (counts, _) = list(trace, delay, LIST_ROOM).expect("a valid trace");
    assert_share(trace, delay, counts);
    assert_eq!(page(trace, delay, 305).map(|page| page.len()), Ok(61 * (4 + counts.listed)));
    let turned = replay(trace, b"", &[1, 0], delay, ROOMS).map_err(|refused| (refused.number, refused.place));
    let byte = try_orders(trace, b"", &[1, 0], delay, 1).expect("a valid trace")[0];
    let is_free = turned.is_ok();
    assert!(is_free || turned == Err((22, 0)));
    assert_eq!(byte == 2, !is_free);
    assert_eq!(counts.ordered, if is_free { 0 } else { counts.pairs });
    is_free
}

/// From 0 to the largest number, in lines of all words; what is malformed is refused by 4, a range reversed by 54.
#[test]
fn values_of_the_keys() {
    let numbers = [0, 1, 9, 10, 2_000, 65_535, 65_536, 999_999_999, 1_000_000_000, MAX - 1, MAX];
    for word in WORDS {
        for from in numbers {
            for to in numbers {
                let expected = if from > to { (54, 0) } else { (0, 0) };
                assert_eq!(refusal(&line(0, word, 15, from, to), 0), expected, "{word} {from} {to}");
            }
        }
        let with = |clock: &str| {
            let text = line(0, "oth", 0, 0, 0) + &line(1, word, 15, 7, 7).replace(" from=7 to=7", clock);
            refusal(&text, 0)
        };
        assert_eq!(with(" from=0 to=4294967295"), (0, 0));
        for bad in [
            "",
            " from=7",
            " to=7",
            " to=7 from=7",
            " from=7 to=7 to=7",
            " from=7 from=7 to=7",
            "  from=7 to=7",
            " from=7  to=7",
            " from=7\tto=7",
            " from=7to=7",
            "from=7 to=7",
            " From=7 to=7",
            " from=7 TO=7",
            " from =7 to=7",
            " from= to=7",
            " from=7 to=",
            " from=07 to=7",
            " from=7 to=07",
            " from=00 to=7",
            " from=7 to=00000000000",
            " from=-7 to=7",
            " from=7 to=+7",
            " from=7 to=4294967296",
            " from=4294967296 to=4294967296",
            " from=7 to=9999999999",
            " from=7 to=10000000000",
            " from=7 to=42949672950",
            " from=7 to=18446744073709551615",
            " from=7 to=18446744073709551616",
            " from=7 to=18446744073709551623",
            " from=7 to=340282366920938463463374607431768211463",
            " from=* to=*",
            " from=- to=-",
            " from=7 to=*",
            " from=6,7 to=7",
            " from=7 to=7,8",
            " from=7 to=7ms",
            " from=7.0 to=7",
            " from=0x7 to=7",
        ] {
            assert_eq!(with(bad), (4, 1), "{word}{bad}");
        }
    }
}

/// The keys at each other place of a line.
#[test]
fn places_of_the_keys() {
    for word in WORDS {
        let text = line(0, word, 1, 3, 4);
        let items: Vec<&str> = text.trim_end().split(' ').collect();
        for key in [4, 5] {
            for place in 0..items.len() {
                let mut moved = items.clone();
                let item = moved.remove(key);
                moved.insert(place, item);
                let expected = if place == key { 0 } else { 4 };
                assert_eq!(refusal(&(moved.join(" ") + "\n"), 0), (expected, 0), "{word} {key} {place}");
            }
        }
    }
}

/// `from` minus `to` at the delay and one above it, one below it, and at the limits of the numbers.
#[test]
fn at_the_delay_and_above_it() {
    for delay in DELAYS.into_iter().chain([2, 1_999, 2_001, MAX - 1]) {
        for to in [0, 1, 7, 1_999, 2_000, 2_001, 1 << 31, MAX - 2_001, MAX - 2_000, MAX - 1, MAX] {
            let limit = u64::from(to) + u64::from(delay);
            let around = (limit.saturating_sub(1)..=limit + 2).filter_map(|from| u32::try_from(from).ok());
            for from in around.chain([0, MAX]) {
                let trace = line(0, "add", 1, 0, to) + &line(1, "pkt", 1, from, MAX);
                let is_above = u64::from(from) > limit;
                assert_eq!(is_free(&trace, delay), !is_above, "to {to} from {from} delay {delay}");
                // The other way round it leads backward.
                let trace = line(0, "pkt", 1, from, MAX) + &line(1, "add", 1, 0, to);
                assert_eq!(refusal(&trace, delay), (if is_above { 55 } else { 0 }, 0));
            }
        }
    }
}

/// Every two words on one switch and on two, the earlier event on the first line and on the second.
#[test]
fn every_two_words() {
    for first in WORDS {
        for second in WORDS {
            for switch in [1, 2] {
                let is_for = first != "oth" && second != "oth" && (first, second) != ("pkt", "pkt");
                let by_barrier = switch == 1
                    && (first == "bar" || second == "bar")
                    && [first, second].iter().all(|word| !["pkt", "oth"].contains(word));
                for delay in DELAYS {
                    for more in [0u8, 1] {
                        let early: u32 = if delay == MAX { 0 } else { 9 };
                        let late = u64::from(early) + u64::from(delay) + u64::from(more);
                        let Ok(late) = u32::try_from(late) else { continue };
                        let trace = line(0, first, 1, 0, early) + &line(1, second, switch, late, late);
                        let is_ordered = by_barrier || is_for && more == 1;
                        assert_eq!(is_free(&trace, delay), !is_ordered, "{trace}{delay}");
                        let trace = line(0, first, 1, late, late) + &line(1, second, switch, 0, early);
                        let is_backward = is_for && more == 1;
                        assert_eq!(refusal(&trace, delay), (if is_backward { 55 } else { 0 }, 0));
                        if !is_backward {
                            assert_eq!(is_free(&trace, delay), !by_barrier, "{trace}{delay}");
                        }
                    }
                }
            }
        }
    }
}

/// Chains that times are a part of: over a message of another switch, behind a barrier step, before a token step.
#[test]
fn chains() {
    let ordered = |trace: &str, delay: u32| {
        let (counts, _) = list(trace.as_bytes(), delay, LIST_ROOM).expect("a valid trace");
        counts.ordered
    };
    let over_message =
        [line(0, "pkt", 1, 0, 0), line(1, "msg", 2, 11, 20), line(2, "pkt", 1, 31, MAX)].concat();
    assert_eq!([0, 10, 11].map(|delay| ordered(&over_message, delay)), [1, 1, 0]);
    let behind_barrier =
        [line(0, "add", 1, 0, MAX), line(1, "bar", 1, 0, 7), line(2, "pkt", 1, 18, MAX)].concat();
    assert_eq!([0, 10, 11].map(|delay| ordered(&behind_barrier, delay)), [1, 1, 0]);
    let before_token =
        [line(0, "add", 1, 0, 7), line(1, "msg", 2, 18, MAX), line(2, "pkt", 1, 0, MAX)].concat();
    let before_token = before_token.replacen("do=msg in=- out=-", "do=msg in=- out=9", 1);
    let before_token = before_token.replacen("do=pkt in=-", "do=pkt in=9", 1);
    assert_eq!([0, 10, 11].map(|delay| ordered(&before_token, delay)), [1, 1, 0]);
    // Not over what the controller did.
    let over_other = over_message.replacen("do=msg", "do=oth", 1).replacen(" sw=2\n", "\n", 1);
    assert_eq!([0, 10, 11].map(|delay| ordered(&over_other, delay)), [0, 0, 0]);
}

/// 256 events in a chain of times: all pairs are ordered, and at one millisecond more all but the neighbours.
#[test]
fn chains_of_256_events() {
    for delay in [0, 1, DELAY, 16_000_000] {
        for word in ["add", "pout", "deln"] {
            let at =
                |(number, step): (usize, u32)| line(number, word, 1, step * (delay + 1), step * (delay + 1));
            let trace: String = (0..256).zip(0..).map(at).collect();
            let (counts, _) = list(trace.as_bytes(), delay, LIST_ROOM).expect("a valid trace");
            assert_eq!((counts.pairs, counts.ordered), (32_640, 32_640));
            let (counts, _) = list(trace.as_bytes(), delay + 1, LIST_ROOM).expect("a valid trace");
            assert_eq!(counts.ordered, 32_640 - 255);
            assert_share(trace.as_bytes(), delay + 1, counts);
        }
    }
}

/// Every earlier and every later line of a small trace: that pair alone leads backward.
#[test]
fn time_backward_in_all_positions() {
    for lines in 2..=7 {
        for earlier in 0..lines {
            for later in earlier + 1..lines {
                let mut times = vec![5_000; lines];
                (times[earlier], times[later]) = (6_001, 4_000);
                let trace = messages(&times);
                assert_eq!(refusal(&trace, DELAY), (55, earlier));
                assert_eq!(refusal(&trace, 0), (55, backward_from(&times, 0)));
                assert_eq!(refusal(&trace, DELAY + 1), (0, 0));
                assert_eq!(refusal(&trace, MAX), (0, 0));
            }
        }
    }
}

/// The lowest line that some later one is before by more than the delay.
fn backward_from(times: &[u32], delay: u32) -> usize {
    let is_behind =
        |line: &usize| times[line + 1..].iter().any(|&later| times[*line] > later.saturating_add(delay));
    (0..times.len()).find(is_behind).expect("one leads backward")
}

#[test]
fn time_backward_in_256_lines() {
    let mut random = Random::from_seed(801);
    let check = |earlier: usize, later: usize| {
        let mut times = vec![5_000; 256];
        (times[earlier], times[later]) = (6_001, 4_000);
        let trace = messages(&times);
        assert_eq!(refusal(&trace, DELAY), (55, earlier));
        assert_eq!(list(trace.as_bytes(), DELAY + 1, 0).map(|(counts, _)| counts.pairs), Ok(0));
    };
    for line in 0..255 {
        check(line, line + 1);
        check(line, 255);
        check(0, line + 1);
        let earlier = random.below(255);
        check(earlier, earlier + 1 + random.below(255 - earlier));
    }
    // All fall, by one millisecond too much between the first and the last, and by none.
    let falling: Vec<u32> = (0..256).map(|line| 10_000 - 8 * line).collect();
    assert_eq!(refusal(&messages(&falling), 2_039), (55, 0));
    assert_eq!(refusal(&messages(&falling), 2_040), (0, 0));
    assert_eq!(refusal(&messages(&falling), 7), (55, 0));
    assert_eq!(refusal(&messages(&falling[..2]), 8), (0, 0));
}

/// Several that lead backward: the lowest earlier line is told, whichever later one is before it.
#[test]
fn the_lowest_of_several() {
    let mut random = Random::from_seed(802);
    let mut met = BTreeSet::new();
    for _ in 0..2_000 {
        let lines = 2 + random.below(7);
        let times: Vec<u32> =
            (0..lines).map(|_| random.pick(&[0, 1_000, 2_000, 2_001, 3_000, 4_001])).collect();
        let backward = times
            .iter()
            .enumerate()
            .any(|(line, &time)| times[line + 1..].iter().any(|&later| time > later + DELAY));
        let expected = if backward { (55, backward_from(&times, DELAY)) } else { (0, 0) };
        assert_eq!(refusal(&messages(&times), DELAY), expected, "{times:?}");
        met.insert(expected);
    }
    assert!(met.len() > 6, "{met:?}");
}

/// 54 on every line of some, and on the lower of two.
#[test]
fn a_range_reversed_on_every_line() {
    for lines in [1, 2, 5, 256] {
        let good = messages(&vec![5_000; lines]);
        for place in 0..lines {
            let mut text: Vec<&str> = good.lines().collect();
            let reversed = text[place].replace("from=5000", "from=5001");
            text[place] = &reversed;
            assert_eq!(refusal(&(text.join("\n") + "\n"), DELAY), (54, place));
            let last = text[lines - 1].replace("to=5000", "to=4999");
            text[lines - 1] = &last;
            assert_eq!(refusal(&(text.join("\n") + "\n"), DELAY), (54, place));
        }
    }
}

/// On one line 4, 5 and 6 come before 54; of two lines the lower one; 54 of any line before 7, 8 and 55.
#[test]
fn a_range_reversed_against_others() {
    let good = [line(0, "add", 1, 5, 5), line(1, "add", 1, 5, 5), line(2, "add", 1, 5, 5)];
    let changed = |changes: &[(usize, &str, &str)]| {
        let mut lines = good.clone();
        for &(at, old, new) in changes {
            assert!(lines[at].contains(old));
            lines[at] = lines[at].replacen(old, new, 1);
        }
        refusal(&lines.concat(), 0)
    };
    let reversed = |at| (at, "from=5", "from=6");
    let faults = [
        ("act=p1", "act=p01", 4),
        ("do=add in=-", "do=add in=", 4),
        ("dst=00000000/0", "dst=00000001/31", 6),
    ];
    for place in 0..3 {
        assert_eq!(changed(&[reversed(place)]), (54, place));
        let (number, other) = (format!("ev={place}"), format!("ev={}", place + 1));
        assert_eq!(changed(&[reversed(place), (place, &number, &other)]), (5, place));
        for (old, new, refused) in faults {
            assert_eq!(changed(&[reversed(place), (place, old, new)]), (refused, place));
            for at in 0..3 {
                let expected = if at <= place { (refused, at) } else { (54, place) };
                assert_eq!(changed(&[reversed(place), (at, old, new)]), expected);
            }
        }
        let twice = [(0, "out=-", "out=7"), (1, "out=-", "out=7")];
        assert_eq!(changed(&twice), (7, 1));
        assert_eq!(changed(&[&twice[..], &[reversed(place)]].concat()), (54, place));
        let early = [(0, "in=-", "in=7"), (2, "out=-", "out=7")];
        assert_eq!(changed(&early), (8, 0));
        assert_eq!(changed(&[&early[..], &[reversed(place)]].concat()), (54, place));
        let backward = (0, "from=5 to=5", "from=9 to=9");
        assert_eq!(changed(&[backward]), (55, 0));
        if place > 0 {
            assert_eq!(changed(&[backward, reversed(place)]), (54, place));
        }
    }
}

/// 7 and 8 over the trace come before 55, wherever each stands; and 55 before all that is behind the trace.
#[test]
fn time_backward_against_others() {
    for backward in 0..3 {
        for later in backward + 1..4 {
            let mut times = [5_000; 4];
            (times[backward], times[later]) = (6_001, 4_000);
            let good = messages(&times);
            let with = |changes: &[(usize, &str, &str)]| {
                let mut lines: Vec<String> = good.lines().map(|line| format!("{line}\n")).collect();
                for &(at, old, new) in changes {
                    lines[at] = lines[at].replacen(old, new, 1);
                }
                refusal(&lines.concat(), DELAY)
            };
            assert_eq!(with(&[]), (55, backward));
            for low in 0..4 {
                for high in low + 1..4 {
                    let twice = [(low, "out=-", "out=7"), (high, "out=-", "out=7")];
                    assert_eq!(with(&twice), (7, high));
                    assert_eq!(with(&[(low, "in=-", "in=7"), (high, "out=-", "out=7")]), (8, low));
                    // A token that is passed on as it should be helps nothing.
                    assert_eq!(with(&[(low, "out=-", "out=7"), (high, "in=-", "in=7")]), (55, backward));
                }
                assert_eq!(with(&[(low, "in=- out=-", "in=7 out=7")]), (8, low));
                assert_eq!(with(&[(low, " sw=1", " sw=16")]), (4, low));
            }
        }
    }
}

/// Drawn traces at all delays: at a larger one every listed pair is still listed, and what was accepted still is.
#[test]
fn larger_delays() {
    let mut random = Random::from_seed(803);
    let [mut more, mut freed] = [0; 2];
    for turn in 0..400 {
        let world = World { wide: false, switches: random.pick(&[1, 2]) };
        let length = if turn % 8 == 0 { any_length(&mut random) } else { random.below(16) };
        let mut events = any_untimed(&mut random, world, length);
        if random.one_in(2) {
            any_unsorted_clocks(&mut random, &mut events);
        } else {
            any_clocks(&mut random, &mut events);
        }
        let trace = trace_text(&events);
        let mut smaller: Option<BTreeSet<Vec<u8>>> = None;
        for delay in [0, 1, 10, 999, 1_000, 1_999, 2_000, 2_001, 4_001, 10_000, MAX] {
            let answer = list(&trace, delay, LIST_ROOM);
            if let Ok((counts, _)) = &answer {
                assert_share(&trace, delay, *counts);
            }
            let now = answer.ok().map(|(counts, pairs)| {
                pairs.chunks(2).take(counts.listed).map(<[u8]>::to_vec).collect::<BTreeSet<_>>()
            });
            if let Some(few) = &smaller {
                let all = now.as_ref().expect("accepted at a smaller delay");
                assert!(few.is_subset(all), "delay {delay}");
                more += usize::from(few.len() < all.len());
            } else {
                freed += usize::from(now.is_some() && delay > 0);
            }
            smaller = now;
        }
        assert!(smaller.is_some(), "at the largest delay none leads backward");
    }
    assert!(more > 50 && freed > 50, "{more} lists are longer, {freed} traces are accepted later");
}

/// Where all clocks are the same, whichever they are, the delay counts for nothing.
#[test]
fn equal_clocks() {
    let mut random = Random::from_seed(804);
    for _ in 0..100 {
        let world = World::any(&mut random);
        let length = any_length(&mut random);
        let mut events = any_untimed(&mut random, world, length);
        let without = list(&trace_text(&events), DELAY, LIST_ROOM).expect("a valid trace");
        for (from, to) in [(0, 0), (0, MAX), (7, 7), (MAX, MAX)] {
            events.iter_mut().for_each(|event| (event.clock.from, event.clock.to) = (from, to));
            for delay in DELAYS {
                assert_eq!(list(&trace_text(&events), delay, LIST_ROOM).as_ref(), Ok(&without));
            }
        }
    }
}

/// Demand 3 with clocks: random orders that keep happens-before and have the listed pairs in recorded order, both at the
/// delay, write equal bytes; those that break happens-before are refused.
#[test]
fn allowed_orders_agree() {
    let mut random = Random::from_seed(805);
    let [mut moved, mut refused] = [0; 2];
    for _ in 0..400 {
        let world = World { wide: false, switches: random.pick(&[1, 2, 3]) };
        let (length, lines) = (any_length(&mut random), any_length(&mut random));
        let mut events = any_untimed(&mut random, world, length);
        any_clocks(&mut random, &mut events);
        let (trace, delay) = (trace_text(&events), any_delay(&mut random));
        let mut entries = any_tables(&mut random, world, lines);
        let tables = tables_text(&entries);
        random.shuffle(&mut entries);
        let typed_anew = tables_text(&entries);
        let before = happens_before(&events, delay);
        let (_, listed) = racing_pairs(&events, &before);
        let recorded = recorded_order(length);
        let written = replay(&trace, &tables, &recorded, delay, ROOMS).expect("all valid");
        for _ in 0..3 {
            let order = any_allowed(&mut random, &before, &listed);
            moved += usize::from(order != recorded);
            assert_eq!(replay(&trace, &typed_anew, &order, delay, ROOMS).as_ref(), Ok(&written));
        }
        // At no delay at all fewer orders are allowed.
        let order = any_allowed(&mut random, &before, &[]);
        refused += usize::from(replay(&trace, &tables, &order, 0, ROOMS).is_err());
    }
    assert!(
        moved > 400 && refused > 20,
        "{moved} orders differ from the recorded one, {refused} are refused at 0"
    );
}

#[test]
fn worst_cases() {
    for trace in [traces::clock_chain(DELAY), traces::falling_clocks(DELAY)] {
        for delay in DELAYS.into_iter().chain([1_999, 2_999, 3_000]) {
            let _ = list(&trace, delay, LIST_ROOM);
            let _ = share(&trace, delay);
            let _ = page(&trace, delay, 244);
            let _ = replay(&trace, b"", &recorded_order(256), delay, ROOMS);
        }
    }
}
