//! Clocks known to a range: the keys `from` and `to`, the time rule, and refusals 54 and 55.

use reference::causality::{directly_precedes, precedes_in_time};
use reference::trace::{Clock, Event};
use reference::{happens_before, list, page, read_trace, replay, share, try_orders};
use std::collections::BTreeSet;

const ANY: &str = "port=* vlan=* src=00000000/0 dst=00000000/0 proto=* sport=* dport=*";
const PACKET: &str = "port=1 vlan=1 src=00000000 dst=00000000 proto=1 sport=1 dport=1";
const MAX: u32 = u32::MAX;

/// Each word, with what follows the clock on switch N.
fn kinds() -> [(&'static str, String); 11] {
    let entry = |action: &str| format!(" sw=N prio=1 {ANY} act={action}");
    [
        ("pkt", format!(" sw=N {PACKET}")),
        ("pout", format!(" sw=N {PACKET}")),
        ("add", entry("p1")),
        ("addc", entry("p2")),
        ("mods", entry("p3")),
        ("modn", entry("drop")),
        ("dels", format!(" sw=N prio=1 {ANY}")),
        ("deln", format!(" sw=N {ANY}")),
        ("bar", " sw=N".to_owned()),
        ("msg", " sw=N".to_owned()),
        ("oth", String::new()),
    ]
}

/// A line: its word, its switch, its `from` and its `to`.
type Line = (&'static str, u8, u32, u32);

/// The trace of some lines without tokens.
fn trace(lines: &[Line]) -> String {
    let line = |(index, &(word, switch, from, to)): (usize, &Line)| {
        let (_, items) = kinds().into_iter().find(|kind| kind.0 == word).unwrap();
        let items = items.replace("sw=N", &format!("sw={switch}"));
        format!("ev={index} do={word} in=- out=- from={from} to={to}{items}\n")
    };
    lines.iter().enumerate().map(line).collect()
}

/// Number, place and line of the refusal; number 0 where it is accepted.
fn refusal(text: &str, delay: u32) -> (u8, usize, String) {
    match read_trace(text.as_bytes(), delay) {
        Ok(_) => (0, 0, String::new()),
        Err(r) => {
            assert!(r.has_line());
            (r.number, r.place, String::from_utf8(r.line.to_vec()).unwrap())
        }
    }
}

fn event(word: &'static str, switch: u8, clock: Clock) -> Event {
    let text = trace(&[(word, switch, clock.from, clock.to)]);
    read_trace(text.as_bytes(), 0).unwrap().remove(0)
}

/// All ranges of times up to a largest one.
fn ranges(largest: u32) -> Vec<Clock> {
    (0..=largest).flat_map(|to| (0..=to).map(move |from| Clock { from, to })).collect()
}

/// The rule holds exactly where every choice of times puts b later than a by more than the delay.
#[test]
fn the_rule_is_every_choice_of_times() {
    for a in ranges(6) {
        for b in ranges(6) {
            for delay in 0..=8 {
                let always = (a.from..=a.to).all(|x| (b.from..=b.to).all(|y| y > x + delay));
                let (first, second) = (event("add", 1, a), event("pkt", 2, b));
                assert_eq!(precedes_in_time(&first, &second, delay), always, "{a:?} {b:?} {delay}");
            }
        }
    }
}

/// It is for what switches handle, and not between two packets received; the switches count for nothing.
#[test]
fn which_words_it_is_for() {
    let [early, late] = [Clock { from: 0, to: 10 }, Clock { from: 20, to: 30 }];
    for (first, _) in kinds() {
        for (second, _) in kinds() {
            for switch in [1, 2] {
                let (a, b) = (event(first, 1, early), event(second, switch, late));
                let is_for = first != "oth" && second != "oth" && (first, second) != ("pkt", "pkt");
                for (delay, above) in [(0, true), (9, true), (10, false), (MAX, false)] {
                    assert_eq!(precedes_in_time(&a, &b, delay), is_for && above, "{first} {second}");
                    assert!(!precedes_in_time(&b, &a, delay));
                }
            }
        }
    }
}

/// Strictly above the delay, at all limits of the numbers.
#[test]
fn the_limits_of_the_rule() {
    let holds = |to: u32, from: u32, delay: u32| {
        let first = event("bar", 1, Clock { from: 0, to });
        precedes_in_time(&first, &event("msg", 1, Clock { from, to: MAX }), delay)
    };
    for (to, from, most) in
        [(0, 1, 0), (0, 2_001, 2_000), (7, 2_008, 2_000), (0, MAX, MAX - 1), (MAX - 1, MAX, 0)]
    {
        assert!(holds(to, from, most) && !holds(to, from, most + 1), "{to} {from}");
    }
    for (to, from) in [(0, 0), (MAX, MAX), (MAX, 0), (1, 0), (MAX, MAX - 1)] {
        assert!(!holds(to, from, 0), "{to} {from}");
    }
    assert!(!holds(0, MAX, MAX));
}

/// The events before each one at a delay.
fn all_before(text: &str, delay: u32) -> Vec<Vec<usize>> {
    let before = happens_before(&read_trace(text.as_bytes(), delay).unwrap(), delay);
    let events = before.len();
    before.iter().map(|set| (0..events).filter(|&event| set.contains(event)).collect()).collect()
}

#[test]
fn chains_through_times() {
    // From packet to packet over a message between them, on three switches.
    let text = trace(&[("pkt", 1, 0, 5), ("msg", 2, 10, 12), ("pkt", 3, 20, 25), ("pkt", 1, 14, 26)]);
    assert_eq!(all_before(&text, 4), [vec![], vec![0], vec![0, 1], vec![]]);
    assert_eq!(all_before(&text, 1), [vec![], vec![0], vec![0, 1], vec![0, 1]]);
    assert_eq!(all_before(&text, 5), [vec![], vec![], vec![1], vec![]]);
    assert_eq!(all_before(&text, 8), [const { Vec::<usize>::new() }; 4]);
    // Over a barrier step and a time step, and over a token step from the controller.
    let text = trace(&[("add", 1, 0, 90), ("bar", 1, 0, 3), ("pkt", 1, 4, 4)]);
    assert_eq!(all_before(&text, 0), [vec![], vec![0], vec![0, 1]]);
    assert_eq!(all_before(&text, 1), [vec![], vec![0], vec![]]);
    let text = trace(&[("oth", 0, 50, 60), ("add", 1, 1, 3), ("pkt", 1, 4, 4)]);
    let text = text.replacen("out=-", "out=7", 1).replacen("do=add in=-", "do=add in=7", 1);
    assert_eq!(all_before(&text, 0), [vec![], vec![0], vec![0, 1]]);
}

/// Happens-before also where a step leads back to an earlier line, as no accepted trace has it: every chain of steps.
#[test]
fn chains_in_any_order_of_lines() {
    for lines in [
        [("add", 1, 9, 9), ("bar", 1, 0, 0), ("add", 1, 5, 5), ("msg", 2, 2, 2)],
        [("pkt", 1, 6, 7), ("msg", 2, 0, 1), ("pkt", 1, 3, 4), ("pkt", 2, 0, 0)],
        [("bar", 1, 3, 3), ("bar", 1, 2, 2), ("bar", 2, 1, 1), ("oth", 1, 0, 0)],
    ] {
        // At the largest delay the trace is accepted, so its events can be read.
        let events = read_trace(trace(&lines).as_bytes(), MAX).unwrap().to_vec();
        for delay in 0..6 {
            let before = happens_before(&events, delay);
            let mut chains = [[false; 4]; 4];
            for (a, row) in chains.iter_mut().enumerate() {
                for (b, step) in row.iter_mut().enumerate() {
                    *step = directly_precedes(&events, a, b, delay);
                }
            }
            for middle in 0..4 {
                for a in 0..4 {
                    for b in 0..4 {
                        chains[a][b] |= chains[a][middle] && chains[middle][b];
                    }
                }
            }
            for (a, row) in chains.iter().enumerate() {
                for (b, &chain) in row.iter().enumerate() {
                    assert_eq!(before[b].contains(a), chain, "{lines:?} {delay} {a} {b}");
                }
            }
        }
    }
}

/// Three events with all ranges of small times: a larger delay orders no more pairs, and one that orders none lists the
/// pairs that are listed without clocks.
#[test]
fn larger_delays_order_no_more() {
    let listed = |text: &str, delay: u32| -> Option<BTreeSet<[u8; 2]>> {
        let mut out = [0; 6];
        let counts = list(text.as_bytes(), delay, &mut out).ok()?;
        Some(out[..2 * counts.listed].as_chunks().0.iter().copied().collect())
    };
    let without = listed(&trace(&[("add", 1, 0, 0), ("pkt", 1, 0, 0), ("deln", 1, 0, 0)]), 0).unwrap();
    assert_eq!(without.len(), 3);
    for a in ranges(4) {
        for b in ranges(4) {
            for c in ranges(4) {
                let text =
                    trace(&[("add", 1, a.from, a.to), ("pkt", 1, b.from, b.to), ("deln", 1, c.from, c.to)]);
                let mut smaller = None;
                for delay in 0..=4 {
                    let now = listed(&text, delay);
                    if let Some(pairs) = smaller {
                        assert!(now.as_ref().is_some_and(|now| now.is_superset(&pairs)), "{text}{delay}");
                    }
                    smaller = now;
                }
                assert_eq!(smaller.as_ref(), Some(&without));
            }
        }
    }
}

#[test]
fn with_no_clock_nothing_changes() {
    let lines = kinds().map(|(word, _)| (word, 1, 0, 0));
    let events = read_trace(trace(&lines).as_bytes(), 0).unwrap();
    for delay in [1, 2_000, MAX] {
        assert_eq!(happens_before(&events, delay), happens_before(&events, 0));
    }
    let equal = lines.map(|(word, switch, ..)| (word, switch, MAX, MAX));
    let later = read_trace(trace(&equal).as_bytes(), 0).unwrap();
    assert_eq!(happens_before(&later, 0), happens_before(&events, 0));
}

/// Both keys stand behind `out`, in all lines, and hold 0 to 4294967295.
#[test]
fn keys_that_are_malformed() {
    for (word, items) in kinds() {
        let items = items.replace("sw=N", "sw=1");
        let number = |clock: &str| {
            let line = format!("ev=0 do={word} in=- out=-{clock}{items}");
            let (number, place, refused) = refusal(&format!("{line}\n"), 2_000);
            assert!(number == 0 || (place, refused) == (0, line));
            number
        };
        for good in
            [" from=0 to=0", " from=0 to=4294967295", " from=4294967295 to=4294967295", " from=9 to=10"]
        {
            assert_eq!(number(good), 0, "{word}{good}");
        }
        for bad in [
            "",
            " from=0",
            " to=0",
            " to=0 from=0",
            " from=0  to=0",
            "  from=0 to=0",
            " from=0 to=0 to=0",
            " from= to=0",
            " from=0 to=",
            " from=00 to=0",
            " from=0 to=00",
            " from=01 to=1",
            " from=-1 to=0",
            " from=0 to=+1",
            " from=0 to=4294967296",
            " from=4294967296 to=4294967296",
            " from=0 to=42949672950",
            " from=0 to=18446744073709551616",
            " from=* to=*",
            " from=- to=-",
            " from=0,1 to=2",
            " From=0 to=0",
            " from=0 To=0",
            " from=0to=0",
        ] {
            assert_eq!(number(bad), 4, "{word}{bad}");
        }
        // Before `out`, and at the line's end.
        let before = format!("ev=0 do={word} in=- from=0 to=0 out=-{items}\n");
        assert_eq!(refusal(&before, 2_000).0, 4);
        if word != "oth" {
            assert_eq!(refusal(&format!("ev=0 do={word} in=- out=-{items} from=0 to=0\n"), 2_000).0, 4);
        }
        for bad in [" from=1 to=0", " from=4294967295 to=4294967294", " from=4294967295 to=0"] {
            assert_eq!(number(bad), 54, "{word}{bad}");
        }
    }
}

#[test]
fn refusal_54_in_its_order() {
    let good = trace(&[("add", 1, 0, 0), ("add", 1, 3, 3), ("add", 1, 4, 9)]);
    let at = |changes: &[(usize, &str, &str)]| {
        let mut lines: Vec<String> = good.lines().map(str::to_owned).collect();
        for &(line, old, new) in changes {
            lines[line] = lines[line].replacen(old, new, 1);
        }
        let (number, place, line) = refusal(&(lines.join("\n") + "\n"), 0);
        assert!(number == 0 || line == lines[place]);
        (number, place)
    };
    let (range, other_range) = ((1, "from=3", "from=4"), (2, "from=4", "from=10"));
    assert_eq!(at(&[]), (0, 0));
    assert_eq!(at(&[range]), (54, 1));
    assert_eq!(at(&[range, other_range]), (54, 1));
    assert_eq!(at(&[other_range]), (54, 2));
    // Of one line behind 4, 5 and 6; of a line before these on a later one.
    assert_eq!(at(&[range, (1, "sw=1", "sw=16")]), (4, 1));
    assert_eq!(at(&[range, (1, "ev=1", "ev=2")]), (5, 1));
    assert_eq!(at(&[range, (1, "dst=00000000/0", "dst=00000001/0")]), (6, 1));
    assert_eq!(at(&[range, (2, "sw=1", "sw=16")]), (54, 1));
    assert_eq!(at(&[range, (2, "ev=2", "ev=3")]), (54, 1));
    assert_eq!(at(&[range, (2, "dst=00000000/0", "dst=00000001/0")]), (54, 1));
    // Before 7 and 8 over the trace.
    assert_eq!(at(&[other_range, (0, "out=-", "out=7"), (1, "out=-", "out=7")]), (54, 2));
    assert_eq!(at(&[other_range, (0, "in=-", "in=7"), (1, "out=-", "out=7")]), (54, 2));
}

/// The lowest earlier line, whichever later one the rule puts before it, and single steps only.
#[test]
fn refusal_55() {
    let at = |lines: &[Line], delay: u32| {
        let text = trace(lines);
        let (number, place, line) = refusal(&text, delay);
        assert!(number == 0 || line == text.lines().nth(place).unwrap());
        (number, place)
    };
    let two = [("add", 1, 10, 20), ("msg", 2, 0, 7)];
    assert_eq!(at(&two, 2), (55, 0));
    assert_eq!(at(&two, 3), (0, 0));
    assert_eq!(at(&[two[1], two[0]], 0), (0, 0));
    let four = [("bar", 1, 5, 5), ("add", 1, 9, 9), ("add", 1, 10, 10), ("msg", 2, 6, 6)];
    assert_eq!(at(&four, 2), (55, 1));
    assert_eq!(at(&four, 3), (55, 2));
    assert_eq!(at(&four, 4), (0, 0));
    // Two packets received, and what the controller did, are not compared.
    assert_eq!(at(&[("pkt", 1, 10, 20), ("pkt", 1, 0, 7)], 0), (0, 0));
    assert_eq!(at(&[("pkt", 1, 10, 20), ("pout", 1, 0, 7)], 0), (55, 0));
    assert_eq!(at(&[("pout", 1, 10, 20), ("pkt", 1, 0, 7)], 0), (55, 0));
    assert_eq!(at(&[("oth", 1, 10, 20), ("add", 1, 0, 7)], 0), (0, 0));
    assert_eq!(at(&[("add", 1, 10, 20), ("oth", 1, 0, 7)], 0), (0, 0));
    // Nor is there a chain from packet to packet over what the controller did.
    assert_eq!(at(&[("pkt", 1, 8, 8), ("oth", 1, 4, 4), ("pkt", 1, 0, 0)], 0), (0, 0));
    // A step to a later line that a token and the times lead against each other is refused, too.
    let text = trace(&two).replacen("out=-", "out=7", 1).replacen("do=msg in=-", "do=msg in=7", 1);
    assert_eq!(refusal(&text, 2).0, 55);
    assert_eq!(refusal(&text, 3).0, 0);
}

#[test]
fn refusal_55_in_its_order() {
    let text = trace(&[("add", 1, 10, 20), ("msg", 2, 0, 7), ("oth", 0, 0, 0)]);
    assert_eq!(refusal(&text, 0).0, 55);
    assert_eq!(refusal(&format!("{text}x\n"), 0).0, 4);
    let early =
        text.replacen("do=msg in=-", "do=msg in=7", 1).replacen("do=oth in=- out=-", "do=oth in=- out=7", 1);
    let (number, place, _) = refusal(&early, 0);
    assert_eq!((number, place), (8, 1));
    let twice = early.replacen("out=-", "out=7", 1);
    let (number, place, _) = refusal(&twice, 0);
    assert_eq!((number, place), (7, 2));
    // Before the tables' checks and all behind them.
    let refused = replay(text.as_bytes(), b"x", &[9], 0, &mut [], &mut []).unwrap_err();
    assert_eq!((refused.number, refused.place), (55, 0));
    let refused = try_orders(text.as_bytes(), b"x", &[9], 0, &mut []).unwrap_err();
    assert_eq!((refused.number, refused.place), (55, 0));
}

/// Every call takes the delay: at 4 the clock orders the rule and the packet behind it, at 5 it doesn't.
#[test]
fn the_delay_of_each_call() {
    let text = trace(&[("add", 1, 0, 5), ("pkt", 1, 10, 10)]);
    let trace = text.as_bytes();
    let (mut list_out, mut page_out, mut tables, mut answers) = ([0; 2], [0; 305], [0; 128], [0; 32]);
    for (delay, ordered) in [(0, 1), (4, 1), (5, 0), (MAX, 0)] {
        let counts = list(trace, delay, &mut list_out).unwrap();
        assert_eq!((counts.ordered, counts.listed), (ordered, 1 - ordered));
        assert_eq!(page(trace, delay, &mut page_out), Ok(61 * (5 - ordered)));
        assert_eq!(share(trace, delay).unwrap().divisor, 1 - ordered);
        let turned = replay(trace, b"", &[1, 0], delay, &mut tables, &mut answers);
        assert_eq!(turned.err().map(|r| (r.number, r.place)), (ordered == 1).then_some((22, 0)));
        let mut results = [9; 2];
        assert_eq!(try_orders(trace, b"", &[0, 1, 1, 0], delay, &mut results), Ok(2));
        assert_eq!(results, [0, if ordered == 1 { 2 } else { 1 }]);
    }
}
