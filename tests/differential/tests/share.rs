//! The share of pairs that commute: library and reference agree, and both give what the numbers of pairs say.

use cases::traces;
use differential::{assert_share, list, share, trace, DELAY};
use reference::table::Origin;
use reference::{Counts, Share};

const ANY: &str = "port=* vlan=* src=00000000/0 dst=00000000/0 proto=* sport=* dport=*";
const PACKET: &str = "port=1 vlan=1 src=00000000 dst=00000000 proto=1 sport=1 dport=1";

/// All pairs of 256 events of one switch.
const ALL: usize = 256 * 255 / 2;

/// A trace has these pairs, ordered, commuting and listed, and the share quotient, remainder and divisor.
fn check(trace: &[u8], counts: [usize; 4], share_of_counts: [usize; 3]) {
    let [pairs, ordered, commuting, listed] = counts;
    let counts = Counts { pairs, ordered, commuting, listed };
    assert_eq!(list(trace, DELAY, 65_280).map(|(counts, _)| counts), Ok(counts));
    let [quotient, remainder, divisor] = share_of_counts;
    assert_eq!(share(trace, DELAY), Ok(Share { quotient, remainder, divisor }), "{counts:?}");
    assert_share(trace, DELAY, counts);
}

/// The share of so many pairs that commute and that are listed.
fn divided(commuting: usize, listed: usize) -> [usize; 3] {
    match (1000 * commuting, commuting + listed) {
        (_, 0) => [0; 3],
        (dividend, divisor) => [dividend / divisor, dividend % divisor, divisor],
    }
}

/// A line of a trace, from its number, its word and what stands behind `out`.
fn line(number: usize, word: &str, rest: &str) -> String {
    let space = if rest.is_empty() { "" } else { " " };
    format!("ev={number} do={word} in=- out=- from=0 to=0{space}{rest}\n")
}

/// A trace of lines, each a word and what stands behind `out`.
fn lines(lines: &[(&str, String)]) -> Vec<u8> {
    let lines = lines.iter().enumerate().map(|(number, (word, rest))| line(number, word, rest));
    lines.collect::<String>().into_bytes()
}

/// The trace of an add for each of 256 events on one switch, by its key, which is its priority, and its port.
fn adds(of: impl Fn(usize) -> (usize, usize)) -> Vec<u8> {
    let add = |event| {
        let (priority, port) = of(event);
        ("add", format!("prio={priority} {ANY} act=p{port}"))
    };
    trace(&(0..256).map(add).collect::<Vec<_>>())
}

#[test]
fn no_pair() {
    check(b"", [0; 4], [0; 3]);
    check(&traces::only_barriers(), [0; 4], [0; 3]);
    let entry = |switch: u8| format!("sw={switch} prio=1 {ANY} act=drop");
    let single = [
        ("oth", String::new()),
        ("bar", "sw=1".to_owned()),
        ("msg", "sw=1".to_owned()),
        ("pkt", format!("sw=1 {PACKET}")),
        ("pout", format!("sw=1 {PACKET}")),
        ("add", entry(1)),
        ("addc", entry(1)),
        ("mods", entry(1)),
        ("modn", entry(1)),
        ("dels", format!("sw=1 prio=1 {ANY}")),
        ("deln", format!("sw=1 {ANY}")),
    ];
    for event in single.chunks(1) {
        check(&lines(event), [0; 4], [0; 3]);
        // Between events that use no table.
        check(&lines(&[&single[..3], event, &single[..3]].concat()), [0; 4], [0; 3]);
    }
    // One table event on each switch.
    let apart: Vec<_> = (0..16).map(|switch| ("add", entry(switch))).collect();
    check(&lines(&apart), [0; 4], [0; 3]);
}

#[test]
fn all_ordered() {
    check(&traces::token_chain(), [ALL, ALL, 0, 0], [0; 3]);
    let half = 128 * 127 / 2;
    check(&traces::barriers(), [half, half, 0, 0], [0; 3]);
    check(&traces::barriers_and_packets(), [half, half, 0, 0], [0; 3]);
    let add = |port: u8| ("add", format!("sw=1 prio=1 {ANY} act=p{port}"));
    for port in [1, 2] {
        check(&lines(&[add(1), ("bar", "sw=1".to_owned()), add(port)]), [1, 1, 0, 0], [0; 3]);
    }
}

#[test]
fn all_or_none_of_32_640_pairs() {
    let [received, sent_out] = [Origin::Received, Origin::SentOut].map(traces::packets_to_the_last);
    for trace in [traces::long_adds(), traces::long_checked_adds(), received, sent_out] {
        check(&trace, [ALL, 0, ALL, 0], [1000, 0, ALL]);
    }
    for trace in [traces::all_racing(), traces::all_racing_modifies()] {
        check(&trace, [ALL, 0, 0, ALL], [0, 0, ALL]);
    }
}

/// 256 adds, some of one key: the more, the fewer of the pairs commute.
#[test]
fn some_of_32_640_pairs() {
    let mut uneven = 0;
    for of_one_key in 0..=256usize {
        let listed = of_one_key * of_one_key.saturating_sub(1) / 2;
        let commuting = ALL - listed;
        let expected = divided(commuting, listed);
        let key = |event| if event < of_one_key { 0 } else { event };
        check(&adds(|event| (key(event), event)), [ALL, 0, commuting, listed], expected);
        uneven += usize::from(expected[1] > 0);
    }
    assert!(uneven > 200, "{uneven} have a remainder");
    // One pair commutes; one doesn't.
    check(&adds(|event| (1, event.max(1))), [ALL, 0, 1, ALL - 1], [0, 1_000, ALL]);
    check(&adds(|event| (event.max(1), event)), [ALL, 0, ALL - 1, 1], [999, 31_640, ALL]);
}

/// One pair on each switch, in every mixture of pairs that are ordered, commute and are listed.
#[test]
fn every_mixture_of_sixteen_pairs() {
    for ordered in 0..=16 {
        for commuting in 0..=16 - ordered {
            for listed in 0..=16 - ordered - commuting {
                let pairs = ordered + commuting + listed;
                let mut events = Vec::new();
                for switch in 0..pairs {
                    let add = |port| ("add", format!("sw={switch} prio=1 {ANY} act=p{port}"));
                    let barrier = (switch < ordered).then(|| ("bar", format!("sw={switch}")));
                    let other_port = if switch < ordered + commuting { 1 } else { 2 };
                    events.extend([Some(add(1)), barrier, Some(add(other_port))].into_iter().flatten());
                }
                let expected = divided(commuting, listed);
                check(&lines(&events), [pairs, ordered, commuting, listed], expected);
            }
        }
    }
}

/// Each refusal of a trace, its place and its line are those of the list call.
#[test]
fn refused_as_the_list_is() {
    let refused = |trace: &[u8], number: usize, place: usize| {
        let refusal = share(trace, DELAY).unwrap_err();
        assert_eq!((refusal.number, refusal.place), (number, place));
        let line = trace.split(|&byte| byte == b'\n').nth(place).filter(|_| number >= 4);
        assert_eq!(refusal.line, line.unwrap_or_default());
        for room in [0, 65_280] {
            assert_eq!(list(trace, DELAY, room).as_ref(), Err(&refusal));
        }
    };
    let others = |events: usize| (0..events).map(|event| line(event, "oth", "")).collect::<String>();
    let after = |text: &str| format!("{}{text}", others(3)).into_bytes();
    let past_prefix = format!("sw=1 prio=1 {} act=p1", ANY.replace("dst=00000000/0", "dst=0a000001/31"));
    refused(&[b'\n'; 65_536], 1, 0);
    refused(others(3).trim_end().as_bytes(), 2, 0);
    refused(others(257).as_bytes(), 3, 0);
    refused(&after("ev=3 do=oth in=- out=\n"), 4, 3);
    refused(&after(&line(4, "oth", "")), 5, 3);
    refused(&after(&line(3, "add", &past_prefix)), 6, 3);
    refused(&after("ev=3 do=oth in=- out=7 from=0 to=0\nev=4 do=oth in=- out=7 from=0 to=0\n"), 7, 4);
    refused(&after("ev=3 do=oth in=7 out=- from=0 to=0\nev=4 do=oth in=- out=7 from=0 to=0\n"), 8, 3);
    refused(&after("ev=3 do=oth in=- out=- from=1 to=0\n"), 54, 3);
    let clock = |number, from| format!("ev={number} do=msg in=- out=- from={from} to={from} sw=1\n");
    refused(&after(&[clock(3, 2_001), clock(4, 0)].concat()), 55, 3);
    // The first that applies: of the whole text, of the lines one by one, of the tokens.
    refused(&[b'x'; 65_536], 1, 0);
    refused(&[b'\n'; 257], 3, 0);
    refused(&after(&line(9, "add", &past_prefix)), 5, 3);
    refused(&after("ev=3 do=oth in=7 out=7 from=0 to=0\nev=4 do=oth in=- out=7 from=0 to=0\nx\n"), 4, 5);
    refused(&after("ev=3 do=oth in=7 out=7 from=0 to=0\nev=4 do=oth in=- out=7 from=0 to=0\n"), 7, 4);
    // And nothing else: of a list that wants a longer buffer the share is given.
    let short = list(&traces::all_racing(), DELAY, 0).unwrap_err();
    assert_eq!((short.number, short.place), (31, 2 * ALL));
    check(&traces::all_racing(), [ALL, 0, 0, ALL], [0, 0, ALL]);
}
