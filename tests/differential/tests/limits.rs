//! Texts at the limits, and the worst cases.

use cases::{lengths_around, tables, traces};
use differential::{assert_share, list, normalise, page, replay, share, try_orders, DELAY};
use reference::replay::recorded_order;
use reference::table::Origin;
use std::collections::BTreeSet;

fn refused<T: std::fmt::Debug>(answer: differential::Answer<T>) -> (usize, usize) {
    let refused = answer.unwrap_err();
    (refused.number, refused.place)
}

#[test]
fn bytes_and_lines() {
    for length in [65_534, 65_535, 65_536, 65_537, 100_000] {
        for fill in [b'\n', b'x', 0, b'\r', 255, b' '] {
            for last in [b'\n', b'x'] {
                let mut text = vec![fill; length];
                text[length - 1] = last;
                let _ = list(&text, DELAY, 0);
                let _ = page(&text, DELAY, 0);
                let _ = share(&text, DELAY);
                let _ = normalise(&text, 0);
                let _ = replay(&text, &text, &[], DELAY, [0, 0]);
                let _ = replay(b"", &text, &[], DELAY, [0, 0]);
                let _ = try_orders(&text, &text, &[0], DELAY, 0);
                let _ = try_orders(b"", &text, &[0], DELAY, 0);
            }
        }
    }
    let oth =
        |n: usize| (0..n).map(|i| format!("ev={i} do=oth in=- out=- from=0 to=0\n")).collect::<String>();
    assert!(list(oth(256).as_bytes(), DELAY, 0).is_ok());
    assert_eq!(refused(list(oth(257).as_bytes(), DELAY, 0)), (3, 0));
    assert_eq!(refused(page(oth(256).as_bytes(), DELAY, 243)), (51, 244));
    assert_eq!(refused(page(oth(257).as_bytes(), DELAY, 243)), (3, 0));
    assert!(share(oth(256).as_bytes(), DELAY).is_ok());
    assert_eq!(refused(share(oth(257).as_bytes(), DELAY)), (3, 0));
    assert_eq!(refused(try_orders(oth(256).as_bytes(), b"", &[0; 257], DELAY, 0)), (52, 0));
    assert_eq!(refused(try_orders(oth(257).as_bytes(), b"", &[0; 256], DELAY, 0)), (3, 0));
    // The longest accepted lines, and a line that fills the text up to its last byte.
    let mut text = oth(255).into_bytes();
    text.resize(65_534, b'0');
    text.push(b'\n');
    assert_eq!(refused(list(&text, DELAY, 0)), (4, 255));
    assert_eq!(refused(share(&text, DELAY)), (4, 255));
    let mut text = tables::reversed();
    text.truncate(text.iter().rposition(|&b| b == b' ').expect("a space"));
    text.resize(65_534, b'1');
    text.push(b'\n');
    assert_eq!(refused(normalise(&text, 65_535)), (14, 255));
}

#[test]
fn single_bytes_and_pairs_of_bytes() {
    for a in 0..=255u8 {
        for text in [&[a][..], &[a, b'\n']] {
            let _ = list(text, DELAY, 8);
            let _ = page(text, DELAY, 8);
            let _ = share(text, DELAY);
            let _ = normalise(text, 8);
            let _ = replay(text, b"", text, DELAY, [8, 8]);
            let _ = replay(b"", text, b"", DELAY, [8, 8]);
            let _ = replay(b"", b"", text, DELAY, [8, 8]);
            let _ = try_orders(text, b"", text, DELAY, 8);
            let _ = try_orders(b"", text, text, DELAY, 8);
            let _ = try_orders(b"", b"", text, DELAY, 8);
            let _ = try_orders(b"ev=0 do=oth in=- out=- from=0 to=0\n", b"", text, DELAY, 8);
        }
    }
    assert!(
        list(b"", DELAY, 0).is_ok()
            && normalise(b"", 0).is_ok()
            && replay(b"", b"", b"", DELAY, [0, 0]).is_ok()
    );
    assert_eq!(try_orders(b"", b"", b"", DELAY, 0), Ok(Vec::new()));
}

const MATCHING: &str = "port=* vlan=4095 src=0a000000/8 dst=0a010000/16 proto=6 sport=* dport=80";

/// Each word, and what may stand behind it.
fn kinds_of_line() -> [(&'static str, String); 11] {
    let packet = "sw=1 port=1 vlan=4095 src=0a000001 dst=ffffffff proto=255 sport=0 dport=65535";
    [
        ("oth", "in=65535 out=1,2,3,4 from=9 to=99".to_owned()),
        ("bar", "in=- out=7 from=10 to=4294967295 sw=15".to_owned()),
        ("msg", "in=0,10 out=- from=0 to=0 sw=0".to_owned()),
        ("pkt", format!("in=- out=- from=0 to=0 {packet}")),
        ("pout", format!("in=8,9 out=- from=0 to=0 {packet}")),
        ("add", format!("in=- out=- from=0 to=0 sw=1 prio=10 {MATCHING} act=p2")),
        ("addc", format!("in=- out=- from=0 to=0 sw=1 prio=10 {MATCHING} act=drop")),
        ("mods", format!("in=- out=- from=0 to=0 sw=1 prio=10 {MATCHING} act=ctl")),
        ("modn", format!("in=- out=- from=0 to=0 sw=1 prio=10 {MATCHING} act=p65535")),
        ("dels", format!("in=- out=- from=0 to=0 sw=1 prio=0 {MATCHING}")),
        ("deln", format!("in=- out=- from=0 to=0 sw=1 {MATCHING}")),
    ]
}

/// Each word with what stands behind each other, and words that are none.
#[test]
fn every_word_in_every_kind_of_line() {
    let words = kinds_of_line().map(|(word, _)| word);
    let mut accepted = 0;
    for (_, rest) in kinds_of_line() {
        let is_accepted = |word: &str| {
            let text = format!("ev=0 do={word} {rest}\n");
            let _ = page(text.as_bytes(), DELAY, 244);
            let _ = share(text.as_bytes(), DELAY);
            list(text.as_bytes(), DELAY, 0).is_ok()
        };
        accepted += words.iter().filter(|word| is_accepted(word)).count();
        for word in ["", "pk", "pkts", "po", "pou", "pouts", "pout ", "poutin=-", "Pout", "ad", "other"] {
            assert!(!is_accepted(word), "{word:?} {rest}");
        }
    }
    // `bar` and `msg`, `pkt` and `pout`, and the four writes of an entry stand for one another.
    assert_eq!(accepted, 1 + 2 * 2 + 2 * 2 + 4 * 4 + 1 + 1);
}

/// Every single byte of a valid line replaced, taken out, or doubled.
#[test]
fn every_byte_of_every_kind_of_line() {
    for (word, rest) in kinds_of_line() {
        let text = format!("ev=0 do={word} {rest}\n").into_bytes();
        assert!(list(&text, DELAY, 0).is_ok() && page(&text, DELAY, 244).is_ok());
        each_change(&text, |changed| {
            let _ = list(changed, DELAY, 0);
            let _ = page(changed, DELAY, 244);
            let _ = share(changed, DELAY);
        });
    }
    let text = format!("sw=1 prio=10 {MATCHING} act=p2\n").into_bytes();
    assert!(normalise(&text, 1_000).is_ok());
    each_change(&text, |changed| drop(normalise(changed, 1_000)));
}

fn each_change(text: &[u8], mut with: impl FnMut(&[u8])) {
    for at in 0..text.len() {
        for byte in *b"\0\n\r !*,-/0123456789:=afgpxAF`{\x7f\x80\xff" {
            let mut changed = text.to_vec();
            changed[at] = byte;
            with(&changed);
            changed.insert(at, text[at]);
            with(&changed);
        }
        with(&[&text[..at], &text[at + 1..]].concat());
        with(&text[..at]);
    }
}

#[test]
fn worst_cases() {
    let traces = [
        traces::all_racing(),
        traces::all_racing_modifies(),
        traces::token_chain(),
        traces::barriers(),
        traces::barriers_and_packets(),
        traces::only_barriers(),
        traces::clock_chain(DELAY),
        traces::falling_clocks(DELAY),
        traces::long_adds(),
        traces::long_checked_adds(),
        traces::packets_to_the_last(Origin::Received),
        traces::packets_to_the_last(Origin::SentOut),
    ];
    for trace in &traces {
        let (counts, _) = list(trace, DELAY, 65_280).expect("a valid trace");
        assert_share(trace, DELAY, counts);
        for room in lengths_around(2 * counts.listed) {
            let _ = list(trace, DELAY, room);
        }
        let lines = counts.listed + 4;
        for room in lengths_around(61 * lines).into_iter().chain([60 * lines]) {
            let _ = page(trace, DELAY, room);
        }
        for tables in [&b""[..], &tables::reversed(), &tables::sorted()] {
            let written =
                replay(trace, tables, &recorded_order(256), DELAY, [58_880, 7_168]).expect("all valid");
            for room in lengths_around(written.tables.len()) {
                let _ = replay(trace, tables, &recorded_order(256), DELAY, [room, 7_168]);
            }
            let mut backward = recorded_order(256);
            backward.reverse();
            let _ = replay(trace, tables, &backward, DELAY, [58_880, 7_168]);
            let _ = try_orders(trace, tables, &[recorded_order(256), backward].concat(), DELAY, 2);
        }
    }
    let normal = normalise(&tables::reversed(), 65_535).expect("valid tables");
    assert_eq!(normal, tables::sorted());
}

/// 256 of the longest lines fill the room of a normal text, 512 that of end tables.
#[test]
fn the_longest_lines() {
    use gellunka::{NORMAL_ROOM, TABLES_ROOM};
    let (trace, tables, order) = (traces::long_adds(), tables::reversed(), recorded_order(256));
    assert!(tables.split_inclusive(|&byte| byte == b'\n').all(|line| line.len() == 115));
    assert_eq!((256 * 115, 512 * 115), (NORMAL_ROOM, TABLES_ROOM));
    assert_eq!(normalise(&tables, NORMAL_ROOM).map(|normal| normal.len()), Ok(NORMAL_ROOM));
    assert_eq!(refused(normalise(&tables, NORMAL_ROOM - 1)), (32, NORMAL_ROOM));
    let written = replay(&trace, &tables, &order, DELAY, [TABLES_ROOM, 0]);
    assert_eq!(written.map(|written| written.tables.len()), Ok(TABLES_ROOM));
    assert_eq!(refused(replay(&trace, &tables, &order, DELAY, [TABLES_ROOM - 1, 0])), (32, TABLES_ROOM));
}

/// The four last lines of a page.
fn count_lines(counts: [usize; 4]) -> Vec<u8> {
    let names = ["pairs    ", "ordered  ", "commuting", "listed   "];
    let line = |(name, count): (&str, usize)| format!("{name}{count:>51}\n");
    names.into_iter().zip(counts).map(line).collect::<String>().into_bytes()
}

#[test]
fn the_shortest_and_the_longest_page() {
    for trace in [&b""[..], b"ev=0 do=bar in=- out=- from=0 to=0 sw=15\n"] {
        assert_eq!(page(trace, DELAY, 244), Ok(count_lines([0; 4])));
        assert_eq!(refused(page(trace, DELAY, 243)), (51, 244));
    }
    let (trace, room) = (traces::all_racing(), gellunka::PAGE_ROOM);
    let longest = page(&trace, DELAY, room).expect("a valid trace");
    assert_eq!(longest.len(), room);
    assert!(longest.ends_with(&count_lines([32_640, 0, 0, 32_640])));
    assert_eq!(refused(page(&trace, DELAY, room - 1)), (51, room));
}

/// Every two words whose events can race, behind some other events.
#[test]
fn every_two_words_on_a_page() {
    let any = "port=* vlan=* src=00000000/0 dst=00000000/0 proto=* sport=* dport=*";
    let words = ["pkt", "pout", "add", "addc", "mods", "modn", "dels", "deln"];
    let items = |number: usize, prio: u16| match number % 8 {
        0 | 1 => {
            "port=65535 vlan=4095 src=ffffffff dst=ffffffff proto=255 sport=65535 dport=65535".to_owned()
        }
        6 => format!("prio={prio} {any}"),
        7 => any.to_owned(),
        _ => format!("prio={prio} {any} act=p{number}"),
    };
    for (switch, prio) in [(0, 0), (9, 9), (10, 10), (11, 999), (14, 10_000), (15, 65_535)] {
        for others in [0, 9, 91, 240] {
            let event = |number: usize| {
                let (word, items) = (words[number % 8], items(number, prio));
                format!("ev={} do={word} in=- out=- from=0 to=0 sw={switch} {items}\n", others + number)
            };
            let other = |number: usize| format!("ev={number} do=oth in=- out=- from=0 to=0\n");
            let trace: String = (0..others).map(other).chain((0..16).map(event)).collect();
            let page = page(trace.as_bytes(), DELAY, 61 * 112).expect("a valid trace");
            let lines: Vec<&[u8]> = page.chunks(61).collect();
            let words: BTreeSet<&[u8]> = lines[..108].iter().map(|line| &line[11..20]).collect();
            assert_eq!(words.len(), 8 * 8 - 4 - 4, "all but packets and packets, deletes and deletes");
            let pair = |low: usize, high: usize, rest: String| {
                format!("{:>3} {:>3} {switch:>2} {rest:<49}\n", others + low, others + high).into_bytes()
            };
            assert_eq!(lines[0], pair(0, 2, format!("pkt  add      - {prio:>5}")));
            assert_eq!(lines[5], pair(0, 7, "pkt  deln     -     -".to_owned()));
            assert_eq!(lines[12], pair(1, 2, format!("pout add      - {prio:>5}")));
            assert_eq!(lines[30], pair(2, 9, format!("add  pout {prio:>5}     -")));
            assert_eq!(lines[107], pair(13, 15, format!("modn deln {prio:>5}     -")));
            assert_eq!(lines[108..].concat(), count_lines([120, 0, 12, 108]));
        }
    }
}

/// The most entries that a packet can fit at one priority, and the longest answers.
#[test]
fn many_entries_that_fit() {
    let rooms = [65_536, 8_192];
    let written =
        replay(&traces::packets_to_all(), &tables::all_fitting(), &recorded_order(256), DELAY, rooms);
    let answers = written.expect("all valid").answers;
    assert!(answers.len() > 4_096, "{} bytes of answers", answers.len());
    assert!(answers.ends_with(b"\nev=255 hit=65535,256,p60000\n"));
    let written =
        replay(&traces::packet_to_511(), &tables::all_fitting(), &recorded_order(256), DELAY, rooms);
    let written = written.expect("all valid");
    assert_eq!(written.answers, b"ev=255 hit=65535,511,p60000\n");
    assert_eq!(written.tables.split(|&b| b == b'\n').count(), 512);
}

/// The faults of a line, the first of which is told: malformed, misnumbered, an address bit past the prefix.
#[test]
fn faults_of_one_line() {
    let line = |number: usize, last: &str, length: u8, end: &str| {
        format!(
            "ev={number} do=deln in=- out=- from=0 to=0 sw=1 port=* vlan=* src=0a00000{last}/{length} dst=00000000/0 proto=* sport=* dport=*{end}\n"
        )
    };
    let refusal = |text: String| refused(list(text.as_bytes(), DELAY, 0));
    let first = line(0, "0", 8, "");
    assert_eq!(refusal(format!("{first}{}", line(7, "1", 31, " "))), (4, 1));
    assert_eq!(refusal(format!("{first}{}", line(7, "1", 31, ""))), (5, 1));
    assert_eq!(refusal(format!("{first}{}", line(1, "1", 31, ""))), (6, 1));
    // The lowest line comes first, whichever its fault.
    assert_eq!(refusal(format!("{}{}", line(0, "1", 31, ""), line(7, "1", 31, " "))), (6, 0));
    assert!(list(format!("{first}{}", line(1, "1", 32, "")).as_bytes(), DELAY, 64).is_ok());
}
