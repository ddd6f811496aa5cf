//! The sentences of document 01, one by one.

use reference::flow::{Packet, Prefix};
use reference::replay::{check_order, recorded_order};
use reference::table::{Origin, TableOperation};
use reference::trace::Operation;
use reference::{
    happens_before, list, normalise, page, read_tables, read_trace, replay, share, try_orders, Counts,
    Lengths, Share, PAGE_ROOM,
};

/// The delay of the programs.
const DELAY: u32 = 2_000;

const WORKED: &str = "\
ev=0 do=pkt in=- out=1 from=0 to=0 sw=1 port=1 vlan=1 src=0a000001 dst=0a000002 proto=6 sport=4000 dport=80
ev=1 do=oth in=1 out=2,3,4 from=0 to=0
ev=2 do=add in=2 out=- from=0 to=0 sw=1 prio=10 port=* vlan=* src=00000000/0 dst=0a000002/32 proto=* sport=* dport=* act=p2
ev=3 do=add in=3 out=- from=0 to=0 sw=2 prio=10 port=* vlan=* src=00000000/0 dst=0a000002/32 proto=* sport=* dport=* act=p3
ev=4 do=pkt in=4 out=- from=0 to=0 sw=2 port=1 vlan=1 src=0a000001 dst=0a000002 proto=6 sport=4000 dport=80
";

const ANY: &str = "port=* vlan=* src=00000000/0 dst=00000000/0 proto=* sport=* dport=*";
const PACKET: &str = "port=1 vlan=1 src=00000000 dst=00000000 proto=1 sport=1 dport=1";

/// Number, place and line of the refusal of a trace; number 0 where it is accepted.
fn trace_refusal(text: &str) -> (u8, usize, String) {
    match read_trace(text.as_bytes(), DELAY) {
        Ok(_) => (0, 0, String::new()),
        Err(r) => (r.number, r.place, String::from_utf8(r.line.to_vec()).unwrap()),
    }
}

/// The same of a table text.
fn tables_refusal(text: &str) -> (u8, usize, String) {
    match read_tables(text.as_bytes()) {
        Ok(_) => (0, 0, String::new()),
        Err(r) => (r.number, r.place, String::from_utf8(r.line.to_vec()).unwrap()),
    }
}

/// End tables and answers, the order recorded or given; or number and place of the refusal.
fn replayed(trace: &str, tables: &str, order: Option<&[u8]>) -> Result<(String, String), (u8, usize)> {
    let recorded = recorded_order(trace.lines().count());
    let (mut end, mut answers) = (vec![0; 65_536], vec![0; 65_536]);
    let order = order.unwrap_or(&recorded);
    match replay(trace.as_bytes(), tables.as_bytes(), order, DELAY, &mut end, &mut answers) {
        Ok(Lengths { tables, answers: length }) => Ok((
            String::from_utf8(end[..tables].to_vec()).unwrap(),
            String::from_utf8(answers[..length].to_vec()).unwrap(),
        )),
        Err(r) => Err((r.number, r.place)),
    }
}

/// A trace of given `do` words and the items after `out`, without tokens.
fn plain_trace(lines: &[(&str, String)]) -> String {
    let line = |(index, (word, rest)): (usize, &(&str, String))| {
        let space = if rest.is_empty() { "" } else { " " };
        format!("ev={index} do={word} in=- out=- from=0 to=0{space}{rest}\n")
    };
    lines.iter().enumerate().map(line).collect()
}

#[test]
fn worked_lines() {
    let mut out = [9; 4];
    let counts = Counts { pairs: 2, ordered: 1, commuting: 0, listed: 1 };
    assert_eq!(list(WORKED.as_bytes(), DELAY, &mut out), Ok(counts));
    assert_eq!(out, [3, 4, 9, 9]);
    assert_eq!(list(b"", DELAY, &mut out), Ok(Counts::default()));
    let short = list(WORKED.as_bytes(), DELAY, &mut out[..1]).unwrap_err();
    assert_eq!((short.number, short.place, short.line), (31, 2, &b""[..]));
}

/// The page of a trace.
fn page_of(trace: &str) -> String {
    let mut out = vec![9; PAGE_ROOM + 1];
    let length = page(trace.as_bytes(), DELAY, &mut out).unwrap();
    assert!(out[length..].iter().all(|&byte| byte == 9));
    String::from_utf8(out[..length].to_vec()).unwrap()
}

/// A page of pair lines, given without the 28 blanks at their end, and of the four counts.
fn pinned(pairs: &[&str], counts: [usize; 4]) -> String {
    let names = ["pairs    ", "ordered  ", "commuting", "listed   "];
    let pairs = pairs.iter().map(|pair| format!("{pair}{}\n", " ".repeat(28)));
    pairs.chain(names.iter().zip(counts).map(|(name, count)| format!("{name}{count:>51}\n"))).collect()
}

#[test]
fn the_page_of_the_worked_lines() {
    let spelled = [
        "  3   4  2 add  pkt     10     -                            \n",
        "pairs                                                      2\n",
        "ordered                                                    1\n",
        "commuting                                                  0\n",
        "listed                                                     1\n",
    ];
    assert!(spelled.iter().all(|line| line.len() == 61));
    assert_eq!(page_of(WORKED), spelled.concat());
    assert_eq!(page_of(WORKED), pinned(&["  3   4  2 add  pkt     10     -"], [2, 1, 0, 1]));
    let mut out = [9; 5 * 61];
    let short = page(WORKED.as_bytes(), DELAY, &mut out[1..]).unwrap_err();
    assert_eq!((short.number, short.place, short.line), (51, 5 * 61, &b""[..]));
    // 51 is checked last.
    let refused = page(b"ev=7 do=oth in=- out=- from=0 to=0\n", DELAY, &mut out[..0]).unwrap_err();
    assert_eq!((refused.number, refused.place), (5, 0));
    assert_eq!(out, [9; 5 * 61]);
}

/// Each word stands once on either side. The lines are in the list's order, not switch by switch.
#[test]
fn every_word_on_a_page() {
    let write =
        |switch: u8, priority: u16, port: u8| format!("sw={switch} prio={priority} {ANY} act=p{port}");
    let trace = plain_trace(&[
        ("pkt", format!("sw=0 {PACKET}")),
        ("dels", format!("sw=15 prio=65535 {ANY}")),
        ("add", write(9, 0, 1)),
        ("deln", format!("sw=10 {ANY}")),
        ("addc", write(1, 10, 1)),
        ("mods", write(2, 999, 1)),
        ("pout", format!("sw=4 {PACKET}")),
        ("modn", write(3, 1000, 1)),
        ("dels", format!("sw=0 prio=5 {ANY}")),
        ("add", write(15, 65_535, 2)),
        ("deln", format!("sw=9 {ANY}")),
        ("addc", write(10, 65_534, 2)),
        ("mods", write(1, 10, 2)),
        ("pout", format!("sw=2 {PACKET}")),
        ("modn", write(4, 1, 2)),
        ("pkt", format!("sw=3 {PACKET}")),
    ]);
    let pairs = [
        "  0   8  0 pkt  dels     -     5",
        "  1   9 15 dels add  65535 65535",
        "  2  10  9 add  deln     0     -",
        "  3  11 10 deln addc     - 65534",
        "  4  12  1 addc mods    10    10",
        "  5  13  2 mods pout   999     -",
        "  6  14  4 pout modn     -     1",
        "  7  15  3 modn pkt   1000     -",
    ];
    assert_eq!(page_of(&trace), pinned(&pairs, [8, 0, 0, 8]));
}

/// Events of one, two and three digits, and pairs without a priority.
#[test]
fn numbers_on_a_page() {
    let mut lines = vec![("oth", String::new()); 256];
    for (packet, delete, switch) in [(0, 255, 7), (9, 10, 0), (100, 99, 15), (254, 101, 1)] {
        lines[packet] = ("pkt", format!("sw={switch} {PACKET}"));
        lines[delete] = ("deln", format!("sw={switch} {ANY}"));
    }
    let pairs = [
        "  0 255  7 pkt  deln     -     -",
        "  9  10  0 pkt  deln     -     -",
        " 99 100 15 deln pkt      -     -",
        "101 254  1 deln pkt      -     -",
    ];
    assert_eq!(page_of(&plain_trace(&lines)), pinned(&pairs, [4, 0, 0, 4]));
}

#[test]
fn counts_on_a_page() {
    assert_eq!(page_of(""), pinned(&[], [0, 0, 0, 0]));
    assert_eq!(page_of("ev=0 do=oth in=- out=- from=0 to=0\n"), pinned(&[], [0, 0, 0, 0]));
    // 12 packets commute, and a barrier orders two deletes.
    let delete = || ("deln", format!("sw=1 {ANY}"));
    let mut lines = vec![("pkt", format!("sw=2 {PACKET}")); 12];
    lines.extend([delete(), ("bar", "sw=1".to_owned()), delete()]);
    assert_eq!(page_of(&plain_trace(&lines)), pinned(&[], [67, 1, 66, 0]));
    let checked = format!("sw=15 prio=65535 {ANY} act=drop");
    let page = page_of(&plain_trace(&vec![("addc", checked); 256]));
    assert_eq!((page.len(), PAGE_ROOM), (1_991_284, 1_991_284));
    assert!(page.starts_with("  0   1 15 addc addc 65535 65535  "));
    assert!(page.ends_with(&pinned(&["254 255 15 addc addc 65535 65535"], [32_640, 0, 0, 32_640])));
    assert!(page.lines().all(|line| line.len() == 60));
}

/// The share of an accepted trace, with the counts that it comes from.
fn share_of(trace: &str) -> ([usize; 4], Share) {
    let counts = list(trace.as_bytes(), DELAY, &mut vec![0; 65_280]).unwrap();
    let Counts { pairs, ordered, commuting, listed } = counts;
    ([pairs, ordered, commuting, listed], share(trace.as_bytes(), DELAY).unwrap())
}

fn shared(quotient: usize, remainder: usize, divisor: usize) -> Share {
    Share { quotient, remainder, divisor }
}

#[test]
fn the_share_of_the_worked_lines() {
    assert_eq!(share_of(WORKED), ([2, 1, 0, 1], shared(0, 0, 1)));
}

#[test]
fn shares() {
    let add = |priority: u16, port: u8| ("add", format!("sw=1 prio={priority} {ANY} act=p{port}"));
    let bar = || ("bar", "sw=1".to_owned());
    let share_of = |lines: &[(&str, String)]| share_of(&plain_trace(lines));
    // No pair; one that a barrier orders.
    assert_eq!(share_of(&[]), ([0; 4], Share::default()));
    assert_eq!(share_of(&[("oth", String::new()), add(1, 1), bar()]), ([0; 4], Share::default()));
    assert_eq!(share_of(&[add(1, 1), bar(), add(1, 2)]), ([1, 1, 0, 0], Share::default()));
    // All commute; none does.
    assert_eq!(share_of(&[add(1, 1), add(2, 1), add(3, 1)]), ([3, 0, 3, 0], shared(1000, 0, 3)));
    assert_eq!(share_of(&[add(1, 1), add(1, 2), add(1, 3)]), ([3, 0, 0, 3], shared(0, 0, 3)));
    // 2 of 3 do; 3 packets beside one rule and behind it another, which a barrier orders.
    assert_eq!(share_of(&[add(1, 1), add(1, 2), add(2, 3)]), ([3, 0, 2, 1], shared(666, 2, 3)));
    let packet = || ("pkt", format!("sw=1 {PACKET}"));
    let lines = [packet(), packet(), packet(), add(1, 1), bar(), add(1, 1)];
    assert_eq!(share_of(&lines), ([10, 1, 3, 6], shared(333, 3, 9)));
    // Of 32,640 pairs all but 128 commute, or a single one does.
    let twice: Vec<_> = (0..128).flat_map(|key| [add(key, 1), add(key, 2)]).collect();
    assert_eq!(share_of(&twice), ([32_640, 0, 32_512, 128], shared(996, 2_560, 32_640)));
    let equal: Vec<_> = [1].into_iter().chain(1..=255).map(|port| add(1, port)).collect();
    assert_eq!(share_of(&equal), ([32_640, 0, 1, 32_639], shared(0, 1000, 32_640)));
}

#[test]
fn a_share_is_refused_as_the_list_is() {
    let refusal = |trace: &str| {
        let refused = share(trace.as_bytes(), DELAY).unwrap_err();
        assert_eq!(list(trace.as_bytes(), DELAY, &mut [0; 65_280]), Err(refused));
        (refused.number, refused.place, String::from_utf8(refused.line.to_vec()).unwrap())
    };
    assert_eq!(refusal(&"\n".repeat(65_536)), (1, 0, String::new()));
    assert_eq!(refusal(WORKED.trim_end()), (2, 0, String::new()));
    let line = "ev=7 do=oth in=- out=- from=0 to=0";
    assert_eq!(refusal(&format!("{WORKED}{line}\n")), (5, 5, line.to_owned()));
}

/// As many ones as the length, then zeros.
#[test]
fn masks_of_all_lengths() {
    for length in 0..=32 {
        let bits = "1".repeat(length) + &"0".repeat(32 - length);
        let prefix = Prefix { value: 0, len: u8::try_from(length).unwrap() };
        assert_eq!(Ok(prefix.mask()), u32::from_str_radix(&bits, 2));
    }
}

#[test]
fn prefix_bits() {
    let with = |dst: &str| WORKED.replacen("0a000002/32", dst, 1);
    assert_eq!(trace_refusal(&with("0a000002/31")).0, 0);
    let (number, place, line) = trace_refusal(&with("0a000001/31"));
    assert_eq!((number, place), (6, 2));
    assert_eq!(line, with("0a000001/31").lines().nth(2).unwrap());
    assert_eq!(trace_refusal(&with("00000001/0")).0, 6);
    assert_eq!(trace_refusal(&with("00000000/00")).0, 4);
    assert_eq!(trace_refusal(&with("0a000000/08")).0, 4);
    assert_eq!(trace_refusal(&with("0A000000/8")).0, 4);
    assert_eq!(trace_refusal(&with("0a000000/33")).0, 4);
    assert_eq!(trace_refusal(&with("0a00000/8")).0, 4);
    assert_eq!(trace_refusal(&with("0a0000000/8")).0, 4);
    assert_eq!(trace_refusal(&with("0a000000")).0, 4);
}

#[test]
fn malformed_lines() {
    let line = "ev=0 do=oth in=1,2 out=3 from=0 to=0";
    assert_eq!(trace_refusal(&format!("{line}\n")).0, 0);
    let bad = [
        "",
        " ev=0 do=oth in=- out=- from=0 to=0",
        "ev=0 do=oth in=- out=- from=0 to=0 ",
        "ev=0  do=oth in=- out=- from=0 to=0",
        "ev=0 do=oth in=- out=- from=0 to=0\r",
        "ev=0 do=oth in=- out=- from=0 to=0\0",
        "ev=0 do=oth in= out=- from=0 to=0",
        "ev=0 do=oth in=1,2,3,4,5 out=- from=0 to=0",
        "ev=0 do=oth in=2,1 out=- from=0 to=0",
        "ev=0 do=oth in=1,1 out=- from=0 to=0",
        "ev=0 do=oth in=1, out=- from=0 to=0",
        "ev=0 do=oth in=65536 out=- from=0 to=0",
        "ev=0 do=oth out=- in=- from=0 to=0",
        "ev=0 do=oth in=- out=- from=0 to=0 sw=0",
        "ev=0 do=Oth in=- out=- from=0 to=0",
        "ev=256 do=oth in=- out=- from=0 to=0",
        "ev=00 do=oth in=- out=- from=0 to=0",
        "ev=0 do=bar in=- out=- from=0 to=0 sw=16",
        "ev=0 do=bar in=- out=- from=0 to=0",
        "ev=0 do=msg in=- out=- from=0 to=0 sw=1 prio=1",
        "ev=0 do=poutin=- out=- from=0 to=0 sw=1 port=1 vlan=1 src=00000000 dst=00000000 proto=1 sport=1 dport=1",
        "ev=1 do=oth in=- out= from=0 to=0", // 4 before 5
    ];
    for bad in bad {
        assert_eq!(trace_refusal(&format!("{bad}\n")), (4, 0, bad.to_owned()), "{bad}");
    }
    let items = [
        ("add", format!("sw=1 prio=1 {ANY} act=p01")),
        ("add", format!("sw=1 prio=1 {ANY} act=p")),
        ("add", format!("sw=1 prio=1 {ANY} act=P1")),
        ("add", format!("sw=1 prio=1 {ANY}")),
        ("add", format!("sw=1 {ANY} act=drop")),
        ("dels", format!("sw=1 prio=1 {ANY} act=drop")),
        ("deln", format!("sw=1 prio=1 {ANY}")),
        ("pkt", format!("sw=1 {ANY}")),
        ("pout", format!("sw=1 {ANY}")),
        ("pout", format!("sw=1 prio=1 {ANY} act=drop")),
        ("pout", format!("sw=1 prio=1 {PACKET}")),
        ("pout", format!("sw=1 {PACKET} act=drop")),
        ("pout", "sw=1".to_owned()),
        ("pout", PACKET.to_owned()),
        ("pou", format!("sw=1 {PACKET}")),
        ("pouts", format!("sw=1 {PACKET}")),
        ("addc", format!("sw=1 prio=65536 {ANY} act=drop")),
        ("addc", format!("sw=1 prio=1 {} act=drop", ANY.replace("proto=*", "proto=256"))),
    ];
    for (word, rest) in items {
        assert_eq!(trace_refusal(&plain_trace(&[(word, rest.clone())])).0, 4, "{word} {rest}");
    }
}

/// `vlan` is 0 to 4095, or `*` in a match, and stands between `port` and `src`.
#[test]
fn vlans() {
    let lines = |change: &dyn Fn(&str) -> String| {
        let (matching, packet) = (change(ANY), change(PACKET));
        [
            ("add", format!("sw=1 prio=1 {matching} act=drop")),
            ("dels", format!("sw=1 prio=1 {matching}")),
            ("deln", format!("sw=1 {matching}")),
            ("pkt", format!("sw=1 {packet}")),
            ("pout", format!("sw=1 {packet}")),
        ]
    };
    let numbers = |change: &dyn Fn(&str) -> String| {
        let tables = format!("sw=1 prio=1 {} act=drop\n", change(ANY));
        let numbers = lines(change).map(|line| trace_refusal(&plain_trace(&[line])).0);
        (numbers, tables_refusal(&tables).0)
    };
    let with = |value: &'static str| {
        move |items: &str| {
            let (before, rest) = items.split_once(" vlan=").unwrap();
            format!("{before} vlan={value}{}", &rest[1..])
        }
    };
    for good in ["0", "9", "10", "4095"] {
        assert_eq!(numbers(&with(good)), ([0; 5], 0), "{good}");
    }
    assert_eq!(numbers(&with("*")), ([0, 0, 0, 4, 4], 0));
    for bad in ["", "00", "01", "04095", "4096", "9999", "65535", "65536", "-1", "**", "x", "0x1"] {
        assert_eq!(numbers(&with(bad)), ([4; 5], 14), "{bad}");
    }
    assert_eq!(numbers(&|items| items.replace(" vlan=*", "").replace(" vlan=1", "")), ([4; 5], 14));
    let behind_src = |items: &str| {
        let mut items: Vec<&str> = items.split(' ').collect();
        items.swap(1, 2);
        items.join(" ")
    };
    assert_eq!(numbers(&behind_src), ([4; 5], 14));
}

#[test]
fn every_word_is_read() {
    let entry = format!("sw=15 prio=65535 {ANY} act=ctl");
    let packet = "sw=0 port=65535 vlan=4095 src=ffffffff dst=00000000 proto=255 sport=0 dport=1".to_owned();
    let trace = plain_trace(&[
        ("pkt", packet.clone()),
        ("pout", packet),
        ("add", entry.clone()),
        ("addc", entry.clone()),
        ("mods", entry.clone()),
        ("modn", entry),
        ("dels", format!("sw=1 prio=0 {ANY}")),
        ("deln", format!("sw=1 {ANY}")),
        ("bar", "sw=1".to_owned()),
        ("msg", "sw=1".to_owned()),
        ("oth", String::new()),
    ]);
    assert_eq!(read_trace(trace.as_bytes(), DELAY).unwrap().len(), 11);
}

#[test]
fn both_words_of_a_packet() {
    let packet = Packet { port: 1, vlan: 1, src: 0, dst: 0, proto: 1, sport: 1, dport: 1 };
    for (word, origin) in [("pkt", Origin::Received), ("pout", Origin::SentOut)] {
        let operation = TableOperation::Packet(origin, packet);
        let trace = plain_trace(&[(word, format!("sw=7 {PACKET}"))]);
        let events = read_trace(trace.as_bytes(), DELAY).unwrap();
        assert_eq!(events[0].operation, Operation::Table(7, operation));
        assert_eq!((operation.word(), operation.priority()), (word, None));
    }
}

#[test]
fn refusals_of_the_whole_text() {
    let oth =
        |n: usize| -> String { (0..n).map(|i| format!("ev={i} do=oth in=- out=- from=0 to=0\n")).collect() };
    assert_eq!(trace_refusal(&oth(256)).0, 0);
    assert_eq!(trace_refusal(&oth(257)), (3, 0, String::new()));
    assert_eq!(trace_refusal("ev=0 do=oth in=- out=- from=0 to=0").0, 2);
    assert_eq!(trace_refusal(&"\n".repeat(65_536)).0, 1);
    assert_eq!(trace_refusal(&"\n".repeat(65_535)).0, 3);
    assert_eq!(trace_refusal(&"x".repeat(65_535)).0, 2);
    assert_eq!(tables_refusal(&"x".repeat(65_536)), (11, 0, String::new()));
    assert_eq!(tables_refusal("x").0, 12);
    assert_eq!(tables_refusal(&"\n".repeat(257)).0, 13);
    assert_eq!(tables_refusal("\n"), (14, 0, String::new()));
    assert_eq!(tables_refusal(""), (0, 0, String::new()));
}

#[test]
fn tokens_twice_and_too_early() {
    let trace = |tokens: &[(&str, &str)]| -> String {
        let line = |(i, (taken, put)): (usize, &(&str, &str))| {
            format!("ev={i} do=oth in={taken} out={put} from=0 to=0\n")
        };
        tokens.iter().enumerate().map(line).collect()
    };
    let at = |tokens: &[(&str, &str)]| {
        let (number, place, _) = trace_refusal(&trace(tokens));
        (number, place)
    };
    assert_eq!(at(&[("7", "-"), ("7,8", "-")]), (0, 0));
    assert_eq!(at(&[("-", "1,2"), ("-", "3"), ("-", "2"), ("-", "3")]), (7, 2));
    assert_eq!(at(&[("1", "1")]), (8, 0));
    assert_eq!(at(&[("-", "-"), ("1", "-"), ("-", "1")]), (8, 1));
    // 7 over the trace before 8, also where 8 stands on an earlier line.
    assert_eq!(at(&[("1", "-"), ("-", "1"), ("-", "1")]), (7, 2));
    // 5 on a line before 7 over the trace.
    assert_eq!(
        trace_refusal("ev=0 do=oth in=- out=1 from=0 to=0\nev=0 do=oth in=- out=1 from=0 to=0\n").0,
        5
    );
}

/// The events that happen before each event of a trace.
fn all_before(trace: &str) -> Vec<Vec<usize>> {
    let before = happens_before(&read_trace(trace.as_bytes(), DELAY).unwrap(), DELAY);
    let events = before.len();
    before.iter().map(|set| (0..events).filter(|&event| set.contains(event)).collect()).collect()
}

#[test]
fn barriers_and_chains() {
    let write = format!("sw=1 {ANY}");
    let packet = format!("sw=1 {PACKET}");
    let bar = || ("bar", "sw=1".to_owned());
    let trace = plain_trace(&[
        ("deln", write.clone()),
        bar(),
        bar(),
        ("pkt", packet),
        ("msg", "sw=1".to_owned()),
        ("deln", write),
        ("bar", "sw=2".to_owned()),
        ("msg", "sw=1".to_owned()),
    ]);
    let after_bars = vec![0, 1, 2];
    let wanted =
        [vec![], vec![0], vec![0, 1], vec![], after_bars.clone(), after_bars.clone(), vec![], after_bars];
    assert_eq!(all_before(&trace), wanted);
}

/// A packet sent out is ordered by barriers as a message is, one received is not; nothing else orders them.
#[test]
fn barriers_and_packets() {
    let on = |switch: u8, items: &str| format!("sw={switch} {items}").trim_end().to_owned();
    let trace = plain_trace(&[
        ("pout", on(1, PACKET)),
        ("pkt", on(1, PACKET)),
        ("deln", on(1, ANY)),
        ("msg", on(1, "")),
        ("pout", on(1, PACKET)),
        ("bar", on(1, "")),
        ("bar", on(2, "")),
        ("pout", on(1, PACKET)),
        ("pkt", on(1, PACKET)),
        ("deln", on(1, ANY)),
        ("pout", on(1, PACKET)),
        ("pout", on(2, PACKET)),
    ]);
    let mut wanted = vec![vec![]; 12];
    wanted[5] = vec![0, 2, 3, 4];
    for event in [7, 9, 10] {
        wanted[event] = vec![0, 2, 3, 4, 5];
    }
    wanted[11] = vec![6];
    assert_eq!(all_before(&trace), wanted);
}

#[test]
fn a_barrier_in_front_of_a_packet() {
    let trace = |word| {
        let (delete, packet) = (format!("sw=1 {ANY}"), format!("sw=1 {PACKET}"));
        plain_trace(&[("deln", delete), ("bar", "sw=1".to_owned()), (word, packet)])
    };
    let counts = Counts { pairs: 1, ..Counts::default() };
    let mut out = [9; 2];
    assert_eq!(list(trace("pout").as_bytes(), DELAY, &mut out), Ok(Counts { ordered: 1, ..counts }));
    assert_eq!(out, [9, 9]);
    assert_eq!(list(trace("pkt").as_bytes(), DELAY, &mut out), Ok(Counts { listed: 1, ..counts }));
    assert_eq!(out, [0, 2]);
    assert_eq!(replayed(&trace("pout"), "", Some(&[0, 2, 1])), Err((22, 1)));
    assert!(replayed(&trace("pkt"), "", Some(&[2, 0, 1])).is_ok());
}

#[test]
fn a_chain_joins_a_packet_through_tokens() {
    let trace = format!(
        "ev=0 do=deln in=- out=- from=0 to=0 sw=1 {ANY}\nev=1 do=bar in=- out=1 from=0 to=0 sw=1\n\
         ev=2 do=oth in=1 out=2 from=0 to=0\nev=3 do=pkt in=2 out=- from=0 to=0 sw=1 {PACKET}\n"
    );
    let mut out = [0; 2];
    let counts = Counts { pairs: 1, ordered: 1, commuting: 0, listed: 0 };
    assert_eq!(list(trace.as_bytes(), DELAY, &mut out), Ok(counts));
}

#[test]
fn a_chain_goes_on_from_a_packet_sent_out() {
    let trace = format!(
        "ev=0 do=deln in=- out=- from=0 to=0 sw=1 {ANY}\nev=1 do=bar in=- out=- from=0 to=0 sw=1\n\
         ev=2 do=pout in=- out=1 from=0 to=0 sw=1 {PACKET}\nev=3 do=pkt in=1 out=- from=0 to=0 sw=1 {PACKET}\n"
    );
    assert_eq!(all_before(&trace), [vec![], vec![0], vec![0, 1], vec![0, 1, 2]]);
}

#[test]
fn normal_form() {
    let line = |sw: usize, prio: usize, port: &str| {
        format!("sw={sw} prio={prio} {} act=drop\n", ANY.replacen("port=*", &format!("port={port}"), 1))
    };
    let (a, b, c, d) = (line(0, 1, "*"), line(2, 7, "*"), line(2, 7, "3"), line(2, 6, "*"));
    let typed = format!("{d}{c}{b}{a}");
    let mut out = vec![9; typed.len() + 1];
    assert_eq!(normalise(typed.as_bytes(), &mut out), Ok(typed.len()));
    assert_eq!(out, format!("{a}{b}{c}{d}\t").into_bytes());
    let short = normalise(typed.as_bytes(), &mut out[..typed.len() - 1]).unwrap_err();
    assert_eq!((short.number, short.place), (32, typed.len()));

    // `vlan` comes behind `port` and before `src`, `*` before numbers.
    let line = |items: &str| format!("sw=2 prio=7 {items} dst=00000000/0 proto=* sport=* dport=* act=drop\n");
    let rising = [
        "port=* vlan=* src=ffffffff/32",
        "port=* vlan=0 src=ffffffff/32",
        "port=* vlan=9 src=00000000/0",
        "port=* vlan=10 src=00000000/0",
        "port=* vlan=4095 src=00000000/0",
        "port=0 vlan=* src=00000000/0",
        "port=0 vlan=4095 src=00000000/0",
        "port=1 vlan=0 src=00000000/0",
    ];
    let typed: String = rising.iter().rev().map(|items| line(items)).collect();
    let mut out = vec![9; typed.len()];
    assert_eq!(normalise(typed.as_bytes(), &mut out), Ok(typed.len()));
    assert_eq!(out, rising.map(line).concat().into_bytes());

    let twice = format!("{a}{b}{d}{b}{a}");
    assert_eq!(tables_refusal(&twice), (16, 3, b.trim_end().to_owned()));
    // 14 and 15 of all lines before 16.
    assert_eq!(tables_refusal(&format!("{twice}x\n")).0, 14);
    assert_eq!(
        tables_refusal(&format!("{twice}{}", a.replacen("src=00000000/0", "src=00000001/1", 1))).0,
        15
    );
}

#[test]
fn each_operation_replayed() {
    let dst = |value: &str| ANY.replacen("dst=00000000/0", &format!("dst={value}"), 1);
    let (wide, narrow) = (dst("0a000000/8"), dst("0a010000/16"));
    let packet = "sw=1 port=1 vlan=1 src=00000000 dst=0a010203 proto=1 sport=1 dport=1".to_owned();
    let trace = plain_trace(&[
        ("pkt", packet.clone()),
        ("pout", packet.clone()),
        ("modn", format!("sw=1 prio=3 {wide} act=p1")),
        ("pkt", packet.clone()),
        ("addc", format!("sw=1 prio=3 {narrow} act=p2")),
        ("addc", format!("sw=1 prio=4 {narrow} act=p2")),
        ("pkt", packet.clone()),
        ("add", format!("sw=1 prio=4 {wide} act=p3")),
        ("pkt", packet.clone()),
        ("modn", format!("sw=1 prio=9 {wide} act=ctl")),
        ("mods", format!("sw=1 prio=4 {narrow} act=drop")),
        ("dels", format!("sw=1 prio=3 {wide}")),
        ("deln", format!("sw=1 {narrow}")),
        ("pkt", packet.clone()),
        ("pout", packet),
    ]);
    let (end, answers) = replayed(&trace, "", None).unwrap();
    assert_eq!(end, format!("sw=1 prio=4 {wide} act=ctl\n"));
    assert_eq!(
        answers,
        "ev=0 hit=-\nev=1 hit=-\nev=3 hit=3,1,p1\nev=4 done=no\nev=5 done=yes\nev=6 hit=4,1,p2\n\
         ev=8 hit=4,2,p3\nev=13 hit=4,1,ctl\nev=14 hit=4,1,ctl\n"
    );
}

#[test]
fn orders_refused() {
    let trace = "ev=0 do=oth in=- out=1 from=0 to=0\nev=1 do=oth in=1 out=2 from=0 to=0\nev=2 do=oth in=2 out=- from=0 to=0\n";
    let before = happens_before(&read_trace(trace.as_bytes(), DELAY).unwrap(), DELAY);
    let refusal = |order: &[u8]| match check_order(order, &before) {
        Ok(()) => (0, 0),
        Err(r) => (r.number, r.place),
    };
    assert_eq!(refusal(&[0, 1, 2]), (0, 0));
    assert_eq!(refusal(&[0, 2, 1]), (22, 1));
    assert_eq!(refusal(&[2, 1, 0]), (22, 0));
    assert_eq!(refusal(&[1, 0, 2]), (22, 0));
    for bad in [&[][..], &[0, 1], &[0, 1, 1], &[0, 1, 3], &[0, 1, 2, 2], &[0, 1, 2, 3]] {
        assert_eq!(refusal(bad), (21, 0), "{bad:?}");
    }
}

#[test]
fn refusals_of_replay_in_their_order() {
    let bad_order: &[u8] = &[0, 0, 0, 0, 0];
    assert_eq!(replayed("x\n", "x", None), Err((4, 0)));
    assert_eq!(replayed(WORKED, "x", Some(bad_order)), Err((12, 0)));
    assert_eq!(replayed(WORKED, "", Some(bad_order)), Err((21, 0)));
    assert_eq!(replayed(WORKED, "", Some(&[0, 4, 1, 2, 3])), Err((22, 1)));
    let (end, answers) = replayed(WORKED, "", None).unwrap();
    let (tables, room) = (&mut vec![7; end.len()], &mut vec![7; answers.len()]);
    let order = recorded_order(5);
    let mut at = |short: usize, shorter: usize| {
        let (tables, room) = (&mut tables[short..], &mut room[shorter..]);
        let answer = replay(WORKED.as_bytes(), b"", &order, DELAY, tables, room);
        if answer.is_err() {
            assert!(tables.iter().chain(room.iter()).all(|&byte| byte == 7));
        }
        answer.map_err(|r| (r.number, r.place))
    };
    assert_eq!(at(1, 1), Err((32, end.len())));
    assert_eq!(at(0, 1), Err((33, answers.len())));
    assert_eq!(at(0, 0), Ok(Lengths { tables: end.len(), answers: answers.len() }));
}

#[test]
fn the_most_that_is_written() {
    let line = |sw: usize, port: usize| {
        format!("sw={sw} prio=65535 port={port} vlan=4095 src=ffffff00/30 dst=ffffff00/30 proto=255 sport=65535 dport=65535 act=p65535")
    };
    let tables: String = (0..256).map(|i| line(15, 65_000 + i) + "\n").collect();
    let writes: Vec<(&str, String)> = (0..256).map(|i| ("add", line(14, 65_000 + i))).collect();
    let (end, answers) = replayed(&plain_trace(&writes), &tables, None).unwrap();
    assert_eq!((end.len(), end.lines().count(), answers.len()), (58_880, 512, 0));
}

/// The bytes of some orders, into a buffer that is longer by two; or number and place of the refusal.
fn tried(trace: &str, tables: &str, orders: &[u8]) -> Result<Vec<u8>, (u8, usize)> {
    let mut out = vec![9; orders.len() + 2];
    match try_orders(trace.as_bytes(), tables.as_bytes(), orders, DELAY, &mut out) {
        Ok(count) => {
            assert!(out[count..].iter().all(|&byte| byte == 9));
            out.truncate(count);
            Ok(out)
        }
        Err(r) => {
            assert!(out.iter().all(|&byte| byte == 9) && r.has_line() != r.line.is_empty());
            Err((r.number, r.place))
        }
    }
}

#[test]
fn orders_of_the_worked_lines() {
    let orders = [
        [0, 1, 2, 3, 4],
        // The packet before its rule.
        [0, 1, 4, 3, 2],
        // The two rules exchanged.
        [0, 1, 3, 2, 4],
        // A rule before what sent it.
        [0, 2, 1, 3, 4],
        // An event twice, another missing; one that there is not; one five times.
        [0, 1, 2, 3, 3],
        [0, 1, 2, 3, 5],
        [0, 0, 0, 0, 0],
        [0, 1, 2, 4, 3],
        [0, 1, 2, 3, 4],
    ];
    let bytes = [0, 1, 0, 2, 2, 2, 2, 1, 0];
    assert_eq!(tried(WORKED, "", orders.as_flattened()), Ok(bytes.to_vec()));
    for (order, byte) in orders.iter().zip(bytes) {
        assert_eq!(tried(WORKED, "", order), Ok(vec![byte]), "{order:?}");
    }
    // A rule that is there from the start: the packet of switch 2 meets it in either order.
    let rule = "sw=2 prio=10 port=* vlan=* src=00000000/0 dst=0a000002/32 proto=* sport=* dport=* act=p3\n";
    assert_eq!(tried(WORKED, rule, orders.as_flattened()), Ok(vec![0, 0, 0, 2, 2, 2, 2, 0, 0]));
}

/// The end tables alone, or the answers alone, may differ.
#[test]
fn orders_that_differ_in_one_way() {
    let add = |action: &str| ("add", format!("sw=1 prio=1 {ANY} act={action}"));
    let tables = plain_trace(&[add("p1"), add("p2")]);
    assert_eq!(tried(&tables, "", &[1, 0, 0, 1]), Ok(vec![1, 0]));
    assert_eq!(tried(&plain_trace(&[add("p1"), add("p1")]), "", &[1, 0, 0, 1]), Ok(vec![0, 0]));
    let packet = ("pkt", format!("sw=1 {PACKET}"));
    let delete = ("deln", format!("sw=1 {ANY}"));
    let answers = plain_trace(&[add("p1"), packet, delete]);
    assert_eq!(tried(&answers, "", &[1, 0, 2, 0, 2, 1, 0, 1, 2]), Ok(vec![1, 1, 0]));
    // On another switch nothing is met.
    let apart =
        answers.replacen("do=pkt in=- out=- from=0 to=0 sw=1", "do=pkt in=- out=- from=0 to=0 sw=0", 1);
    assert_eq!(tried(&apart, "", &[1, 0, 2, 0, 2, 1, 2, 1, 0]), Ok(vec![0, 0, 1]));
}

#[test]
fn no_orders_and_uneven_lengths() {
    assert_eq!(tried("", "", &[]), Ok(vec![]));
    assert_eq!(tried("", "", &[0]), Err((52, 0)));
    assert_eq!(tried("", "", &[0; 256]), Err((52, 0)));
    assert_eq!(tried(WORKED, "", &[]), Ok(vec![]));
    for length in 0..=20 {
        let orders: Vec<u8> = (0..5).cycle().take(length).collect();
        let expected = if length % 5 == 0 { Ok(vec![0; length / 5]) } else { Err((52, 0)) };
        assert_eq!(tried(WORKED, "", &orders), expected, "{length}");
    }
    // Any length is one of orders of one event.
    assert_eq!(tried("ev=0 do=oth in=- out=- from=0 to=0\n", "", &[0, 1, 0, 255]), Ok(vec![0, 2, 0, 2]));
}

#[test]
fn refusals_of_many_orders_in_their_order() {
    let rule = format!("sw=1 prio=1 {ANY} act=drop\n");
    let twice = format!("{rule}{rule}");
    let mut out = [9; 3];
    let mut at = |trace: &str, tables: &str, orders: &[u8], room: usize| {
        let answer = try_orders(trace.as_bytes(), tables.as_bytes(), orders, DELAY, &mut out[..room]);
        let answer = answer.map_err(|r| (r.number, r.place, String::from_utf8(r.line.to_vec()).unwrap()));
        if answer.is_err() {
            assert_eq!(out, [9; 3]);
        }
        answer
    };
    let (even, odd) = ([0; 15], [0; 16]);
    assert_eq!(at("x\n", &twice, &odd, 0), Err((4, 0, "x".to_owned())));
    assert_eq!(at(WORKED, "x", &odd, 0), Err((12, 0, String::new())));
    assert_eq!(at(WORKED, &twice, &odd, 0), Err((16, 1, rule.trim_end().to_owned())));
    assert_eq!(at(WORKED, &rule, &odd, 0), Err((52, 0, String::new())));
    assert_eq!(at(WORKED, &rule, &even[1..], 0), Err((52, 0, String::new())));
    for room in 0..3 {
        assert_eq!(at(WORKED, &rule, &even, room), Err((53, 3, String::new())));
    }
    assert_eq!(at(WORKED, &rule, &[], 0), Ok(0));
    assert_eq!(at(WORKED, &rule, &even, 3), Ok(3));
    assert_eq!(out, [2; 3]);
}
