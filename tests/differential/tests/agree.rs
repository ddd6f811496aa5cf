//! Many thousands of texts, valid and damaged, short and at the limits, every refusal, buffer lengths around the
//! needed one, orders allowed, refused and damaged, one by one and many in one call: library and reference agree on each. The seeds are fixed.

use cases::clocks::{any_delay, any_unsorted_clocks};
use cases::damage::damaged;
use cases::orders::{all_orders, any_allowed, any_damaged, any_orders, any_uneven, is_allowed};
use cases::print::{tables_text, trace_text};
use cases::tables::any_tables;
use cases::traces::{all_received, any_length, any_trace};
use cases::{lengths_around, Random, World};
use differential::{assert_share, list, normalise, page, replay, share, try_orders, Answer};
use reference::races::racing_pairs;
use reference::replay::recorded_order;
use reference::{happens_before, Counts};
use std::collections::{BTreeMap, BTreeSet};

const LIST_ROOM: usize = 65_280;
/// Room for the page of any seven events.
const SHORT_PAGE: usize = 61 * 25;
const ROOMS: [usize; 2] = [58_880, 7_168];

/// How often each refusal was met; 0 stands for none.
#[derive(Default)]
struct Met(BTreeMap<usize, usize>);

impl Met {
    fn note<T>(&mut self, answer: &Answer<T>) {
        let number = answer.as_ref().map_or_else(|refused| refused.number, |_| 0);
        *self.0.entry(number).or_default() += 1;
    }

    fn assert_all(&self, numbers: &[usize], times: usize) {
        for number in numbers {
            let met = self.0.get(number).copied().unwrap_or(0);
            assert!(met >= times, "refusal {number} was met {met} times: {:?}", self.0);
        }
    }
}

/// The counts and the list of a valid trace at a delay, whose share is that of the counts.
fn listed(trace: &[u8], delay: u32) -> (Counts, Vec<u8>) {
    let (counts, mut pairs) = list(trace, delay, LIST_ROOM).expect("a valid trace");
    pairs.truncate(2 * counts.listed);
    assert_share(trace, delay, counts);
    (counts, pairs)
}

/// The counts and the list that a page holds.
fn read_back(page: &[u8]) -> (Counts, Vec<u8>) {
    let lines: Vec<&str> = std::str::from_utf8(page).expect("a page is ASCII").lines().collect();
    let (pairs, counts) = lines.split_at(lines.len() - 4);
    let events = pairs.iter().flat_map(|line| [&line[0..3], &line[4..7]]);
    let number = |line: &str, name: &str| line.strip_prefix(name)?.trim_start().parse().ok();
    let count = |at: usize, name: &str| number(counts[at], name).expect("a count");
    let counts = Counts {
        pairs: count(0, "pairs"),
        ordered: count(1, "ordered"),
        commuting: count(2, "commuting"),
        listed: count(3, "listed"),
    };
    (counts, events.map(|event| event.trim_start().parse().expect("an event")).collect())
}

/// The words on a page, those of the lower and the higher event of each pair.
fn words_on(page: &[u8]) -> Vec<&str> {
    let pairs = page.chunks(61).take(page.len() / 61 - 4);
    let words = pairs.flat_map(|line| [&line[11..15], &line[16..20]]);
    words.map(|word| std::str::from_utf8(word).expect("a page is ASCII").trim_end()).collect()
}

/// The word of each line of a trace.
fn words_in(trace: &[u8]) -> Vec<&str> {
    let lines = std::str::from_utf8(trace).expect("a valid trace is ASCII").lines();
    lines.map(|line| line.split(['=', ' ']).nth(3).expect("a word")).collect()
}

#[test]
fn lists_pages_and_shares_of_valid_traces() {
    let mut random = Random::from_seed(101);
    let mut met: BTreeSet<String> = BTreeSet::new();
    for _ in 0..1_000 {
        let world = World::any(&mut random);
        let length = any_length(&mut random);
        let trace = trace_text(&any_trace(&mut random, world, length));
        let delay = any_delay(&mut random);
        let (counts, pairs) = listed(&trace, delay);
        for room in lengths_around(pairs.len()) {
            let answer = list(&trace, delay, room);
            assert_eq!(answer.is_ok(), room >= pairs.len());
        }
        let lines = counts.listed + 4;
        for room in lengths_around(61 * lines).into_iter().chain([60 * lines]) {
            let answer = page(&trace, delay, room);
            assert_eq!(answer.is_ok(), room >= 61 * lines);
        }
        let made = page(&trace, delay, 61 * lines).expect("a valid trace");
        let (words, all) = (words_on(&made), words_in(&trace));
        assert_eq!(words, pairs.iter().map(|&event| all[usize::from(event)]).collect::<Vec<_>>());
        met.extend(words.into_iter().map(str::to_owned));
        assert_eq!(read_back(&made), (counts, pairs));
    }
    let words = ["add", "addc", "deln", "dels", "modn", "mods", "pkt", "pout"];
    assert!(met.iter().eq(&words), "{met:?}");
}

#[test]
fn lists_pages_and_shares_of_damaged_traces() {
    let mut random = Random::from_seed(102);
    let [mut met, mut met_by_page, mut met_by_share] = [(); 3].map(|()| Met::default());
    for _ in 0..10_000 {
        let world = World::any(&mut random);
        let length = if random.one_in(20) { any_length(&mut random) } else { random.below(8) };
        let mut events = any_trace(&mut random, world, length);
        if random.one_in(8) {
            any_unsorted_clocks(&mut random, &mut events);
        }
        let (trace, delay) = (trace_text(&events), any_delay(&mut random));
        let fault = damaged(&mut random, &trace);
        let (listed, shared) = (list(&fault, delay, LIST_ROOM), share(&fault, delay));
        met.note(&listed);
        met_by_share.note(&shared);
        assert_eq!(shared.err(), listed.err());
        met_by_page.note(&page(&fault, delay, SHORT_PAGE));
        let room = random.below(4);
        let fault = damaged(&mut random, &trace);
        met.note(&list(&fault, delay, room));
        // Around the shortest page, and around that of one pair.
        met_by_page.note(&page(&fault, delay, 242 + room));
        met_by_page.note(&page(&fault, delay, 303 + room));
    }
    met.assert_all(&[0, 1, 2, 3, 4, 5, 6, 7, 8, 31, 54, 55], 50);
    met_by_page.assert_all(&[0, 1, 2, 3, 4, 5, 6, 7, 8, 51, 54, 55], 50);
    met_by_share.assert_all(&[0, 1, 2, 3, 4, 5, 6, 7, 8, 54, 55], 50);
}

/// With `pkt` for each `pout` there are as many pairs, all that were listed are, and the recorded order leaves the same
/// tables and gives the same answers.
#[test]
fn packets_sent_out_as_received() {
    let mut random = Random::from_seed(110);
    let mut more = 0;
    for _ in 0..500 {
        let world = World { wide: false, switches: random.pick(&[1, 2]) };
        let (length, lines) = (any_length(&mut random), any_length(&mut random));
        let events = any_trace(&mut random, world, length);
        let delay = any_delay(&mut random);
        let traces = [trace_text(&events), trace_text(&all_received(&events))];
        let [(fewer, part), (counts, pairs)] = traces.each_ref().map(|trace| listed(trace, delay));
        assert_eq!(fewer.pairs, counts.pairs);
        let [part, pairs] = [&part, &pairs].map(|list| list.chunks(2).collect::<BTreeSet<_>>());
        assert!(part.is_subset(&pairs));
        more += usize::from(part.len() < pairs.len());
        let tables = tables_text(&any_tables(&mut random, world, lines));
        let replay = |trace: &Vec<u8>| replay(trace, &tables, &recorded_order(length), delay, ROOMS);
        let [sent_out, received] = traces.each_ref().map(|trace| replay(trace).expect("all valid"));
        assert_eq!(sent_out, received);
    }
    assert!(more > 100, "{more} lists are longer");
}

/// On short traces, many of which make the same page.
#[test]
fn two_different_lists_never_make_the_same_page() {
    let mut random = Random::from_seed(109);
    let mut lists = BTreeMap::new();
    for _ in 0..5_000 {
        let world = World { wide: false, switches: random.pick(&[1, 2]) };
        let length = random.below(7);
        let trace = trace_text(&any_trace(&mut random, world, length));
        let delay = any_delay(&mut random);
        let list = listed(&trace, delay);
        let page = page(&trace, delay, SHORT_PAGE).expect("a valid trace");
        let known = lists.entry(page).or_insert_with(|| list.clone());
        assert_eq!(*known, list);
    }
    assert!((500..4_500).contains(&lists.len()), "{} pages", lists.len());
}

#[test]
fn normal_forms_of_valid_tables() {
    let mut random = Random::from_seed(103);
    for _ in 0..1_000 {
        let world = World::any(&mut random);
        let length = any_length(&mut random);
        let mut entries = any_tables(&mut random, world, length);
        let tables = tables_text(&entries);
        for room in lengths_around(tables.len()) {
            assert_eq!(normalise(&tables, room).is_ok(), room >= tables.len());
        }
        random.shuffle(&mut entries);
        let typed_anew = tables_text(&entries);
        let normal = normalise(&tables, tables.len()).expect("valid tables");
        assert_eq!(normalise(&typed_anew, tables.len()), Ok(normal.clone()));
        assert_eq!(normalise(&normal, tables.len()), Ok(normal));
    }
}

#[test]
fn normal_forms_of_damaged_tables() {
    let mut random = Random::from_seed(104);
    let mut met = Met::default();
    for _ in 0..10_000 {
        let world = World::any(&mut random);
        let length = if random.one_in(20) { any_length(&mut random) } else { random.below(8) };
        let tables = tables_text(&any_tables(&mut random, world, length));
        met.note(&normalise(&damaged(&mut random, &tables), 65_535));
        let room = random.below(1_000);
        met.note(&normalise(&damaged(&mut random, &tables), room));
    }
    met.assert_all(&[0, 11, 12, 13, 14, 15, 16, 32], 50);
}

#[test]
fn replays_of_valid_traces() {
    let mut random = Random::from_seed(105);
    let mut met = Met::default();
    for _ in 0..300 {
        let world = World::any(&mut random);
        let (length, lines) = (any_length(&mut random), any_length(&mut random));
        let trace = trace_text(&any_trace(&mut random, world, length));
        let tables = tables_text(&any_tables(&mut random, world, lines));
        let (recorded, delay) = (recorded_order(length), any_delay(&mut random));
        let written = replay(&trace, &tables, &recorded, delay, ROOMS).expect("all valid");
        let needed = [written.tables.len(), written.answers.len()];
        for short in lengths_around(needed[0]) {
            met.note(&replay(&trace, &tables, &recorded, delay, [short, needed[1]]));
        }
        for short in lengths_around(needed[1]) {
            met.note(&replay(&trace, &tables, &recorded, delay, [needed[0], short]));
        }
        for _ in 0..6 {
            let order = any_damaged(&mut random, &recorded);
            met.note(&replay(&trace, &tables, &order, delay, ROOMS));
        }
    }
    met.assert_all(&[0, 21, 22, 32, 33], 100);
}

#[test]
fn replays_of_damaged_texts() {
    let mut random = Random::from_seed(106);
    let mut met = Met::default();
    for _ in 0..8_000 {
        let world = World::any(&mut random);
        let length = random.below(8);
        let mut trace = trace_text(&any_trace(&mut random, world, length));
        let mut tables = tables_text(&any_tables(&mut random, world, length));
        let mut order = recorded_order(length);
        if random.one_in(3) {
            trace = damaged(&mut random, &trace);
        }
        if random.one_in(2) {
            tables = damaged(&mut random, &tables);
        }
        if random.one_in(2) {
            order = any_damaged(&mut random, &order);
        }
        let rooms = if random.one_in(2) { ROOMS } else { [random.below(1_000), random.below(60)] };
        met.note(&replay(&trace, &tables, &order, any_delay(&mut random), rooms));
    }
    let all = [0, 1, 2, 3, 4, 5, 6, 7, 8, 11, 12, 13, 14, 15, 16, 21, 22, 32, 33, 54, 55];
    met.assert_all(&all, 10);
}

#[test]
fn many_orders_of_valid_traces() {
    let mut random = Random::from_seed(111);
    let mut met = Met::default();
    let mut bytes = [0; 3];
    for _ in 0..300 {
        let world = World::any(&mut random);
        let (length, lines) = (any_length(&mut random), any_length(&mut random));
        let events = any_trace(&mut random, world, length);
        let delay = any_delay(&mut random);
        let before = happens_before(&events, delay);
        let (_, listed) = racing_pairs(&events, &before);
        let trace = trace_text(&events);
        let tables = tables_text(&any_tables(&mut random, world, lines));
        let count = random.below(30);
        let orders = any_orders(&mut random, &before, &listed, count);
        let needed = if length == 0 { 0 } else { count };
        for room in lengths_around(needed) {
            let answer = try_orders(&trace, &tables, &orders, delay, room);
            met.note(&answer);
            assert_eq!(answer.is_ok(), room >= needed);
        }
        let tried = try_orders(&trace, &tables, &orders, delay, needed).expect("all valid");
        tried.iter().for_each(|&byte| bytes[usize::from(byte)] += 1);
        met.note(&try_orders(&trace, &tables, &any_uneven(&mut random, &orders), delay, count + 1));
    }
    met.assert_all(&[0, 52, 53], 100);
    assert!(bytes.iter().all(|&times| times > 200), "{bytes:?}");
}

#[test]
fn many_orders_of_damaged_texts() {
    let mut random = Random::from_seed(112);
    let mut met = Met::default();
    for _ in 0..8_000 {
        let world = World::any(&mut random);
        let length = random.below(8);
        let events = any_trace(&mut random, world, length);
        let delay = any_delay(&mut random);
        let (mut trace, before) = (trace_text(&events), happens_before(&events, delay));
        let mut tables = tables_text(&any_tables(&mut random, world, length));
        let count = random.below(6);
        let mut orders = any_orders(&mut random, &before, &[], count);
        if random.one_in(3) {
            trace = damaged(&mut random, &trace);
        }
        if random.one_in(2) {
            tables = damaged(&mut random, &tables);
        }
        if random.one_in(3) {
            orders = any_uneven(&mut random, &orders);
        }
        let room = if random.one_in(2) { 64 } else { random.below(6) };
        met.note(&try_orders(&trace, &tables, &orders, delay, room));
    }
    let all = [0, 1, 2, 3, 4, 5, 6, 7, 8, 11, 12, 13, 14, 15, 16, 52, 53, 54, 55];
    met.assert_all(&all, 10);
}

/// All orders of small traces: allowed ones agree with the recorded order, those that break happens-before are
/// refused by 22, and of those that only turn a listed pair many give another result.
#[test]
fn all_orders_of_small_traces() {
    let mut random = Random::from_seed(107);
    let (mut allowed, mut refused, mut turned, mut differing) = (0, 0, 0, 0);
    for _ in 0..400 {
        let world = World { wide: false, switches: random.pick(&[1, 2]) };
        let length = random.below(6);
        let events = any_trace(&mut random, world, length);
        let delay = any_delay(&mut random);
        let before = happens_before(&events, delay);
        let (_, listed) = racing_pairs(&events, &before);
        let trace = trace_text(&events);
        let tables = tables_text(&any_tables(&mut random, world, 4));
        let recorded = replay(&trace, &tables, &recorded_order(length), delay, ROOMS).expect("all valid");
        for order in all_orders(length) {
            let result = replay(&trace, &tables, &order, delay, ROOMS);
            if is_allowed(&order, &before, &listed) {
                allowed += 1;
                assert_eq!(result.as_ref(), Ok(&recorded));
            } else if is_allowed(&order, &before, &[]) {
                turned += 1;
                differing += usize::from(result.as_ref() != Ok(&recorded));
            } else {
                refused += 1;
                assert_eq!(result.unwrap_err().number, 22);
            }
        }
    }
    assert!(allowed > 1_000 && refused > 1_000 && turned > 500, "{allowed} {refused} {turned}");
    assert!(differing > turned / 10, "{differing} of {turned}");
}

/// Demand 3: random allowed orders of a trace, from table texts that hold the same entries, write the bytes of the
/// recorded order.
#[test]
fn allowed_orders_agree() {
    let mut random = Random::from_seed(108);
    let mut moved = 0;
    for _ in 0..500 {
        let world = World::any(&mut random);
        let (length, lines) = (any_length(&mut random), any_length(&mut random));
        let events = any_trace(&mut random, world, length);
        let delay = any_delay(&mut random);
        let before = happens_before(&events, delay);
        let (_, listed) = racing_pairs(&events, &before);
        let trace = trace_text(&events);
        let mut entries = any_tables(&mut random, world, lines);
        let tables = tables_text(&entries);
        random.shuffle(&mut entries);
        let typed_anew = tables_text(&entries);
        let recorded = recorded_order(length);
        let written = replay(&trace, &tables, &recorded, delay, ROOMS).expect("all valid");
        for _ in 0..3 {
            let order = any_allowed(&mut random, &before, &listed);
            moved += usize::from(order != recorded);
            assert_eq!(replay(&trace, &typed_anew, &order, delay, ROOMS).as_ref(), Ok(&written));
        }
    }
    assert!(moved > 500, "{moved} orders differ from the recorded one");
}
