//! The generators are tried on the reference: what is made valid is accepted, the damaged texts reach
//! every refusal, and allowed orders agree with the recorded one.

use cases::clocks::{any_delay, any_unsorted_clocks};
use cases::damage::damaged;
use cases::orders::{
    accepted_orders, all_orders, any_allowed, any_damaged, any_orders, any_uneven, is_allowed,
    shuffled_orders,
};
use cases::print::{tables_text, trace_text};
use cases::tables::{self, any_tables};
use cases::traces::{self, all_received, any_length, any_trace};
use cases::{Random, World};
use reference::causality::{directly_precedes, precedes_in_time};
use reference::output::DEFAULT_DELAY as DELAY;
use reference::races::racing_pairs;
use reference::replay::recorded_order;
use reference::table::Origin::{Received, SentOut};
use reference::trace::Event;
use reference::{
    happens_before, list, normal_text, normalise, page, read_tables, read_trace, replay, share, try_orders,
    Counts, Refusal, Share, PAGE_ROOM,
};
use std::collections::{BTreeMap, BTreeSet};

#[test]
fn valid_texts_are_accepted() {
    let mut random = Random::from_seed(1);
    for _ in 0..2000 {
        let world = World::any(&mut random);
        let length = any_length(&mut random);
        let events = any_trace(&mut random, world, length);
        assert_eq!(read_trace(&trace_text(&events), any_delay(&mut random)), Ok(events));
        let entries = any_tables(&mut random, world, length);
        let text = tables_text(&entries);
        let tables = read_tables(&text).expect("a valid text");
        for (switch, entry) in &entries {
            assert!(tables[usize::from(*switch)].entries().any(|e| e == *entry));
        }
        assert_eq!(tables.iter().map(|table| table.len()).sum::<usize>(), entries.len());
    }
}

#[test]
fn normal_forms() {
    let mut random = Random::from_seed(2);
    for _ in 0..500 {
        let world = World::any(&mut random);
        let length = any_length(&mut random);
        let mut entries = any_tables(&mut random, world, length);
        let text = tables_text(&entries);
        random.shuffle(&mut entries);
        let typed_anew = tables_text(&entries);
        let normal = normal_of(&text);
        assert_eq!(normal, normal_of(&typed_anew));
        assert_eq!(normal, normal_of(&normal));
        assert_eq!(normal, normal_text(&read_tables(&text).expect("a valid text")));
        assert_eq!(normal.len(), text.len());
    }
}

fn normal_of(text: &[u8]) -> Vec<u8> {
    let mut out = vec![0; text.len()];
    let length = normalise(text, &mut out).expect("a valid text");
    out.truncate(length);
    out
}

/// Happens-before as document 01 says it: every chain of one or more steps, to lines before and behind, found by a search.
fn reached(events: &[Event], from: usize, delay: u32) -> Vec<bool> {
    let mut seen = vec![false; events.len()];
    let mut to_do = vec![from];
    while let Some(event) = to_do.pop() {
        for other in 0..events.len() {
            if !seen[other] && directly_precedes(events, event, other, delay) {
                seen[other] = true;
                to_do.push(other);
            }
        }
    }
    seen
}

#[test]
fn happens_before_is_every_chain() {
    let mut random = Random::from_seed(3);
    for _ in 0..300 {
        let world = World::any(&mut random);
        let length = any_length(&mut random);
        let mut events = any_trace(&mut random, world, length);
        if random.one_in(4) {
            any_unsorted_clocks(&mut random, &mut events);
        }
        let delay = any_delay(&mut random);
        let before = happens_before(&events, delay);
        for earlier in 0..events.len() {
            let row: Vec<bool> = before.iter().map(|set| set.contains(earlier)).collect();
            assert_eq!(row, reached(&events, earlier, delay));
        }
    }
}

/// 55 tells the lowest line behind a later one, as a search over all pairs finds it; and at a larger delay nothing more is
/// refused.
#[test]
fn times_backward() {
    let mut random = Random::from_seed(11);
    let [mut refused, mut accepted] = [0; 2];
    for _ in 0..2_000 {
        let world = World::any(&mut random);
        let length = random.below(12);
        let mut events = any_trace(&mut random, world, length);
        any_unsorted_clocks(&mut random, &mut events);
        let text = trace_text(&events);
        let mut delays = [any_delay(&mut random), any_delay(&mut random)];
        delays.sort_unstable();
        let places = delays.map(|delay| {
            let is_behind = |line: &usize| {
                (line + 1..length).any(|later| precedes_in_time(&events[later], &events[*line], delay))
            };
            let place = (0..length).find(is_behind);
            let answer =
                read_trace(&text, delay).map(drop).map_err(|refusal| (refusal.number, refusal.place));
            assert_eq!(answer, place.map_or(Ok(()), |line| Err((55, line))));
            place
        });
        assert!(places[0].is_some() || places[1].is_none());
        refused += usize::from(places[0].is_some());
        accepted += usize::from(places[0].is_none());
    }
    assert!(refused > 400 && accepted > 400, "{refused} {accepted}");
}

/// A larger delay orders no more: every pair that was listed is, and no more events happen before others.
#[test]
fn larger_delays() {
    let mut random = Random::from_seed(12);
    let mut more = 0;
    for _ in 0..500 {
        let world = World::any(&mut random);
        let length = any_length(&mut random);
        let events = any_trace(&mut random, world, length);
        let at = |delay| {
            let before = happens_before(&events, delay);
            let (_, pairs) = racing_pairs(&events, &before);
            (before, pairs.into_iter().collect::<BTreeSet<_>>())
        };
        let delays = [0, 1, 10, 1_000, 2_000, 4_000, 10_000, u32::MAX].map(at);
        for two in delays.windows(2) {
            let [(smaller, few), (larger, all)] = two else { unreachable!("two of them") };
            assert!(larger.iter().zip(smaller).all(|(set, more)| set.within(more)));
            assert!(few.is_subset(all));
            more += usize::from(few.len() < all.len());
        }
    }
    assert!(more > 100, "{more} lists are longer");
}

#[test]
fn every_refusal_is_reached() {
    let mut random = Random::from_seed(4);
    let mut reached: BTreeMap<u8, usize> = BTreeMap::new();
    let mut note = |answer: Result<(), Refusal>| {
        *reached.entry(answer.map_or_else(|refusal| refusal.number, |()| 0)).or_default() += 1;
    };
    for _ in 0..20_000 {
        let world = World::any(&mut random);
        let length = random.below(12);
        let trace = trace_text(&any_trace(&mut random, world, length));
        let tables = tables_text(&any_tables(&mut random, world, length));
        let delay = any_delay(&mut random);
        let fault = damaged(&mut random, &trace);
        assert_eq!(share(&fault, delay).err(), read_trace(&fault, delay).err());
        note(read_trace(&fault, delay).map(drop));
        note(read_tables(&damaged(&mut random, &tables)).map(drop));
        let order = any_damaged(&mut random, &recorded_order(length));
        let mut room = |most| vec![0; random.below(most)];
        let (mut list_room, mut tables_room, mut answers_room) = (room(20), room(2000), room(60));
        note(list(&trace, delay, &mut list_room).map(drop));
        note(page(&trace, delay, &mut room(600)).map(drop));
        note(replay(&trace, &tables, &order, delay, &mut tables_room, &mut answers_room).map(drop));
        let mut room = room(6);
        let even = recorded_order(length).repeat(random.below(5));
        note(try_orders(&trace, &tables, &even, delay, &mut room).map(drop));
        note(try_orders(&trace, &tables, &any_uneven(&mut random, &even), delay, &mut room).map(drop));
    }
    for number in [0, 1, 2, 3, 4, 5, 6, 7, 8, 11, 12, 13, 14, 15, 16, 21, 22, 31, 32, 33, 51, 52, 53, 54, 55]
    {
        let times = reached.get(&number).copied().unwrap_or(0);
        assert!(times >= 50, "refusal {number} reached {times} times: {reached:?}");
    }
}

/// End tables and answers in one order.
fn replayed(trace: &[u8], tables: &[u8], order: &[u8], delay: u32) -> Result<(Vec<u8>, Vec<u8>), u8> {
    let (mut end, mut answers) = (vec![0; 58_880], vec![0; 7_168]);
    match replay(trace, tables, order, delay, &mut end, &mut answers) {
        Ok(lengths) => {
            end.truncate(lengths.tables);
            answers.truncate(lengths.answers);
            Ok((end, answers))
        }
        Err(refusal) => Err(refusal.number),
    }
}

#[test]
fn all_orders_of_small_traces() {
    let mut random = Random::from_seed(5);
    let (mut allowed, mut refused, mut flipped, mut differing) = (0, 0, 0, 0);
    for _ in 0..1_000 {
        let world = World { wide: false, switches: random.pick(&[1, 2]) };
        let length = random.below(6);
        let events = any_trace(&mut random, world, length);
        let delay = any_delay(&mut random);
        let before = happens_before(&events, delay);
        let (_, listed) = racing_pairs(&events, &before);
        let trace = trace_text(&events);
        let tables = tables_text(&any_tables(&mut random, world, 4));
        let recorded = replayed(&trace, &tables, &recorded_order(length), delay);
        assert!(recorded.is_ok());
        for order in all_orders(length) {
            let result = replayed(&trace, &tables, &order, delay);
            if is_allowed(&order, &before, &listed) {
                allowed += 1;
                assert_eq!(result, recorded, "{order:?}\n{}", String::from_utf8_lossy(&trace));
            } else if is_allowed(&order, &before, &[]) {
                flipped += 1;
                differing += usize::from(result != recorded);
            } else {
                refused += 1;
                assert_eq!(result, Err(22));
            }
        }
    }
    assert!(allowed > 2000 && refused > 2000 && flipped > 2000, "{allowed} {refused} {flipped}");
    assert!(differing > flipped / 10, "{differing} of {flipped}");
}

#[test]
fn random_allowed_orders() {
    let mut random = Random::from_seed(6);
    let mut moved = 0;
    for _ in 0..600 {
        let world = World::any(&mut random);
        let length = any_length(&mut random);
        let events = any_trace(&mut random, world, length);
        let delay = any_delay(&mut random);
        let before = happens_before(&events, delay);
        let (_, listed) = racing_pairs(&events, &before);
        let trace = trace_text(&events);
        let tables = tables_text(&any_tables(&mut random, world, length));
        let recorded_order = recorded_order(length);
        let order = any_allowed(&mut random, &before, &listed);
        assert!(is_allowed(&order, &before, &listed));
        moved += usize::from(order != recorded_order);
        let recorded = replayed(&trace, &tables, &recorded_order, delay);
        assert!(recorded.is_ok());
        assert_eq!(replayed(&trace, &tables, &order, delay), recorded, "{order:?}");
    }
    assert!(moved > 300, "{moved} orders differ from the recorded one");
}

/// Each byte of many orders is that which a replay of the order leads to, and all three occur often.
#[test]
fn many_orders_as_single_ones() {
    let mut random = Random::from_seed(8);
    let mut met = [0; 3];
    for _ in 0..400 {
        let world = World::any(&mut random);
        let length = any_length(&mut random);
        let events = any_trace(&mut random, world, length);
        let delay = any_delay(&mut random);
        let before = happens_before(&events, delay);
        let (_, listed) = racing_pairs(&events, &before);
        let trace = trace_text(&events);
        let tables = tables_text(&any_tables(&mut random, world, length));
        let orders = any_orders(&mut random, &before, &listed, 20);
        assert_eq!(orders.len(), 20 * length);
        let mut bytes = vec![9; 20];
        let count = if length == 0 { 0 } else { 20 };
        assert_eq!(try_orders(&trace, &tables, &orders, delay, &mut bytes), Ok(count));
        let recorded = replayed(&trace, &tables, &recorded_order(length), delay);
        for (order, &byte) in orders.chunks(length.max(1)).zip(&bytes) {
            let single = match replayed(&trace, &tables, order, delay) {
                Err(number) => {
                    assert!(matches!(number, 21 | 22), "{number}");
                    2
                }
                result => u8::from(result != recorded),
            };
            assert_eq!(byte, single, "{order:?}");
            met[usize::from(byte)] += 1;
        }
        assert!(bytes[count..].iter().all(|&byte| byte == 9));
    }
    assert!(met.iter().all(|&times| times > 500), "{met:?}");
}

/// The orders of the benchmark are accepted, many differ from the recorded one, and the traces have all words.
#[test]
fn mixed_events() {
    let mut random = Random::from_seed(9);
    for (switches, lines) in [(4, 64), (1, 256)] {
        let events = traces::mixed(switches);
        let (trace, tables) = (trace_text(&events), tables::mixed(switches, lines));
        assert_eq!(read_tables(&tables).unwrap().iter().map(|table| table.len()).sum::<usize>(), lines);
        let text = std::str::from_utf8(&trace).unwrap();
        let words: BTreeSet<&str> = text.lines().map(|line| line.split(['=', ' ']).nth(3).unwrap()).collect();
        assert_eq!(words.len(), 11, "{words:?}");
        let mut bytes = [9; 100];
        let orders = accepted_orders(&mut random, &happens_before(&events, DELAY), 100);
        assert_eq!(try_orders(&trace, &tables, &orders, DELAY, &mut bytes), Ok(100));
        assert!(bytes.iter().all(|&byte| byte < 2) && bytes.contains(&1), "{bytes:?}");
    }
    let mut bytes = [9; 10];
    let orders = shuffled_orders(&mut random, 256, 10);
    for tables in [Vec::new(), tables::reversed()] {
        assert_eq!(try_orders(&traces::long_adds(), &tables, &orders, DELAY, &mut bytes), Ok(10));
        assert_eq!(bytes, [0; 10]);
    }
}

/// With `pkt` for each `pout` fewer events are ordered and more pairs listed; what the recorded order does stays.
#[test]
fn packets_sent_out_as_received() {
    let mut random = Random::from_seed(7);
    let mut more = 0;
    for _ in 0..600 {
        let world = World { wide: false, switches: random.pick(&[1, 2]) };
        let length = any_length(&mut random);
        let events = any_trace(&mut random, world, length);
        let delay = any_delay(&mut random);
        let both = [all_received(&events), events];
        let [received, sent_out] = both.each_ref().map(|events| happens_before(events, delay));
        assert!(received.iter().zip(&sent_out).all(|(before, more)| before.within(more)));
        let (counts, listed) = racing_pairs(&both[0], &received);
        let (fewer, part) = racing_pairs(&both[1], &sent_out);
        assert_eq!(counts.pairs, fewer.pairs);
        assert!(part.iter().collect::<BTreeSet<_>>().is_subset(&listed.iter().collect()));
        more += usize::from(fewer.listed < counts.listed);
        let tables = tables_text(&any_tables(&mut random, world, length));
        let order = recorded_order(length);
        let [received, sent_out] = both.map(|events| replayed(&trace_text(&events), &tables, &order, delay));
        assert!(received.is_ok());
        assert_eq!(received, sent_out);
    }
    assert!(more > 100, "{more} lists are longer");
}

/// A share gives 1000 times commuting back, and what remains is below the divisor. Often something remains, and often no
/// pair is unordered.
#[test]
fn shares_of_counts() {
    let mut random = Random::from_seed(10);
    let [mut uneven, mut none] = [0; 2];
    for _ in 0..1_000 {
        let world = World::any(&mut random);
        let length = any_length(&mut random);
        let events = any_trace(&mut random, world, length);
        let delay = any_delay(&mut random);
        let (counts, _) = racing_pairs(&events, &happens_before(&events, delay));
        let share = share(&trace_text(&events), delay).expect("a valid trace");
        let Share { quotient, remainder, divisor } = share;
        assert_eq!(divisor, counts.commuting + counts.listed);
        assert_eq!(divisor, counts.pairs - counts.ordered);
        assert_eq!(quotient * divisor + remainder, 1000 * counts.commuting);
        assert!(remainder < divisor || [quotient, remainder, divisor] == [0; 3]);
        uneven += usize::from(remainder > 0);
        none += usize::from(divisor == 0);
    }
    assert!(uneven > 200 && none > 200, "{uneven} {none}");
}

#[test]
fn worst_cases() {
    let mut room = vec![0; 65_280];
    let mut counts = |text: &[u8]| list(text, DELAY, &mut room).expect("a valid text");
    let all = 256 * 255 / 2;
    let racing = Counts { pairs: all, ordered: 0, commuting: 0, listed: all };
    assert_eq!(counts(&traces::all_racing()), racing);
    assert_eq!(page(&traces::all_racing(), DELAY, &mut vec![0; PAGE_ROOM]), Ok(PAGE_ROOM));
    assert_eq!(share(&traces::all_racing(), DELAY), Ok(Share { quotient: 0, remainder: 0, divisor: all }));
    assert_eq!(counts(&traces::all_racing_modifies()), racing);
    assert_eq!(counts(&traces::token_chain()), Counts { ordered: all, listed: 0, ..racing });
    assert_eq!(share(&traces::token_chain(), DELAY), Ok(Share::default()));
    let half = 128 * 127 / 2;
    for trace in [traces::barriers(), traces::barriers_and_packets()] {
        assert_eq!(counts(&trace), Counts { pairs: half, ordered: half, commuting: 0, listed: 0 });
    }
    assert_eq!(counts(&traces::only_barriers()), Counts::default());
    assert_eq!(counts(&traces::clock_chain(DELAY)), Counts { ordered: all, listed: 0, ..racing });
    assert_eq!(counts(&traces::falling_clocks(DELAY)), Counts::default());
    let falling = traces::falling_clocks(DELAY);
    let refused = read_trace(&falling, DELAY - 1).expect_err("the last is too far before the second");
    assert_eq!((refused.number, refused.place), (55, 1));
    let commuting = Counts { commuting: all, listed: 0, ..racing };
    let [received, sent_out] = [Received, SentOut].map(traces::packets_to_the_last);
    for trace in [traces::long_adds(), traces::long_checked_adds(), received, sent_out] {
        assert_eq!(counts(&trace), commuting);
        assert_eq!(share(&trace, DELAY), Ok(Share { quotient: 1000, remainder: 0, divisor: all }));
    }
    assert_eq!(normal_of(&tables::reversed()), tables::sorted());
}

#[test]
fn worst_cases_replayed() {
    let replay = |trace: &[u8]| replayed(trace, &tables::reversed(), &recorded_order(256), DELAY).unwrap();
    let answers = |answer: &str| -> Vec<u8> {
        (0..256).map(|event| format!("ev={event} {answer}\n")).collect::<String>().into_bytes()
    };
    let (end, none) = replay(&traces::long_adds());
    assert_eq!((end.len(), none.len()), (58_880, 0));
    assert_eq!(replay(&traces::long_checked_adds()), (end, answers("done=yes")));
    let last = String::from_utf8(tables::sorted()).unwrap().replace("act=p65535", "act=p255");
    assert_eq!(replay(&traces::all_racing_modifies()), (last.into_bytes(), Vec::new()));
    for packets in [Received, SentOut].map(traces::packets_to_the_last) {
        assert_eq!(replay(&packets), (tables::sorted(), answers("hit=65535,1,p65535")));
    }
}
