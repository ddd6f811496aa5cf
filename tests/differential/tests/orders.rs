//! Many orders in one call: library and reference agree, and each byte is that which a single replay leads to.

use cases::orders::{all_orders, any_allowed, any_orders, is_allowed, shuffled_orders};
use cases::print::{tables_text, trace_text};
use cases::tables::any_tables;
use cases::traces::{any_length, any_trace};
use cases::{lengths_around, tables, traces, Random, World};
use differential::{replay, try_orders, Refused, DELAY};
use reference::happens_before;
use reference::races::racing_pairs;
use reference::replay::recorded_order;
use reference::table::Origin;
use std::collections::BTreeSet;

const AGREES: u8 = 0;
const DIFFERS: u8 = 1;
const REFUSED: u8 = 2;

/// The bytes that single replays of orders of so many events lead to.
fn by_single_replays(trace: &[u8], tables: &[u8], orders: &[u8], events: usize) -> Vec<u8> {
    let entries = tables.iter().filter(|&&byte| byte == b'\n').count();
    let rooms = [115 * (entries + events), 28 * events];
    let single = |order: &[u8]| replay(trace, tables, order, DELAY, rooms);
    let recorded = single(&recorded_order(events)).expect("the recorded order is accepted");
    let byte = |order: &[u8]| match single(order) {
        Ok(written) if written == recorded => AGREES,
        Ok(_) => DIFFERS,
        Err(Refused { number: 21 | 22, .. }) => REFUSED,
        Err(refused) => panic!("{refused:?}"),
    };
    orders.chunks(events.max(1)).map(byte).collect()
}

/// All sequences of so many bytes, each at most a limit.
fn all_sequences(length: usize, limit: u8) -> Vec<Vec<u8>> {
    let mut sequences = vec![Vec::new()];
    for _ in 0..length {
        let longer = |sequence: &Vec<u8>| (0..=limit).map(|byte| [&sequence[..], &[byte]].concat()).collect();
        sequences = sequences.iter().flat_map::<Vec<_>, _>(longer).collect();
    }
    sequences
}

fn refused(answer: differential::Answer<Vec<u8>>) -> (usize, usize) {
    let refused = answer.unwrap_err();
    assert!(refused.line.is_empty());
    (refused.number, refused.place)
}

/// As many events that nothing orders and that do nothing.
fn others(events: usize) -> Vec<u8> {
    (0..events)
        .map(|event| format!("ev={event} do=oth in=- out=- from=0 to=0\n"))
        .collect::<String>()
        .into_bytes()
}

/// All orders of up to five events, and all sequences of up to three bytes.
#[test]
fn all_orders_of_small_traces() {
    let mut random = Random::from_seed(301);
    let (mut met, mut allowed) = ([0; 3], 0);
    let mut words = BTreeSet::new();
    for _ in 0..700 {
        let world = World { wide: false, switches: random.pick(&[1, 2]) };
        let (length, lines) = (random.below(6), random.below(9));
        let events = any_trace(&mut random, world, length);
        let before = happens_before(&events, DELAY);
        let (_, listed) = racing_pairs(&events, &before);
        let trace = trace_text(&events);
        let tables = tables_text(&any_tables(&mut random, world, lines));
        let mut orders = all_orders(length);
        if length <= 3 {
            orders.extend(all_sequences(length, length as u8));
        }
        random.shuffle(&mut orders);
        let count = if length == 0 { 0 } else { orders.len() };
        let bytes = try_orders(&trace, &tables, &orders.concat(), DELAY, count).expect("all valid");
        assert_eq!(bytes, by_single_replays(&trace, &tables, &orders.concat(), length));
        for (order, &byte) in orders.iter().zip(&bytes) {
            met[usize::from(byte)] += 1;
            let is_order = order.iter().collect::<BTreeSet<_>>().len() == length
                && order.iter().all(|&event| usize::from(event) < length);
            let keeps = is_order && is_allowed(order, &before, &[]);
            assert_eq!(byte == REFUSED, !keeps, "{order:?}");
            if keeps && is_allowed(order, &before, &listed) {
                allowed += 1;
                assert_eq!(byte, AGREES, "{order:?}");
            }
        }
        let text = String::from_utf8(trace).expect("ASCII");
        words.extend(text.lines().map(|line| line.split(['=', ' ']).nth(3).expect("a word").to_owned()));
    }
    assert_eq!(words.len(), 11, "{words:?}");
    assert!(met.iter().all(|&times| times > 500) && allowed > 1_000, "{met:?} {allowed}");
}

#[test]
fn hundreds_of_orders() {
    let mut random = Random::from_seed(302);
    let mut met = [0; 3];
    for turn in 0..24 {
        let world = World { wide: random.one_in(4), switches: random.pick(&[1, 2, 4]) };
        let (events, tables) = match turn {
            0 => (traces::mixed(4), tables::mixed(4, 64)),
            1 => (traces::mixed(1), tables::mixed(1, 256)),
            _ => {
                let (length, lines) = (any_length(&mut random), any_length(&mut random));
                let entries = any_tables(&mut random, world, lines);
                (any_trace(&mut random, world, length), tables_text(&entries))
            }
        };
        let (trace, before) = (trace_text(&events), happens_before(&events, DELAY));
        let (_, listed) = racing_pairs(&events, &before);
        let mut orders = any_orders(&mut random, &before, &listed, 300);
        for _ in 0..20 {
            orders.extend(any_allowed(&mut random, &before, &listed));
        }
        let count = if events.is_empty() { 0 } else { 320 };
        let bytes = try_orders(&trace, &tables, &orders, DELAY, count + 5).expect("all valid");
        assert_eq!(bytes, by_single_replays(&trace, &tables, &orders, events.len()));
        assert!(bytes.iter().skip(300).all(|&byte| byte == AGREES), "orders that are allowed");
        bytes.iter().for_each(|&byte| met[usize::from(byte)] += 1);
    }
    assert!(met.iter().all(|&times| times > 300), "{met:?}");
}

/// What is told of an order doesn't hang on where it stands and on which others are tried.
#[test]
fn orders_by_themselves() {
    let mut random = Random::from_seed(303);
    for _ in 0..60 {
        let world = World { wide: false, switches: random.pick(&[1, 2]) };
        let length = 1 + random.below(30);
        let events = any_trace(&mut random, world, length);
        let (trace, before) = (trace_text(&events), happens_before(&events, DELAY));
        let tables = tables_text(&any_tables(&mut random, world, 30));
        let (_, listed) = racing_pairs(&events, &before);
        let orders = any_orders(&mut random, &before, &listed, 40);
        let bytes = try_orders(&trace, &tables, &orders, DELAY, 40).expect("all valid");
        let mut both: Vec<(&[u8], u8)> = orders.chunks(length).zip(bytes).collect();
        for &(order, byte) in &both {
            assert_eq!(try_orders(&trace, &tables, order, DELAY, 1), Ok(vec![byte]));
        }
        random.shuffle(&mut both);
        let (moved, bytes): (Vec<&[u8]>, Vec<u8>) = both.into_iter().unzip();
        assert_eq!(try_orders(&trace, &tables, &moved.concat(), DELAY, 40), Ok(bytes));
    }
}

/// Each byte at each place of an order between two others: refused, but for the event that stood there.
#[test]
fn repeated_and_foreign_events() {
    for events in [1, 2, 5, 255, 256] {
        let (trace, recorded) = (others(events), recorded_order(events));
        for place in BTreeSet::from([0, 1, events / 2, events.saturating_sub(2), events - 1]) {
            if place >= events {
                continue;
            }
            let (mut orders, mut expected) = (Vec::new(), Vec::new());
            for byte in 0..=u8::MAX {
                let mut changed = recorded.clone();
                changed[place] = byte;
                expected.extend([if changed == recorded { AGREES } else { REFUSED }, AGREES]);
                orders.extend([changed, recorded.clone()].concat());
            }
            assert_eq!(try_orders(&trace, b"", &orders, DELAY, 512), Ok(expected));
        }
    }
}

#[test]
fn no_orders_and_no_events() {
    let tables = tables::sorted();
    for tables in [&b""[..], &tables] {
        for room in [0, 1, 9] {
            assert_eq!(try_orders(b"", tables, b"", DELAY, room), Ok(Vec::new()));
            assert_eq!(try_orders(&others(1), tables, b"", DELAY, room), Ok(Vec::new()));
            assert_eq!(try_orders(&traces::long_adds(), tables, b"", DELAY, room), Ok(Vec::new()));
            for length in [1, 2, 255, 256, 257, 65_536] {
                assert_eq!(refused(try_orders(b"", tables, &vec![0; length], DELAY, room)), (52, 0));
            }
        }
    }
}

/// All lengths up to four orders, and those around many; and every buffer length around the needed one.
#[test]
fn lengths_of_orders_and_buffers() {
    for events in [1, 2, 3, 7, 8, 16, 255, 256] {
        let trace = others(events);
        let orders = recorded_order(events).repeat(102);
        let around_many = 100 * events - 2..=100 * events + 2;
        for length in (0..=4 * events).chain(around_many) {
            let count = length / events;
            let expected = if length % events == 0 { Ok(vec![AGREES; count]) } else { Err((52, 0)) };
            let tried = try_orders(&trace, b"", &orders[..length], DELAY, count);
            assert_eq!(tried.map_err(|refused| (refused.number, refused.place)), expected, "{length}");
            if length % events != 0 {
                assert_eq!(refused(try_orders(&trace, b"", &orders[..length], DELAY, 0)), (52, 0));
            }
        }
        for count in [0, 1, 2, 17, 101] {
            let orders = &orders[..count * events];
            for room in (0..=count + 3).chain(lengths_around(count)) {
                if room < count {
                    assert_eq!(refused(try_orders(&trace, b"", orders, DELAY, room)), (53, count));
                } else {
                    assert_eq!(try_orders(&trace, b"", orders, DELAY, room), Ok(vec![AGREES; count]));
                }
            }
        }
    }
}

/// The first that applies: of the trace, of the tables, of the orders' length, of the buffer.
#[test]
fn refusals_in_their_order() {
    let key_twice = tables::sorted().split_inclusive(|&byte| byte == b'\n').next().expect("a line").repeat(2);
    let at = |trace: &[u8], tables: &[u8], orders: &[u8]| {
        let refused = try_orders(trace, tables, orders, DELAY, 0).unwrap_err();
        (refused.number, refused.place)
    };
    let (trace, uneven, even) = (others(4), [0; 9], [0; 8]);
    assert_eq!(at(b"x\n", &key_twice, &uneven), (4, 0));
    assert_eq!(at(&trace, &key_twice, &uneven), (16, 1));
    assert_eq!(at(&trace, b"", &uneven), (52, 0));
    assert_eq!(at(&trace, b"", &even), (53, 2));
    assert_eq!(at(&trace, &key_twice, &even), (16, 1));
    assert_eq!(try_orders(&trace, b"", &even, DELAY, 2), Ok(vec![REFUSED; 2]));
}

/// 256 events: adds of different keys agree in all orders, of adds of one key the last decides, packets change nothing.
#[test]
fn worst_cases() {
    let mut random = Random::from_seed(304);
    let mut orders = shuffled_orders(&mut random, 256, 100);
    for order in orders.chunks_mut(256).step_by(3) {
        let last = order.iter().position(|&event| event == 255).expect("an event");
        order.swap(last, 255);
    }
    let (reversed, fitting) = (tables::reversed(), tables::all_fitting());
    let all_agree = [
        traces::long_adds(),
        traces::long_checked_adds(),
        traces::packets_to_the_last(Origin::Received),
        traces::packets_to_the_last(Origin::SentOut),
        traces::packets_to_all(),
    ];
    for trace in all_agree {
        for tables in [&b""[..], &reversed, &fitting] {
            assert_eq!(try_orders(&trace, tables, &orders, DELAY, 100), Ok(vec![AGREES; 100]));
        }
    }
    let last_decides = |order: &[u8]| if order[255] == 255 { AGREES } else { DIFFERS };
    let expected: Vec<u8> = orders.chunks(256).map(last_decides).collect();
    assert!(expected.contains(&AGREES) && expected.contains(&DIFFERS));
    for trace in [traces::all_racing(), traces::all_racing_modifies()] {
        assert_eq!(try_orders(&trace, &reversed, &orders, DELAY, 100).as_ref(), Ok(&expected));
    }
    for trace in
        [traces::token_chain(), traces::barriers(), traces::only_barriers(), traces::clock_chain(DELAY)]
    {
        assert_eq!(try_orders(&trace, &reversed, &orders, DELAY, 100), Ok(vec![REFUSED; 100]));
    }
}

#[test]
fn a_megabyte_of_orders() {
    let orders = shuffled_orders(&mut Random::from_seed(305), 256, 4_096);
    assert_eq!(try_orders(&others(256), b"", &orders, DELAY, 4_096), Ok(vec![AGREES; 4_096]));
    let orders = [0, 1, 0, 255].repeat(25_000);
    let expected = [AGREES, REFUSED, AGREES, REFUSED].repeat(25_000);
    assert_eq!(try_orders(&others(1), b"", &orders, DELAY, 100_000), Ok(expected));
    assert_eq!(refused(try_orders(&others(1), b"", &orders, DELAY, 99_999)), (53, 100_000));
}
