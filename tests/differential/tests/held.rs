//! How many entries are held on all switches together: at most 256 come in, each event adds at most one, and after every part
//! of an order at most 512 are held. Library and reference agree, and both do what is said here.

use cases::orders::accepted_orders;
use cases::print::{tables_text, trace_text};
use cases::tables::{any_tables, long_entry, reversed, LONG_SWITCH};
use cases::traces::{alone, any_length, any_trace};
use cases::{Random, World};
use differential::{replay, DELAY};
use gellunka::{ANSWERS_ROOM, TABLES_ROOM};
use reference::flow::Entry;
use reference::happens_before;
use reference::replay::recorded_order;
use reference::table::TableOperation;
use reference::trace::{Event, Operation};

/// How many entries are held before the events, and after each of them.
fn held(events: &[Event], tables: &[u8]) -> Vec<usize> {
    let after = |count: usize| {
        let trace = trace_text(&events[..count]);
        let written = replay(&trace, tables, &recorded_order(count), DELAY, [TABLES_ROOM, ANSWERS_ROOM]);
        written.expect("all valid").tables.iter().filter(|&&byte| byte == b'\n').count()
    };
    (0..=events.len()).map(after).collect()
}

/// Some events in an order that keeps happens-before.
fn in_another_order(random: &mut Random, events: &[Event]) -> Vec<Event> {
    let order = accepted_orders(random, &happens_before(events, DELAY), 1);
    order.iter().map(|&event| events[usize::from(event)].clone()).collect()
}

#[test]
fn each_event_adds_at_most_one() {
    let mut random = Random::from_seed(701);
    let [mut more, mut as_many, mut fewer] = [0; 3];
    for _ in 0..100 {
        let world = World::any(&mut random);
        let (length, lines) = (any_length(&mut random), any_length(&mut random));
        let recorded = any_trace(&mut random, world, length);
        let tables = any_tables(&mut random, world, lines);
        for events in [in_another_order(&mut random, &recorded), recorded] {
            let held = held(&events, &tables_text(&tables));
            assert_eq!(held[0], tables.len());
            for two in held.windows(2) {
                assert!(two[1] <= two[0] + 1, "{held:?}");
                more += usize::from(two[1] > two[0]);
                as_many += usize::from(two[1] == two[0]);
                fewer += usize::from(two[1] < two[0]);
            }
        }
    }
    assert!(more > 500 && as_many > 500 && fewer > 100, "{more} {as_many} {fewer}");
}

/// 256 entries, and 256 events that add one each: 512 is reached, and not passed. Where the keys are held already none is added.
#[test]
fn from_256_entries_to_512() {
    let words: [fn(Entry) -> TableOperation; 4] = [
        TableOperation::Add,
        TableOperation::CheckedAdd,
        TableOperation::StrictModify,
        TableOperation::Modify,
    ];
    for word in words {
        let event = |n| alone(Operation::Table(LONG_SWITCH, word(long_entry(n))));
        let others: Vec<Event> = (256..512).map(event).collect();
        assert_eq!(held(&others, &reversed()), (256..=512).collect::<Vec<_>>());
        let same: Vec<Event> = (0..256).map(event).collect();
        assert_eq!(held(&same, &reversed()), [256; 257]);
    }
}
