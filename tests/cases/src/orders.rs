//! Orders of the events of a trace.

use crate::Random;
use reference::replay::recorded_order;
use reference::EventSet;

/// All orders of a few events.
pub fn all_orders(events: usize) -> Vec<Vec<u8>> {
    let mut orders = vec![Vec::new()];
    for event in (0..=u8::MAX).take(events) {
        let with_event = |order: &Vec<u8>| -> Vec<Vec<u8>> {
            let insert = |at| [&order[..at], &[event], &order[at..]].concat();
            (0..=order.len()).map(insert).collect()
        };
        orders = orders.iter().flat_map(with_event).collect();
    }
    orders
}

/// Whether each event stands after all that happen before it, and each listed pair in recorded order.
pub fn is_allowed(order: &[u8], before: &[EventSet], listed: &[[u8; 2]]) -> bool {
    let at = |event: u8| order.iter().position(|&e| e == event);
    let keeps = |low: u8, high: u8| at(low) < at(high);
    let events = || (0..=u8::MAX).take(before.len());
    events().all(|high| {
        let set = &before[usize::from(high)];
        events().all(|low| !set.contains(usize::from(low)) || keeps(low, high))
    }) && listed.iter().all(|&[low, high]| keeps(low, high))
}

/// A random allowed order: one after the other, some event is taken for which none is left that must
/// precede it.
pub fn any_allowed(random: &mut Random, before: &[EventSet], listed: &[[u8; 2]]) -> Vec<u8> {
    let events = before.len();
    let mut waits_for: Vec<EventSet> = before.to_vec();
    for &[low, high] in listed {
        waits_for[usize::from(high)].insert(usize::from(low));
    }
    let mut left: Vec<usize> = (0..events).collect();
    let mut taken = EventSet::default();
    let mut order = Vec::with_capacity(events);
    while !left.is_empty() {
        let is_free = |event: usize| waits_for[event].within(&taken);
        let free: Vec<usize> = left.iter().copied().filter(|&event| is_free(event)).collect();
        // The last free event goes furthest from the recorded order.
        let next = if random.one_in(2) { free[free.len() - 1] } else { random.pick(&free) };
        left.retain(|&event| event != next);
        taken.insert(next);
        order.push(u8::try_from(next).expect("at most 256 events"));
    }
    order
}

/// An order that keeps happens-before and has a listed pair turned round: the recorded one, but for the lower event and
/// those between the two that it happens before, which stand behind the higher one.
pub fn turned(before: &[EventSet], [low, high]: [u8; 2]) -> Vec<u8> {
    let mut order = recorded_order(before.len());
    let waits = |event: u8| event == low || before[usize::from(event)].contains(usize::from(low));
    // By `false` and `true`, and else as they stood.
    order[usize::from(low)..=usize::from(high)].sort_by_key(|&event| waits(event));
    order
}

/// An order with a byte for each event: the recorded one, one that keeps happens-before, with and without the listed
/// pairs, one with a listed pair turned round, any at all, one with an event twice, one with a byte that is no event.
pub fn any_order(random: &mut Random, before: &[EventSet], listed: &[[u8; 2]]) -> Vec<u8> {
    let mut order = recorded_order(before.len());
    let events = order.len();
    if events == 0 {
        return order;
    }
    match random.below(8) {
        0 => {}
        1 | 2 => order = any_allowed(random, before, &[]),
        3 => order = any_allowed(random, before, listed),
        4 if !listed.is_empty() => order = turned(before, random.pick(listed)),
        6 => order[random.below(events)] = order[random.below(events)],
        7 if events < 256 => {
            let other = events + random.below(256 - events);
            order[random.below(events)] = u8::try_from(other).expect("a byte");
        }
        _ => random.shuffle(&mut order),
    }
    order
}

/// So many of these, end to end.
pub fn any_orders(random: &mut Random, before: &[EventSet], listed: &[[u8; 2]], count: usize) -> Vec<u8> {
    (0..count).flat_map(|_| any_order(random, before, listed)).collect()
}

/// So many random orders that keep happens-before, end to end.
pub fn accepted_orders(random: &mut Random, before: &[EventSet], count: usize) -> Vec<u8> {
    (0..count).flat_map(|_| any_allowed(random, before, &[])).collect()
}

/// So many orders of some events, end to end, each put together without regard to happens-before.
pub fn shuffled_orders(random: &mut Random, events: usize, count: usize) -> Vec<u8> {
    let shuffled = |_| {
        let mut order = recorded_order(events);
        random.shuffle(&mut order);
        order
    };
    (0..count).flat_map(shuffled).collect()
}

/// Orders end to end with a byte more or less; none at all get one more.
pub fn any_uneven(random: &mut Random, orders: &[u8]) -> Vec<u8> {
    let mut orders = orders.to_vec();
    let at = random.below(orders.len() + 1);
    if at < orders.len() && random.one_in(2) {
        orders.remove(at);
    } else {
        orders.insert(at, random.pick(&[0, 1, 255]));
    }
    orders
}

/// A damaged order: two events exchanged, one moved, one lost, one twice, one that is none, one more.
pub fn any_damaged(random: &mut Random, order: &[u8]) -> Vec<u8> {
    let mut order = order.to_vec();
    let (i, j) = match order.len() {
        0 => return vec![random.pick(&[0, 1, 255])],
        n => (random.below(n), random.below(n)),
    };
    match random.below(8) {
        0 | 1 => order.swap(i, j),
        2 => {
            let event = order.remove(i);
            order.insert(j, event);
        }
        3 => {
            order.remove(i);
        }
        4 => order[i] = order[j],
        5 => order[i] = random.pick(&[0, 254, 255]),
        6 => order.insert(i, random.pick(&[0, 1, 255])),
        _ => random.shuffle(&mut order),
    }
    order
}

#[cfg(test)]
mod tests {
    use super::*;

    #[test]
    fn all_orders_of_four() {
        let mut orders = all_orders(4);
        orders.sort_unstable();
        orders.dedup();
        assert_eq!(orders.len(), 24);
        assert!(orders.iter().all(|order| is_allowed(order, &[EventSet::default(); 4], &[])));
        assert_eq!(all_orders(0), [[0u8; 0]]);
    }

    #[test]
    fn a_pair_turned_round() {
        let mut before = [EventSet::default(); 6];
        before[2].insert(1);
        before[5].insert(1);
        assert_eq!(turned(&before, [1, 4]), [0, 3, 4, 1, 2, 5]);
        assert_eq!(turned(&before, [0, 1]), [1, 0, 2, 3, 4, 5]);
        assert!(is_allowed(&turned(&before, [1, 4]), &before, &[[4, 1], [2, 5]]));
    }

    #[test]
    fn uneven_lengths() {
        let mut random = Random::from_seed(1);
        assert_eq!(any_uneven(&mut random, &[]).len(), 1);
        for _ in 0..50 {
            assert!(matches!(any_uneven(&mut random, &[0; 9]).len(), 8 | 10));
        }
    }
}
