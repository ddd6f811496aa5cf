//! Valid traces, random ones and worst cases.

use crate::clocks::any_clocks;
use crate::print::trace_text;
use crate::tables::{fitting_entry, long_entry, FITTING_PACKET, LONG_SWITCH};
use crate::{Random, World};
use reference::flow::{Action, Entry, Key, Match, Packet};
use reference::table::{Origin, TableOperation};
use reference::trace::{Clock, Event, Operation};

/// How many events a random trace has: mostly few, sometimes as many as there may be.
pub fn any_length(random: &mut Random) -> usize {
    match random.below(12) {
        0 => 256,
        1 => random.below(257),
        2..=4 => random.below(40),
        _ => random.below(9),
    }
}

/// The events of a random trace that is accepted at every delay, half of the time with clocks.
pub fn any_trace(random: &mut Random, world: World, length: usize) -> Vec<Event> {
    let mut events = any_untimed(random, world, length);
    any_clocks(random, &mut events);
    events
}

/// The events of a random valid trace without clocks. Tokens are passed on to later lines; some are taken more than
/// once, some never, and some are taken that were never put out.
pub fn any_untimed(random: &mut Random, world: World, length: usize) -> Vec<Event> {
    let mut fresh = token_numbers(random);
    let never_put = fresh.split_off(fresh.len() - 8);
    let mut known: Vec<u16> = Vec::new();
    let (token_share, barrier_share) = (random.pick(&[2, 4, 16]), random.pick(&[6, 20]));
    let mut events = Vec::with_capacity(length);
    for _ in 0..length {
        let operation = any_operation(random, world, barrier_share);
        let mut taken = Vec::new();
        while taken.len() < 4 && random.one_in(token_share) {
            let pool = if known.is_empty() || random.one_in(8) { &never_put } else { &known };
            taken.push(random.pick(pool));
        }
        let mut put = Vec::new();
        while put.len() < 4 && random.one_in(token_share) {
            put.extend(fresh.pop());
        }
        known.extend(&put);
        for tokens in [&mut taken, &mut put] {
            tokens.sort_unstable();
            tokens.dedup();
        }
        events.push(Event { operation, taken, put, clock: Clock::default() });
    }
    events
}

/// 256 events of all words on some switches. Few tokens and barriers order them, so that many orders keep happens-before;
/// matches often overlap or lie within each other.
pub fn mixed(switches: usize) -> Vec<Event> {
    // A seed from which few lines pass tokens and few are barriers.
    any_untimed(&mut Random::from_seed(9), World { wide: false, switches }, 256)
}

/// All token numbers that a trace may need, in a random order, with the least and the largest.
fn token_numbers(random: &mut Random) -> Vec<u16> {
    let mut numbers: Vec<u16> = (0..600).chain(64_936..=65_535).collect();
    random.shuffle(&mut numbers);
    numbers
}

fn any_operation(random: &mut Random, world: World, barrier_share: usize) -> Operation {
    let switch = world.switch(random);
    match random.below(10) {
        _ if random.one_in(barrier_share) => Operation::Barrier(switch),
        0 => Operation::Message(switch),
        1 => Operation::Other,
        _ => Operation::Table(switch, world.operation(random)),
    }
}

/// Some events with `pkt` for each `pout`.
pub fn all_received(events: &[Event]) -> Vec<Event> {
    let mut events = events.to_vec();
    for event in &mut events {
        if let Operation::Table(_, TableOperation::Packet(origin, _)) = &mut event.operation {
            *origin = Origin::Received;
        }
    }
    events
}

/// An event without tokens and without a clock.
pub fn alone(operation: Operation) -> Event {
    Event { operation, taken: Vec::new(), put: Vec::new(), clock: Clock::default() }
}

/// Events without tokens and without clocks.
fn apart(operations: impl IntoIterator<Item = Operation>) -> Vec<Event> {
    operations.into_iter().map(alone).collect()
}

fn entry(matching: Match, port: u16) -> Entry {
    Entry { key: Key::new(5, matching), action: Action::Port(port) }
}

/// 256 adds of one key with different actions, all on one switch and none ordered: every pair races.
pub fn all_racing() -> Vec<u8> {
    let add = |n| Operation::Table(1, TableOperation::Add(entry(Match::ANY, n)));
    trace_text(&apart((0..256).map(add)))
}

/// 256 non-strict modifies with different actions, of the match that all lie within: every pair races, and onto
/// [`crate::tables::reversed`] each changes all entries.
pub fn all_racing_modifies() -> Vec<u8> {
    let modify = |n| Operation::Table(LONG_SWITCH, TableOperation::Modify(entry(Match::ANY, n)));
    trace_text(&apart((0..256).map(modify)))
}

/// 256 adds of one switch, each of which takes in the token that the one before it put out.
pub fn token_chain() -> Vec<u8> {
    let mut events = apart((0..256).map(|n| Operation::Table(1, TableOperation::Add(entry(Match::ANY, n)))));
    for (token, event) in (0..).zip(&mut events) {
        event.put = vec![token];
        event.taken = token.checked_sub(1).into_iter().collect();
    }
    trace_text(&events)
}

/// 256 adds of one key with different actions, each behind the one before it by a second more than a delay.
pub fn clock_chain(delay: u32) -> Vec<u8> {
    let mut events = apart((0..256).map(|n| Operation::Table(1, TableOperation::Add(entry(Match::ANY, n)))));
    for (line, event) in (0..).zip(&mut events) {
        let time = line * (delay + 1_000);
        event.clock = Clock { from: time, to: time };
    }
    trace_text(&events)
}

/// 256 messages of one switch: one, and far behind it the others, whose times fall from line to line but all lie within a
/// delay. No later line is far enough before an earlier one, and there is no pair.
pub fn falling_clocks(delay: u32) -> Vec<u8> {
    let mut events = apart((0..256).map(|_| Operation::Message(1)));
    for (line, event) in (0..).zip(&mut events).skip(1) {
        let time = 2 * delay + delay * (255 - line) / 254 + 1;
        event.clock = Clock { from: time, to: time };
    }
    trace_text(&events)
}

/// 128 operations of one switch with a barrier after each.
fn with_barriers(operation: impl Fn(u16) -> TableOperation) -> Vec<u8> {
    let two = |n| [Operation::Table(1, operation(n)), Operation::Barrier(1)];
    trace_text(&apart((0..128).flat_map(two)))
}

/// 128 adds of one switch with a barrier after each.
pub fn barriers() -> Vec<u8> {
    with_barriers(|n| TableOperation::Add(entry(Match::ANY, n)))
}

/// 128 packets sent out on one switch with a barrier after each.
pub fn barriers_and_packets() -> Vec<u8> {
    with_barriers(|_| TableOperation::Packet(Origin::SentOut, FITTING_PACKET))
}

/// 256 barriers of one switch: each directly precedes all later ones.
pub fn only_barriers() -> Vec<u8> {
    trace_text(&apart((0..256).map(|_| Operation::Barrier(1))))
}

/// An operation for each of the 256 longest entries after those of [`crate::tables::reversed`], on their switch.
fn long_writes(operation: fn(Entry) -> TableOperation) -> Vec<u8> {
    let write = |n| Operation::Table(LONG_SWITCH, operation(long_entry(n)));
    trace_text(&apart((256..512).map(write)))
}

/// 256 adds of different keys, each line as long as can be. No two matches overlap.
pub fn long_adds() -> Vec<u8> {
    long_writes(TableOperation::Add)
}

/// The same as checked adds: all commute, and onto [`crate::tables::reversed`] all are answered yes.
pub fn long_checked_adds() -> Vec<u8> {
    long_writes(TableOperation::CheckedAdd)
}

/// 256 packets, each of which fits the last entry of [`crate::tables::reversed`] in table order and no other.
pub fn packets_to_the_last(origin: Origin) -> Vec<u8> {
    let packet = Packet {
        port: 60_255,
        vlan: 4_095,
        src: 0xffff_fff1,
        dst: 0xffff_fff1,
        proto: 255,
        sport: 65_535,
        dport: 65_535,
    };
    let look_up = |_| Operation::Table(LONG_SWITCH, TableOperation::Packet(origin, packet));
    trace_text(&apart((0..256).map(look_up)))
}

/// The packet that fits all entries of [`crate::tables::all_fitting`], received.
const FITTING: TableOperation = TableOperation::Packet(Origin::Received, FITTING_PACKET);

/// 256 packets, each of which fits all entries of [`crate::tables::all_fitting`].
pub fn packets_to_all() -> Vec<u8> {
    let look_up = |_| Operation::Table(LONG_SWITCH, FITTING);
    trace_text(&apart((0..256).map(look_up)))
}

/// 255 adds of the entries after those of [`crate::tables::all_fitting`], and then a packet that fits all 511.
pub fn packet_to_511() -> Vec<u8> {
    let add = |n| TableOperation::Add(fitting_entry(n));
    let operations = (256..511).map(add).chain([FITTING]);
    trace_text(&apart(operations.map(|operation| Operation::Table(LONG_SWITCH, operation))))
}
