//! Happens-before.

use crate::table::{Origin::Received, TableOperation::Packet};
use crate::tables::SWITCHES;
use crate::trace::{is_apart, Event, Operation, PutOn};

/// A set of events of one trace.
#[derive(Clone, Copy, Debug, Default, PartialEq, Eq)]
pub struct EventSet([u64; 4]);

impl EventSet {
    /// Whether an event is in the set.
    pub fn contains(&self, event: usize) -> bool {
        self.0[event / 64] >> (event % 64) & 1 == 1
    }

    /// Puts an event into the set.
    pub fn insert(&mut self, event: usize) {
        self.0[event / 64] |= 1 << (event % 64);
    }

    /// Puts all events of another set into the set.
    pub fn extend(&mut self, other: &EventSet) {
        for (word, more) in self.0.iter_mut().zip(other.0) {
            *word |= more;
        }
    }

    /// Whether all events of the set are in another set.
    pub fn within(&self, other: &EventSet) -> bool {
        self.0.iter().zip(other.0).all(|(word, all)| word & !all == 0)
    }

    /// The highest event of the set that is not in another one.
    fn highest_beside(&self, other: &EventSet) -> Option<usize> {
        let left = |word: usize| self.0[word] & !other.0[word];
        (0..4).rev().find(|&word| left(word) != 0).map(|word| 64 * word + left(word).ilog2() as usize)
    }
}

/// For each event the set of those that happen before it: every chain of one or more direct steps. In an accepted trace
/// each step leads to a later line; that is not asked for here.
pub fn happens_before(events: &[Event], delay: u32) -> Vec<EventSet> {
    let direct = direct_predecessors(events, delay);
    let mut before: Vec<EventSet> = Vec::with_capacity(events.len());
    for steps in &direct {
        let (mut set, mut done) = (*steps, EventSet::default());
        while let Some(event) = set.highest_beside(&done) {
            done.insert(event);
            match before.get(event) {
                // All that comes before it is known.
                Some(all) => {
                    set.extend(all);
                    done.extend(all);
                }
                None => set.extend(&direct[event]),
            }
        }
        before.push(set);
    }
    before
}

/// For each event those that directly precede it, looked up and not asked for pair by pair.
fn direct_predecessors(events: &[Event], delay: u32) -> Vec<EventSet> {
    let put_on = PutOn::of(events).expect("no token is put out twice");
    let mut switches = [Handled::default(); SWITCHES];
    let all = ByEnd::of(events, |_| true);
    let messages = ByEnd::of(events, |event| !event.is_received());
    let mut direct = Vec::with_capacity(events.len());
    for (index, event) in events.iter().enumerate() {
        let mut set = EventSet::default();
        for line in event.taken.iter().filter_map(|&token| put_on.line(token)).filter(|&line| line < index) {
            set.insert(line);
        }
        if let Some(switch) = ordered_by_barriers(event) {
            switches[usize::from(switch)].handle(index, is_barrier(event), &mut set);
        }
        if event.is_handled() {
            let ends = if event.is_received() { &messages } else { &all };
            set.extend(ends.before(event.clock.from, delay));
        }
        direct.push(set);
    }
    direct
}

/// The events of a switch so far that barriers order.
#[derive(Clone, Copy, Default)]
struct Handled {
    /// All of them: these come before a barrier.
    all: EventSet,
    /// The barriers: these come before all others.
    barriers: EventSet,
}

impl Handled {
    /// Puts into an event's set what barriers put before it, and counts the event in.
    fn handle(&mut self, event: usize, is_barrier: bool, set: &mut EventSet) {
        set.extend(if is_barrier { &self.all } else { &self.barriers });
        self.all.insert(event);
        if is_barrier {
            self.barriers.insert(event);
        }
    }
}

/// Some events that switches handled, by rising `to`.
struct ByEnd {
    ends: Vec<u32>,
    /// The first of them: none, one, two and so on.
    first: Vec<EventSet>,
}

impl ByEnd {
    fn of(events: &[Event], wanted: impl Fn(&Event) -> bool) -> ByEnd {
        let wanted = |(_, event): &(usize, &Event)| event.is_handled() && wanted(event);
        let end = |(index, event): (usize, &Event)| (event.clock.to, index);
        let mut sorted: Vec<(u32, usize)> = events.iter().enumerate().filter(wanted).map(end).collect();
        sorted.sort_unstable();
        let mut first = vec![EventSet::default()];
        for (count, &(_, event)) in sorted.iter().enumerate() {
            let mut set = first[count];
            set.insert(event);
            first.push(set);
        }
        ByEnd { ends: sorted.into_iter().map(|(to, _)| to).collect(), first }
    }

    /// Those that a `from` lies behind by more than the delay.
    fn before(&self, from: u32, delay: u32) -> &EventSet {
        &self.first[self.ends.partition_point(|&to| is_apart(to, from, delay))]
    }
}

/// Whether event a directly precedes event b, both by their lines: by a token or a barrier where b is on the later line, or
/// by the time rule. [`happens_before`] looks these up instead of asking for each pair.
pub fn directly_precedes(events: &[Event], a: usize, b: usize, delay: u32) -> bool {
    let (first, second) = (&events[a], &events[b]);
    let passes_token = first.put.iter().any(|token| second.taken.contains(token));
    a < b && (passes_token || barrier_between(first, second)) || precedes_in_time(first, second, delay)
}

/// Whether both are on one switch, both are among writes, `bar`, `msg` and `pout`, and one is `bar`.
fn barrier_between(a: &Event, b: &Event) -> bool {
    match (ordered_by_barriers(a), ordered_by_barriers(b)) {
        (Some(s), Some(t)) => s == t && (is_barrier(a) || is_barrier(b)),
        _ => false,
    }
}

/// The time rule: switches handled both, they are not both `pkt`, and b's `from` minus a's `to` is above the delay. Which
/// line is later is not asked for.
pub fn precedes_in_time(a: &Event, b: &Event, delay: u32) -> bool {
    let both_handled = a.is_handled() && b.is_handled();
    let both_received = a.is_received() && b.is_received();
    both_handled && !both_received && is_apart(a.clock.to, b.clock.from, delay)
}

fn is_barrier(event: &Event) -> bool {
    matches!(event.operation, Operation::Barrier(_))
}

/// The switch of a write, a barrier, another message or a packet sent out: all that reaches it as a message.
fn ordered_by_barriers(event: &Event) -> Option<u8> {
    match event.operation {
        Operation::Table(_, Packet(Received, _)) | Operation::Other => None,
        Operation::Table(switch, _) | Operation::Barrier(switch) | Operation::Message(switch) => Some(switch),
    }
}
