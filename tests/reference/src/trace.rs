//! The text of a trace: its events, or what is refused.

use crate::refusal::Refusal;
use crate::table::{Origin, TableOperation};
use crate::text::{self, Items};

/// One line of a trace.
#[derive(Clone, Debug, PartialEq, Eq)]
pub struct Event {
    /// What was done.
    pub operation: Operation,
    /// The tokens that were taken in.
    pub taken: Vec<u16>,
    /// The tokens that were put out.
    pub put: Vec<u16>,
    /// When it was.
    pub clock: Clock,
}

/// When an event was, as far as is known.
#[derive(Clone, Copy, Debug, Default, PartialEq, Eq)]
pub struct Clock {
    /// The earliest millisecond.
    pub from: u32,
    /// The latest millisecond.
    pub to: u32,
}

/// What an event does, and on which switch.
#[derive(Clone, Copy, Debug, PartialEq, Eq)]
pub enum Operation {
    /// A switch's table is used.
    Table(u8, TableOperation),
    /// `bar`: a switch handled a barrier.
    Barrier(u8),
    /// `msg`: a switch handled another message.
    Message(u8),
    /// `oth`: controller, host or sending.
    Other,
}

impl Event {
    /// The switch and the operation, where the event uses a table.
    pub fn on_table(&self) -> Option<(u8, &TableOperation)> {
        match &self.operation {
            Operation::Table(switch, operation) => Some((*switch, operation)),
            _ => None,
        }
    }

    /// Whether a switch handled it: every word but `oth`.
    pub fn is_handled(&self) -> bool {
        self.operation != Operation::Other
    }

    /// Whether it is a packet that the switch received, `pkt`.
    pub fn is_received(&self) -> bool {
        matches!(self.on_table(), Some((_, TableOperation::Packet(Origin::Received, _))))
    }
}

/// The events of a trace text, or the first refusal in document 01's order of checks. `delay` is that of the time
/// rule.
pub fn read_trace(text: &[u8], delay: u32) -> Result<Vec<Event>, Refusal<'_>> {
    let lines = text::line_count(text).map_err(|number| Refusal::at(number, 0))?;
    let mut events = Vec::with_capacity(lines);
    let mut items = Items::of(text);
    while !items.is_empty() {
        let index = events.len();
        let refused = |number| Refusal::of_line(number, text, index);
        let (number, event) = read_line(&mut items).ok_or_else(|| refused(4))?;
        if usize::from(number) != index {
            return Err(refused(5));
        }
        if !is_clear(&event) {
            return Err(refused(6));
        }
        if event.clock.from > event.clock.to {
            return Err(refused(54));
        }
        events.push(event);
    }
    let refused = |(number, index)| Refusal::of_line(number, text, index);
    check_tokens(&events).map_err(refused)?;
    check_times(&events, delay).map_err(refused)?;
    Ok(events)
}

/// The number and the event of a line, or nothing where it is malformed or a value is out of range.
fn read_line(items: &mut Items) -> Option<(u8, Event)> {
    items.pass(b"ev=")?;
    let number = items.byte()?;
    items.pass(b" do=")?;
    let word = items.word();
    items.pass(b" in=")?;
    let taken = items.tokens()?;
    items.pass(b" out=")?;
    let put = items.tokens()?;
    items.pass(b" from=")?;
    let from = items.milliseconds()?;
    items.pass(b" to=")?;
    let to = items.milliseconds()?;
    let operation = read_operation(word, items)?;
    items.end_of_line()?;
    Some((number, Event { operation, taken, put, clock: Clock { from, to } }))
}

fn read_operation(word: &[u8], items: &mut Items) -> Option<Operation> {
    if word == b"oth" {
        return Some(Operation::Other);
    }
    items.pass(b" sw=")?;
    let switch = items.switch()?;
    Some(match word {
        b"bar" => Operation::Barrier(switch),
        b"msg" => Operation::Message(switch),
        _ => Operation::Table(switch, read_table_operation(word, items)?),
    })
}

fn read_table_operation(word: &[u8], items: &mut Items) -> Option<TableOperation> {
    Some(match word {
        b"pkt" => TableOperation::Packet(Origin::Received, items.packet()?),
        b"pout" => TableOperation::Packet(Origin::SentOut, items.packet()?),
        b"add" => TableOperation::Add(items.entry()?),
        b"addc" => TableOperation::CheckedAdd(items.entry()?),
        b"mods" => TableOperation::StrictModify(items.entry()?),
        b"modn" => TableOperation::Modify(items.entry()?),
        b"dels" => TableOperation::StrictDelete(items.key()?),
        b"deln" => TableOperation::Delete(items.matching()?),
        _ => return None,
    })
}

/// Whether no address of the event has a bit past its prefix.
fn is_clear(event: &Event) -> bool {
    use TableOperation::{Add, CheckedAdd, Delete, Modify, Packet, StrictDelete, StrictModify};
    match event.on_table() {
        None | Some((_, Packet(..))) => true,
        Some((_, Add(e) | CheckedAdd(e) | StrictModify(e) | Modify(e))) => e.key.matching.is_clear(),
        Some((_, StrictDelete(key))) => key.matching.is_clear(),
        Some((_, Delete(matching))) => matching.is_clear(),
    }
}

/// 7 with the lowest line that puts out a token of an earlier line; then 8 with the lowest line that
/// takes in a token put out on this or a later line.
fn check_tokens(events: &[Event]) -> Result<(), (u8, usize)> {
    let put_on = PutOn::of(events).map_err(|index| (7, index))?;
    let takes_early = |(index, event): (usize, &Event)| {
        event.taken.iter().any(|&token| put_on.line(token).is_some_and(|line| index <= line))
    };
    match events.iter().enumerate().position(takes_early) {
        Some(index) => Err((8, index)),
        None => Ok(()),
    }
}

/// 55 with the lowest line that the time rule puts behind a later one.
fn check_times(events: &[Event], delay: u32) -> Result<(), (u8, usize)> {
    // From the end, so that the lowest line is found last.
    let (mut later, mut backward) = (Ends::default(), None);
    for (index, event) in events.iter().enumerate().rev() {
        if later.least_before(event).is_some_and(|to| is_apart(to, event.clock.from, delay)) {
            backward = Some((55, index));
        }
        later.count(event);
    }
    backward.map_or(Ok(()), Err)
}

/// The least `to` of some events that switches handled.
#[derive(Default)]
struct Ends {
    /// Of all of them.
    all: Option<u32>,
    /// Of those that are no `pkt`.
    messages: Option<u32>,
}

impl Ends {
    /// The least `to` of those that the time rule may put before an event.
    fn least_before(&self, event: &Event) -> Option<u32> {
        let ends = if event.is_received() { self.messages } else { self.all };
        ends.filter(|_| event.is_handled())
    }

    fn count(&mut self, event: &Event) {
        let least = |end: Option<u32>| Some(end.map_or(event.clock.to, |end| end.min(event.clock.to)));
        if event.is_handled() {
            self.all = least(self.all);
        }
        if event.is_handled() && !event.is_received() {
            self.messages = least(self.messages);
        }
    }
}

/// Whether a `from` lies behind a `to` by more than the delay.
pub(crate) fn is_apart(to: u32, from: u32, delay: u32) -> bool {
    u64::from(to) + u64::from(delay) < u64::from(from)
}

/// The line that puts out each token.
pub(crate) struct PutOn {
    /// 1 and the line by token, 0 where there is none; up to the largest token that is put out.
    lines: Vec<u16>,
}

impl PutOn {
    /// Of all events of a trace; or the lowest line that puts out a token of an earlier one.
    pub(crate) fn of(events: &[Event]) -> Result<PutOn, usize> {
        let largest = events.iter().filter_map(|event| event.put.last()).max();
        let mut lines = vec![0; largest.map_or(0, |&token| usize::from(token) + 1)];
        for (index, event) in (0..).zip(events) {
            for &token in &event.put {
                let line = &mut lines[usize::from(token)];
                if *line != 0 {
                    return Err(usize::from(index));
                }
                *line = index + 1;
            }
        }
        Ok(PutOn { lines })
    }

    /// The line that puts out a token, if there is one.
    pub(crate) fn line(&self, token: u16) -> Option<usize> {
        self.lines.get(usize::from(token)).and_then(|&line| usize::from(line).checked_sub(1))
    }
}
