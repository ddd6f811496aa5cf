//! Events and entries as lines of a text.

use reference::flow::{Entry, Packet};
use reference::table::TableOperation;
use reference::tables::{EntryItems, MatchItems};
use reference::trace::{Clock, Event, Operation};

/// The text of a trace of some events.
pub fn trace_text(events: &[Event]) -> Vec<u8> {
    let line = |(number, event)| event_line(number, event) + "\n";
    events.iter().enumerate().map(line).collect::<String>().into_bytes()
}

/// The text of tables with some entries, in the order given.
pub fn tables_text(entries: &[(u8, Entry)]) -> Vec<u8> {
    let line = |&(switch, entry)| entry_line(switch, entry) + "\n";
    entries.iter().map(line).collect::<String>().into_bytes()
}

/// The line of an entry of a switch, without its LF.
pub fn entry_line(switch: u8, entry: Entry) -> String {
    format!("sw={switch} {}", EntryItems(entry))
}

/// The line of an event, without its LF.
pub fn event_line(number: usize, event: &Event) -> String {
    let (taken, put) = (tokens(&event.taken), tokens(&event.put));
    let Clock { from, to } = event.clock;
    let (word, items) = operation_items(&event.operation);
    format!("ev={number} do={word} in={taken} out={put} from={from} to={to}{items}")
}

fn tokens(tokens: &[u16]) -> String {
    if tokens.is_empty() {
        return "-".to_owned();
    }
    tokens.iter().map(u16::to_string).collect::<Vec<_>>().join(",")
}

/// The word of an operation, and the items after `to`.
fn operation_items(operation: &Operation) -> (&'static str, String) {
    match operation {
        Operation::Other => ("oth", String::new()),
        Operation::Barrier(switch) => ("bar", format!(" sw={switch}")),
        Operation::Message(switch) => ("msg", format!(" sw={switch}")),
        Operation::Table(switch, operation) => {
            (operation.word(), format!(" sw={switch} {}", table_items(operation)))
        }
    }
}

fn table_items(operation: &TableOperation) -> String {
    use TableOperation::{Add, CheckedAdd, Delete, Modify, Packet, StrictDelete, StrictModify};
    match operation {
        Packet(_, packet) => packet_items(packet),
        Add(entry) | CheckedAdd(entry) | StrictModify(entry) | Modify(entry) => {
            EntryItems(*entry).to_string()
        }
        StrictDelete(key) => format!("prio={} {}", key.priority.0, MatchItems(key.matching)),
        Delete(matching) => MatchItems(*matching).to_string(),
    }
}

fn packet_items(packet: &Packet) -> String {
    let Packet { port, vlan, src, dst, proto, sport, dport } = packet;
    format!("port={port} vlan={vlan} src={src:08x} dst={dst:08x} proto={proto} sport={sport} dport={dport}")
}
