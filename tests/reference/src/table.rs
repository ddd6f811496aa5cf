//! A flow table, and what each event does to it and answers.

use crate::flow::{Action, Entry, Key, Match, Packet};
use crate::packed::Row;

/// Where a packet that is looked up came from. What it finds doesn't depend on this.
#[derive(Clone, Copy, Debug, PartialEq, Eq)]
pub enum Origin {
    /// `pkt`: a port of the switch received it.
    Received,
    /// `pout`: a message to the switch sent it out, with the table as its port.
    SentOut,
}

/// An event that uses a table.
#[derive(Clone, Copy, Debug, PartialEq, Eq)]
pub enum TableOperation {
    /// `pkt` or `pout`: a packet is looked up.
    Packet(Origin, Packet),
    /// `add`: the key's action is set.
    Add(Entry),
    /// `addc`: added unless an entry of that priority overlaps.
    CheckedAdd(Entry),
    /// `mods`: the key's action is set, the entry added if absent.
    StrictModify(Entry),
    /// `modn`: every entry within the match gets the action; the entry is added if there is none.
    Modify(Entry),
    /// `dels`: the key is removed.
    StrictDelete(Key),
    /// `deln`: every entry within the match is removed.
    Delete(Match),
}

impl TableOperation {
    /// The word of `do`.
    pub fn word(&self) -> &'static str {
        match self {
            TableOperation::Packet(Origin::Received, _) => "pkt",
            TableOperation::Packet(Origin::SentOut, _) => "pout",
            TableOperation::Add(_) => "add",
            TableOperation::CheckedAdd(_) => "addc",
            TableOperation::StrictModify(_) => "mods",
            TableOperation::Modify(_) => "modn",
            TableOperation::StrictDelete(_) => "dels",
            TableOperation::Delete(_) => "deln",
        }
    }

    /// The priority, if there is one.
    pub fn priority(&self) -> Option<u16> {
        use TableOperation::{Add, CheckedAdd, Delete, Modify, Packet, StrictDelete, StrictModify};
        match self {
            Packet(..) | Delete(_) => None,
            Add(entry) | CheckedAdd(entry) | StrictModify(entry) | Modify(entry) => {
                Some(entry.key.priority.0)
            }
            StrictDelete(key) => Some(key.priority.0),
        }
    }
}

/// What an event answers, if it does.
#[derive(Clone, Copy, Debug, PartialEq, Eq)]
pub enum Answer {
    /// No entry fits the packet.
    Miss,
    /// Some entries fit the packet.
    Hit {
        /// The highest priority among them.
        priority: u16,
        /// How many fit at that priority.
        count: usize,
        /// The action of the first of those in table order.
        action: Action,
    },
    /// The entry of a checked add was added.
    Yes,
    /// The checked add was refused.
    No,
}

/// The entries of one switch.
#[derive(Clone, Debug, Default, PartialEq, Eq)]
pub struct Table {
    /// In table order.
    rows: Vec<Row>,
}

impl Table {
    /// The entries in table order.
    pub fn entries(&self) -> impl Iterator<Item = Entry> + '_ {
        self.rows.iter().map(Row::entry)
    }

    /// The entries in table order, as rows.
    pub(crate) fn rows(&self) -> &[Row] {
        &self.rows
    }

    /// Puts in a row that stands after all others in table order.
    pub(crate) fn push(&mut self, row: Row) {
        self.rows.push(row);
    }

    /// How many entries there are.
    pub fn len(&self) -> usize {
        self.rows.len()
    }

    /// Whether there is no entry.
    pub fn is_empty(&self) -> bool {
        self.rows.is_empty()
    }

    /// Does an event, and gives its answer, if it has one.
    pub fn apply(&mut self, operation: &TableOperation) -> Option<Answer> {
        match operation {
            TableOperation::Packet(_, packet) => return Some(self.look_up(packet)),
            TableOperation::CheckedAdd(entry) => return Some(self.checked_add(Row::of(entry))),
            TableOperation::Add(entry) | TableOperation::StrictModify(entry) => self.set(Row::of(entry)),
            TableOperation::Modify(entry) => self.modify(Row::of(entry)),
            TableOperation::StrictDelete(key) => self.remove(key),
            TableOperation::Delete(matching) => {
                let cleared = Row::of_match(*matching);
                self.rows.retain(|row| !row.within(&cleared));
            }
        }
        None
    }

    /// Where the row of a row's key stands, or else where it would stand.
    fn place(&self, row: &Row) -> Result<usize, usize> {
        self.rows.binary_search_by_key(&row.rank(), Row::rank)
    }

    fn set(&mut self, row: Row) {
        match self.place(&row) {
            Ok(at) => self.rows[at] = row,
            Err(at) => self.rows.insert(at, row),
        }
    }

    fn remove(&mut self, key: &Key) {
        if let Ok(at) = self.place(&Row::new(key, Action::Drop)) {
            self.rows.remove(at);
        }
    }

    fn look_up(&self, packet: &Packet) -> Answer {
        let packet = Row::of_match(packet.as_match());
        let mut fitting = self.rows.iter().filter(|row| row.overlaps(&packet));
        let Some(first) = fitting.next() else {
            return Answer::Miss;
        };
        let others = fitting.take_while(|row| row.priority == first.priority).count();
        Answer::Hit { priority: first.priority, count: 1 + others, action: first.action }
    }

    fn checked_add(&mut self, row: Row) -> Answer {
        let start = self.rows.partition_point(|other| other.priority > row.priority);
        let mut equals = self.rows[start..].iter().take_while(|other| other.priority == row.priority);
        if equals.any(|other| other.overlaps(&row)) {
            return Answer::No;
        }
        self.set(row);
        Answer::Yes
    }

    fn modify(&mut self, row: Row) {
        let mut found = false;
        for other in &mut self.rows {
            if other.within(&row) {
                other.action = row.action;
                found = true;
            }
        }
        if !found {
            self.set(row);
        }
    }
}

impl FromIterator<Entry> for Table {
    fn from_iter<I: IntoIterator<Item = Entry>>(entries: I) -> Table {
        let mut table = Table::default();
        entries.into_iter().for_each(|entry| table.set(Row::of(&entry)));
        table
    }
}
