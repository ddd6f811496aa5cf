//! When two table events of one switch commute.

use crate::flow::Action;
use crate::packed::Row;
use crate::table::TableOperation;
use Kind::{Add, CheckedAdd, Delete, Modify, Packet, StrictDelete};

/// Whether on every finite table both orders leave the same table and give each event the same
/// answer: document 01's table of pairs, row by row.
pub fn commutes(left: &TableOperation, right: &TableOperation) -> bool {
    Flat::of(left).commutes(&Flat::of(right))
}

/// A table event as it is compared with others: the same fields for all kinds. A packet is the match that
/// only it fits.
#[derive(Clone, Copy)]
pub(crate) struct Flat {
    kind: Kind,
    row: Row,
}

/// What an event does. `mods` reads as `add`.
#[derive(Clone, Copy)]
enum Kind {
    Packet,
    Add,
    CheckedAdd,
    Modify,
    StrictDelete,
    Delete,
}

impl Flat {
    /// The event of an operation. Fields that it lacks are the same for all of its kind.
    pub(crate) fn of(operation: &TableOperation) -> Flat {
        let (kind, row) = match operation {
            TableOperation::Packet(_, packet) => (Packet, Row::of_match(packet.as_match())),
            TableOperation::Add(entry) | TableOperation::StrictModify(entry) => (Add, Row::of(entry)),
            TableOperation::CheckedAdd(entry) => (CheckedAdd, Row::of(entry)),
            TableOperation::Modify(entry) => (Modify, Row::of(entry)),
            TableOperation::StrictDelete(key) => (StrictDelete, Row::new(key, Action::Drop)),
            TableOperation::Delete(matching) => (Delete, Row::of_match(*matching)),
        };
        Flat { kind, row }
    }

    /// Whether two events commute. Each row of the table says yes where the matches don't overlap, which is asked
    /// first.
    pub(crate) fn commutes(&self, other: &Flat) -> bool {
        !self.row.overlaps(&other.row) || self.by_table(other)
    }

    /// What the table of pairs says.
    fn by_table(&self, other: &Flat) -> bool {
        self.by_row(other)
            .or_else(|| other.by_row(self))
            .expect("each pair of events has a row in one of the two directions")
    }

    /// The verdict of the row that names the pair in this direction, if there is one.
    fn by_row(&self, other: &Flat) -> Option<bool> {
        let (one, two) = (&self.row, &other.row);
        let verdict = match (self.kind, other.kind) {
            (Packet, Packet) => true,
            (StrictDelete | Delete, StrictDelete | Delete) => true,

            // The packet doesn't fit.
            (Packet, _) => !one.overlaps(two),

            (Add, Add) => !one.has_key_of(two) || one.action == two.action,
            (Add, StrictDelete) => !one.has_key_of(two),
            (Add, Delete) => !one.within(two),
            (Add, Modify) => !one.within(two) || one == two,

            (CheckedAdd, Add | CheckedAdd | StrictDelete) => !one.clashes(two),
            (CheckedAdd, Modify) => !one.within(two) && !one.clashes(two),
            (CheckedAdd, Delete) => !one.overlaps(two),

            (Modify, Delete) => !one.overlaps(two),
            (Modify, StrictDelete) => !two.within(one),
            (Modify, Modify) => {
                !one.overlaps(two)
                    || (one.action == two.action && !one.within(two) && !two.within(one))
                    || one == two
            }
            _ => return None,
        };
        Some(verdict)
    }
}

#[cfg(test)]
mod tests;
