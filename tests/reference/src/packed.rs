//! Entries as integers: overlap, within and table order are a few operations on them.
//!
//! What they mean is said by [`Match`] and [`Key`](crate::flow::Key), field by field; the tests here hold one
//! against the other.

use crate::flow::{Action, Entry, Exact, Key, Match, Prefix};

/// An entry, its match as integers. All fields but `dport` stand side by side in the order of table order, `port`
/// highest; for `dport` they leave no room.
#[derive(Clone, Copy, Debug, PartialEq, Eq)]
pub struct Row {
    /// The values of the fields. Above a field that may be `*` stands one bit more: whether it is a number.
    value: u128,
    /// The bits that a packet must have as they are in `value`.
    mask: u128,
    /// `dport` and the bit above it.
    dport: u32,
    /// Its rank.
    pub priority: u16,
    /// What is done with a packet that fits.
    pub action: Action,
}

/// Where the lowest bit of each field stands.
const SPORT: u32 = 0;
const PROTO: u32 = 17;
const DST: u32 = 26;
const SRC: u32 = 58;
const VLAN: u32 = 90;
const PORT: u32 = 107;

impl Row {
    /// The row of a key and an action.
    pub fn new(key: &Key, action: Action) -> Row {
        let Match { port, vlan, src, dst, proto, sport, dport } = key.matching;
        let Part { value, mask } = number(PORT, 16, port)
            .and(number(VLAN, 16, vlan))
            .and(prefix(SRC, src))
            .and(prefix(DST, dst))
            .and(number(PROTO, 8, proto.map(u16::from)))
            .and(number(SPORT, 16, sport));
        let dport = dport.map_or(0, |number| 1 << 16 | u32::from(number));
        Row { value, mask, dport, priority: key.priority.0, action }
    }

    /// The row of an entry.
    pub fn of(entry: &Entry) -> Row {
        Row::new(&entry.key, entry.action)
    }

    /// A row for a match alone: priority and action are the same for all.
    pub fn of_match(matching: Match) -> Row {
        Row::new(&Key::new(0, matching), Action::Drop)
    }

    /// The entry of the row.
    pub fn entry(&self) -> Entry {
        Entry { key: Key::new(self.priority, self.matching()), action: self.action }
    }

    /// The match of the row.
    pub fn matching(&self) -> Match {
        Match {
            port: self.number(PORT, 16),
            vlan: self.number(VLAN, 16),
            src: self.prefix(SRC),
            dst: self.prefix(DST),
            proto: self.number(PROTO, 8).map(|number| number as u8),
            sport: self.number(SPORT, 16),
            dport: (self.dport != 0).then_some(self.dport as u16),
        }
    }

    fn number(&self, at: u32, bits: u32) -> Exact<u16> {
        let field = self.value >> at;
        let is_number = field >> bits & 1 == 1;
        is_number.then_some((field & low(bits)) as u16)
    }

    fn prefix(&self, at: u32) -> Prefix {
        let mask = (self.mask >> at) as u32;
        Prefix { value: (self.value >> at) as u32, len: mask.leading_ones() as u8 }
    }

    /// Whether some packet fits both.
    pub fn overlaps(&self, other: &Row) -> bool {
        (self.value ^ other.value) & self.mask & other.mask == 0
            && (self.dport == other.dport || self.dport == 0 || other.dport == 0)
    }

    /// Whether every packet that fits this match fits the other.
    pub fn within(&self, other: &Row) -> bool {
        (self.value ^ other.value) & other.mask | other.mask & !self.mask == 0
            && (self.dport == other.dport || other.dport == 0)
    }

    /// Two integers that compare as the keys do in table order: priority, `port`, `vlan`, `src` and its length;
    /// `dst`, its length and the rest. A longer prefix has a larger mask.
    pub fn rank(&self) -> (u128, u128) {
        let mask = |at: u32| (self.mask >> at) & low(32);
        let first = self.value >> SRC << 32 | mask(SRC);
        let dst = (self.value >> DST & low(32)) << 32 | mask(DST);
        let second = (dst << DST | self.value & low(DST)) << 17 | u128::from(self.dport);
        (u128::from(!self.priority) << 98 | first, second)
    }

    /// Whether the keys are equal.
    pub fn has_key_of(&self, other: &Row) -> bool {
        self.priority == other.priority
            && self.value == other.value
            && self.mask == other.mask
            && self.dport == other.dport
    }

    /// Whether the priorities are equal and some packet fits both matches.
    pub fn clashes(&self, other: &Row) -> bool {
        self.priority == other.priority && self.overlaps(other)
    }
}

/// Some fields of a match.
struct Part {
    value: u128,
    mask: u128,
}

impl Part {
    /// Both, where they have no bit in common.
    fn and(self, other: Part) -> Part {
        Part { value: self.value | other.value, mask: self.mask | other.mask }
    }
}

/// The lowest bits, so many of them.
fn low(bits: u32) -> u128 {
    (1 << bits) - 1
}

/// A field that is `*` or a number.
fn number(at: u32, bits: u32, field: Exact<u16>) -> Part {
    match field {
        None => Part { value: 0, mask: 0 },
        Some(number) => Part { value: (1 << bits | u128::from(number)) << at, mask: low(bits) << at },
    }
}

/// A field that is a prefix.
fn prefix(at: u32, prefix: Prefix) -> Part {
    Part { value: u128::from(prefix.value) << at, mask: u128::from(prefix.mask()) << at }
}

#[cfg(test)]
pub(crate) mod tests;
