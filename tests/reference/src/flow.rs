//! Matches, packets, actions, keys and entries.
//!
//! The derived orders are document 01's table order: fields are compared in the order in which they
//! are declared, `None` (which is `*`) stands before all numbers, and the priority is reversed.

use std::cmp::Reverse;

/// A field that admits all values (`*`), or one.
pub type Exact<N> = Option<N>;

/// The addresses that agree with `value` in the first `len` bits.
#[derive(Clone, Copy, Debug, PartialEq, Eq, PartialOrd, Ord)]
pub struct Prefix {
    /// The address; its bits past the length are zero.
    pub value: u32,
    /// How many leading bits count, 0 to 32.
    pub len: u8,
}

/// Which packets an entry is for.
#[derive(Clone, Copy, Debug, PartialEq, Eq, PartialOrd, Ord)]
pub struct Match {
    /// The port that the packet came in by.
    pub port: Exact<u16>,
    /// The VLAN, 0 to 4095.
    pub vlan: Exact<u16>,
    /// The source address.
    pub src: Prefix,
    /// The destination address.
    pub dst: Prefix,
    /// The protocol.
    pub proto: Exact<u8>,
    /// The source port.
    pub sport: Exact<u16>,
    /// The destination port.
    pub dport: Exact<u16>,
}

/// A packet: all seven fields, exact.
#[derive(Clone, Copy, Debug, PartialEq, Eq)]
pub struct Packet {
    /// The port that it came in by.
    pub port: u16,
    /// The VLAN, 0 to 4095.
    pub vlan: u16,
    /// The source address.
    pub src: u32,
    /// The destination address.
    pub dst: u32,
    /// The protocol.
    pub proto: u8,
    /// The source port.
    pub sport: u16,
    /// The destination port.
    pub dport: u16,
}

/// What is done with a packet.
#[derive(Clone, Copy, Debug, PartialEq, Eq)]
pub enum Action {
    /// It is dropped.
    Drop,
    /// It goes to the controller.
    Controller,
    /// It goes out of a port.
    Port(u16),
}

/// What a table holds at most one entry for. The least key stands first in table order.
#[derive(Clone, Copy, Debug, PartialEq, Eq, PartialOrd, Ord)]
pub struct Key {
    /// The rank of the entry, highest first.
    pub priority: Reverse<u16>,
    /// Which packets it is for.
    pub matching: Match,
}

/// A key with its action.
#[derive(Clone, Copy, Debug, PartialEq, Eq)]
pub struct Entry {
    /// Priority and match.
    pub key: Key,
    /// What is done with a packet that fits.
    pub action: Action,
}

/// Whether `*` or a number admits a number.
fn admits<N: PartialEq>(field: Exact<N>, value: N) -> bool {
    field.is_none_or(|n| n == value)
}

/// Whether some value is admitted by both.
fn share<N: PartialEq>(a: Exact<N>, b: Exact<N>) -> bool {
    match (a, b) {
        (Some(a), Some(b)) => a == b,
        _ => true,
    }
}

/// Whether the second admits all that the first admits.
fn narrower<N: PartialEq>(a: Exact<N>, b: Exact<N>) -> bool {
    b.is_none() || a == b
}

impl Prefix {
    /// The prefix of length 0, which admits all addresses.
    pub const ANY: Prefix = Prefix { value: 0, len: 0 };

    /// The bits that count.
    pub fn mask(self) -> u32 {
        u32::MAX.checked_shl(32 - u32::from(self.len)).unwrap_or(0)
    }

    /// Whether no bit past the length is set.
    pub fn is_clear(self) -> bool {
        self.value & !self.mask() == 0
    }

    /// Whether the prefix admits an address.
    pub fn admits(self, address: u32) -> bool {
        address & self.mask() == self.value
    }

    /// Whether some address is admitted by both: they agree in the bits that both look at.
    pub fn shares(self, other: Prefix) -> bool {
        (self.value ^ other.value) & self.mask() & other.mask() == 0
    }

    /// Whether `other` admits every address that this one admits.
    pub fn narrower(self, other: Prefix) -> bool {
        other.len <= self.len && other.admits(self.value)
    }
}

impl Match {
    /// The match that every packet fits.
    pub const ANY: Match = Match {
        port: None,
        vlan: None,
        src: Prefix::ANY,
        dst: Prefix::ANY,
        proto: None,
        sport: None,
        dport: None,
    };

    /// Whether a packet fits.
    pub fn fits(&self, packet: &Packet) -> bool {
        admits(self.port, packet.port)
            && admits(self.vlan, packet.vlan)
            && self.src.admits(packet.src)
            && self.dst.admits(packet.dst)
            && admits(self.proto, packet.proto)
            && admits(self.sport, packet.sport)
            && admits(self.dport, packet.dport)
    }

    /// Whether some packet fits both.
    pub fn overlaps(&self, other: &Match) -> bool {
        share(self.port, other.port)
            && share(self.vlan, other.vlan)
            && self.src.shares(other.src)
            && self.dst.shares(other.dst)
            && share(self.proto, other.proto)
            && share(self.sport, other.sport)
            && share(self.dport, other.dport)
    }

    /// Whether every packet that fits this match fits the other.
    pub fn within(&self, other: &Match) -> bool {
        narrower(self.port, other.port)
            && narrower(self.vlan, other.vlan)
            && self.src.narrower(other.src)
            && self.dst.narrower(other.dst)
            && narrower(self.proto, other.proto)
            && narrower(self.sport, other.sport)
            && narrower(self.dport, other.dport)
    }

    /// Whether neither address has a bit past its prefix.
    pub fn is_clear(&self) -> bool {
        self.src.is_clear() && self.dst.is_clear()
    }
}

impl Key {
    /// The key of a priority and a match.
    pub fn new(priority: u16, matching: Match) -> Key {
        Key { priority: Reverse(priority), matching }
    }

    /// Whether the priorities are equal and some packet fits both matches.
    pub fn clashes(&self, other: &Key) -> bool {
        self.priority == other.priority && self.matching.overlaps(&other.matching)
    }
}

impl Packet {
    /// The match that only this packet fits.
    pub fn as_match(&self) -> Match {
        Match {
            port: Some(self.port),
            vlan: Some(self.vlan),
            src: Prefix { value: self.src, len: 32 },
            dst: Prefix { value: self.dst, len: 32 },
            proto: Some(self.proto),
            sport: Some(self.sport),
            dport: Some(self.dport),
        }
    }
}

#[cfg(test)]
mod tests {
    use super::*;

    fn dst(value: u32, len: u8) -> Match {
        Match { dst: Prefix { value, len }, ..Match::ANY }
    }

    #[test]
    fn prefixes_by_single_addresses() {
        // All prefixes of lengths 0 to 3 and 31, 32 over a few addresses, held against the addresses
        // that they admit.
        let addresses: Vec<u32> = (0..8).flat_map(|top| (0..4).map(move |low| top << 29 | low)).collect();
        let prefixes: Vec<Prefix> = [0, 1, 2, 3, 31, 32]
            .into_iter()
            .flat_map(|len| addresses.iter().map(move |&value| Prefix { value, len }))
            .filter(|p| p.is_clear())
            .collect();
        for &p in &prefixes {
            for &q in &prefixes {
                let both = addresses.iter().any(|&a| p.admits(a) && q.admits(a));
                let inside = addresses.iter().all(|&a| !p.admits(a) || q.admits(a));
                assert_eq!(p.shares(q), both, "{p:?} {q:?}");
                assert_eq!(p.narrower(q), inside, "{p:?} {q:?}");
            }
        }
    }

    #[test]
    fn within_and_overlap_differ() {
        let a = dst(0x0a00_0000, 8);
        let b = dst(0x0a01_0000, 16);
        let d = Match { dport: Some(80), ..Match::ANY };
        assert!(b.within(&a) && !a.within(&b) && a.overlaps(&b));
        assert!(a.overlaps(&d) && !a.within(&d) && !d.within(&a));
        assert!(a.within(&a) && a.within(&Match::ANY));
        assert!(!dst(0x0b00_0000, 8).overlaps(&a));
        let vlan = |n| Match { vlan: Some(n), ..a };
        assert!(vlan(1).within(&a) && !a.within(&vlan(1)) && vlan(1).overlaps(&a));
        assert!(!vlan(1).overlaps(&vlan(2)) && vlan(1).overlaps(&d));
    }

    #[test]
    fn table_order() {
        let number = |n| Match { port: Some(n), ..Match::ANY };
        let src = |value, len| Match { src: Prefix { value, len }, ..Match::ANY };
        let rising = [
            Key::new(7, number(3)),
            Key::new(6, Match::ANY),
            Key::new(6, Match { dport: Some(0), ..Match::ANY }),
            Key::new(6, Match { proto: Some(0), ..Match::ANY }),
            Key::new(6, dst(0, 1)),
            Key::new(6, dst(0x0100_0000, 8)),
            Key::new(6, dst(0x0100_0000, 9)),
            Key::new(6, src(0, 1)),
            Key::new(6, src(u32::MAX, 32)),
            Key::new(6, Match { vlan: Some(0), ..Match::ANY }),
            Key::new(6, Match { vlan: Some(9), ..src(u32::MAX, 32) }),
            Key::new(6, Match { vlan: Some(10), ..Match::ANY }),
            Key::new(6, Match { vlan: Some(4095), ..Match::ANY }),
            Key::new(6, number(0)),
            Key::new(6, Match { vlan: Some(4095), ..number(0) }),
            Key::new(6, number(10)),
            Key::new(0, Match::ANY),
        ];
        assert!(rising.windows(2).all(|w| w[0] < w[1]));
    }
}
