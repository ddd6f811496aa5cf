//! Valid table texts, random ones and worst cases.

use crate::print::tables_text;
use crate::{Random, World};
use reference::flow::{Action, Entry, Key, Match, Packet, Prefix};

/// The lines of a random valid table text: each switch and key at most once, in any order.
pub fn any_tables(random: &mut Random, world: World, length: usize) -> Vec<(u8, Entry)> {
    let mut lines: Vec<(u8, Entry)> = Vec::new();
    // A narrow world has fewer keys than are asked for, so the tries are bounded.
    for _ in 0..2 * length {
        let (switch, entry) = (world.switch(random), world.entry(random));
        let is_new = lines.iter().all(|(s, e)| *s != switch || e.key != entry.key);
        if is_new && lines.len() < length {
            lines.push((switch, entry));
        }
    }
    lines
}

/// So many lines of the switches and values of [`crate::traces::mixed`].
pub fn mixed(switches: usize, lines: usize) -> Vec<u8> {
    tables_text(&any_tables(&mut Random::from_seed(9), World { wide: false, switches }, lines))
}

/// The n-th of the entries whose lines are longest, in table order.
pub fn long_entry(n: u16) -> Entry {
    let prefix = Prefix { value: 0xffff_fff0, len: 30 };
    let matching = Match {
        port: Some(60_000 + n),
        vlan: Some(4_095),
        src: prefix,
        dst: prefix,
        proto: Some(255),
        sport: Some(65_535),
        dport: Some(65_535),
    };
    Entry { key: Key::new(65_535, matching), action: Action::Port(65_535) }
}

/// The switch of the longest lines.
pub const LONG_SWITCH: u8 = 14;

/// The first 256 of the longest lines, in reversed table order.
pub fn reversed() -> Vec<u8> {
    tables_text(&(0..256).rev().map(|n| (LONG_SWITCH, long_entry(n))).collect::<Vec<_>>())
}

/// The first 256 of the longest lines, in table order.
pub fn sorted() -> Vec<u8> {
    tables_text(&(0..256).map(|n| (LONG_SWITCH, long_entry(n))).collect::<Vec<_>>())
}

/// A packet that every one of [`fitting_entry`] fits.
pub const FITTING_PACKET: Packet =
    Packet { port: 65_535, vlan: 4_095, src: 0, dst: 0, proto: 255, sport: 65_535, dport: 65_535 };

/// The n-th of the entries of one priority that all fit [`FITTING_PACKET`], below 1,089.
pub fn fitting_entry(n: u16) -> Entry {
    let zeros = |len: u16| Prefix { value: 0, len: u8::try_from(len).expect("a length") };
    let matching = Match { src: zeros(n / 33), dst: zeros(n % 33), ..Match::ANY };
    Entry { key: Key::new(65_535, matching), action: Action::Port(60_000 + n) }
}

/// The first 256 of these, the last one first.
pub fn all_fitting() -> Vec<u8> {
    tables_text(&(0..256).rev().map(|n| (LONG_SWITCH, fitting_entry(n))).collect::<Vec<_>>())
}
