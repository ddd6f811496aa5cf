//! The table of pairs against brute force: both orders are run on all small tables.

use super::{commutes, Flat};
use crate::flow::{Action, Entry, Key, Match, Prefix};
use crate::packed::tests::random_match;
use crate::table::Origin::{Received, SentOut};
use crate::table::Table;
use crate::table::TableOperation::{
    self, Add, CheckedAdd, Delete, Modify, Packet, StrictDelete, StrictModify,
};
use random::Random;

const A: Match = dst(0x0a00_0000, 8);
const B: Match = dst(0x0a01_0000, 16);
const D: Match = Match { dport: Some(80), ..Match::ANY };

const fn dst(value: u32, len: u8) -> Match {
    Match { dst: Prefix { value, len }, ..Match::ANY }
}

fn entry(matching: Match, priority: u16, port: u16) -> Entry {
    Entry { key: Key::new(priority, matching), action: Action::Port(port) }
}

fn packet(dst: u32) -> crate::flow::Packet {
    crate::flow::Packet { port: 1, vlan: 1, src: 0, dst, proto: 6, sport: 4000, dport: 80 }
}

/// A packet received, and the same sent out.
fn look_ups(packet: crate::flow::Packet) -> [TableOperation; 2] {
    [Received, SentOut].map(|origin| Packet(origin, packet))
}

/// Whether both orders leave the same table and give each event the same answer.
fn agree_on(table: &Table, a: &TableOperation, b: &TableOperation) -> bool {
    let (mut ab, mut ba) = (table.clone(), table.clone());
    let (a_first, b_second) = (ab.apply(a), ab.apply(b));
    let (b_first, a_second) = (ba.apply(b), ba.apply(a));
    ab == ba && a_first == a_second && b_first == b_second
}

/// All tables of at most two entries with some matches, priorities and actions.
fn small_tables(matches: &[Match], priorities: &[u16], actions: &[Action]) -> Vec<Table> {
    let mut entries = Vec::new();
    for &matching in matches {
        for &priority in priorities {
            let key = Key::new(priority, matching);
            entries.extend(actions.iter().map(|&action| Entry { key, action }));
        }
    }
    let mut tables = vec![Table::default()];
    for (index, &first) in entries.iter().enumerate() {
        tables.push([first].into_iter().collect());
        for &second in &entries[index + 1..] {
            if first.key != second.key {
                tables.push([first, second].into_iter().collect());
            }
        }
    }
    tables
}

fn check(a: &TableOperation, b: &TableOperation, tables: &[Table]) {
    let told_apart = tables.iter().find(|table| !agree_on(table, a, b));
    assert_eq!(commutes(a, b), told_apart.is_none(), "{a:?}\n{b:?}\n{told_apart:?}");
    assert_eq!(commutes(a, b), commutes(b, a), "{a:?}\n{b:?}");
    assert_eq!(commutes(a, b), Flat::of(a).by_table(&Flat::of(b)), "{a:?}\n{b:?}");
}

#[test]
fn marked_cases() {
    let (a5p1, a5p2) = (entry(A, 5, 1), entry(A, 5, 2));
    let delete_b5 = StrictDelete(Key::new(5, B));
    let commuting = [
        (Add(a5p1), Add(a5p1)),
        (Add(a5p1), CheckedAdd(entry(B, 6, 1))),
        (Modify(a5p1), Modify(entry(D, 5, 1))),
        (Delete(A), delete_b5),
        (Delete(A), Add(entry(D, 5, 1))),
        (Packet(Received, packet(0x0b00_0000)), Add(a5p1)),
    ];
    let racing = [
        (Add(a5p1), Add(a5p2)),
        (Add(a5p1), CheckedAdd(entry(B, 5, 1))),
        (Modify(a5p1), Modify(entry(B, 5, 1))),
        (Modify(a5p1), Modify(entry(D, 5, 2))),
        (Delete(A), CheckedAdd(entry(D, 5, 1))),
        (Modify(a5p1), delete_b5),
        (CheckedAdd(a5p1), CheckedAdd(a5p1)),
    ];
    let both = Match { dport: Some(80), ..A };
    let actions = [Action::Port(1), Action::Port(2), Action::Drop];
    let tables = small_tables(&[A, B, D, both, Match::ANY], &[5, 6], &actions);
    for (a, b) in &commuting {
        assert!(commutes(a, b), "{a:?}\n{b:?}");
        check(a, b, &tables);
    }
    for (a, b) in &racing {
        assert!(!commutes(a, b), "{a:?}\n{b:?}");
        check(a, b, &tables);
    }
}

/// All writes of some matches, priorities and actions.
fn all_writes(matches: &[Match], priorities: &[u16], actions: &[Action]) -> Vec<TableOperation> {
    let mut writes = Vec::new();
    for &matching in matches {
        writes.push(Delete(matching));
        for &priority in priorities {
            let key = Key::new(priority, matching);
            writes.push(StrictDelete(key));
            for &action in actions {
                let entry = Entry { key, action };
                writes.extend([Add(entry), CheckedAdd(entry), StrictModify(entry), Modify(entry)]);
            }
        }
    }
    writes
}

/// Packets to each part of the matches of [`small_world`].
fn small_packets() -> impl Iterator<Item = crate::flow::Packet> {
    let ports = |dst| [1, 2].map(|port| crate::flow::Packet { port, ..packet(dst) });
    [0x0a00_0000, 0x0a01_0000, 0x0b00_0000].into_iter().flat_map(ports)
}

/// All events over six matches, closed under meets, two priorities and two actions, and all tables of
/// at most two of their entries.
fn small_world() -> (Vec<TableOperation>, Vec<Table>) {
    let port = |matching| Match { port: Some(1), ..matching };
    let matches = [Match::ANY, A, B, port(Match::ANY), port(A), port(B)];
    let (priorities, actions) = ([5, 6], [Action::Port(1), Action::Controller]);
    let mut events = all_writes(&matches, &priorities, &actions);
    events.extend(small_packets().flat_map(look_ups));
    (events, small_tables(&matches, &priorities, &actions))
}

#[test]
fn all_pairs_of_a_small_world() {
    let (events, tables) = small_world();
    for (index, a) in events.iter().enumerate() {
        for b in &events[index..] {
            check(a, b, &tables);
        }
    }
}

/// It commutes with the same events as a packet received, finds the same, and leaves the table as it was.
#[test]
fn a_packet_sent_out_is_looked_up_as_one_received() {
    let (events, tables) = small_world();
    for [received, sent_out] in small_packets().map(look_ups) {
        for event in &events {
            assert_eq!(commutes(&sent_out, event), commutes(&received, event), "{sent_out:?}\n{event:?}");
        }
        for table in &tables {
            let mut after = table.clone();
            let answer = after.apply(&sent_out);
            assert_eq!((answer, &after), (table.clone().apply(&received), table), "{sent_out:?}\n{table:?}");
        }
    }
}

/// Some packet that fits both matches, as a packet and as the widest match within both.
fn meet(a: &Match, b: &Match) -> Option<(crate::flow::Packet, Match)> {
    if !a.overlaps(b) {
        return None;
    }
    let longer = |p: Prefix, q: Prefix| if p.len < q.len { q } else { p };
    let meet = Match {
        port: a.port.or(b.port),
        vlan: a.vlan.or(b.vlan),
        src: longer(a.src, b.src),
        dst: longer(a.dst, b.dst),
        proto: a.proto.or(b.proto),
        sport: a.sport.or(b.sport),
        dport: a.dport.or(b.dport),
    };
    let packet = crate::flow::Packet {
        port: meet.port.unwrap_or(9),
        vlan: meet.vlan.unwrap_or(9),
        src: meet.src.value,
        dst: meet.dst.value,
        proto: meet.proto.unwrap_or(9),
        sport: meet.sport.unwrap_or(9),
        dport: meet.dport.unwrap_or(9),
    };
    Some((packet, meet))
}

/// Random pairs over all seven fields, on all tables of at most two entries with the matches of the
/// pair, their meet and a packet in it.
#[test]
fn random_pairs() {
    let mut random = Random::from_seed(1);
    let actions = [Action::Port(1), Action::Drop, Action::Controller];
    let mut commuting = 0;
    for _ in 0..8000 {
        let (m, n) = (random_match(&mut random), random_match(&mut random));
        let n = if random.one_in(6) { m } else { n };
        let mut matches = vec![m];
        if n != m {
            matches.push(n);
        }
        let mut packets = vec![packet(0x0b00_0000)];
        if let Some((packet, meet)) = meet(&m, &n) {
            packets.push(packet);
            for more in [meet, packet.as_match()] {
                if !matches.contains(&more) {
                    matches.push(more);
                }
            }
        }
        let mut events = all_writes(&[m], &[5], &actions[..2]);
        events.extend(packets.iter().map(|&p| Packet(Received, p)));
        let a = random.pick(&events);
        let mut events = all_writes(&[n], &[5, 6], &actions[..2]);
        events.extend(packets.iter().map(|&p| Packet(SentOut, p)));
        let b = random.pick(&events);
        commuting += usize::from(commutes(&a, &b));
        check(&a, &b, &small_tables(&matches, &[5, 6], &actions));
    }
    assert!((2000..6000).contains(&commuting), "{commuting} of 8000 commute");
}
