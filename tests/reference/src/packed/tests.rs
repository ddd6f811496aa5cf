//! The integers against the fields.

use super::*;
use crate::flow::Packet;
use random::Random;

/// A match of few values, so that two often overlap, lie within each other or are equal.
pub(crate) fn random_match(random: &mut Random) -> Match {
    let mut prefix = || {
        let len = random.pick(&[0, 0, 0, 1, 2, 31, 32]);
        let value = random.pick(&[0, 0, 1, 1 << 31, u32::MAX]);
        let all = Prefix { value, len };
        Prefix { value: value & all.mask(), len }
    };
    Match {
        src: prefix(),
        dst: prefix(),
        port: random.pick(&[None, None, None, Some(0), Some(65_535)]),
        vlan: random.pick(&[None, None, None, Some(0), Some(4095)]),
        proto: random.pick(&[None, None, None, Some(0), Some(255)]),
        sport: random.pick(&[None, None, None, Some(0)]),
        dport: random.pick(&[None, None, None, Some(80)]),
    }
}

/// A match that differs from another in one field at most.
fn neighbour(random: &mut Random, matching: &Match) -> Match {
    let other = random_match(random);
    let mut near = *matching;
    match random.below(7) {
        0 => near.port = other.port,
        1 => near.vlan = other.vlan,
        2 => near.src = other.src,
        3 => near.dst = other.dst,
        4 => near.proto = other.proto,
        5 => near.sport = other.sport,
        _ => near.dport = other.dport,
    }
    near
}

fn random_packet(random: &mut Random) -> Packet {
    let address = |random: &mut Random| random.pick(&[0, 1, 1 << 30, 1 << 31, u32::MAX]);
    Packet {
        port: random.pick(&[0, 1, 65_535]),
        vlan: random.pick(&[0, 1, 4095]),
        src: address(random),
        dst: address(random),
        proto: random.pick(&[0, 255]),
        sport: random.pick(&[0, 1]),
        dport: random.pick(&[0, 80]),
    }
}

#[test]
fn as_field_by_field() {
    let mut random = Random::from_seed(11);
    let (mut overlaps, mut within, mut fits) = (0, 0, 0);
    for _ in 0..200_000 {
        let m = random_match(&mut random);
        let n = if random.one_in(2) { neighbour(&mut random, &m) } else { random_match(&mut random) };
        let (a, b) = (Row::of_match(m), Row::of_match(n));
        assert_eq!(a.matching(), m);
        assert_eq!(a == b, m == n);
        assert_eq!(a.overlaps(&b), m.overlaps(&n), "{m:?}\n{n:?}");
        assert_eq!(a.within(&b), m.within(&n), "{m:?}\n{n:?}");
        let packet = random_packet(&mut random);
        let only = Row::of_match(packet.as_match());
        assert_eq!(a.overlaps(&only), m.fits(&packet), "{m:?}\n{packet:?}");
        overlaps += usize::from(a.overlaps(&b));
        within += usize::from(a.within(&b));
        fits += usize::from(a.overlaps(&only));
    }
    for met in [overlaps, within, fits] {
        assert!((5_000..195_000).contains(&met), "{overlaps} {within} {fits}");
    }
}

#[test]
fn table_order() {
    let mut random = Random::from_seed(12);
    for _ in 0..200_000 {
        let m = random_match(&mut random);
        let n = if random.one_in(2) { neighbour(&mut random, &m) } else { random_match(&mut random) };
        let mut row = |matching| {
            let key = Key::new(random.pick(&[0, 5, 6, 65_535]), matching);
            (key, Row::new(&key, Action::Drop))
        };
        let ((k, a), (l, b)) = (row(m), row(n));
        assert_eq!(a.rank().cmp(&b.rank()), k.cmp(&l), "{k:?}\n{l:?}");
        assert_eq!(a.has_key_of(&b), k == l);
        assert_eq!(a.clashes(&b), k.clashes(&l));
        assert_eq!(a.entry(), Entry { key: k, action: Action::Drop });
    }
}
