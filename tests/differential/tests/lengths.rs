//! Prefixes of all 33 lengths in `src` and in `dst`: which pass, what fits them, which overlap and which lie within one
//! another. Library and reference agree, and both do what the first bits of the addresses say.

use differential::{assert_listed, list, normalise, replay, trace, DELAY};
use reference::replay::recorded_order;

const FIELDS: [&str; 2] = ["src", "dst"];
const LENGTHS: std::ops::RangeInclusive<usize> = 0..=32;
const ADDRESSES: [u32; 3] = [0, 0x0a5c_3c99, u32::MAX];

/// The bit of an address at a place, counted from the highest.
fn bit(place: usize) -> u32 {
    1 << (31 - place)
}

/// As many first bits of an address as a length says, and the length.
fn prefix(address: u32, length: usize) -> String {
    let value: u32 = (0..length).map(|place| address & bit(place)).sum();
    format!("{value:08x}/{length}")
}

/// Addresses that have as many first bits of an address, and the next one not: one with no other bit changed, one with
/// all further bits changed.
fn near(address: u32, shared: usize) -> [u32; 2] {
    let changed = |places: std::ops::Range<usize>| places.map(bit).fold(address, |near, bit| near ^ bit);
    [changed(shared..32.min(shared + 1)), changed(shared..32)]
}

fn matching(field: &str, prefix: &str) -> String {
    let [src, dst] = FIELDS.map(|other| if other == field { prefix } else { "00000000/0" });
    format!("port=* vlan=* src={src} dst={dst} proto=* sport=* dport=*")
}

fn packet(field: &str, address: u32) -> String {
    let [src, dst] = FIELDS.map(|other| if other == field { address } else { 0x0102_0304 });
    format!("port=1 vlan=1 src={src:08x} dst={dst:08x} proto=6 sport=4000 dport=80")
}

/// With each field, address, number of first bits that another address shares with it, and such an address.
fn for_each_two_addresses(mut with: impl FnMut(&str, u32, usize, u32)) {
    for field in FIELDS {
        for address in ADDRESSES {
            for shared in LENGTHS {
                for other in near(address, shared) {
                    with(field, address, shared, other);
                }
            }
        }
    }
}

#[test]
fn a_bit_past_the_length_is_refused() {
    for field in FIELDS {
        for length in LENGTHS {
            for place in 0..32 {
                let matching = matching(field, &format!("{:08x}/{length}", bit(place)));
                let tables = format!("sw=1 prio=1 {matching} act=p1\n");
                let normal = normalise(tables.as_bytes(), 128).map_err(|refused| refused.number);
                let counts = list(&trace(&[("deln", matching)]), DELAY, 0).map_err(|refused| refused.number);
                let passes = place < length;
                assert_eq!(normal, if passes { Ok(tables.into_bytes()) } else { Err(15) });
                assert_eq!(counts.map(|(counts, _)| counts.pairs), if passes { Ok(0) } else { Err(6) });
            }
        }
    }
}

/// A packet fits the prefixes that are no longer than what it shares, and meets the longest of these.
#[test]
fn which_prefixes_a_packet_fits() {
    for_each_two_addresses(|field, address, shared, other| {
        let rule = |length: usize| {
            let matching = matching(field, &prefix(address, length));
            ("add", format!("prio={length} {matching} act=p{length}"))
        };
        let events: Vec<_> = LENGTHS.map(rule).chain([("pkt", packet(field, other))]).collect();
        assert_listed(&events, |length, event| event == 33 && length <= shared);
        let written =
            replay(&trace(&events), b"", &recorded_order(34), DELAY, [58_880, 64]).expect("all valid");
        assert_eq!(written.answers, format!("ev=33 hit={shared},1,p{shared}\n").into_bytes());
    });
}

/// Two overlap if the shorter is no longer than what the addresses share.
#[test]
fn which_prefixes_overlap() {
    for_each_two_addresses(|field, address, shared, other| {
        let checked = |address: u32, length: usize| {
            ("addc", format!("prio=1 {} act=drop", matching(field, &prefix(address, length))))
        };
        let first = LENGTHS.map(|length| checked(address, length));
        let second = LENGTHS.map(|length| checked(other, length));
        let of_one_address = |low: usize, high: usize| (low < 33) == (high < 33);
        assert_listed(&first.chain(second).collect::<Vec<_>>(), |low, high| {
            of_one_address(low, high) || low.min(high - 33) <= shared
        });
    });
}

/// One lies within another that is no longer than it and no longer than what the addresses share.
#[test]
fn which_prefixes_lie_within() {
    for_each_two_addresses(|field, address, shared, other| {
        let delete = |length| ("deln", matching(field, &prefix(address, length)));
        let add = |length| ("add", format!("prio=1 {} act=drop", matching(field, &prefix(other, length))));
        let events: Vec<_> = LENGTHS.map(delete).chain(LENGTHS.map(add)).collect();
        assert_listed(&events, |low, high| low < 33 && high >= 33 && low <= high - 33 && low <= shared);
    });
}
