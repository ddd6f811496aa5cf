//! The share of pairs that commute.

use gellunka::{list_races, share, Counts, Reason, Share, DEFAULT_DELAY, LIST_ROOM};

/// Three rules of one switch, which nothing orders: two of one key and, behind them, one of another.
const RULES: &[u8] = b"\
ev=0 do=add in=- out=- from=0 to=0 sw=1 prio=10 port=* vlan=* src=00000000/0 dst=0a000002/32 proto=* sport=* dport=* act=p2
ev=1 do=add in=- out=- from=0 to=0 sw=1 prio=10 port=* vlan=* src=00000000/0 dst=0a000002/32 proto=* sport=* dport=* act=p3
ev=2 do=add in=- out=- from=0 to=0 sw=1 prio=10 port=* vlan=* src=00000000/0 dst=0a000003/32 proto=* sport=* dport=* act=p4
";

#[test]
fn two_of_three_pairs() {
    let counts = Counts { pairs: 3, ordered: 0, commuting: 2, listed: 1 };
    assert_eq!(list_races(RULES, DEFAULT_DELAY, &mut [0; LIST_ROOM]), Ok(counts));
    assert_eq!(share(RULES, DEFAULT_DELAY), Ok(Share { quotient: 666, remainder: 2, divisor: 3 }));
}

#[test]
fn no_pair() {
    assert_eq!(share(b"", DEFAULT_DELAY), Ok(Share::default()));
}

#[test]
fn a_refused_line() {
    let cut = [RULES, b"ev=3\n"].concat();
    let refusal = share(&cut, DEFAULT_DELAY).unwrap_err();
    assert_eq!((refusal.reason, refusal.place, refusal.line), (Reason::TraceMalformed, 3, &b"ev=3"[..]));
}
