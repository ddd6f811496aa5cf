//! A barrier between a rule and a packet.

use gellunka::{list_races, page, replay, Counts, DEFAULT_DELAY};

/// A rule, a barrier, and a packet of a word.
fn trace(word: &str) -> String {
    format!(
        "\
ev=0 do=add in=- out=- from=0 to=0 sw=1 prio=10 port=* vlan=* src=00000000/0 dst=0a000002/32 proto=* sport=* dport=* act=p2
ev=1 do=bar in=- out=- from=0 to=0 sw=1
ev=2 do={word} in=- out=- from=0 to=0 sw=1 port=1 vlan=1 src=0a000001 dst=0a000002 proto=6 sport=4000 dport=80
"
    )
}

#[test]
fn it_orders_a_packet_sent_out() {
    let mut list = [9; 2];
    let counts = Counts { pairs: 1, ordered: 1, commuting: 0, listed: 0 };
    assert_eq!(list_races(trace("pout").as_bytes(), DEFAULT_DELAY, &mut list), Ok(counts));
    assert_eq!(list, [9, 9]);
}

#[test]
fn it_orders_no_packet_received() {
    let mut list = [9; 2];
    let counts = Counts { pairs: 1, ordered: 0, commuting: 0, listed: 1 };
    assert_eq!(list_races(trace("pkt").as_bytes(), DEFAULT_DELAY, &mut list), Ok(counts));
    assert_eq!(list, [0, 2]);
}

/// The page has the word of a packet sent out, and no priority.
#[test]
fn the_word_on_a_page() {
    let other_switch = trace("pout").replacen("sw=1\n", "sw=2\n", 1);
    let mut out = [0; 5 * 61];
    assert_eq!(page(other_switch.as_bytes(), DEFAULT_DELAY, &mut out), Ok(5 * 61));
    assert!(out.starts_with(b"  0   2  1 add  pout    10     - "));
}

#[test]
fn both_are_answered_alike() {
    for word in ["pkt", "pout"] {
        let (mut tables, mut answers) = ([0; 128], [0; 32]);
        let trace = trace(word);
        let lengths =
            replay(trace.as_bytes(), b"", &[0, 1, 2], DEFAULT_DELAY, &mut tables, &mut answers).unwrap();
        assert_eq!(&answers[..lengths.answers], b"ev=2 hit=10,1,p2\n");
    }
}
