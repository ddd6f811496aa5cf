//! Clocks known to a range, and the delay.

use gellunka::{list_races, page, replay, share, try_orders, Reason, Refusal, Trial, LIST_ROOM};

/// A rule whose `to` is 1000, and a packet with a clock.
fn trace(from: u32, to: u32) -> String {
    format!(
        "\
ev=0 do=add in=- out=- from=0 to=1000 sw=1 prio=10 port=* vlan=* src=00000000/0 dst=0a000002/32 proto=* sport=* dport=* act=p2
ev=1 do=pkt in=- out=- from={from} to={to} sw=1 port=1 vlan=1 src=0a000001 dst=0a000002 proto=6 sport=4000 dport=80
"
    )
}

/// Each call goes by the delay that it is given. The packet comes 3000 milliseconds behind the rule.
#[test]
fn every_call_takes_the_delay() {
    let trace = trace(4_000, 4_000);
    let trace = trace.as_bytes();
    for (delay, listed) in [(0, 0), (2_999, 0), (3_000, 1), (u32::MAX, 1)] {
        assert_eq!(list_races(trace, delay, &mut [0; LIST_ROOM]).unwrap().listed, listed);
        assert_eq!(page(trace, delay, &mut [0; 305]), Ok(61 * (4 + listed)));
        assert_eq!(share(trace, delay).unwrap().divisor, listed);
        let replayed = replay(trace, b"", &[1, 0], delay, &mut [0; 128], &mut [0; 32]);
        let refusal = Refusal { reason: Reason::EventTooEarly, place: 0, line: b"" };
        assert_eq!(replayed.err(), (listed == 0).then_some(refusal));
        let mut trials = [Trial::Agrees; 2];
        assert_eq!(try_orders(trace, b"", &[0, 1, 1, 0], delay, &mut trials), Ok(2));
        let other = if listed == 0 { Trial::Refused } else { Trial::Differs };
        assert_eq!(trials, [Trial::Agrees, other]);
    }
}

#[test]
fn a_reversed_range() {
    let trace = trace(8, 7);
    let refusal = list_races(trace.as_bytes(), 2_000, &mut []).unwrap_err();
    assert_eq!((refusal.reason, refusal.place), (Reason::RangeReversed, 1));
    assert_eq!(refusal.line, trace.lines().nth(1).unwrap().as_bytes());
    assert!(refusal.reason.is_in_trace());
    assert_eq!(refusal.to_string(), "refused=54 place=1: `from` above `to`");
}

#[test]
fn a_later_line_before_an_earlier_one() {
    let trace = trace(0, 0).replace("from=0 to=1000", "from=2001 to=2001");
    let refusal = list_races(trace.as_bytes(), 2_000, &mut []).unwrap_err();
    assert_eq!((refusal.reason, refusal.place), (Reason::TimeBackward, 0));
    assert_eq!(refusal.line, trace.lines().next().unwrap().as_bytes());
    assert!(refusal.reason.is_in_trace());
    assert_eq!(list_races(trace.as_bytes(), 2_001, &mut [0; 2]).unwrap().listed, 1);
}
