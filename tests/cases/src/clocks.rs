//! Clocks and delays.

use crate::Random;
use reference::trace::{Clock, Event};

/// A delay: mostly that of the programs, sometimes the least and the largest, and those around the steps of
/// [`any_clocks`].
pub fn any_delay(random: &mut Random) -> u32 {
    match random.below(6) {
        0 => random.pick(&[0, 0, 1, 9, 10, 11, 999, 1_000, 1_001]),
        1 => random.pick(&[1_999, 2_001, 3_999, 4_000, 100_000, u32::MAX - 1, u32::MAX]),
        _ => 2_000,
    }
}

/// Gives the events of a trace clocks with which it is accepted at every delay: mostly none at all, which is from 0 to 0
/// on each line, else ranges around times that rise with the lines.
pub fn any_clocks(random: &mut Random, events: &mut [Event]) {
    if random.one_in(2) {
        return;
    }
    let steps: &[u32] = random.pick(&[&[1, 10][..], &[1_000, 2_000, 2_001], &[4_001, 1_000_000]]);
    let spreads: &[u32] = random.pick(&[&[0][..], &[0, 1], &[0, 500, 1_000], &[0, 10_000]]);
    let share = random.pick(&[1, 2, 8]);
    let mut time = first_time(random);
    for event in events {
        if random.one_in(share) {
            time = time.saturating_add(random.pick(steps));
        }
        event.clock = match random.below(16) {
            // What the controller did is compared with nothing.
            _ if !event.is_handled() => any_range(random),
            0 => Clock { from: 0, to: u32::MAX },
            1 => Clock { from: time, to: u32::MAX },
            2 => Clock { from: 0, to: time },
            _ => Clock {
                from: time.saturating_sub(random.pick(spreads)),
                to: time.saturating_add(random.pick(spreads)),
            },
        };
    }
}

/// Gives the events clocks without regard to the lines, so that the trace may be refused by 55.
pub fn any_unsorted_clocks(random: &mut Random, events: &mut [Event]) {
    let spread = random.pick(&[0, 0, 500]);
    let start = first_time(random);
    for event in events {
        let time = start.saturating_add(random.pick(&[0, 500, 1_000, 2_000, 2_001, 4_000]));
        event.clock = Clock { from: time.saturating_sub(spread), to: time.saturating_add(spread) };
    }
}

/// The first time of a trace: the least, some, or one from which the largest is soon reached.
fn first_time(random: &mut Random) -> u32 {
    random.pick(&[0, 0, 5_000, 1_700_000_000, u32::MAX - 10_000, u32::MAX - 2_000])
}

fn any_range(random: &mut Random) -> Clock {
    let times = [0, 1, 2_000, 2_001, 1_000_000, u32::MAX - 1, u32::MAX];
    let (one, other) = (random.pick(&times), random.pick(&times));
    Clock { from: one.min(other), to: one.max(other) }
}

#[cfg(test)]
mod tests {
    use super::*;
    use crate::print::trace_text;
    use crate::traces::any_untimed;
    use crate::World;
    use reference::{happens_before, read_trace};

    #[test]
    fn sorted_clocks_are_accepted_at_every_delay() {
        let mut random = Random::from_seed(21);
        let mut more = 0;
        for _ in 0..400 {
            let mut events = any_untimed(&mut random, World { wide: false, switches: 2 }, 20);
            let without = happens_before(&events, 0);
            any_clocks(&mut random, &mut events);
            for delay in [0, 1, 2_000, u32::MAX] {
                assert_eq!(read_trace(&trace_text(&events), delay), Ok(events.clone()));
            }
            more += usize::from(happens_before(&events, 2_000) != without);
        }
        assert!(more > 100, "{more} have more that is ordered");
    }

    #[test]
    fn unsorted_ones_are_often_refused() {
        let mut random = Random::from_seed(22);
        let mut refused = 0;
        for _ in 0..400 {
            let mut events = any_untimed(&mut random, World { wide: false, switches: 2 }, 6);
            any_unsorted_clocks(&mut random, &mut events);
            let delay = any_delay(&mut random);
            let text = trace_text(&events);
            let answer = read_trace(&text, delay);
            refused += usize::from(answer.as_ref().is_err_and(|refusal| refusal.number == 55));
            assert!(answer.is_ok_and(|read| read == events) || read_trace(&text, u32::MAX).is_ok());
        }
        assert!((50..350).contains(&refused), "{refused} are refused");
    }
}
