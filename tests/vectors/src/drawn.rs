//! Lines drawn at random, the same from the same seed.

use crate::items::number;
use cases::print::{entry_line, event_line};
use cases::tables::any_tables;
use cases::traces::{any_trace, any_untimed};
use cases::{Random, World};
use reference::trace::Event;

/// The lines of `24 events of 3 switches, seed 7`, a valid trace whose matches often overlap or lie
/// within each other; of `24 timed of 3 switches, seed 7`, such a trace with clocks, from a seed that gives some;
/// or of `24 entries of 3 switches, seed 7`, tables of all values.
pub fn drawn(statement: &str) -> Result<Vec<String>, String> {
    let parts = || match statement.split(' ').collect::<Vec<_>>()[..] {
        [count, kind, "of", switches, "switch," | "switches,", "seed", seed] => {
            Some((number(count)?, kind, number(switches)?, number(seed)?))
        }
        _ => None,
    };
    let (count, kind, switches, seed) =
        parts().ok_or("`random` is followed by `N events of N switches, seed N`")?;
    let mut random = Random::from_seed(seed);
    let world = World { wide: false, switches };
    let lines: Vec<String> = match kind {
        "events" => event_lines(&any_untimed(&mut random, world, count)),
        "timed" => event_lines(&any_trace(&mut random, world, count)),
        "entries" => {
            let entries = any_tables(&mut random, World { wide: true, switches }, count);
            entries.into_iter().map(|(switch, entry)| entry_line(switch, entry)).collect()
        }
        _ => return Err(format!("`{kind}` can't be drawn at random")),
    };
    if lines.len() != count {
        return Err(format!("only {} {kind} were drawn", lines.len()));
    }
    Ok(lines)
}

fn event_lines(events: &[Event]) -> Vec<String> {
    events.iter().enumerate().map(|(place, event)| event_line(place, event)).collect()
}

#[cfg(test)]
mod tests {
    use super::*;
    use reference::{read_tables, read_trace};

    fn text(statement: &str) -> Vec<u8> {
        drawn(statement).unwrap().iter().flat_map(|line| format!("{line}\n").into_bytes()).collect()
    }

    #[test]
    fn as_many_lines_of_valid_texts() {
        for kind in ["events", "timed"] {
            let trace = text(&format!("30 {kind} of 1 switch, seed 7"));
            assert_eq!(read_trace(&trace, 0).unwrap().len(), 30);
        }
        let tables = read_tables(&text("256 entries of 16 switches, seed 7")).unwrap();
        assert_eq!(tables.iter().map(|table| table.len()).sum::<usize>(), 256);
        assert!(drawn("30 events, seed 7").is_err());
        assert!(drawn("30 orders of 1 switch, seed 7").is_err());
    }
}
