//! What an order of events does, and replay.

use crate::causality::{happens_before, EventSet};
use crate::refusal::{check_room, Refusal};
use crate::table::Answer;
use crate::tables::{normal_text, read_tables, Tables};
use crate::trace::{read_trace, Event};
use crate::write;

/// How many bytes were written to each buffer.
#[derive(Clone, Copy, Debug, PartialEq, Eq)]
pub struct Lengths {
    /// Of the end tables.
    pub tables: usize,
    /// Of the answers.
    pub answers: usize,
}

/// Runs the events of a trace in an order (one byte for each event) from the tables of a table text,
/// and writes the normalised end tables and the answers to the start of the two buffers. A refusal
/// leaves both as they were.
pub fn replay<'a>(
    trace: &'a [u8],
    tables: &'a [u8],
    order: &[u8],
    delay: u32,
    tables_out: &mut [u8],
    answers_out: &mut [u8],
) -> Result<Lengths, Refusal<'a>> {
    let (tables, answers) = outcome(trace, tables, Some(order), delay)?;
    let (end, mut lines) = (normal_text(&tables), Vec::new());
    put_answers(&mut lines, &answers);
    check_room(32, end.len(), tables_out.len())?;
    check_room(33, lines.len(), answers_out.len())?;
    tables_out[..end.len()].copy_from_slice(&end);
    answers_out[..lines.len()].copy_from_slice(&lines);
    Ok(Lengths { tables: end.len(), answers: lines.len() })
}

/// By event, its answer if it has one.
pub(crate) type Answers = Vec<Option<Answer>>;

/// The end tables and the answers, in the recorded order where none is given.
pub(crate) fn outcome<'a>(
    trace: &'a [u8],
    tables: &'a [u8],
    order: Option<&[u8]>,
    delay: u32,
) -> Result<(Tables, Answers), Refusal<'a>> {
    let events = read_trace(trace, delay)?;
    let mut tables = read_tables(tables)?;
    let recorded = recorded_order(events.len());
    let order = order.unwrap_or(&recorded);
    check_order(order, &happens_before(&events, delay))?;
    let answers = run(&events, order, &mut tables);
    Ok((tables, answers))
}

/// The recorded order of some number of events: 0, 1, 2 and so on.
pub fn recorded_order(events: usize) -> Vec<u8> {
    (0..=u8::MAX).take(events).collect()
}

/// 21 where the length is wrong or an event is missing; 22 with the lowest position that holds an
/// event put before one that happens before it.
pub fn check_order(order: &[u8], before: &[EventSet]) -> Result<(), Refusal<'static>> {
    if !has_each_once(order, before.len()) {
        return Err(Refusal::at(21, 0));
    }
    let mut taken = EventSet::default();
    for (at, &event) in order.iter().enumerate() {
        if !before[usize::from(event)].within(&taken) {
            return Err(Refusal::at(22, at));
        }
        taken.insert(usize::from(event));
    }
    Ok(())
}

/// Whether an order has each of some number of events, and as many places.
fn has_each_once(order: &[u8], events: usize) -> bool {
    let mut found = EventSet::default();
    order.iter().for_each(|&event| found.insert(usize::from(event)));
    order.len() == events && (0..events).all(|event| found.contains(event))
}

/// Takes the events from the front of the order, and keeps each answer under its event's number.
pub(crate) fn run(events: &[Event], order: &[u8], tables: &mut Tables) -> Answers {
    let mut answers = vec![None; events.len()];
    for &number in order {
        let number = usize::from(number);
        if let Some((switch, operation)) = events[number].on_table() {
            answers[number] = tables[usize::from(switch)].apply(operation);
        }
    }
    answers
}

/// Puts the answer lines, by rising event, to the end of a text.
pub(crate) fn put_answers(text: &mut Vec<u8>, answers: &Answers) {
    for (event, answer) in (0..).zip(answers) {
        let Some(answer) = answer else { continue };
        text.extend_from_slice(b"ev=");
        write::number(text, event);
        put_answer(text, answer);
        text.push(b'\n');
    }
}

fn put_answer(text: &mut Vec<u8>, answer: &Answer) {
    match *answer {
        Answer::Miss => text.extend_from_slice(b" hit=-"),
        Answer::Hit { priority, count, action } => {
            text.extend_from_slice(b" hit=");
            write::number(text, priority);
            text.push(b',');
            write::number(text, u16::try_from(count).expect("at most 512 entries"));
            text.push(b',');
            write::action(text, action);
        }
        Answer::Yes => text.extend_from_slice(b" done=yes"),
        Answer::No => text.extend_from_slice(b" done=no"),
    }
}
