//! The proved library against the reference.
//!
//! Each function makes one call of both on the same input and on buffers that hold the same bytes, compares the
//! two answers, refusals, refused lines and every byte of the buffers and around them, and gives the answer
//! back. Where they differ it panics and prints the input.

use gellunka::Trial;
use reference::{Counts, Share};
use std::fmt::Debug;
use std::ops::Range;
use std::path::{Path, PathBuf};
use std::process::Command;

/// One of the project's programs: of `target/bin` of the repository, or of the folder that GELLUNKA_BIN names.
pub fn program(name: &str) -> Command {
    let folder = std::env::var_os("GELLUNKA_BIN")
        .map_or_else(|| Path::new(env!("CARGO_MANIFEST_DIR")).join("../../target/bin"), PathBuf::from);
    let path = folder.join(name);
    assert!(
        path.exists(),
        "{} is missing: run `tools/build {name}` at the repository's root",
        path.display()
    );
    Command::new(path)
}

/// A folder for files of a test, removed with all that it holds when it goes out of scope.
pub struct Folder(PathBuf);

impl Folder {
    /// An empty folder of this process, by a name that no other test has.
    pub fn new(name: &str) -> Folder {
        let path = std::env::temp_dir().join(format!("gellunka-{}-{name}", std::process::id()));
        std::fs::create_dir_all(&path).expect("a folder for the files");
        Folder(path)
    }

    /// The path of a file in it.
    pub fn path(&self, name: &str) -> PathBuf {
        self.0.join(name)
    }

    /// A file with these bytes.
    pub fn file(&self, name: &str, bytes: &[u8]) -> PathBuf {
        let path = self.path(name);
        std::fs::write(&path, bytes).expect("the file is written");
        path
    }
}

impl Drop for Folder {
    fn drop(&mut self) {
        let _ = std::fs::remove_dir_all(&self.0);
    }
}

/// What both answered where they refused: number, place, and where the refused line stands.
#[derive(Clone, Debug, PartialEq, Eq)]
pub struct Refused {
    /// Document 01's number.
    pub number: usize,
    /// A line, a position, the bytes needed, or 0.
    pub place: usize,
    /// The refused line.
    pub line: Vec<u8>,
    /// Where the refused line stands in its text, if it is not empty.
    pub at: Option<usize>,
}

/// What both answered, with the bytes that they left in the buffer.
pub type Answer<T> = Result<T, Refused>;

/// The delay of the programs.
pub const DELAY: u32 = gellunka::DEFAULT_DELAY;

/// The list call of both on a trace, a delay and a buffer of so many bytes.
pub fn list(trace: &[u8], delay: u32, room: usize) -> Answer<(Counts, Vec<u8>)> {
    let (mut ours, mut theirs) = (Buffer::new(room), Buffer::new(room));
    let proved = gellunka::list_races(trace, delay, ours.bytes())
        .map(|c| (c.pairs, c.ordered, c.commuting, c.listed))
        .map_err(|r| from_library(&r, trace, b""));
    let plain = reference::list(trace, delay, theirs.bytes());
    let expected = plain
        .map(|c| (c.pairs, c.ordered, c.commuting, c.listed))
        .map_err(|r| from_reference(&r, trace, b""));
    let show = || format!("list call, delay {delay}, buffer of {room} bytes\n{}", text("trace", trace));
    same(&proved, &expected, show);
    same_buffers(&ours, &theirs, show);
    expected?;
    Ok((plain.expect("not refused"), theirs.into_bytes()))
}

/// The page call of both on a trace, a delay and a buffer of so many bytes: the page.
pub fn page(trace: &[u8], delay: u32, room: usize) -> Answer<Vec<u8>> {
    written(
        &format!("page call, delay {delay}"),
        trace,
        room,
        |trace, out| gellunka::page(trace, delay, out),
        |trace, out| reference::page(trace, delay, out),
    )
}

/// The share call of both on a trace and a delay.
pub fn share(trace: &[u8], delay: u32) -> Answer<Share> {
    let proved = gellunka::share(trace, delay)
        .map(|s| Share { quotient: s.quotient, remainder: s.remainder, divisor: s.divisor })
        .map_err(|r| from_library(&r, trace, b""));
    let expected = reference::share(trace, delay).map_err(|r| from_reference(&r, trace, b""));
    same(&proved, &expected, || format!("share call, delay {delay}\n{}", text("trace", trace)));
    expected
}

/// Of a valid trace with these counts at a delay both give the share that belongs to them.
pub fn assert_share(trace: &[u8], delay: u32, counts: Counts) {
    let share = share(trace, delay).expect("a valid trace");
    let Share { quotient, remainder, divisor } = share;
    let holds = divisor == counts.commuting + counts.listed
        && divisor == counts.pairs - counts.ordered
        && quotient * divisor + remainder == 1000 * counts.commuting
        && (remainder < divisor || share == Share::default());
    assert!(holds, "{share:?} of {counts:?}\n{}", text("trace", trace));
}

/// The normaliser of both on a table text and a buffer of so many bytes: the normal text.
pub fn normalise(tables: &[u8], room: usize) -> Answer<Vec<u8>> {
    written("normaliser", tables, room, gellunka::normalise, reference::normalise)
}

/// A call of both from one text to another: what they wrote.
fn written<'a>(
    call: &str,
    input: &'a [u8],
    room: usize,
    proved: impl FnOnce(&'a [u8], &mut [u8]) -> Result<usize, gellunka::Refusal<'a>>,
    plain: impl FnOnce(&'a [u8], &mut [u8]) -> Result<usize, reference::Refusal<'a>>,
) -> Answer<Vec<u8>> {
    let (mut ours, mut theirs) = (Buffer::new(room), Buffer::new(room));
    let proved = proved(input, ours.bytes()).map_err(|r| from_library(&r, input, input));
    let expected = plain(input, theirs.bytes()).map_err(|r| from_reference(&r, input, input));
    let show = || format!("{call}, buffer of {room} bytes\n{}", text("input", input));
    same(&proved, &expected, show);
    same_buffers(&ours, &theirs, show);
    let length = expected?;
    Ok(theirs.into_bytes()[..length].to_vec())
}

/// The two texts that a replay writes.
#[derive(Clone, Debug, PartialEq, Eq)]
pub struct Replayed {
    /// The end tables.
    pub tables: Vec<u8>,
    /// The answers.
    pub answers: Vec<u8>,
}

/// The replay call of both at a delay, with buffers of so many bytes for the end tables and the answers.
pub fn replay(trace: &[u8], tables: &[u8], order: &[u8], delay: u32, rooms: [usize; 2]) -> Answer<Replayed> {
    let [mut our_tables, mut our_answers] = rooms.map(Buffer::new);
    let [mut their_tables, mut their_answers] = rooms.map(Buffer::new);
    let proved = gellunka::replay(trace, tables, order, delay, our_tables.bytes(), our_answers.bytes())
        .map(|lengths| (lengths.tables, lengths.answers))
        .map_err(|r| from_library(&r, trace, tables));
    let expected =
        reference::replay(trace, tables, order, delay, their_tables.bytes(), their_answers.bytes())
            .map(|lengths| (lengths.tables, lengths.answers))
            .map_err(|r| from_reference(&r, trace, tables));
    let show = || {
        let texts = [text("trace", trace), text("tables", tables)].concat();
        format!("replay, delay {delay}, order {order:?}, buffers of {rooms:?} bytes\n{texts}")
    };
    same(&proved, &expected, show);
    same_buffers(&our_tables, &their_tables, show);
    same_buffers(&our_answers, &their_answers, show);
    let (tables, answers) = expected?;
    Ok(Replayed {
        tables: their_tables.into_bytes()[..tables].to_vec(),
        answers: their_answers.into_bytes()[..answers].to_vec(),
    })
}

/// The call of both on many orders at a delay, with a buffer for so many results: the byte of each order.
pub fn try_orders(trace: &[u8], tables: &[u8], orders: &[u8], delay: u32, room: usize) -> Answer<Vec<u8>> {
    let mut theirs = Buffer::new(room);
    theirs.all.iter_mut().for_each(|byte| *byte %= 3);
    let mut ours: Vec<Trial> = theirs.all.iter().map(|&byte| TRIALS[usize::from(byte)]).collect();
    let proved = gellunka::try_orders(trace, tables, orders, delay, &mut ours[theirs.lent.clone()])
        .map_err(|r| from_library(&r, trace, tables));
    let expected = reference::try_orders(trace, tables, orders, delay, theirs.bytes())
        .map_err(|r| from_reference(&r, trace, tables));
    let show = || {
        let inputs = [("trace", trace), ("tables", tables), ("orders", orders)];
        format!(
            "many orders, delay {delay}, buffer for {room}\n{}",
            inputs.map(|(name, bytes)| text(name, bytes)).concat()
        )
    };
    same(&proved, &expected, show);
    let ours = Buffer { all: ours.iter().map(|&trial| trial as u8).collect(), lent: theirs.lent.clone() };
    same_buffers(&ours, &theirs, show);
    let count = expected?;
    Ok(theirs.into_bytes()[..count].to_vec())
}

/// What is told of an order, by its byte.
const TRIALS: [Trial; 3] = [Trial::Agrees, Trial::Differs, Trial::Refused];

/// A trace of events on one switch without clocks that nothing orders, each a word and its items.
pub fn trace(events: &[(&str, String)]) -> Vec<u8> {
    let line = |(number, (word, items)): (usize, &(&str, String))| {
        format!("ev={number} do={word} in=- out=- from=0 to=0 sw=1 {items}\n")
    };
    events.iter().enumerate().map(line).collect::<String>().into_bytes()
}

/// Of the pairs of such events those are listed by both of which this holds.
pub fn assert_listed(events: &[(&str, String)], races: impl Fn(usize, usize) -> bool) {
    let trace = trace(events);
    let (counts, mut pairs) = list(&trace, DELAY, 65_280).expect("a valid trace");
    pairs.truncate(2 * counts.listed);
    let later = |low: usize| (low + 1..events.len()).map(move |high| (low, high));
    let expected: Vec<u8> = (0..events.len())
        .flat_map(later)
        .filter(|&(low, high)| races(low, high))
        .flat_map(|(low, high)| [low as u8, high as u8])
        .collect();
    assert_eq!(pairs, expected, "{}", String::from_utf8_lossy(&trace));
}

/// A buffer that is lent to a call, between bytes that the call must not touch.
struct Buffer {
    all: Vec<u8>,
    lent: Range<usize>,
}

impl Buffer {
    const AROUND: usize = 16;

    fn new(length: usize) -> Buffer {
        // Bytes that differ from their neighbours, so that a shift is seen.
        let all =
            (0..=u8::MAX).cycle().map(|n| n.wrapping_mul(151)).take(length + 2 * Self::AROUND).collect();
        Buffer { all, lent: Self::AROUND..Self::AROUND + length }
    }

    fn bytes(&mut self) -> &mut [u8] {
        &mut self.all[self.lent.clone()]
    }

    fn into_bytes(self) -> Vec<u8> {
        self.all[self.lent].to_vec()
    }
}

fn same<T: PartialEq + Debug>(proved: &T, expected: &T, show: impl Fn() -> String) {
    assert!(proved == expected, "library {proved:?}\nreference {expected:?}\n{}", show());
}

fn same_buffers(proved: &Buffer, expected: &Buffer, show: impl Fn() -> String) {
    if proved.all != expected.all {
        let at = proved.all.iter().zip(&expected.all).position(|(a, b)| a != b);
        panic!("buffers differ, first {:?} bytes after 16 before the buffer\n{}", at, show());
    }
}

fn from_library(refusal: &gellunka::Refusal, trace: &[u8], tables: &[u8]) -> Refused {
    refused(refusal.reason.number(), refusal.place, refusal.line, trace, tables)
}

fn from_reference(refusal: &reference::Refusal, trace: &[u8], tables: &[u8]) -> Refused {
    refused(usize::from(refusal.number), refusal.place, refusal.line, trace, tables)
}

fn refused(number: usize, place: usize, line: &[u8], trace: &[u8], tables: &[u8]) -> Refused {
    let in_text = if matches!(number, 14..=16) { tables } else { trace };
    let at = (!line.is_empty()).then(|| {
        let at = line.as_ptr().addr() - in_text.as_ptr().addr();
        assert_eq!(&in_text[at..][..line.len()], line, "the refused line is a part of its text");
        at
    });
    Refused { number, place, line: line.to_vec(), at }
}

/// A text as it is printed for a failing case: as Rust writes a byte string.
fn text(name: &str, bytes: &[u8]) -> String {
    format!("{name}, {} bytes: b\"{}\"\n", bytes.len(), bytes.escape_ascii())
}
