//! Faults put into a text.

use crate::Random;

/// The largest text that is read.
const MAX_BYTES: usize = 65_535;

/// A text with some faults, mostly one, sometimes several that compete. Now and then a fault changes
/// nothing that matters, and the text stays valid.
pub fn damaged(random: &mut Random, text: &[u8]) -> Vec<u8> {
    let mut text = text.to_vec();
    let faults = random.pick(&[1, 1, 1, 2, 3, 5]);
    for _ in 0..faults {
        text = one_fault(random, &text);
    }
    text
}

fn one_fault(random: &mut Random, text: &[u8]) -> Vec<u8> {
    match random.below(25) {
        0 => whole_text(random, text),
        1 | 2 => any_byte(random, text),
        3 | 4 => lines_moved(random, text),
        5 => last_byte(random, text),
        6..=8 => prefix_bit(random, text),
        9..=15 => token(random, text),
        20..=24 => clock(random, text),
        _ => value(random, text),
    }
}

/// Too long, just not too long, too many lines, just not too many.
fn whole_text(random: &mut Random, text: &[u8]) -> Vec<u8> {
    let mut text = text.to_vec();
    match random.below(4) {
        0 => {
            // One long last line, up to the limit or past it.
            let length = random.pick(&[MAX_BYTES - 1, MAX_BYTES, MAX_BYTES + 1, MAX_BYTES + 2]);
            let fill = random.pick(b"x0 \0");
            text.resize(length.max(text.len()) - 1, fill);
            text.push(random.pick(b"\n\n\nx"));
        }
        1 => {
            let lines = text.iter().filter(|&&b| b == b'\n').count();
            let wanted = random.pick(&[256, 257, 300, 65_535]);
            text.extend(std::iter::repeat_n(b'\n', usize::max(wanted, lines) - lines));
        }
        2 => {
            // The lines again and again, up to 256 or 257.
            let lines: Vec<&[u8]> = text.split_inclusive(|&b| b == b'\n').collect();
            let wanted = random.pick(&[256, 257]);
            text = lines.into_iter().cycle().take(wanted).collect::<Vec<_>>().concat();
        }
        _ => text.clear(),
    }
    text
}

/// A byte changed, put in or taken out.
fn any_byte(random: &mut Random, text: &[u8]) -> Vec<u8> {
    let mut text = text.to_vec();
    if text.is_empty() {
        return vec![random.pick(b"\n\0xe\xff")];
    }
    let at = random.below(text.len());
    let byte = random.pick(b"\0\t\n\r  ,-/0019=*aefpABF\x7f\x80\xff");
    match random.below(4) {
        0 => text[at] = byte,
        1 => text.insert(at, byte),
        2 => {
            text.remove(at);
        }
        _ => text[at] ^= 1 << random.below(8),
    }
    text
}

/// A line lost, twice, exchanged with another, or an empty one.
fn lines_moved(random: &mut Random, text: &[u8]) -> Vec<u8> {
    let mut lines: Vec<&[u8]> = text.split_inclusive(|&b| b == b'\n').collect();
    if lines.is_empty() {
        return text.to_vec();
    }
    let (i, j) = (random.below(lines.len()), random.below(lines.len()));
    match random.below(4) {
        0 => {
            lines.remove(i);
        }
        1 => lines.insert(i, lines[j]),
        2 => lines.swap(i, j),
        _ => lines.insert(i, b"\n"),
    }
    lines.concat()
}

/// The end of the text cut off, or more put to it.
fn last_byte(random: &mut Random, text: &[u8]) -> Vec<u8> {
    let mut text = text.to_vec();
    match random.below(3) {
        0 => text.truncate(random.below(text.len() + 1)),
        1 => {
            text.pop();
        }
        _ => text.extend_from_slice(random.pick(&[&b"x"[..], b" ", b"\n", b"\0", b"x\n"])),
    }
    text
}

/// A length made shorter under a prefix, so that bits may stand past it.
fn prefix_bit(random: &mut Random, text: &[u8]) -> Vec<u8> {
    let slashes = places(text, |at| text[at] == b'/');
    let Some(at) = pick_place(random, &slashes) else { return text.to_vec() };
    let mut text = text.to_vec();
    if random.one_in(2) && at > 0 {
        text[at - 1] = random.pick(b"13579bdf");
    }
    let length: &[u8] = random.pick(&[&b"/31"[..], b"/0", b"/7", b"/16", b"/32"]);
    replace_value(&mut text, at, length);
    text
}

/// A token put out or taken in by another line too.
fn token(random: &mut Random, text: &[u8]) -> Vec<u8> {
    let is_tokens = |at: usize| text[at..].starts_with(b" in=") || text[at..].starts_with(b" out=");
    let lists = places(text, is_tokens);
    let (Some(from), Some(to)) = (pick_place(random, &lists), pick_place(random, &lists)) else {
        return text.to_vec();
    };
    let value_at = |at: usize| at + if text[at..].starts_with(b" in=") { 4 } else { 5 };
    let from = value_at(from);
    let end = text[from..].iter().position(|&b| b == b' ' || b == b'\n').map_or(text.len(), |n| from + n);
    let tokens = match random.below(12) {
        0 => b"1,2,3,4,5".to_vec(),
        1 => b"7,7".to_vec(),
        2..=6 => b"7".to_vec(),
        _ => text[from..end].to_vec(),
    };
    let mut damaged = text.to_vec();
    replace_value(&mut damaged, value_at(to), &tokens);
    damaged
}

/// The range of a line's clock reversed, far from those of other lines, malformed or not there.
fn clock(random: &mut Random, text: &[u8]) -> Vec<u8> {
    const CLOCKS: [&str; 16] = [
        // Alone, or before and behind all others.
        " from=0 to=0",
        " from=0 to=4294967295",
        " from=4294967295 to=4294967295",
        " from=4294967295 to=4294967295",
        " from=4294967294 to=4294967295",
        " from=2001 to=4294967295",
        " from=2000 to=2000",
        // Reversed.
        " from=1 to=0",
        " from=4294967295 to=4294967294",
        " from=4294967295 to=0",
        // Malformed.
        "",
        " from=0",
        " to=0",
        " to=0 from=0",
        " from=00 to=0",
        " from=0 to=4294967296",
    ];
    let clocks = places(text, |at| text[at..].starts_with(b" from="));
    let Some(at) = pick_place(random, &clocks) else { return text.to_vec() };
    let ends = |byte: &u8| *byte == b' ' || *byte == b'\n';
    let start = text[at + 1..].iter().position(ends).map_or(text.len(), |n| at + 1 + n);
    let has_to = text[start..].starts_with(b" to=");
    let end =
        if has_to { text[start + 1..].iter().position(ends).map(|n| start + 1 + n) } else { Some(start) };
    let mut damaged = text.to_vec();
    damaged.splice(at..end.unwrap_or(text.len()), random.pick(&CLOCKS).bytes());
    damaged
}

/// The value of an item replaced by one at a limit, past it, or of a wrong form.
fn value(random: &mut Random, text: &[u8]) -> Vec<u8> {
    const VALUES: [&str; 33] = [
        "",
        "0",
        "00",
        "01",
        "1",
        "15",
        "16",
        "32",
        "33",
        "255",
        "256",
        "4095",
        "4096",
        "65535",
        "65536",
        "99999",
        "4294967295",
        "4294967296",
        "18446744073709551616",
        "-",
        "-1",
        "+1",
        "*",
        "**",
        "drop",
        "ctl",
        "p0",
        "p65536",
        "p",
        "00000000/0",
        "0a000000/08",
        "0A000000/8",
        "ffffffff",
    ];
    const WORDS: [&str; 15] = [
        "pkt", "pout", "add", "addc", "mods", "modn", "dels", "deln", "bar", "msg", "oth", "ad", "other",
        "pou", "pouts",
    ];
    let equals = places(text, |at| text[at] == b'=');
    let Some(at) = pick_place(random, &equals) else { return text.to_vec() };
    let value = if text[..at].ends_with(b"do") { random.pick(&WORDS) } else { random.pick(&VALUES) };
    let mut text = text.to_vec();
    replace_value(&mut text, at + 1, value.as_bytes());
    text
}

fn places(text: &[u8], wanted: impl Fn(usize) -> bool) -> Vec<usize> {
    (0..text.len()).filter(|&at| wanted(at)).collect()
}

fn pick_place(random: &mut Random, places: &[usize]) -> Option<usize> {
    (!places.is_empty()).then(|| random.pick(places))
}

/// Replaces what stands from a place to the next space or LF.
fn replace_value(text: &mut Vec<u8>, at: usize, value: &[u8]) {
    let end = text[at..].iter().position(|&b| b == b' ' || b == b'\n').map_or(text.len(), |n| at + n);
    text.splice(at..end, value.iter().copied());
}
