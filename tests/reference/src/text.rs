//! Texts, read from the front.

use crate::flow::{Action, Entry, Exact, Key, Match, Packet, Prefix};

/// The largest text that is read.
const MAX_BYTES: usize = 65_535;
/// The most lines that a text may have.
const MAX_LINES: usize = 256;
/// The largest VLAN.
const MAX_VLAN: u16 = 4095;

/// The lines of a text, without their LF. What follows the last LF is no line.
pub fn lines(text: &[u8]) -> impl Iterator<Item = &[u8]> {
    text.split_inclusive(|&byte| byte == b'\n').filter_map(|line| line.strip_suffix(b"\n"))
}

/// How many lines a text has; or its first fault as a whole: 1 over 65,535 bytes, 2 last byte not LF, 3 over 256
/// lines.
pub fn line_count(text: &[u8]) -> Result<usize, u8> {
    if text.len() > MAX_BYTES {
        return Err(1);
    }
    if text.last().is_some_and(|&byte| byte != b'\n') {
        return Err(2);
    }
    // Counted in single bytes, many at once.
    let count = |part: &[u8]| part.iter().fold(0u8, |count, &byte| count + u8::from(byte == b'\n'));
    let lines = text.chunks(255).map(|part| usize::from(count(part))).sum();
    if lines > MAX_LINES {
        return Err(3);
    }
    Ok(lines)
}

/// What is left of a text. `None` means that the line is malformed: no part of a line has an LF, so reading
/// never gets past the line's end but by [`end_of_line`](Items::end_of_line).
pub struct Items<'a> {
    rest: &'a [u8],
}

impl<'a> Items<'a> {
    /// All of a text.
    pub fn of(text: &'a [u8]) -> Items<'a> {
        Items { rest: text }
    }

    /// What is left.
    pub fn rest(&self) -> &'a [u8] {
        self.rest
    }

    /// Whether nothing is left.
    pub fn is_empty(&self) -> bool {
        self.rest.is_empty()
    }

    /// Passes over some bytes: a key with the space before it and its `=`, or a part of a value.
    pub fn pass(&mut self, bytes: &[u8]) -> Option<()> {
        self.rest = self.rest.strip_prefix(bytes)?;
        Some(())
    }

    /// Passes over the LF of a line.
    pub fn end_of_line(&mut self) -> Option<()> {
        self.pass(b"\n")
    }

    /// The lowercase letters that come next.
    pub fn word(&mut self) -> &'a [u8] {
        let length = self.rest.iter().take_while(|byte| byte.is_ascii_lowercase()).count();
        let (word, rest) = self.rest.split_at(length);
        self.rest = rest;
        word
    }

    /// A decimal number without leading zeros, at most `max`.
    fn decimal(&mut self, max: u32) -> Option<u32> {
        let digits = self.rest;
        let (mut value, mut length) = (0u64, 0);
        while let Some(digit @ b'0'..=b'9') = digits.get(length) {
            value = value.wrapping_mul(10).wrapping_add(u64::from(digit - b'0'));
            length += 1;
        }
        self.rest = &digits[length..];
        let leading_zero = length > 1 && digits[0] == b'0';
        let is_good = (1..=10).contains(&length) && !leading_zero && value <= u64::from(max);
        is_good.then_some(value as u32)
    }

    /// A number of 16 bits, at most `max`.
    pub fn number(&mut self, max: u16) -> Option<u16> {
        self.decimal(u32::from(max)).map(|number| number as u16)
    }

    /// A number of milliseconds.
    pub fn milliseconds(&mut self) -> Option<u32> {
        self.decimal(u32::MAX)
    }

    /// A number up to 255.
    pub fn byte(&mut self) -> Option<u8> {
        self.number(255).map(|number| number as u8)
    }

    /// The number of a switch.
    pub fn switch(&mut self) -> Option<u8> {
        self.number(15).map(|number| number as u8)
    }

    /// `*`, or a whole number up to a largest value.
    fn any_or_number(&mut self, max: u16) -> Option<Exact<u16>> {
        match self.pass(b"*") {
            Some(()) => Some(None),
            None => self.number(max).map(Some),
        }
    }

    /// Eight lowercase hexadecimal digits.
    fn address(&mut self) -> Option<u32> {
        let (digits, rest) = self.rest.split_first_chunk::<8>()?;
        self.rest = rest;
        let value = digits.iter().fold(0, |value, &digit| value << 4 | DIGITS[usize::from(digit)]);
        u32::try_from(value).ok()
    }

    /// An address with a length; bits past the length are not looked at yet.
    fn prefix(&mut self) -> Option<Prefix> {
        let value = self.address()?;
        self.pass(b"/")?;
        Some(Prefix { value, len: self.number(32)? as u8 })
    }

    /// The seven fields of a match, with the space before them.
    pub fn matching(&mut self) -> Option<Match> {
        self.pass(b" port=")?;
        let port = self.any_or_number(u16::MAX)?;
        self.pass(b" vlan=")?;
        let vlan = self.any_or_number(MAX_VLAN)?;
        self.pass(b" src=")?;
        let src = self.prefix()?;
        self.pass(b" dst=")?;
        let dst = self.prefix()?;
        self.pass(b" proto=")?;
        let proto = self.any_or_number(255)?.map(|number| number as u8);
        self.pass(b" sport=")?;
        let sport = self.any_or_number(u16::MAX)?;
        self.pass(b" dport=")?;
        let dport = self.any_or_number(u16::MAX)?;
        Some(Match { port, vlan, src, dst, proto, sport, dport })
    }

    /// The seven fields of a packet, with the space before them.
    pub fn packet(&mut self) -> Option<Packet> {
        self.pass(b" port=")?;
        let port = self.number(u16::MAX)?;
        self.pass(b" vlan=")?;
        let vlan = self.number(MAX_VLAN)?;
        self.pass(b" src=")?;
        let src = self.address()?;
        self.pass(b" dst=")?;
        let dst = self.address()?;
        self.pass(b" proto=")?;
        let proto = self.byte()?;
        self.pass(b" sport=")?;
        let sport = self.number(u16::MAX)?;
        self.pass(b" dport=")?;
        let dport = self.number(u16::MAX)?;
        Some(Packet { port, vlan, src, dst, proto, sport, dport })
    }

    /// `prio` and the seven fields, with the space before them.
    pub fn key(&mut self) -> Option<Key> {
        self.pass(b" prio=")?;
        let priority = self.number(u16::MAX)?;
        Some(Key::new(priority, self.matching()?))
    }

    /// A key and `act`, with the space before them.
    pub fn entry(&mut self) -> Option<Entry> {
        let key = self.key()?;
        self.pass(b" act=")?;
        Some(Entry { key, action: self.action()? })
    }

    /// `drop`, `ctl` or `pN`.
    fn action(&mut self) -> Option<Action> {
        if self.pass(b"p").is_some() {
            return self.number(u16::MAX).map(Action::Port);
        }
        match self.word() {
            b"drop" => Some(Action::Drop),
            b"ctl" => Some(Action::Controller),
            _ => None,
        }
    }

    /// `-`, or one to four token numbers, strictly rising, with commas.
    pub fn tokens(&mut self) -> Option<Vec<u16>> {
        let mut tokens = Vec::new();
        if self.pass(b"-").is_some() {
            return Some(tokens);
        }
        loop {
            let token = self.number(u16::MAX)?;
            if tokens.len() == 4 || tokens.last().is_some_and(|&last| token <= last) {
                return None;
            }
            tokens.push(token);
            if self.pass(b",").is_none() {
                return Some(tokens);
            }
        }
    }
}

/// The values of the hexadecimal digits; too large for an address for all other bytes.
const DIGITS: [u64; 256] = {
    let mut values = [1 << 32; 256];
    let digits = b"0123456789abcdef";
    let mut value = 0;
    while value < digits.len() {
        values[digits[value] as usize] = value as u64;
        value += 1;
    }
    values
};

/// The number of milliseconds that a text is, if it is one.
pub fn milliseconds(text: &str) -> Option<u32> {
    let mut items = Items::of(text.as_bytes());
    items.milliseconds().filter(|_| items.is_empty())
}

#[cfg(test)]
mod tests {
    use super::*;

    #[test]
    fn numbers() {
        // A number that is all of its text.
        let number = |digits: &[u8], max| {
            let mut items = Items::of(digits);
            items.number(max).filter(|_| items.is_empty())
        };
        assert_eq!(number(b"0", 65535), Some(0));
        assert_eq!(number(b"65535", 65535), Some(65535));
        for bad in ["", "00", "01", "65536", "99999999999", "-1", "+1", "1 ", "1a", "0x1"] {
            assert_eq!(number(bad.as_bytes(), 65535), None, "{bad}");
        }
        // Past the width of an integer.
        for bad in ["100000", "4294967296", "4294967297", "18446744073709551616"] {
            assert_eq!(number(bad.as_bytes(), 65535), None, "{bad}");
        }
        assert_eq!(number(b"33", 32), None);
    }

    #[test]
    fn numbers_of_milliseconds() {
        for good in [0, 1, 9, 10, 65_536, 999_999_999, 4_294_967_294, u32::MAX] {
            assert_eq!(milliseconds(&good.to_string()), Some(good));
        }
        for bad in ["", "00", "01", "04294967295", "-1", "+1", "1 ", "1.5", "0x1", "*"] {
            assert_eq!(milliseconds(bad), None, "{bad}");
        }
        // Past the range, and past the width of an integer.
        for bad in ["4294967296", "9999999999", "10000000000", "18446744073709551616", "18446744073709551617"]
        {
            assert_eq!(milliseconds(bad), None, "{bad}");
        }
    }

    #[test]
    fn addresses() {
        assert_eq!(Items::of(b"0a1f9000").address(), Some(0x0a1f_9000));
        assert_eq!(Items::of(b"ffffffff").address(), Some(u32::MAX));
        for at in 0..8 {
            for byte in 0..=u8::MAX {
                let mut digits = *b"01234567";
                digits[at] = byte;
                let is_digit = byte.is_ascii_digit() || (b'a'..=b'f').contains(&byte);
                assert_eq!(Items::of(&digits).address().is_some(), is_digit, "{}", digits.escape_ascii());
            }
        }
        assert_eq!(Items::of(b"0000000").address(), None);
    }

    #[test]
    fn lines_and_faults() {
        assert_eq!(lines(b"").count(), 0);
        assert_eq!(lines(b"\n").collect::<Vec<_>>(), [b""]);
        assert_eq!(lines(b"a\n\nb\n").collect::<Vec<_>>(), [&b"a"[..], b"", b"b"]);
        assert_eq!(line_count(b""), Ok(0));
        assert_eq!(line_count(b"a\n\nb\n"), Ok(3));
        assert_eq!(line_count(&[b'\n'; 256]), Ok(256));
        assert_eq!(line_count(&[b'\n'; 257]), Err(3));
        assert_eq!(line_count(&[b'a'; 65_535]), Err(2));
        assert_eq!(line_count(&[b'a'; 65_536]), Err(1));
    }
}
