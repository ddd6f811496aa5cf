//! What the texts are written with: each function puts a part of a line to the end of a text.

use crate::flow::{Action, Exact, Match, Prefix};
use crate::packed::Row;

/// A decimal number.
pub fn number(text: &mut Vec<u8>, n: u16) {
    let [d, e] = TWO_DIGITS[usize::from(n % 100)];
    let [b, c] = TWO_DIGITS[usize::from(n / 100 % 100)];
    let a = b'0' + (n / 10_000) as u8;
    match n {
        0..10 => text.push(e),
        10..100 => text.extend_from_slice(&[d, e]),
        100..1_000 => text.extend_from_slice(&[c, d, e]),
        1_000..10_000 => text.extend_from_slice(&[b, c, d, e]),
        10_000.. => text.extend_from_slice(&[a, b, c, d, e]),
    }
}

/// The digits of the numbers up to 99.
const TWO_DIGITS: [[u8; 2]; 100] = {
    let mut digits = [[0; 2]; 100];
    let mut n = 0;
    while n < 100 {
        digits[n] = [b'0' + n as u8 / 10, b'0' + n as u8 % 10];
        n += 1;
    }
    digits
};

/// `*` or a number.
fn any_or_number(text: &mut Vec<u8>, field: Exact<u16>) {
    match field {
        None => text.push(b'*'),
        Some(n) => number(text, n),
    }
}

/// Eight hexadecimal digits, `/` and a length.
pub fn prefix(text: &mut Vec<u8>, prefix: Prefix) {
    let digit = |place: usize| b"0123456789abcdef"[(prefix.value >> (28 - 4 * place) & 15) as usize];
    text.extend_from_slice(&std::array::from_fn::<u8, 8, _>(digit));
    text.push(b'/');
    number(text, u16::from(prefix.len));
}

/// The items of a match, from `port` to `dport`.
pub fn matching(text: &mut Vec<u8>, matching: &Match) {
    text.extend_from_slice(b"port=");
    any_or_number(text, matching.port);
    text.extend_from_slice(b" vlan=");
    any_or_number(text, matching.vlan);
    text.extend_from_slice(b" src=");
    prefix(text, matching.src);
    text.extend_from_slice(b" dst=");
    prefix(text, matching.dst);
    text.extend_from_slice(b" proto=");
    any_or_number(text, matching.proto.map(u16::from));
    text.extend_from_slice(b" sport=");
    any_or_number(text, matching.sport);
    text.extend_from_slice(b" dport=");
    any_or_number(text, matching.dport);
}

/// `drop`, `ctl` or `pN`.
pub fn action(text: &mut Vec<u8>, action: Action) {
    match action {
        Action::Drop => text.extend_from_slice(b"drop"),
        Action::Controller => text.extend_from_slice(b"ctl"),
        Action::Port(port) => {
            text.push(b'p');
            number(text, port);
        }
    }
}

/// The items of an entry, from `prio` to `act`.
pub fn entry(text: &mut Vec<u8>, row: &Row) {
    text.extend_from_slice(b"prio=");
    number(text, row.priority);
    text.push(b' ');
    matching(text, &row.matching());
    text.extend_from_slice(b" act=");
    action(text, row.action);
}

/// A line of a table text.
pub fn table_line(text: &mut Vec<u8>, switch: u16, row: &Row) {
    text.extend_from_slice(b"sw=");
    number(text, switch);
    text.push(b' ');
    entry(text, row);
    text.push(b'\n');
}

#[cfg(test)]
mod tests {
    use super::*;

    #[test]
    fn numbers() {
        for n in 0..=u16::MAX {
            let mut text = Vec::new();
            number(&mut text, n);
            assert_eq!(text, n.to_string().into_bytes());
        }
    }

    #[test]
    fn prefixes() {
        for (value, len) in [(0, 0), (0x0a00_0000, 8), (0x89ab_cdef, 32), (0x0123_4560, 28)] {
            let mut text = Vec::new();
            prefix(&mut text, Prefix { value, len });
            assert_eq!(text, format!("{value:08x}/{len}").into_bytes());
        }
    }
}
