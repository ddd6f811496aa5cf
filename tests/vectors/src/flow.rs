//! What `flow_test` prints. Its case file has, in the order of the program:
//!
//! - `address VALUE/LENGTH`;
//! - `mask LENGTH`;
//! - `match NUMBER ITEMS`, numbered from 0;
//! - `packet ITEMS`;
//! - `keys PRIORITY MATCH, PRIORITY MATCH`, two keys by the numbers of their matches;
//! - `actions ACTION, ACTION`;
//! - `for i = A..B: STATEMENT ; STATEMENT`, statements with a counter (see [`repeated`]).

use crate::counting::repeated;
use crate::items::{action, matching, number, packet, prefix};
use crate::notation::{first_word, for_each_statement};
use reference::flow::{Action, Key, Match, Packet, Prefix};
use std::cmp::Ordering;

/// The vectors of `flow_test`.
#[derive(Default)]
pub struct Vectors {
    addresses: Vec<Prefix>,
    /// Prefixes of these lengths, whose masks are printed.
    masks: Vec<Prefix>,
    /// The matches, each of which is held against each.
    pub matches: Vec<Match>,
    packets: Vec<Packet>,
    keys: Vec<[Key; 2]>,
    actions: Vec<[Action; 2]>,
}

impl Vectors {
    /// The vectors of a case file.
    pub fn read(file: &str, text: &str) -> Result<Vectors, String> {
        let mut vectors = Vectors::default();
        for_each_statement(file, text, |statement| vectors.statement(statement))?;
        Ok(vectors)
    }

    fn statement(&mut self, statement: &str) -> Result<(), String> {
        let unread = || format!("`{statement}` can't be read");
        let (word, rest) = first_word(statement);
        match word {
            "for" => return repeated(rest)?.iter().try_for_each(|statement| self.statement(statement)),
            "address" => self.addresses.push(prefix(rest).ok_or_else(unread)?),
            "mask" => self.masks.push(Prefix { value: 0, len: number(rest).ok_or_else(unread)? }),
            "match" => {
                let (place, items) = first_word(rest);
                if number(place) != Some(self.matches.len()) {
                    return Err(format!("this is match {}", self.matches.len()));
                }
                self.matches.push(matching(&words(items))?);
            }
            "packet" => self.packets.push(packet(&words(rest))?),
            "keys" => self.keys.push(two(rest, |text| self.key(text)).ok_or_else(unread)?),
            "actions" => self.actions.push(two(rest, action).ok_or_else(unread)?),
            _ => return Err(unread()),
        }
        Ok(())
    }

    fn key(&self, text: &str) -> Option<Key> {
        let (priority, place) = first_word(text);
        let matching = self.matches.get(number::<usize>(place)?)?;
        Some(Key::new(number(priority)?, *matching))
    }

    /// What the program prints.
    pub fn printed(&self) -> String {
        let mut out = String::new();
        for prefix in &self.addresses {
            let verdict = if prefix.is_clear() { "passes" } else { "has a bit past its length" };
            out += &format!("{prefix} {verdict}\n");
        }
        for prefix in &self.masks {
            out += &format!("{:08x}\n", prefix.mask());
        }
        for m in &self.matches {
            out.extend(self.matches.iter().map(|n| relations(m, n)));
            out += "\n";
        }
        for packet in &self.packets {
            out.extend(self.matches.iter().map(|m| if m.fits(packet) { 'x' } else { '.' }));
            out += "\n";
        }
        for [k, l] in &self.keys {
            out += &format!("{} {}\n", sign(k.cmp(l)), sameness(k == l));
        }
        for [a, b] in &self.actions {
            out += &format!("{}\n", sameness(a == b));
        }
        out
    }
}

/// Overlap, within and table order of two matches: `ow<`, with `.` for no.
fn relations(m: &Match, n: &Match) -> String {
    let overlap = if m.overlaps(n) { 'o' } else { '.' };
    let within = if m.within(n) { 'w' } else { '.' };
    format!(" {overlap}{within}{}", sign(m.cmp(n)))
}

fn sign(ordering: Ordering) -> char {
    match ordering {
        Ordering::Less => '<',
        Ordering::Equal => '=',
        Ordering::Greater => '>',
    }
}

fn sameness(same: bool) -> &'static str {
    if same {
        "same"
    } else {
        "differ"
    }
}

fn words(text: &str) -> Vec<&str> {
    text.split_whitespace().collect()
}

/// Two values with a comma between.
fn two<T>(text: &str, read: impl Fn(&str) -> Option<T>) -> Option<[T; 2]> {
    let (left, right) = text.split_once(", ")?;
    Some([read(left)?, read(right)?])
}
