//! Events and table entries in short form: the `do` word, and only those items that are not as by
//! default. An entry has no word. This is the one place where defaults stand:
//!
//! | item left out | what it is then |
//! |---|---|
//! | `in`, `out` | `-` |
//! | `from`, `to` | 0 |
//! | a field of a match | any |
//! | a field of a packet | as in document 01's worked lines |
//!
//! `sw`, `prio` and `act` have no default. Items may stand in any order; of two with one key the later
//! counts.

use reference::flow::{Action, Entry, Exact, Key, Match, Packet, Prefix};
use reference::table::{Origin, TableOperation};
use reference::trace::{Clock, Event, Operation};
use std::collections::BTreeMap;
use std::str::FromStr;

/// The packet of document 01's worked lines.
const WORKED: Packet =
    Packet { port: 1, vlan: 1, src: 0x0a00_0001, dst: 0x0a00_0002, proto: 6, sport: 4000, dport: 80 };

/// The event of a `do` word and its items.
pub fn event(word: &str, items: &[&str]) -> Result<Event, String> {
    read_all(items, |items| {
        Ok(Event {
            taken: items.or("in", Vec::new(), tokens)?,
            put: items.or("out", Vec::new(), tokens)?,
            clock: Clock { from: items.or("from", 0, number)?, to: items.or("to", 0, number)? },
            operation: items.operation(word)?,
        })
    })
}

/// The table operation of a `do` word and its items.
pub fn table_operation(word: &str, items: &[&str]) -> Result<TableOperation, String> {
    read_all(items, |items| items.table_operation(word))
}

/// The switch and the entry of a table line's items.
pub fn row(items: &[&str]) -> Result<(u8, Entry), String> {
    read_all(items, |items| Ok((items.needed("sw", number)?, items.entry()?)))
}

/// The match of its items.
pub fn matching(items: &[&str]) -> Result<Match, String> {
    read_all(items, Items::matching)
}

/// The packet of its items.
pub fn packet(items: &[&str]) -> Result<Packet, String> {
    read_all(items, Items::packet)
}

/// Reads items, and asks that none is left.
fn read_all<'a, T>(
    items: &[&'a str],
    read: impl FnOnce(&mut Items<'a>) -> Result<T, String>,
) -> Result<T, String> {
    let mut items = Items::of(items)?;
    let value = read(&mut items)?;
    match items.0.keys().next() {
        None => Ok(value),
        Some(key) => Err(format!("`{key}` has no place here")),
    }
}

/// The items that are still to be read, by their keys.
struct Items<'a>(BTreeMap<&'a str, &'a str>);

impl<'a> Items<'a> {
    fn of(items: &[&'a str]) -> Result<Items<'a>, String> {
        let halves = |item: &&'a str| item.split_once('=').ok_or_else(|| format!("`{item}` is no item"));
        items.iter().map(halves).collect::<Result<_, _>>().map(Items)
    }

    fn taken<T>(&mut self, key: &str, read: fn(&str) -> Option<T>) -> Result<Option<T>, String> {
        let Some(text) = self.0.remove(key) else { return Ok(None) };
        read(text).map(Some).ok_or_else(|| format!("`{key}={text}` can't be read"))
    }

    fn or<T>(&mut self, key: &str, default: T, read: fn(&str) -> Option<T>) -> Result<T, String> {
        self.taken(key, read).map(|value| value.unwrap_or(default))
    }

    fn needed<T>(&mut self, key: &str, read: fn(&str) -> Option<T>) -> Result<T, String> {
        self.taken(key, read)?.ok_or_else(|| format!("`{key}` is missing"))
    }

    fn operation(&mut self, word: &str) -> Result<Operation, String> {
        Ok(match word {
            "oth" => Operation::Other,
            "bar" => Operation::Barrier(self.needed("sw", number)?),
            "msg" => Operation::Message(self.needed("sw", number)?),
            _ => Operation::Table(self.needed("sw", number)?, self.table_operation(word)?),
        })
    }

    fn table_operation(&mut self, word: &str) -> Result<TableOperation, String> {
        Ok(match word {
            "pkt" => TableOperation::Packet(Origin::Received, self.packet()?),
            "pout" => TableOperation::Packet(Origin::SentOut, self.packet()?),
            "add" => TableOperation::Add(self.entry()?),
            "addc" => TableOperation::CheckedAdd(self.entry()?),
            "mods" => TableOperation::StrictModify(self.entry()?),
            "modn" => TableOperation::Modify(self.entry()?),
            "dels" => TableOperation::StrictDelete(self.key()?),
            "deln" => TableOperation::Delete(self.matching()?),
            _ => return Err(format!("`{word}` is no word of `do`")),
        })
    }

    fn entry(&mut self) -> Result<Entry, String> {
        Ok(Entry { key: self.key()?, action: self.needed("act", action)? })
    }

    fn key(&mut self) -> Result<Key, String> {
        Ok(Key::new(self.needed("prio", number)?, self.matching()?))
    }

    fn matching(&mut self) -> Result<Match, String> {
        let any = Match::ANY;
        Ok(Match {
            port: self.or("port", any.port, any_or_number)?,
            vlan: self.or("vlan", any.vlan, any_or_number)?,
            src: self.or("src", any.src, prefix)?,
            dst: self.or("dst", any.dst, prefix)?,
            proto: self.or("proto", any.proto, any_or_number)?,
            sport: self.or("sport", any.sport, any_or_number)?,
            dport: self.or("dport", any.dport, any_or_number)?,
        })
    }

    fn packet(&mut self) -> Result<Packet, String> {
        Ok(Packet {
            port: self.or("port", WORKED.port, number)?,
            vlan: self.or("vlan", WORKED.vlan, number)?,
            src: self.or("src", WORKED.src, address)?,
            dst: self.or("dst", WORKED.dst, address)?,
            proto: self.or("proto", WORKED.proto, number)?,
            sport: self.or("sport", WORKED.sport, number)?,
            dport: self.or("dport", WORKED.dport, number)?,
        })
    }
}

/// A whole number, written as it is printed.
pub fn number<N: FromStr + ToString>(text: &str) -> Option<N> {
    text.parse().ok().filter(|number: &N| number.to_string() == text)
}

fn any_or_number<N: FromStr + ToString>(text: &str) -> Option<Exact<N>> {
    match text {
        "*" => Some(None),
        _ => number(text).map(Some),
    }
}

fn address(text: &str) -> Option<u32> {
    u32::from_str_radix(text, 16).ok().filter(|value| format!("{value:08x}") == text)
}

/// An address and a length. Bits past the length are allowed: some cases are about them.
pub fn prefix(text: &str) -> Option<Prefix> {
    let (value, len) = text.split_once('/')?;
    Some(Prefix { value: address(value)?, len: number(len)? })
}

/// `drop`, `ctl` or `pN`.
pub fn action(text: &str) -> Option<Action> {
    match text {
        "drop" => Some(Action::Drop),
        "ctl" => Some(Action::Controller),
        _ => number(text.strip_prefix('p')?).map(Action::Port),
    }
}

fn tokens(text: &str) -> Option<Vec<u16>> {
    match text {
        "-" => Some(Vec::new()),
        _ => text.split(',').map(number).collect(),
    }
}

#[cfg(test)]
mod tests {
    use super::*;
    use cases::print::event_line;

    fn line(word: &str, items: &[&str]) -> Result<String, String> {
        event(word, items).map(|event| event_line(7, &event))
    }

    #[test]
    fn what_is_left_out_is_as_by_default() {
        assert_eq!(line("oth", &[]).unwrap(), "ev=7 do=oth in=- out=- from=0 to=0");
        assert_eq!(line("oth", &["to=9", "from=7"]).unwrap(), "ev=7 do=oth in=- out=- from=7 to=9");
        for word in ["pkt", "pout"] {
            assert_eq!(
                line(word, &["sw=2", "in=4"]).unwrap(),
                format!("ev=7 do={word} in=4 out=- from=0 to=0 sw=2 port=1 vlan=1 src=0a000001 dst=0a000002 proto=6 sport=4000 dport=80")
            );
        }
        assert_eq!(
            line("add", &["sw=1", "prio=10", "dst=0a000002/32", "act=p2"]).unwrap(),
            "ev=7 do=add in=- out=- from=0 to=0 sw=1 prio=10 port=* vlan=* src=00000000/0 dst=0a000002/32 proto=* sport=* dport=* act=p2"
        );
    }

    #[test]
    fn the_later_of_two_items_counts() {
        assert_eq!(line("bar", &["sw=1", "sw=2"]), line("bar", &["sw=2"]));
    }

    #[test]
    fn what_can_not_be_meant_is_an_error() {
        assert_eq!(line("bar", &[]), Err("`sw` is missing".to_owned()));
        assert_eq!(line("bar", &["sw=01"]), Err("`sw=01` can't be read".to_owned()));
        assert_eq!(line("bar", &["sw=1", "prio=1"]), Err("`prio` has no place here".to_owned()));
        assert_eq!(line("bar", &["sw"]), Err("`sw` is no item".to_owned()));
        assert_eq!(line("put", &["sw=1"]), Err("`put` is no word of `do`".to_owned()));
        assert_eq!(line("deln", &["sw=1", "dst=a/8"]), Err("`dst=a/8` can't be read".to_owned()));
    }
}
