//! The notation of the case files. A statement a line; blank lines, lines that start with `#` and
//! blanks around a statement count for nothing.
//!
//! What a text is for:
//!
//! - `case TITLE` starts the text of the next numbered data file;
//! - `file NAME TITLE` starts the text of a data file with this name;
//! - `text NAME` starts a text that is no file, for `as`;
//! - `let NAME = WORDS`: from here on the word NAME stands for these words.
//!
//! The lines of a text:
//!
//! - `WORD ITEMS`, an event; `ITEMS`, a table entry (see [`items`]). Its number `ev` is the line's;
//! - ` | CHANGE` behind it damages the printed line, once or more (see [`damaged`]);
//! - `writes ITEMS`: each of the six writes once, with those of the items that it has;
//! - `raw TEXT`: any line, with escapes (see [`bytes_of`]);
//! - `order 0 2 1`: an order, a byte for each event; `orders N`: all orders of N events, rising;
//! - `for i = A..B: LINE ; LINE`: lines with a counter (see [`repeated`]);
//! - `random 24 events of 3 switches, seed 7`: a text drawn at random (see [`drawn`]);
//! - `as NAME`: the lines of an earlier file or text.
//!
//! Each line is ended by LF. Further statements:
//!
//! - `fill N TEXT`: N times TEXT, without LF;
//! - `no-lf`: the LF of the last line goes; `no-lfs`: those of all lines so far do;
//! - `line N: LINE` puts another line in place of line N; `line N | CHANGE` damages it;
//! - `pick 2 0 1`: the lines of the text so far, in this order; `reversed`: the last first.

use crate::counting::repeated;
use crate::damage::{bytes_of, damaged};
use crate::drawn::drawn;
use crate::items::{self, number};
use crate::text::Text;
use cases::orders::all_orders;
use cases::print::{entry_line, event_line};
use std::collections::BTreeMap;

/// A text of a case file.
#[derive(Clone, Debug, PartialEq, Eq)]
pub struct Case {
    /// The name of its data file, or its name for `as`.
    pub name: String,
    /// What it is about.
    pub title: String,
    /// What it is for.
    pub kind: Kind,
    text: Text,
}

impl Case {
    /// The text itself.
    pub fn bytes(&self) -> Vec<u8> {
        self.text.bytes()
    }
}

/// What a text is for.
#[derive(Clone, Copy, Debug, PartialEq, Eq)]
pub enum Kind {
    /// A data file with a number for a name.
    Numbered,
    /// A data file with a name.
    Named,
    /// Lines for other texts.
    Text,
}

/// The texts of the files of a notation, read one after the other.
#[derive(Default)]
pub struct Reader {
    words: BTreeMap<String, Vec<String>>,
    cases: Vec<Case>,
    digits: usize,
    numbered: usize,
}

impl Reader {
    /// A reader that names numbered files by so many digits.
    pub fn new(digits: usize) -> Reader {
        Reader { digits, ..Reader::default() }
    }

    /// Reads a file.
    pub fn read(&mut self, file: &str, text: &str) -> Result<(), String> {
        for_each_statement(file, text, |statement| self.statement(statement))
    }

    /// The data files that were read.
    pub fn files(self) -> Vec<Case> {
        self.cases.into_iter().filter(|case| case.kind != Kind::Text).collect()
    }

    fn statement(&mut self, statement: &str) -> Result<(), String> {
        let (word, rest) = first_word(statement);
        match word {
            "let" => {
                let (name, words) = rest.split_once(" = ").ok_or("`let` is followed by `NAME = WORDS`")?;
                let words = self.words_of(words).into_iter().map(str::to_owned).collect();
                self.words.insert(name.to_owned(), words);
                Ok(())
            }
            "case" => {
                let name = format!("{:0digits$}", self.numbered, digits = self.digits);
                self.numbered += 1;
                self.start(Kind::Numbered, &name, rest)
            }
            "file" | "text" => {
                let (name, title) = first_word(rest);
                self.start(if word == "file" { Kind::Named } else { Kind::Text }, name, title)
            }
            _ => self.add(statement),
        }
    }

    fn start(&mut self, kind: Kind, name: &str, title: &str) -> Result<(), String> {
        if self.cases.iter().any(|case| case.name == name) {
            return Err(format!("`{name}` is there already"));
        }
        let (name, title) = (name.to_owned(), title.to_owned());
        self.cases.push(Case { name, title, kind, text: Text::default() });
        Ok(())
    }

    /// The last text.
    fn text(&mut self) -> Result<&mut Text, String> {
        Ok(&mut self.cases.last_mut().ok_or("no text was started")?.text)
    }

    /// Adds to the last text, or changes it.
    fn add(&mut self, statement: &str) -> Result<(), String> {
        let (word, rest) = first_word(statement);
        match word {
            "for" => return repeated(rest)?.iter().try_for_each(|line| self.add(line)),
            "writes" => return self.writes(rest).iter().try_for_each(|line| self.add(line)),
            "as" => {
                let earlier = self.cases.iter().find(|case| case.name == rest);
                let text = earlier.ok_or_else(|| format!("there is no `{rest}` yet"))?.text.clone();
                self.text()?.append(text);
            }
            "raw" => self.text()?.push(bytes_of(rest)?),
            "order" => self.text()?.push(numbers(rest)?),
            "orders" => {
                let mut orders = all_orders(first_number(rest)?.0);
                orders.sort_unstable();
                let text = self.text()?;
                orders.into_iter().for_each(|order| text.push(order));
            }
            "random" => {
                let text = self.text()?;
                drawn(rest)?.into_iter().for_each(|line| text.push(line.into_bytes()));
            }
            "fill" => {
                let (times, text) = first_number(rest)?;
                self.text()?.push_bytes(bytes_of(text)?.repeat(times));
            }
            "no-lf" => self.text()?.drop_lf()?,
            "no-lfs" => self.text()?.drop_lfs(),
            "line" => self.change_line(rest)?,
            "pick" => self.text()?.pick(&numbers(rest)?)?,
            "reversed" => self.text()?.reverse(),
            _ => {
                let place = self.text()?.count();
                let line = self.printed(place, statement)?;
                self.text()?.push(line);
            }
        }
        Ok(())
    }

    /// `N: LINE`, or `N | CHANGE`.
    fn change_line(&mut self, statement: &str) -> Result<(), String> {
        let (place, rest) = statement.split_at(statement.find([':', ' ']).unwrap_or(statement.len()));
        let (place, _) = first_number(place)?;
        let line = match rest.strip_prefix(':') {
            Some(line) => self.printed(place, line)?,
            None => changed(self.text()?.line(place)?, rest.split(" | ").skip(1))?,
        };
        *self.text()?.line(place)? = line;
        Ok(())
    }

    /// An event or an entry as it is printed at a place, with its damage.
    fn printed(&self, place: usize, statement: &str) -> Result<Vec<u8>, String> {
        let mut parts = statement.split(" | ");
        let words = self.words_of(parts.next().unwrap_or_default());
        let line = match words.split_first() {
            Some((word, rest)) if !word.contains('=') => event_line(place, &items::event(word, rest)?),
            _ => {
                let (switch, entry) = items::row(&words)?;
                entry_line(switch, entry)
            }
        };
        changed(line.as_bytes(), parts)
    }

    /// The six writes, each with those of some items that it has.
    fn writes(&self, items: &str) -> Vec<String> {
        let words = self.words_of(items);
        let line = |(word, without): (&str, &[&str])| {
            let has = |item: &&str| !without.iter().any(|key| item.starts_with(key));
            let items = words.iter().copied().filter(has);
            std::iter::once(word).chain(items).collect::<Vec<_>>().join(" ")
        };
        let entry_writes = ["add", "addc", "mods", "modn"].map(|word| line((word, &[])));
        let deletes = [line(("dels", &["act="])), line(("deln", &["prio=", "act="]))];
        entry_writes.into_iter().chain(deletes).collect()
    }

    /// The words of a text, each with what it stands for.
    pub fn words_of<'a>(&'a self, text: &'a str) -> Vec<&'a str> {
        let meant = |word: &'a str| match self.words.get(word) {
            Some(words) => words.iter().map(String::as_str).collect(),
            None => vec![word],
        };
        text.split_whitespace().flat_map(meant).collect()
    }
}

/// Does something with each statement of a file. An error says where it is.
pub fn for_each_statement(
    file: &str,
    text: &str,
    mut each: impl FnMut(&str) -> Result<(), String>,
) -> Result<(), String> {
    for (index, line) in text.lines().enumerate() {
        let statement = line.trim();
        if !statement.is_empty() && !statement.starts_with('#') {
            each(statement).map_err(|error| format!("{file}:{}: {error}", index + 1))?;
        }
    }
    Ok(())
}

/// The first word of a text, and what follows it.
pub fn first_word(text: &str) -> (&str, &str) {
    let (word, rest) = text.split_once(' ').unwrap_or((text, ""));
    (word, rest.trim_start())
}

/// A printed line with its damage.
fn changed<'a>(line: &[u8], mut changes: impl Iterator<Item = &'a str>) -> Result<Vec<u8>, String> {
    changes.try_fold(line.to_vec(), |line, change| damaged(&line, change.trim()))
}

/// The number that a text starts with, and what follows it.
fn first_number(text: &str) -> Result<(usize, &str), String> {
    let (word, rest) = first_word(text);
    number(word).map(|number| (number, rest)).ok_or_else(|| format!("`{word}` is no number"))
}

/// Whole numbers with blanks between.
fn numbers<N: std::str::FromStr + ToString>(text: &str) -> Result<Vec<N>, String> {
    let each = |word| number(word).ok_or_else(|| format!("`{word}` is no number that fits here"));
    text.split_whitespace().map(each).collect()
}

#[cfg(test)]
mod tests {
    use super::*;

    fn files(text: &str) -> Result<Vec<(String, String)>, String> {
        let mut reader = Reader::new(2);
        reader.read("x.txt", text)?;
        let text = |case: &Case| (case.name.clone(), case.bytes().escape_ascii().to_string());
        Ok(reader.files().iter().map(text).collect())
    }

    /// The only file of a notation.
    fn file(text: &str) -> String {
        files(&format!("case of a test\n{text}")).unwrap().remove(0).1
    }

    #[test]
    fn names() {
        let text = "# comment\ntext two\n oth\n oth out=1\n\nfile some A title.\ncase first\n oth\ncase second\n as two\n";
        let oth = r"ev=0 do=oth in=- out=- from=0 to=0\n";
        let expected =
            [("some", ""), ("00", oth), ("01", &format!(r"{oth}ev=1 do=oth in=- out=1 from=0 to=0\n"))];
        assert_eq!(files(text).unwrap(), expected.map(|(name, text)| (name.to_owned(), text.to_owned())));
    }

    #[test]
    fn words_that_stand_for_others() {
        let text = "let BASE = sw=1\nlet BAR = bar BASE\nBAR\nBAR sw=2 | $ => BAR";
        assert_eq!(
            file(text),
            r"ev=0 do=bar in=- out=- from=0 to=0 sw=1\nev=1 do=bar in=- out=- from=0 to=0 sw=2BAR\n"
        );
    }

    #[test]
    fn texts_of_other_kinds() {
        assert_eq!(file(r"raw \sa b\0"), r" a b\x00\n");
        assert_eq!(file("raw"), r"\n");
        assert_eq!(file("raw a\nfill 3 xy\nraw b\nno-lf"), r"a\nxyxyxyb");
        assert_eq!(file("order 0 10 255\norder"), r"\x00\n\xff\n\n");
        assert_eq!(file("orders 2"), r"\x00\x01\n\x01\x00\n");
        assert_eq!(file("orders 2\nno-lfs\norder 7"), r"\x00\x01\x01\x00\x07\n");
    }

    #[test]
    fn lines_moved_and_changed() {
        assert_eq!(file("raw a\nraw b\nraw c\npick 2 0 1\nreversed"), r"b\na\nc\n");
        assert_eq!(
            file("for i = 1..2: oth out={i}\nline 1: oth in=1\nline 0 | ev=00 | out=7"),
            r"ev=00 do=oth in=- out=7 from=0 to=0\nev=1 do=oth in=1 out=- from=0 to=0\n"
        );
    }

    #[test]
    fn six_writes() {
        let text = file("writes sw=1 prio=2 act=p3");
        assert_eq!(text, file("for i = 0..0: add sw=1 prio=2 act=p3 ; addc sw=1 prio=2 act=p3 ; mods sw=1 prio=2 act=p3 ; modn sw=1 prio=2 act=p3 ; dels sw=1 prio=2 ; deln sw=1"));
    }

    #[test]
    fn an_entry() {
        let line =
            "sw=1 prio=0 port=* vlan=* src=00000000/0 dst=00000000/0 proto=* sport=* dport=* act=drop\\n";
        assert_eq!(file("sw=1 prio=0 act=drop"), line);
    }

    #[test]
    fn errors_say_where_they_are() {
        let error = |text: &str| files(text).unwrap_err();
        assert_eq!(error("oth"), "x.txt:1: no text was started");
        assert_eq!(error("case a\n\n bar"), "x.txt:3: `sw` is missing");
        assert_eq!(error("case a\nas b"), "x.txt:2: there is no `b` yet");
        assert_eq!(error("file a\nfile a"), "x.txt:2: `a` is there already");
        assert_eq!(error("case a\nline 0 | x=1"), "x.txt:2: there is no line 0");
        assert_eq!(error("case a\norder 256"), "x.txt:2: `256` is no number that fits here");
    }
}
