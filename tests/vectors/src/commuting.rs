//! What `commuting_test` prints. Its case file has
//!
//! - `packet NAME ITEMS`: what NAME is in a `pkt`;
//! - `pair OPERATION, OPERATION`, where an operation is `pkt NAME`, `deln WORD`, `dels WORD PRIORITY` or
//!   `add WORD PRIORITY ACTION`, as the program prints it; WORD stands for the items of a match.

use crate::items::table_operation;
use crate::notation::{first_word, for_each_statement, Reader};
use reference::commutes;
use reference::table::TableOperation;
use std::collections::BTreeMap;

/// The vectors of `commuting_test`.
pub struct Vectors {
    words: Reader,
    packets: BTreeMap<String, String>,
    pairs: Vec<(String, [TableOperation; 2])>,
}

impl Vectors {
    /// The vectors of a case file, with the words that a reader knows.
    pub fn read(words: Reader, file: &str, text: &str) -> Result<Vectors, String> {
        let mut vectors = Vectors { words, packets: BTreeMap::new(), pairs: Vec::new() };
        for_each_statement(file, text, |statement| vectors.statement(statement))?;
        Ok(vectors)
    }

    fn statement(&mut self, statement: &str) -> Result<(), String> {
        let (word, rest) = first_word(statement);
        match word {
            "packet" => {
                let (name, items) = first_word(rest);
                self.packets.insert(name.to_owned(), items.to_owned());
            }
            "pair" => {
                let (left, right) = rest.split_once(", ").ok_or("`pair` is followed by two operations")?;
                self.pairs.push((rest.to_owned(), [self.operation(left)?, self.operation(right)?]));
            }
            _ => return Err(format!("`{word}` is neither `packet` nor `pair`")),
        }
        Ok(())
    }

    fn operation(&self, text: &str) -> Result<TableOperation, String> {
        let (name, values) = match text.split(' ').collect::<Vec<_>>()[1..] {
            [name] => (name, String::new()),
            [name, priority] => (name, format!("prio={priority}")),
            [name, priority, action] => (name, format!("prio={priority} act={action}")),
            _ => return Err(format!("`{text}` is no operation")),
        };
        let (word, _) = first_word(text);
        let mut items = match (word, self.packets.get(name)) {
            ("pkt", Some(items)) => items.split_whitespace().collect(),
            _ => self.words.words_of(name),
        };
        items.extend(values.split_whitespace());
        table_operation(word, &items)
    }

    /// How many pairs there are.
    pub fn pairs(&self) -> usize {
        self.pairs.len()
    }

    /// What the program prints: each pair, and the verdict on it both ways round.
    pub fn printed(&self) -> String {
        let line = |(text, [left, right]): &(String, [TableOperation; 2])| {
            let verdicts = [commutes(left, right), commutes(right, left)];
            let [one, other] = verdicts.map(|yes| if yes { "yes" } else { "no" });
            format!("{text}: {one} {other}\n")
        };
        self.pairs.iter().map(line).collect()
    }
}
