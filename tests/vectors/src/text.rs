//! A text in the making.

/// A text as its lines.
#[derive(Clone, Debug, Default, PartialEq, Eq)]
pub struct Text {
    lines: Vec<Line>,
}

#[derive(Clone, Debug, PartialEq, Eq)]
struct Line {
    bytes: Vec<u8>,
    has_lf: bool,
}

impl Text {
    /// The text itself.
    pub fn bytes(&self) -> Vec<u8> {
        let mut bytes = Vec::new();
        for line in &self.lines {
            bytes.extend(&line.bytes);
            bytes.extend(line.has_lf.then_some(b'\n'));
        }
        bytes
    }

    /// How many lines there are so far.
    pub fn count(&self) -> usize {
        self.lines.len()
    }

    /// Adds a line.
    pub fn push(&mut self, bytes: Vec<u8>) {
        self.lines.push(Line { bytes, has_lf: true });
    }

    /// Adds bytes without LF.
    pub fn push_bytes(&mut self, bytes: Vec<u8>) {
        self.lines.push(Line { bytes, has_lf: false });
    }

    /// Adds the lines of another text.
    pub fn append(&mut self, other: Text) {
        self.lines.extend(other.lines);
    }

    /// Takes the LF of the last line away.
    pub fn drop_lf(&mut self) -> Result<(), String> {
        self.lines.last_mut().ok_or("there is no line")?.has_lf = false;
        Ok(())
    }

    /// Takes the LFs of all lines away.
    pub fn drop_lfs(&mut self) {
        self.lines.iter_mut().for_each(|line| line.has_lf = false);
    }

    /// A line, to be changed.
    pub fn line(&mut self, place: usize) -> Result<&mut Vec<u8>, String> {
        let line = self.lines.get_mut(place).ok_or_else(|| format!("there is no line {place}"))?;
        Ok(&mut line.bytes)
    }

    /// Puts lines into another order.
    pub fn pick(&mut self, places: &[usize]) -> Result<(), String> {
        let line = |&place: &usize| self.lines.get(place).cloned().ok_or(format!("there is no line {place}"));
        self.lines = places.iter().map(line).collect::<Result<_, _>>()?;
        Ok(())
    }

    /// Puts the last line first.
    pub fn reverse(&mut self) {
        self.lines.reverse();
    }
}
