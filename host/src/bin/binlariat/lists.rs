//! Lists of glyphs and pairs, as text.

use crate::failure::Failure;
use binlariat::{Glyph, Pair, Refusal};

/// Two numbers of a line, and the line's number.
pub struct Line {
    pub number: usize,
    pub first: u16,
    pub second: u16,
}

/// A list with the file that it was read from.
pub struct List {
    pub path: String,
    pub lines: Vec<Line>,
}

impl List {
    /// Reads a file with a line of two numbers for each entry, as `form` names them.
    pub fn read(path: String, form: &str) -> Result<Self, Failure> {
        let bytes = std::fs::read(&path).map_err(|error| Failure::file(format!("{path}: can't be read: {error}")))?;
        let text = String::from_utf8(bytes).map_err(|_| {
            Failure::file(format!("{path}: this isn't text; a list with a line '{form}' for each entry was expected"))
        })?;
        let mut lines = Vec::new();
        for (at, line) in text.lines().enumerate() {
            let plain = line.split('#').next().unwrap_or("").trim();
            if plain.is_empty() {
                continue;
            }
            let words: Vec<Option<u16>> = plain.split_whitespace().map(|word| word.parse().ok()).collect();
            let [Some(first), Some(second)] = words[..] else {
                return Err(Failure::file(format!(
                    "{path}:{}: expected '{form}', two numbers from 0 to 65535, and found '{plain}'",
                    at + 1
                )));
            };
            lines.push(Line { number: at + 1, first, second });
        }
        Ok(Self { path, lines })
    }

    pub fn glyphs(&self) -> Vec<Glyph> {
        self.lines.iter().map(|line| Glyph { new: line.first, old: line.second }).collect()
    }

    pub fn pairs(&self) -> Vec<Pair> {
        self.lines.iter().map(|line| Pair { outer: line.first, inner: line.second }).collect()
    }

    /// Refusal 2 of a glyph list, told by the line at fault.
    pub fn bad_glyphs(&self) -> Failure {
        if self.lines.len() > 2048 {
            return self.refused(format!("{} glyphs; at most 2,048 can be kept in a call", self.lines.len()), None);
        }
        if let Some(line) = self.lines.iter().find(|line| line.first == 65535 || line.second == 65535) {
            return self.refused("the highest glyph id is 65534".into(), Some(line));
        }
        let two = self.lines.windows(2).find(|two| two[0].first >= two[1].first);
        let what = |two: &[Line]| {
            format!(
                "new id {} comes after new id {} of line {}; sort the lines by NEW, each new id once",
                two[1].first, two[0].first, two[0].number
            )
        };
        self.refused(two.map_or(String::new(), what), two.map(|two| &two[1]))
    }

    /// Refusal 2 of a list of pairs, told by the line at fault.
    pub fn bad_pairs(&self) -> Failure {
        if self.lines.len() > 8192 {
            return self.refused(format!("{} pairs; at most 8,192 can be kept in a call", self.lines.len()), None);
        }
        for (at, line) in self.lines.iter().enumerate() {
            let before = &self.lines[..at];
            if let Some(same) = before.iter().find(|b| (b.first, b.second) == (line.first, line.second)) {
                let what = format!("the pair {} {} stands in line {} already", line.first, line.second, same.number);
                return self.refused(what, Some(line));
            }
            if let Some(last) = before.last().filter(|last| last.first > line.first) {
                let what = format!(
                    "outer {} comes after outer {} of line {}; put the lines of each outer together, outers rising",
                    line.first, last.first, last.number
                );
                return self.refused(what, Some(line));
            }
        }
        self.refused(String::new(), None)
    }

    fn refused(&self, what: String, line: Option<&Line>) -> Failure {
        let place = line.map_or(self.path.clone(), |line| format!("{}:{}", self.path, line.number));
        Failure::refused(&place, Refusal::BadList, &what)
    }
}
