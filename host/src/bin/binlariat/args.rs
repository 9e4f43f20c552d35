//! The words of the command line.

use crate::failure::Failure;
use std::collections::VecDeque;

#[derive(Default)]
pub struct Args {
    plain: VecDeque<String>,
    pub font: Option<String>,
    pub table: Option<String>,
    pub map: Option<String>,
    pub keep_empty: bool,
}

impl Args {
    pub fn parse(words: Vec<String>) -> Result<Self, Failure> {
        let mut args = Args::default();
        let mut words = words.into_iter();
        while let Some(word) = words.next() {
            let place = match word.as_str() {
                "--font" => &mut args.font,
                "--table" => &mut args.table,
                "--map" => &mut args.map,
                "--keep-empty" => {
                    args.keep_empty = true;
                    continue;
                }
                option if option.starts_with("--") => {
                    return Err(Failure::usage(format!("there is no option '{option}'")));
                }
                _ => {
                    args.plain.push_back(word);
                    continue;
                }
            };
            let value = words.next().ok_or_else(|| Failure::usage(format!("'{word}' needs a word after it")))?;
            *place = Some(value);
        }
        Ok(args)
    }

    /// The next plain word, which is `what`.
    pub fn next(&mut self, what: &str) -> Result<String, Failure> {
        self.plain.pop_front().ok_or_else(|| Failure::usage(format!("{what} is missing")))
    }

    /// The next plain word as a number.
    pub fn number(&mut self, what: &str) -> Result<u32, Failure> {
        let word = self.next(what)?;
        word.parse().map_err(|_| Failure::usage(format!("{what} is '{word}', where a number from 0 was expected")))
    }

    /// That every word has been used.
    pub fn end(&self) -> Result<(), Failure> {
        if let Some(word) = self.plain.front() {
            return Err(Failure::usage(format!("'{word}' is one word too many")));
        }
        let left = [
            ("--font", self.font.is_some()),
            ("--table", self.table.is_some()),
            ("--map", self.map.is_some()),
            ("--keep-empty", self.keep_empty),
        ];
        match left.iter().find(|(_, given)| *given) {
            Some((option, _)) => Err(Failure::usage(format!("'{option}' says nothing here"))),
            None => Ok(()),
        }
    }
}
