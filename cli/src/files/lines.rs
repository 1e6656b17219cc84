//! The lines of a file that may be longer than the memory: one at a time.

use super::source::{open, without_comment, LONGEST};
use crate::fault::Fault;
use std::ffi::OsStr;
use std::io::{BufRead, Read};

/// No symbol needs a longer line.
const LONGEST_LINE: u64 = 1 << 20;

/// What a line says.
#[derive(Clone, Debug, PartialEq, Eq)]
pub enum Line {
    /// Nothing at all: it stands between two symbols.
    Empty,
    /// The text without its comment.
    Text(String),
}

pub struct Lines {
    pub name: String,
    input: Box<dyn BufRead>,
    /// The number of the line read last, from 1.
    number: usize,
    bytes: Vec<u8>,
    /// The bytes since the last call of `restart`.
    length: u64,
}

impl Lines {
    pub fn open(operand: &OsStr) -> Result<Lines, Fault> {
        let (name, input) = open(operand)?;
        Ok(Lines {
            name,
            input,
            number: 0,
            bytes: Vec::new(),
            length: 0,
        })
    }

    /// A symbol begins: the limit on its length counts from here.
    pub fn restart(&mut self) {
        self.length = 0;
    }

    /// The next line with its number; lines with a comment alone are left out.
    pub fn next(&mut self) -> Result<Option<(usize, Line)>, Fault> {
        while self.read()? {
            let Ok(line) = std::str::from_utf8(&self.bytes) else {
                return Err(self.fault(self.number, "this is not UTF-8 text"));
            };
            // Some editors put a byte order mark in front.
            let line = match self.number {
                1 => line.strip_prefix('\u{feff}').unwrap_or(line),
                _ => line,
            };
            match (without_comment(line), line.trim()) {
                ("", "") => return Ok(Some((self.number, Line::Empty))),
                ("", _) => {}
                (text, _) => return Ok(Some((self.number, Line::Text(text.to_string())))),
            }
        }
        Ok(None)
    }

    /// Reads a line, and tells whether there was one.
    fn read(&mut self) -> Result<bool, Fault> {
        self.bytes.clear();
        let mut input = self.input.by_ref().take(LONGEST_LINE + 1);
        let read = input.read_until(b'\n', &mut self.bytes);
        let length = read.map_err(|error| Fault::access(&self.name, error))? as u64;
        self.number += usize::from(length > 0);
        self.length += length;
        if length > LONGEST_LINE {
            return Err(self.fault(self.number, "the line is longer than 1 MiB"));
        }
        if self.length > LONGEST {
            let message = format!("{}: a symbol longer than 16 MiB", self.name);
            return Err(Fault::content(message));
        }
        Ok(length > 0)
    }

    /// A fault in a line of this file.
    pub fn fault(&self, line: usize, message: &str) -> Fault {
        Fault::content(format!("{}:{line}: {message}", self.name))
    }
}
