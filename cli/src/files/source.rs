//! A whole file as text, and how messages quote it.

use crate::fault::Fault;
use crate::words::shown;
use std::ffi::OsStr;
use std::fs::File;
use std::io::{self, BufRead, BufReader, Read};
use std::path::Path;

/// The longest table set has about 60 KiB, the longest symbol about 50; a device that never ends
/// must not fill the memory.
pub const LONGEST: u64 = 16 << 20;

/// A text and where it came from.
pub struct Source {
    pub name: String,
    text: String,
}

/// The name that messages have for a file, or for standard input if the operand is `-`.
pub fn name_of(operand: &OsStr) -> String {
    if operand == "-" {
        return "standard input".to_string();
    }
    shown(&Path::new(operand).display().to_string())
}

/// Opens a file, or standard input if the operand is `-`; with the name that messages have for it.
pub fn open(operand: &OsStr) -> Result<(String, Box<dyn BufRead>), Fault> {
    let name = name_of(operand);
    if operand == "-" {
        return Ok((name, Box::new(io::stdin().lock())));
    }
    match File::open(operand) {
        Ok(file) => Ok((name, Box::new(BufReader::new(file)))),
        Err(error) => Err(Fault::access(name, error)),
    }
}

impl Source {
    pub fn read(operand: &OsStr) -> Result<Source, Fault> {
        let (name, input) = open(operand)?;
        let mut bytes = Vec::new();
        match input.take(LONGEST + 1).read_to_end(&mut bytes) {
            Ok(_) => Source::decode(name, bytes),
            Err(error) => Err(Fault::access(name, error)),
        }
    }

    fn decode(name: String, bytes: Vec<u8>) -> Result<Source, Fault> {
        if bytes.len() as u64 > LONGEST {
            return Err(Fault::content(format!("{name}: longer than 16 MiB")));
        }
        let text = String::from_utf8(bytes).map_err(|error| {
            let before = &error.as_bytes()[..error.utf8_error().valid_up_to()];
            let line = 1 + before.iter().filter(|&&byte| byte == b'\n').count();
            Fault::content(format!("{name}:{line}: this is not UTF-8 text"))
        })?;
        Ok(Source { name, text })
    }

    /// The lines that say something: the line's number from 1, and its text without the comment.
    pub fn lines(&self) -> impl Iterator<Item = (usize, &str)> {
        // Some editors put a byte order mark in front.
        let text = self.text.strip_prefix('\u{feff}').unwrap_or(&self.text);
        text.lines()
            .map(without_comment)
            .enumerate()
            .map(|(before, line)| (before + 1, line))
            .filter(|(_, line)| !line.is_empty())
    }

    /// The number of the last line, for what is missing from the file.
    pub fn last_line(&self) -> usize {
        self.text.lines().count().max(1)
    }

    /// A fault in a line of this file.
    pub fn fault(&self, line: usize, message: &str) -> Fault {
        Fault::content(format!("{}:{line}: {message}", self.name))
    }
}

pub fn without_comment(line: &str) -> &str {
    line.split('#').next().unwrap_or("").trim()
}

/// A word of a file as a message may quote it: short, and safe for a terminal.
pub fn quoted(word: &str) -> String {
    const LONG: usize = 40;
    let mut start: String = word.chars().take(LONG).collect();
    if start.len() < word.len() {
        start.push_str("...");
    }
    format!("`{}`", start.escape_debug())
}
