//! The log of a pair: a head, then a line a symbol. A symbol is the frame that was sent, in hex, and
//! the frame that was read, or `refused` and the number of the refusal; a frame of no bytes is `-`.

use super::frame::word_bytes;
use super::lines::{Line, Lines};
use super::log_head::{Head, Headers};
use super::source::quoted;
use crate::fault::Fault;
use clevisroot_sys::refusals::name;
use std::ffi::OsStr;
use std::path::Path;

/// One symbol of a pair.
pub struct LogEntry {
    /// The frame that was sent.
    pub sent: Vec<u8>,
    pub received: Received,
}

/// What came of a frame.
pub enum Received {
    /// The frame that was read.
    Read(Vec<u8>),
    /// The number of the refusal.
    Refused(u32),
}

pub struct Log {
    pub head: Head,
    lines: Lines,
    /// The first line after the head.
    ahead: Option<(usize, String)>,
}

impl Log {
    /// Opens a log, or standard input if the operand is `-`, and reads its head.
    pub fn open(operand: &OsStr) -> Result<Log, Fault> {
        let mut lines = Lines::open(operand)?;
        let mut headers = Headers::default();
        let mut ahead = None;
        while let Some((line, text)) = next_text(&mut lines)? {
            let Some((key, value)) = text.split_once(':') else {
                ahead = Some((line, text));
                break;
            };
            headers
                .take(line, key, value)
                .map_err(|message| lines.fault(line, &message))?;
        }
        let folder = Path::new(operand).parent().unwrap_or(Path::new(""));
        let head = headers
            .finish(folder)
            .map_err(|(line, message)| lines.fault(line, &message))?;
        Ok(Log { head, lines, ahead })
    }

    /// The name that messages have for it.
    pub fn name(&self) -> &str {
        &self.lines.name
    }

    /// The next symbol with its line.
    pub fn next(&mut self) -> Result<Option<(usize, LogEntry)>, Fault> {
        let next = match self.ahead.take() {
            Some(line) => Some(line),
            None => next_text(&mut self.lines)?,
        };
        let Some((line, text)) = next else {
            return Ok(None);
        };
        match self.entry(&text) {
            Ok(entry) => Ok(Some((line, entry))),
            Err(message) => Err(self.lines.fault(line, &message)),
        }
    }

    fn entry(&self, text: &str) -> Result<LogEntry, String> {
        match text.split_once(':') {
            Some((key, _)) => Err(format!(
                "{} comes after a symbol: headers come first",
                quoted(&format!("{}:", key.trim()))
            )),
            None if self.head.unread.is_some() => Err(format!(
                "{}: a log with `points:` has no symbols of its own",
                quoted(text)
            )),
            None => LogEntry::of(text),
        }
    }
}

/// The next line that says something; each is a symbol of its own.
fn next_text(lines: &mut Lines) -> Result<Option<(usize, String)>, Fault> {
    loop {
        lines.restart();
        match lines.next()? {
            None => return Ok(None),
            Some((_, Line::Empty)) => {}
            Some((line, Line::Text(text))) => return Ok(Some((line, text))),
        }
    }
}

impl LogEntry {
    fn of(text: &str) -> Result<LogEntry, String> {
        let words: Vec<&str> = text.split_whitespace().collect();
        let (sent, received) = match words.as_slice() {
            [sent, "refused", number] => (sent, Received::Refused(refusal(number)?)),
            [sent, "refused", number, named] => {
                let number = refusal(number)?;
                let right = name(number);
                if *named != right {
                    return Err(format!(
                        "refusal {number} is {right}, not {}",
                        quoted(named)
                    ));
                }
                (sent, Received::Refused(number))
            }
            [sent, read] if *read != "refused" => (sent, Received::Read(frame(read)?)),
            _ => {
                return Err(format!(
                    "{} is no symbol: the frame that was sent, then the one that was read, or \
                     `refused` and a number",
                    quoted(text)
                ))
            }
        };
        let sent = frame(sent)?;
        Ok(LogEntry { sent, received })
    }
}

fn frame(word: &str) -> Result<Vec<u8>, String> {
    match word {
        "-" => Ok(Vec::new()),
        word => word_bytes(word),
    }
}

/// Any number that the library's type holds: another would be shown as one that nobody wrote.
fn refusal(word: &str) -> Result<u32, String> {
    let digits = word.bytes().all(|byte| byte.is_ascii_digit());
    let number = word.parse().ok().filter(|_| digits);
    number.ok_or_else(|| {
        format!(
            "{} is not the number of a refusal: a whole number to {}",
            quoted(word),
            u32::MAX
        )
    })
}
