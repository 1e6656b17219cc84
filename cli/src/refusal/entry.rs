//! The refusal of a symbol in the report of a pair: which one it is, and a sentence that helps.

use super::told::Refusal;
use crate::files::{LogEntry, Received};
use crate::json::Json;
use crate::span::Span;
use crate::words::count;
use clevisroot_sys::refusals::{FRAME, FULL};
use clevisroot_sys::{MAX_FRAME, MAX_SYMBOLS};

/// Which symbol of which pair an entry is, and where it stands.
pub struct EntryPlace<'a> {
    pub pair: &'a str,
    /// Symbols count from 0.
    pub symbol: u32,
    pub file: &'a str,
    pub line: Option<usize>,
    /// The file is that of the sent frames, and the points are read here.
    pub read_here: bool,
}

impl EntryPlace<'_> {
    /// An entry that the tally refuses with this number.
    pub fn refusal(&self, number: u32, entry: &LogEntry) -> Refusal {
        let sentence = match number {
            FULL => self.full(),
            _ => frames(entry),
        };
        self.told(number, sentence)
    }

    /// A frame, the one that was sent or the one that was read, that is none of its table set.
    pub fn misfit(&self, which: &str, frame: &[u8], span: Span, tables: &str) -> Refusal {
        let fault = if frame.len() == span.bytes() {
            format!("{}: {}", span.words(), span.outside(frame))
        } else {
            let bytes = match frame.len() {
                0..=MAX_FRAME => count(frame.len(), "byte"),
                _ => format!("more than {MAX_FRAME} bytes"),
            };
            format!("{}, and this frame has {bytes}", span.words())
        };
        let none = if self.read_here { "" } else { ", or none" };
        let sentence = format!(
            "The frame that was {which} is none of {tables} ({fault}): name the table set and the \
             start that were used{none}."
        );
        self.told(FRAME, sentence)
    }

    fn full(&self) -> String {
        let split = if self.read_here {
            "split both files, and report the parts as pairs of their own, each with the register \
             of its first symbol"
        } else {
            "split the log, and report the parts as pairs of their own"
        };
        format!("The report of a pair holds {MAX_SYMBOLS} symbols, and this is one more: {split}.")
    }

    fn told(&self, number: u32, sentence: String) -> Refusal {
        let EntryPlace { pair, symbol, .. } = self;
        let spot = format!("at place 0: symbol {symbol} of pair {pair}");
        let place = match self.line {
            Some(line) => format!("{spot}, line {line} of {}", self.file),
            None => format!("{spot}, in {}", self.file),
        };
        let line = self.line.map(|line| Json::Number(line as i64));
        Refusal {
            number,
            place_is: None,
            place,
            spot,
            sentence,
            details: vec![
                ("pair", Json::text(*pair)),
                ("symbol", Json::Number((*symbol).into())),
                ("file", Json::text(self.file)),
                ("line", line.unwrap_or(Json::Null)),
            ],
        }
    }
}

/// What is wrong with the frames of an entry, or with its number.
fn frames(entry: &LogEntry) -> String {
    let sent = entry.sent.len();
    let longest = format!("no frame has more than {MAX_FRAME} bytes");
    match &entry.received {
        _ if sent > MAX_FRAME => format!("The frame that was sent is too long: {longest}."),
        Received::Read(read) if read.len() > MAX_FRAME => {
            format!("The frame that was read is too long: {longest}.")
        }
        Received::Read(read) => format!(
            "The frame that was sent has {} and the one that was read {}: frames of one table set \
             have the same length, so one of the two is not whole, or of another table set.",
            count(sent, "byte"),
            read.len()
        ),
        Received::Refused(_) => "0 is no refusal, for it says that the symbol was read: write the \
                                 frame that was read, or the number of the refusal."
            .to_string(),
    }
}
