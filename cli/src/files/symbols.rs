//! A file of many symbols, point lists or frames, one at a time. An empty line ends a symbol; so
//! does a header line, which begins the next.

use super::lines::{Line, Lines};
use crate::fault::Fault;
use std::ffi::OsStr;
use std::marker::PhantomData;

/// What one symbol's lines say.
pub trait SymbolText {
    /// No line yet; `file` is the name that messages have for the file.
    fn new(file: &str) -> Self;
    fn is_empty(&self) -> bool;
    fn is_header(text: &str) -> bool;
    fn take(&mut self, line: usize, text: &str) -> Result<(), String>;
}

pub struct Symbols<T> {
    lines: Lines,
    /// A line that was read ahead.
    ahead: Option<(usize, Line)>,
    /// Symbols handed out so far.
    count: usize,
    kind: PhantomData<T>,
}

impl<T: SymbolText> Symbols<T> {
    pub fn open(operand: &OsStr) -> Result<Symbols<T>, Fault> {
        Ok(Symbols {
            lines: Lines::open(operand)?,
            ahead: None,
            count: 0,
            kind: PhantomData,
        })
    }

    /// The next symbol with its number. A file without any line is one symbol without any.
    pub fn next(&mut self) -> Result<Option<(usize, T)>, Fault> {
        self.lines.restart();
        let mut symbol = T::new(&self.lines.name);
        let mut headed = false;
        while let Some((line, text)) = self.line()? {
            match text {
                Line::Empty if symbol.is_empty() => {}
                Line::Empty => return Ok(Some(self.numbered(symbol))),
                Line::Text(text) if T::is_header(&text) => {
                    if headed || !symbol.is_empty() {
                        self.ahead = Some((line, Line::Text(text)));
                        return Ok(Some(self.numbered(symbol)));
                    }
                    headed = true;
                }
                Line::Text(text) => symbol
                    .take(line, &text)
                    .map_err(|message| self.lines.fault(line, &message))?,
            }
        }
        let told = headed || !symbol.is_empty() || self.count == 0;
        Ok(told.then(|| self.numbered(symbol)))
    }

    /// Whether another symbol follows.
    pub fn has_more(&mut self) -> Result<bool, Fault> {
        while let Some((line, text)) = self.line()? {
            if text != Line::Empty {
                self.ahead = Some((line, text));
                return Ok(true);
            }
        }
        Ok(false)
    }

    fn line(&mut self) -> Result<Option<(usize, Line)>, Fault> {
        match self.ahead.take() {
            Some(line) => Ok(Some(line)),
            None => self.lines.next(),
        }
    }

    fn numbered(&mut self, symbol: T) -> (usize, T) {
        self.count += 1;
        (self.count - 1, symbol)
    }
}
