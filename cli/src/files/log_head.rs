//! The head of a log: lines `KEY: VALUE`. File names in it are taken from the log's own folder.

use super::numbers::{register_number, saturating};
use super::source::quoted;
use crate::call::Asked;
use crate::span::LAST_START;
use crate::words::shown;
use clevisroot_sys::RESET;
use std::collections::BTreeMap;
use std::ffi::OsString;
use std::ops::RangeInclusive;
use std::path::Path;

const PAIR: &str = "pair";
const TABLES: &str = "tables";
const SENT: &str = "sent";
const POINTS: &str = "points";
const REGISTER: &str = "register";
const START: &str = "start";

const KEYS: [&str; 6] = [PAIR, TABLES, SENT, POINTS, REGISTER, START];

/// Keys with the others that they need.
const NEEDS: [(&str, &[&str]); 4] = [
    (POINTS, &[TABLES, SENT]),
    (SENT, &[POINTS]),
    (REGISTER, &[POINTS]),
    (START, &[TABLES]),
];

/// What a log says before its symbols.
pub struct Head {
    pub pair: Option<String>,
    pub tables: Option<OsString>,
    /// The bit of its first byte at which a frame starts.
    pub start: u8,
    /// None where the log has the symbols itself.
    pub unread: Option<Unread>,
}

/// Symbols that are still to be read.
pub struct Unread {
    /// The file of the frames that were sent.
    pub sent: OsString,
    /// The file of the points that came.
    pub points: OsString,
    /// The register before the first symbol.
    pub register: Asked,
}

impl Head {
    /// The files that it names.
    pub fn files(&self) -> impl Iterator<Item = &OsString> {
        let unread = self.unread.iter();
        let symbols = unread.flat_map(|unread| [&unread.sent, &unread.points]);
        self.tables.iter().chain(symbols)
    }
}

/// The lines of a head by their keys.
#[derive(Default)]
pub struct Headers {
    lines: BTreeMap<&'static str, (usize, String)>,
}

/// A message on a line.
type Wrong = (usize, String);

impl Headers {
    pub fn take(&mut self, line: usize, key: &str, value: &str) -> Result<(), String> {
        let (key, value) = (key.trim(), value.trim());
        let Some(&key) = KEYS.iter().find(|known| **known == key) else {
            let known = KEYS.map(|key| format!("`{key}:`"));
            let key = quoted(&format!("{key}:"));
            return Err(format!("{key} is no header: they are {}", known.join(", ")));
        };
        if value.is_empty() {
            return Err(format!("`{key}:` says nothing"));
        }
        match self.lines.insert(key, (line, value.to_string())) {
            None => Ok(()),
            Some(_) => Err(format!("a second line `{key}:`")),
        }
    }

    /// All lines are there; file names are taken from this folder.
    pub fn finish(&self, folder: &Path) -> Result<Head, Wrong> {
        for (key, needs) in NEEDS {
            let missing = needs.iter().find(|need| !self.lines.contains_key(*need));
            if let (Some((line, _)), Some(missing)) = (self.lines.get(key), missing) {
                return Err((*line, format!("`{key}:` needs a line `{missing}:` too")));
            }
        }
        let decimal = |word: &str| saturating(word, u32::MAX);
        let start = self.number(START, decimal, 0..=LAST_START.into())?;
        let unread = match (self.file(SENT, folder)?, self.file(POINTS, folder)?) {
            (Some(sent), Some(points)) => Some(Unread {
                sent,
                points,
                register: self.register()?,
            }),
            _ => None,
        };
        Ok(Head {
            pair: self.lines.get(PAIR).map(|(_, name)| shown(name)),
            tables: self.file(TABLES, folder)?,
            start: start.map_or(0, |(start, _)| start as u8),
            unread,
        })
    }

    fn register(&self) -> Result<Asked, Wrong> {
        let given = self.number(REGISTER, register_number, 1..=RESET)?;
        Ok(given.map_or(Asked::Reset, |(register, word)| {
            Asked::Given(register, word)
        }))
    }

    fn file(&self, key: &str, folder: &Path) -> Result<Option<OsString>, Wrong> {
        match self.lines.get(key) {
            Some((line, name)) if name == "-" => Err((
                *line,
                format!("`{key}:` names a file, and `-` is standard input"),
            )),
            named => Ok(named.map(|(_, name)| folder.join(name).into_os_string())),
        }
    }

    /// The number that a line has, and the word as it was typed.
    fn number(
        &self,
        key: &str,
        read: impl Fn(&str) -> Option<u32>,
        range: RangeInclusive<u32>,
    ) -> Result<Option<(u32, String)>, Wrong> {
        let Some((line, word)) = self.lines.get(key) else {
            return Ok(None);
        };
        let (least, most) = (range.start(), range.end());
        let message = || {
            let word = quoted(word);
            format!("`{key}:` is a whole number from {least} to {most}, not {word}")
        };
        match read(word).filter(|number| range.contains(number)) {
            Some(number) => Ok(Some((number, word.clone()))),
            None => Err((*line, message())),
        }
    }
}
