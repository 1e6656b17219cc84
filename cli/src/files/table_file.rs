//! Table set files: `mode coded` or `mode uncoded`, `carriers G`, then a line a tone in t order:
//! sub-carrier, bits, gain. `outside SUB-CARRIER BITS GAIN` fills the bit and gain tables for a
//! sub-carrier that is not in t.
//!
//! A file can say all that the library refuses. A sub-carrier at or above `carriers` is put into t
//! (TONE); its bits and gain have no place and are dropped. One that is listed twice is put into t
//! twice (TWICE); its first line counts. An `outside` line with bits or a gain is a STRAY.

use super::numbers::saturating;
use super::source::{quoted, Source};
use super::tables::{Entry, TableSet};
use crate::fault::Fault;
use crate::index::Subcarrier;
use std::ffi::OsStr;

/// What the lines so far have said.
#[derive(Default)]
struct Draft {
    /// With the line that says so.
    coded: Option<(bool, usize)>,
    carriers: Option<u16>,
    tones: Vec<Entry>,
    outside: Vec<Entry>,
}

/// The table set of a file, or of standard input if the operand is `-`.
pub fn read_tables(operand: &OsStr) -> Result<TableSet, Fault> {
    let source = Source::read(operand)?;
    let mut draft = Draft::default();
    for (line, text) in source.lines() {
        draft
            .take(line, text)
            .map_err(|message| source.fault(line, &message))?;
    }
    draft.finish(&source)
}

impl Draft {
    fn take(&mut self, line: usize, text: &str) -> Result<(), String> {
        let words: Vec<&str> = text.split_whitespace().collect();
        match words.as_slice() {
            ["mode", mode] => set_once(&mut self.coded, "mode", (coded(mode)?, line)),
            ["carriers", count] => set_once(&mut self.carriers, "carriers", number(count)?),
            ["outside", tone, bits, gain] => {
                self.outside.push(entry(line, [tone, bits, gain])?);
                self.headed()
            }
            [tone, bits, gain] => {
                self.tones.push(entry(line, [tone, bits, gain])?);
                self.headed()
            }
            _ => Err(format!(
                "{} is neither `mode coded`, `mode uncoded` or `carriers NUMBER`, nor a tone: \
                 sub-carrier, bits and gain",
                quoted(text)
            )),
        }
    }

    /// Tones come after the two lines that say what they mean.
    fn headed(&self) -> Result<(), String> {
        match (self.coded, self.carriers) {
            (Some(_), Some(_)) => Ok(()),
            _ => Err("`mode` and `carriers` come before the first tone".to_string()),
        }
    }

    fn finish(self, source: &Source) -> Result<TableSet, Fault> {
        let missing = |what| source.fault(source.last_line(), &format!("no line `{what}`"));
        let (coded, mode_line) = self.coded.ok_or_else(|| missing("mode"))?;
        let carriers = self.carriers.ok_or_else(|| missing("carriers"))?;
        let mut set = TableSet::new(coded, usize::from(carriers));
        set.name.clone_from(&source.name);
        set.mode_line = mode_line;
        for entry in &self.tones {
            set.push_tone(entry);
        }
        for entry in &self.outside {
            admit_outside(&set, entry.tone)
                .map_err(|message| source.fault(entry.line, &message))?;
            set.fill(entry);
        }
        Ok(set)
    }
}

fn admit_outside(set: &TableSet, tone: Subcarrier) -> Result<(), String> {
    if usize::from(tone.0) >= set.carriers() {
        return Err(format!("sub-carrier {tone} is not below `carriers`"));
    }
    match set.line_of(tone) {
        Some(line) => Err(format!("sub-carrier {tone} is on line {line} already")),
        None => Ok(()),
    }
}

fn set_once<T>(kept: &mut Option<T>, what: &str, value: T) -> Result<(), String> {
    match kept.replace(value) {
        None => Ok(()),
        Some(_) => Err(format!("a second line `{what}`")),
    }
}

fn coded(mode: &str) -> Result<bool, String> {
    match mode {
        "coded" => Ok(true),
        "uncoded" => Ok(false),
        _ => Err(format!("mode {} is not `coded` or `uncoded`", quoted(mode))),
    }
}

fn entry(line: usize, [tone, bits, gain]: [&str; 3]) -> Result<Entry, String> {
    Ok(Entry {
        line,
        tone: Subcarrier(number(tone)?),
        bits: u8::try_from(number(bits)?).unwrap_or(u8::MAX),
        gain: number(gain)?,
    })
}

fn number(word: &str) -> Result<u16, String> {
    saturating(word, u32::from(u16::MAX))
        .and_then(|number| u16::try_from(number).ok())
        .ok_or_else(|| format!("{} is not a whole number from 0", quoted(word)))
}
