//! A pair while its symbols are counted.

use super::count::Count;
use super::pair::Pair;
use super::source::Source;
use super::stop::Stop;
use crate::ask;
use crate::facts::Facts;
use crate::files::{Head, LogEntry, Received, TableSet};
use crate::json::Json;
use crate::refusal::{EntryPlace, Question, Refusal};
use crate::span::Span;
use clevisroot_sys::refusals::{DONE, FRAME};
use clevisroot_sys::{self as library, Answer, RESET};

pub struct Counting<'a> {
    pub name: String,
    /// Where a table set is named: one that the library accepts.
    tables: Option<&'a TableSet>,
    /// The bits of a frame of these tables.
    span: Span,
    /// The symbols are points that are read here.
    read_here: bool,
    pub count: Count,
}

impl Counting<'_> {
    /// No symbol yet of the pair with this head.
    pub fn new<'a>(
        name: String,
        tables: Option<&'a TableSet>,
        head: &Head,
    ) -> Result<Counting<'a>, Stop> {
        let start = head.start;
        let mut counting = Counting {
            name,
            tables,
            span: Span { start, size: 0 },
            read_here: head.unread.is_some(),
            count: Count::new(),
        };
        if let Some(set) = tables {
            let answer = library::check(set.lent());
            counting.accept(&Question::of_tables(set), &answer)?;
            counting.span.size = answer.size;
        }
        Ok(counting)
    }

    /// Goes on only if the library accepts what was asked for this pair.
    pub fn accept(&self, question: &Question, answer: &Answer) -> Result<(), Stop> {
        if answer.number == DONE {
            return Ok(());
        }
        let mut refusal = question.refusal(answer);
        refusal.place += &format!(", of pair {} with {}", self.name, question.set.name);
        let pair = ("pair", Json::text(self.name.clone()));
        refusal.details.insert(0, pair);
        Err(Stop::Refused(Box::new(refusal), answer.place))
    }

    /// Counts a symbol that stands in this line of a file.
    pub fn take(&mut self, entry: &LogEntry, file: &str, line: Option<usize>) -> Result<(), Stop> {
        let place = EntryPlace {
            pair: &self.name,
            symbol: self.count.tally.symbols,
            file,
            line,
            read_here: self.read_here,
        };
        let added = self.count.add(entry);
        let refusal = match (added, self.misfit(entry, &place)) {
            (Ok(()), None) => return Ok(()),
            (Ok(()) | Err(FRAME), Some(misfit)) => misfit,
            (Err(number), _) => place.refusal(number, entry),
        };
        Err(Stop::entry(refusal))
    }

    /// A frame of the entry that is none of the tables, where they are known.
    fn misfit(&self, entry: &LogEntry, place: &EntryPlace) -> Option<Refusal> {
        let set = self.tables?;
        let fits = |frame: &[u8]| {
            let (answer, _) = ask::encode(set, frame, self.span.start, RESET);
            answer.number != FRAME
        };
        let (which, frame) = match &entry.received {
            _ if !fits(&entry.sent) => ("sent", &entry.sent),
            Received::Read(read) if *read != entry.sent && !fits(read) => ("read", read),
            _ => return None,
        };
        Some(place.misfit(which, frame, self.span, &set.name))
    }

    /// All symbols are counted.
    pub fn finish(self, source: Source) -> Pair {
        let size = self.span.size;
        Pair {
            name: self.name,
            source,
            tables: self.tables.map(|set| Facts::of(set, size)),
            count: self.count,
        }
    }
}
