//! A pair from its log, or from the frames that were sent and the points that came of them.

use super::counting::Counting;
use super::pair::Pair;
use super::reading::read_points;
use super::source::{ReadHere, Source};
use super::stop::Stop;
use crate::fault::Fault;
use crate::files::{read_tables, Head, Log, TableSet};
use crate::output::Output;

/// The pair of a log; `name` is its name if the log has none.
pub fn of_log(mut log: Log, name: String, output: &mut Output) -> Result<Pair, Stop> {
    let name = log.head.pair.clone().unwrap_or(name);
    let tables = tables_of(&log.head)?;
    let mut counting = Counting::new(name, tables.as_ref(), &log.head)?;
    let file = log.name().to_string();
    while let Some((line, entry)) = log.next()? {
        counting.take(&entry, &file, Some(line))?;
        output.counted();
    }
    read_unread(&mut counting, &log.head, tables.as_ref(), output)?;
    Ok(counting.finish(source(&log.head, Some(file))))
}

/// A pair whose files are named without a log.
pub fn of_files(head: &Head, name: String, output: &mut Output) -> Result<Pair, Stop> {
    let tables = tables_of(head)?;
    let mut counting = Counting::new(name, tables.as_ref(), head)?;
    read_unread(&mut counting, head, tables.as_ref(), output)?;
    Ok(counting.finish(source(head, None)))
}

fn tables_of(head: &Head) -> Result<Option<TableSet>, Fault> {
    let tables = head.tables.as_ref();
    tables.map(|file| read_tables(file)).transpose()
}

fn read_unread(
    counting: &mut Counting,
    head: &Head,
    tables: Option<&TableSet>,
    output: &mut Output,
) -> Result<(), Stop> {
    match (&head.unread, tables) {
        (Some(unread), Some(set)) => read_points(counting, unread, set, head.start, output),
        _ => Ok(()),
    }
}

fn source(head: &Head, log: Option<String>) -> Source {
    Source {
        log,
        start: head.start,
        read: head.unread.as_ref().map(ReadHere::of),
    }
}
