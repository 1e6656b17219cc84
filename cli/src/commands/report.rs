//! `report`: what the symbols of one or more pairs show.

use crate::call::{Asked, Call};
use crate::fault::Fault;
use crate::files::{name_of, Head, Log, Unread};
use crate::options::{Opt, CSV, HTML, JSON, PAIR_NAME, PAIR_POINTS, PAIR_SENT, PAIR_TABLES};
use crate::output::{same_file, Output};
use crate::pair_report::{lines, list, of_files, of_log, page, rows, Pair, Stop};
use crate::report::{fields, Report};
use crate::words::shown;
use std::ffi::OsStr;
use std::path::Path;

pub fn report(call: &Call) -> Result<u8, Fault> {
    if call.has(&CSV) && call.has(&JSON) {
        return Err(call
            .command
            .wrong("--csv and --json are two forms of one answer"));
    }
    let own = own_pair(call)?;
    let mut output = Output::open(call)?;
    match pairs(call, own, &mut output) {
        Ok(pairs) => output.single(done(call, &pairs)),
        Err(Stop::Fault(fault)) => Err(fault),
        Err(Stop::Refused(refusal, place)) => {
            let json = fields("report", [Some(refusal.number), Some(place), None, None]);
            let mut report = Report::refused_result(&refusal, json);
            report.rows = call.has(&CSV).then(String::new);
            output.single(report)
        }
    }
}

fn done(call: &Call, pairs: &[Pair]) -> Report {
    let mut json = fields("report", [Some(0), Some(0), None, None]);
    json.push(("pairs", list(pairs)));
    let mut report = Report::new(0, lines(pairs), json);
    report.page = call.has(&HTML).then(|| page(pairs));
    report.rows = call.has(&CSV).then(|| rows(pairs));
    report
}

/// The pairs of the logs, then the one that the call's options name.
fn pairs(call: &Call, own: Option<Head>, output: &mut Output) -> Result<Vec<Pair>, Stop> {
    let mut pairs = Vec::new();
    for operand in &call.operands {
        let log = Log::open(operand)?;
        check_overwriting(call, &log.head)?;
        pairs.push(of_log(log, stem(operand), output)?);
    }
    if let Some(head) = own {
        let points = call.value(&PAIR_POINTS).map_or(String::new(), stem);
        let name = head.pair.clone().unwrap_or(points);
        pairs.push(of_files(&head, name, output)?);
    }
    Ok(pairs)
}

/// The pair that the options name, if they name one.
fn own_pair(call: &Call) -> Result<Option<Head>, Fault> {
    let file = |option: &Opt| call.value(option).map(OsStr::to_os_string);
    let named = call.has(&PAIR_NAME) || call.register != Asked::Reset || call.start.is_some();
    let wrong = |message: &str| Err(call.command.wrong(message));
    match (file(&PAIR_TABLES), file(&PAIR_SENT), file(&PAIR_POINTS)) {
        (Some(tables), Some(sent), Some(points)) => Ok(Some(Head {
            pair: call.value(&PAIR_NAME).map(name),
            tables: Some(tables),
            start: call.start.unwrap_or(0),
            unread: Some(Unread {
                sent,
                points,
                register: call.register.clone(),
            }),
        })),
        (None, None, None) if named => wrong(
            "--pair, --register and --start are of a pair from --tables, --sent and --points; a \
             log has lines for them",
        ),
        (None, None, None) if call.operands.is_empty() => {
            wrong("no LOG, and no pair from --tables, --sent and --points")
        }
        (None, None, None) => Ok(None),
        _ => wrong("a pair without a log takes --tables, --sent and --points, all three"),
    }
}

/// The page must not take the place of a file that a log names.
fn check_overwriting(call: &Call, head: &Head) -> Result<(), Fault> {
    let Some(html) = call.file(&HTML).filter(|html| html.is_file()) else {
        return Ok(());
    };
    match head.files().find(|file| same_file(html, Path::new(file))) {
        Some(file) => {
            let file = name(file);
            let message = format!("--html would overwrite {file}, which is read");
            Err(call.command.wrong(&message))
        }
        None => Ok(()),
    }
}

/// The name of a file without its folder and its ending.
fn stem(file: &OsStr) -> String {
    if file == "-" {
        return name_of(file);
    }
    name(Path::new(file).file_stem().unwrap_or(file))
}

fn name(word: &OsStr) -> String {
    shown(word.to_string_lossy().trim())
}
