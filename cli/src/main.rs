//! `clevisroot`: checks table sets, writes a symbol's points and reads them back, from files that a
//! person can edit. What it answers is the static library's answer; this tool only puts it in words.

mod arguments;
mod ask;
mod call;
mod commands;
mod completions;
mod facts;
mod fault;
mod files;
mod help;
mod index;
mod json;
mod options;
mod output;
mod pair_report;
mod refusal;
mod register;
mod report;
mod span;
mod stream;
mod svg;
mod theorems;
mod way;
mod words;

use arguments::{parse, Request};
use commands::COMMANDS;
use fault::Fault;
use std::ffi::OsString;
use std::process::ExitCode;

fn main() -> ExitCode {
    // Not args(): that one panics if a file name is not UTF-8.
    let words: Vec<OsString> = std::env::args_os().skip(1).collect();
    let status = answer(&words).unwrap_or_else(|fault| {
        output::complain(&fault.message);
        fault.status
    });
    ExitCode::from(status)
}

/// Answers one call of the tool and tells its exit status.
fn answer(words: &[OsString]) -> Result<u8, Fault> {
    match parse(words, &COMMANDS)? {
        Request::Text(text) => output::print(&text).map(|()| 0),
        Request::Call(call) => (call.command.run)(&call),
    }
}
