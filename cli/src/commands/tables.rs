//! `check` and `order`.

use crate::ask;
use crate::call::Call;
use crate::facts::Facts;
use crate::fault::Fault;
use crate::files::{read_tables, TableSet};
use crate::json::{Fields, Json};
use crate::output::Output;
use crate::refusal::Question;
use crate::report::{table_fields, Report, Written};
use crate::span::Span;
use clevisroot_sys::refusals::DONE;
use clevisroot_sys::{self as library, Answer};
use std::fmt::Display;

pub fn check(call: &Call) -> Result<u8, Fault> {
    let set = read_tables(&call.operands[0])?;
    let answer = library::check(set.lent());
    let json = table_fields("check", &answer);
    let report = match answer.number {
        DONE => accepted(&set, &answer, json),
        _ => refused(&set, &answer, json),
    };
    Output::open(call)?.single(report)
}

fn accepted(set: &TableSet, answer: &Answer, mut json: Fields) -> Report {
    let facts = Facts::of(set, answer.size);
    let summary = vec![
        "0 DONE: the table set is accepted".to_string(),
        size_words(answer),
        facts.class_words(),
        format!("tones by bits: {}", facts.loading_words()),
        format!("a turned clip {}", facts.turned_words()),
        format!("points turned by a quarter {}", facts.quarter_words()),
    ];
    json.extend(facts.fields());
    Report::new(0, summary, json)
}

pub fn order(call: &Call) -> Result<u8, Fault> {
    let set = read_tables(&call.operands[0])?;
    let (answer, order) = ask::order(&set);
    let mut json = table_fields("order", &answer);
    if answer.number != DONE {
        return Output::open(call)?.single(refused(&set, &answer, json));
    }
    json.push(("tones", Json::numbers(&order.tones)));
    json.push(("bits", Json::numbers(&order.bits)));
    let lists = format!("t'\n{}b'\n{}", rows(&order.tones), rows(&order.bits));
    let summary = vec![format!("0 DONE: {}", size_words(&answer))];
    let mut report = Report::new(0, summary, json);
    report.result = Some(Written {
        screen: lists.clone(),
        file: lists,
    });
    Output::open(call)?.single(report)
}

/// L, and the bytes of a frame that starts at bit 0.
fn size_words(answer: &Answer) -> String {
    let size = answer.size;
    Span { start: 0, size }.words()
}

fn refused(set: &TableSet, answer: &Answer, json: Fields) -> Report {
    Report::refused(&Question::of_tables(set).refusal(answer), json)
}

/// Numbers, 16 a line.
fn rows<T: Display>(numbers: &[T]) -> String {
    let row = |numbers: &[T]| {
        let words: Vec<String> = numbers.iter().map(T::to_string).collect();
        words.join(" ") + "\n"
    };
    numbers.chunks(16).map(row).collect()
}
