//! What a command has to say, for a person and for a program.

use crate::json::{Fields, Json};
use crate::refusal::Refusal;
use crate::span::Span;
use clevisroot_sys::refusals::name;
use clevisroot_sys::{Answer, Clip};

/// The main result: with remarks on the screen, without in a file.
pub struct Written {
    pub screen: String,
    pub file: String,
}

pub struct Report {
    /// The exit status.
    pub status: u8,
    pub summary: Vec<String>,
    pub result: Option<Written>,
    pub json: Fields,
    pub picture: Option<String>,
    /// A page for a browser.
    pub page: Option<String>,
    /// Rows for a spreadsheet, where they are wanted instead of text; none of a refusal.
    pub rows: Option<String>,
    /// The symbol or the tables are refused.
    pub refused: bool,
    /// The reason in a line, where no result comes for one that was asked for.
    pub reason: Option<String>,
}

impl Report {
    /// A report with no result of its own.
    pub fn new(status: u8, summary: Vec<String>, json: Fields) -> Report {
        Report {
            status,
            summary,
            result: None,
            json,
            picture: None,
            page: None,
            rows: None,
            refused: false,
            reason: None,
        }
    }

    /// What the library's refusal says.
    pub fn refused(refusal: &Refusal, json: Fields) -> Report {
        let summary = vec![
            format!("refused: {}", refusal.title()),
            refusal.place.clone(),
            refusal.sentence.clone(),
        ];
        let mut report = Report::new(status_of(refusal.number), summary, json);
        report.json.extend(refusal_fields(refusal));
        report.refused = true;
        report
    }

    /// A refusal in place of a result that was asked for.
    pub fn refused_result(refusal: &Refusal, json: Fields) -> Report {
        let mut report = Report::refused(refusal, json);
        report.reason = Some(reason(refusal));
        report
    }
}

/// The reason of a refusal in a line.
fn reason(refusal: &Refusal) -> String {
    let Refusal {
        place, sentence, ..
    } = refusal;
    format!("refused: {} {place}: {sentence}", refusal.title())
}

/// What JSON says of a refusal besides its number and place.
pub fn refusal_fields(refusal: &Refusal) -> Fields {
    let place_is = refusal.place_is.map_or(Json::Null, Json::text);
    let mut fields = vec![("place_is", place_is)];
    fields.extend(refusal.details.iter().cloned());
    fields.push(("sentence", Json::text(refusal.sentence.clone())));
    fields
}

/// "0 DONE: L = 5 bits in 1 byte, register after 2097151"
pub fn done_words(frame: Span, register: u32) -> String {
    format!("0 DONE: {}, register after {register}", frame.words())
}

/// The exit status of a refusal is its number.
fn status_of(number: u32) -> u8 {
    u8::try_from(number).unwrap_or(u8::MAX)
}

/// The fields that every object begins with: number, place, size and register follow the command.
/// A call that has no such thing has null.
pub fn fields(command: &'static str, answer: [Option<u32>; 4]) -> Fields {
    let number = |value: Option<u32>| value.map_or(Json::Null, |value| Json::Number(value.into()));
    let [refusal, place, size, register] = answer;
    vec![
        ("command", Json::text(command)),
        ("number", number(refusal)),
        (
            "name",
            refusal.map_or(Json::Null, |refusal| Json::text(name(refusal))),
        ),
        ("place", number(place)),
        ("size", number(size)),
        ("register", number(register)),
    ]
}

/// The fields of a call for tables, which has no register.
pub fn table_fields(command: &'static str, answer: &Answer) -> Fields {
    let Answer {
        number,
        place,
        size,
        ..
    } = *answer;
    fields(command, [Some(number), Some(place), Some(size), None])
}

/// The fields of a call for a symbol, with the start of its frame if the call names one.
pub fn symbol_fields(command: &'static str, answer: &Answer, start: Option<u8>) -> Fields {
    let Answer {
        number,
        place,
        size,
        reg,
    } = *answer;
    let numbers = [Some(number), Some(place), Some(size), typed_register(reg)];
    let mut fields = fields(command, numbers);
    fields.extend(start_field(start));
    fields
}

/// The fields of a call that tells the clip: it names no frame, so that it has no size.
pub fn clip_fields(command: &'static str, clip: &Clip) -> Fields {
    let Clip {
        number, place, reg, ..
    } = *clip;
    let numbers = [Some(number), Some(place), None, typed_register(reg)];
    fields(command, numbers)
}

/// A register too large for the library's type stands for the largest there is, which nobody typed.
fn typed_register(register: u32) -> Option<u32> {
    Some(register).filter(|&register| register != u32::MAX)
}

/// Without it the bytes of a frame that starts elsewhere than at bit 0 cannot be understood.
pub fn start_field(start: Option<u8>) -> Option<(&'static str, Json)> {
    start.map(|start| ("start", Json::Number(start.into())))
}
