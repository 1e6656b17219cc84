//! `map` and `point`: one tone on its own.

use super::mapper::Mapper;
use crate::call::Call;
use crate::fault::Fault;
use crate::files::{saturating, signed};
use crate::json::{Fields, Json};
use crate::output::Output;
use crate::refusal::Refusal;
use crate::report::{fields, Report};
use crate::words::{count, shown};
use clevisroot_sys::refusals::{DONE, LABEL, OFFGRID};

/// What counts and labels are to be.
const FROM_0: &str = "a whole number from 0";

pub fn map(call: &Call) -> Result<u8, Fault> {
    Output::open(call)?.single(map_report(call)?)
}

pub fn point(call: &Call) -> Result<u8, Fault> {
    Output::open(call)?.single(point_report(call)?)
}

fn map_report(call: &Call) -> Result<Report, Fault> {
    let mapper = Mapper::of(call);
    let bits = bits_operand(call)?;
    let label = call.number(1, FROM_0, |word| saturating(word, u32::MAX))?;
    let point = mapper.map_label(bits, label);
    if point.number != DONE {
        return Ok(refused(call, point.number, label_sentence(bits)));
    }
    let mut json = tone_fields(call, 0);
    json.push(("bits", Json::Number(bits.into())));
    json.push(("label", Json::Number(label.into())));
    json.push(("x", Json::Number(point.x.into())));
    json.push(("y", Json::Number(point.y.into())));
    let summary = format!(
        "0 DONE: {}, label {label} ({label:0width$b}): point ({}, {}){}",
        count(bits, "bit"),
        point.x,
        point.y,
        mapper.answered(),
        width = usize::from(bits)
    );
    Ok(Report::new(0, vec![summary], json))
}

fn point_report(call: &Call) -> Result<Report, Fault> {
    let mapper = Mapper::of(call);
    let bits = bits_operand(call)?;
    let coordinate = |operand| call.number(operand, "a whole number", signed);
    let ((x, _), (y, _)) = (coordinate(1)?, coordinate(2)?);
    let found = mapper.read_point(bits, x, y);
    if found.number != DONE {
        let sentence = match found.number {
            OFFGRID => format!(
                "({}, {}) is none of the {} points of a tone with {}.",
                typed(call, 1),
                typed(call, 2),
                1u32 << bits.min(15),
                count(bits, "bit")
            ),
            _ => label_sentence(bits),
        };
        return Ok(refused(call, found.number, sentence));
    }
    let label = found.label;
    let mut json = tone_fields(call, 0);
    json.push(("bits", Json::Number(bits.into())));
    json.push(("x", Json::Number(x.into())));
    json.push(("y", Json::Number(y.into())));
    json.push(("label", Json::Number(label.into())));
    let summary = format!(
        "0 DONE: {}, point ({x}, {y}): label {label} ({label:0width$b}){}",
        count(bits, "bit"),
        mapper.answered(),
        width = usize::from(bits)
    );
    Ok(Report::new(0, vec![summary], json))
}

/// Bits beyond the library's type are refused like those within it.
fn bits_operand(call: &Call) -> Result<u8, Fault> {
    let bits = call.number(0, FROM_0, |word| saturating(word, u32::from(u8::MAX)))?;
    Ok(u8::try_from(bits).unwrap_or(u8::MAX))
}

fn label_sentence(bits: u8) -> String {
    match bits {
        1..=15 => format!(
            "A label of {} is 0 to {}.",
            count(bits, "bit"),
            (1u32 << bits) - 1
        ),
        _ => "A tone on its own has 1 to 15 bits.".to_string(),
    }
}

/// A call for one tone has no size and no register; the mapper is told if the call names one.
fn tone_fields(call: &Call, number: u32) -> Fields {
    let mut fields = fields(call.command.name, [Some(number), Some(0), None, None]);
    fields.extend(Mapper::of(call).field());
    fields
}

/// An operand as it was typed.
fn typed(call: &Call, operand: usize) -> String {
    shown(&call.operands[operand].to_string_lossy())
}

fn refused(call: &Call, number: u32, sentence: String) -> Report {
    debug_assert!(matches!(number, OFFGRID | LABEL));
    let spot = format!(
        "at place 0: the one tone asked for{}",
        Mapper::of(call).answered()
    );
    let refusal = Refusal {
        number,
        place_is: None,
        place: spot.clone(),
        spot,
        sentence,
        details: Vec::new(),
    };
    Report::refused(&refusal, tone_fields(call, number))
}
