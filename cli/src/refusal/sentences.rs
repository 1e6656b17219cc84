//! One sentence a refusal: what is wrong with these very tables, and what to do about it.

use super::place::{place_of, subcarrier_of};
use super::question::Question;
use crate::ask;
use crate::files::{Class, TableSet};
use crate::index::Place;
use crate::register::{or_a_few_more, ENOUGH_TONES};
use crate::span::LAST_START;
use crate::way::Way;
use crate::words::{count, shown};
use clevisroot_sys::refusals::{
    BITS, FEW, FRAME, GAIN, MONITOR, ODD, OFFGRID, RANGE, ROOM, SEED, SIZE, STRAY, TONE, TRELLIS,
    TWICE,
};
use clevisroot_sys::Answer;

pub fn sentence(question: &Question, answer: &Answer) -> String {
    let set = question.set;
    match answer.number {
        SIZE => size(set),
        TONE => format!(
            "The sub-carrier is not below `carriers`, {}: raise that number or take the line out.",
            set.carriers()
        ),
        TWICE => twice(set, place_of(answer)),
        BITS => "A sub-carrier has 0 to 15 bits, and this one more.".to_string(),
        STRAY => "It is not in the tone table but has bits or a gain: list it as a tone or take \
                  its `outside` line out."
            .to_string(),
        GAIN => gain(set, answer),
        ODD => odd(set),
        FEW => few(set),
        ROOM => room(question),
        FRAME => frame(question),
        SEED => seed(question),
        OFFGRID => offgrid(question, place_of(answer)),
        MONITOR => monitor(question, place_of(answer)),
        TRELLIS => "Its points break the trellis code: a point here or before was changed, these \
                    are not the tables it was written with, or the points are turned, by clips that \
                    are the wrong way round or by a quarter (see `turn`)."
            .to_string(),
        RANGE => range(question, place_of(answer)),
        _ => "The library refuses this with a number that this tool does not know.".to_string(),
    }
}

fn size(set: &TableSet) -> String {
    let (carriers, tones) = (set.carriers(), set.tone_count());
    match tones {
        _ if !(1..=4096).contains(&carriers) => {
            "`carriers` is 1 to 4096, and this one is not.".to_string()
        }
        0 => "The tone table is empty: list at least one tone.".to_string(),
        _ => format!(
            "{tones} tones are listed, more than {}.",
            count(carriers, "sub-carrier")
        ),
    }
}

fn twice(set: &TableSet, place: Place) -> String {
    let tone = set.tone_at(place);
    match tone.and_then(|tone| Some((tone, set.line_of(tone)?))) {
        Some((tone, line)) => {
            format!("Sub-carrier {tone} is on line {line} already: take one of the two out.")
        }
        None => "The sub-carrier is listed already: take one of the two out.".to_string(),
    }
}

fn gain(set: &TableSet, answer: &Answer) -> String {
    if set.gain_of(subcarrier_of(answer)) == 0 {
        "It has bits but gain 0: give it a gain (512 stands for 1) or 0 bits.".to_string()
    } else {
        "A gain is 0 to 4095 (512 stands for 1), and this one is above.".to_string()
    }
}

fn odd(set: &TableSet) -> String {
    let ones = set.count(|class| class == Class::Data(1));
    format!(
        "Coded, 1-bit tones go in twos, and their number here is {ones}: load one more or one \
         fewer, or use `mode uncoded`."
    )
}

fn few(set: &TableSet) -> String {
    let ones = set.count(|class| class == Class::Data(1));
    let more = set.count(|class| matches!(class, Class::Data(2..)));
    format!(
        "Coded, at least 4 entries must be loaded (two 1-bit tones make one), and their number \
         here is {}: load more tones or use `mode uncoded`.",
        more + ones / 2
    )
}

fn room(question: &Question) -> String {
    let points = question.points.map_or(0, |points| points.count);
    let tones = question.set.tone_count();
    let between = if is_several(points, tones) {
        ", and an empty line between symbols"
    } else {
        ""
    };
    let others = match question.only {
        Some(place) if points < tones => format!(
            "; only the one at place {place} is looked at, so any point, 0,0 for instance, will do for \
             each of the others"
        ),
        _ => String::new(),
    };
    let are = if points == 1 { "is" } else { "are" };
    format!(
        "There {are} {} for {}: give one point a tone, in t' order{between}{others}.",
        count(points, "point"),
        count(tones, "tone")
    )
}

/// Whether so many are those of several symbols, with nothing between them.
fn is_several(given: usize, one: usize) -> bool {
    one > 0 && given > one && given.is_multiple_of(one)
}

fn frame(question: &Question) -> String {
    let start = question.start;
    let span = ask::span(question.set, start);
    match question.frame {
        _ if start > LAST_START => format!(
            "A frame starts at bit 0 to {LAST_START} of its first byte, not at bit {start}: give \
             --start a number from 0 to {LAST_START}."
        ),
        Some(frame) if frame.count == span.bytes() => {
            format!("{}: {}.", span.words(), span.outside(&frame.bytes))
        }
        frame => {
            let given = frame.map_or(0, |frame| frame.count);
            let between = if is_several(given, span.bytes()) {
                ": put an empty line between frames"
            } else {
                ""
            };
            let given = count(given, "byte");
            format!("{}, and this frame has {given}{between}.", span.words())
        }
    }
}

fn seed(question: &Question) -> String {
    let given = question
        .typed
        .map_or(String::new(), |typed| format!(", so not {}", shown(typed)));
    format!("The register is 1 to 8388607, and 8388607 at reset{given}: set it with --register.")
}

fn offgrid(question: &Question, place: Place) -> String {
    let point = point_words(question, place);
    let tone = ask::order(question.set).1.tone_at(place);
    match tone.map(|tone| question.set.class_of(tone)) {
        Some(Class::Silent) => {
            format!("{point} is not (0, 0), the only point of a silent tone.")
        }
        Some(Class::Data(bits)) => format!(
            "{point} is none of the {} points of a tone with {}: {}only exact points are read (see `nearest`).",
            1u32 << bits.min(15),
            count(bits, "bit"),
            quarter_of_one_bit(question, place, bits)
        ),
        _ => format!(
            "{point} is none of the 4 points of a monitored tone: only exact points are read (see `nearest`)."
        ),
    }
}

/// From 2 bits on a quarter turn stays within the constellation.
fn quarter_of_one_bit(question: &Question, place: Place, bits: u8) -> &'static str {
    let point = question.points.and_then(|points| points.typed_at(place));
    match (bits, point) {
        (1, Some((1, -1) | (-1, 1))) if question.set.coded => {
            "a quarter turn makes such points (see `turn`); "
        }
        (1, Some((1, -1) | (-1, 1))) => "a quarter turn makes such points; ",
        _ => "",
    }
}

/// The symbol of any frame has the right point at a monitored place.
fn monitor(question: &Question, place: Place) -> String {
    let Question {
        set,
        start,
        register,
        ..
    } = *question;
    let zeros = vec![0; ask::frame_bytes(set, start)];
    let (_, right) = ask::encode(set, &zeros, start, register);
    let (x, y) = right.at(place).unwrap_or((0, 0));
    let point = point_words(question, place);
    let came = question.points.and_then(|points| points.at(place));
    let is = |way: &Way| came.map(|came| way.undone(came, i16::saturating_neg)) == Some((x, y));
    let advice = monitor_advice(set, TURNS.into_iter().find(is));
    format!(
        "{point} is not ({x}, {y}), which the filler bits of register {register} give: {advice}."
    )
}

const TURNS: [Way; 3] = [Way::Turned, Way::QuarterLeft, Way::QuarterRight];

/// What a point that is the right one turned this way, or none of its turns, makes likely.
fn monitor_advice(set: &TableSet, way: Option<Way>) -> String {
    let register = format!(
        "see whether the register is the writer's (`--register find` finds it from {ENOUGH_TONES} \
         monitored tones{})",
        or_a_few_more(set)
    );
    let side = match way {
        Some(Way::Turned) => {
            return "it is the opposite one, so the clips may be the wrong way round (see `turn`)"
                .to_string()
        }
        Some(Way::QuarterLeft) => "left",
        Some(Way::QuarterRight) => "right",
        _ => return register,
    };
    let turn = match set.coded {
        true => " (see `turn`)",
        false => ", which `turn` tells of coded tables only",
    };
    format!(
        "it is that one turned by a quarter to the {side}, so {register}, and whether all points are \
         turned by a quarter{turn}"
    )
}

/// A coordinate that is far outside says that the points were not scaled.
fn range(question: &Question, place: Place) -> String {
    format!(
        "{} has a coordinate that is not from -1023 to 1023: give received points in steps of the \
         grid, with the gain taken off, where neighbours are 2 apart and no constellation goes \
         beyond 191.",
        point_words(question, place)
    )
}

fn point_words(question: &Question, place: Place) -> String {
    match question.points.and_then(|points| points.words_at(place)) {
        Some(point) => format!("The point {point}"),
        None => "The point".to_string(),
    }
}
