//! The place of a refusal as what it is: a place in t or t', a sub-carrier, a pair, or none; with
//! the tones that stand there and the line of the file they came from.

use super::question::Question;
use crate::ask::{self, Order};
use crate::files::TableSet;
use crate::index::{Place, Subcarrier};
use crate::json::{Fields, Json};
use crate::span::LAST_START;
use clevisroot_sys::refusals::{
    BITS, FRAME, GAIN, MONITOR, OFFGRID, RANGE, ROOM, SEED, STRAY, TONE, TRELLIS, TWICE,
};
use clevisroot_sys::Answer;

/// What was found out about a place.
pub struct Found {
    pub kind: Option<&'static str>,
    number: u32,
    /// What is refused where there is no place.
    whole: &'static str,
    subcarriers: Vec<Subcarrier>,
    /// Line and file.
    line: Option<(usize, String)>,
}

pub fn of(question: &Question, answer: &Answer) -> Found {
    let place = place_of(answer);
    match answer.number {
        TONE | TWICE => at_place_in_t(question.set, place),
        BITS | STRAY | GAIN => at_subcarrier(question.set, subcarrier_of(answer)),
        OFFGRID | MONITOR | RANGE => at_point(question, place),
        TRELLIS => at_pair(question, answer),
        ROOM => whole("the list of points as a whole"),
        FRAME if question.start > LAST_START => whole("the start of the frame"),
        FRAME => whole("the frame as a whole"),
        SEED => whole("the register"),
        _ => whole("the table set as a whole"),
    }
}

/// Whether the refusal is about the points themselves: such points can be drawn, and turned.
pub fn is_of_points(number: u32) -> bool {
    matches!(number, OFFGRID | MONITOR | TRELLIS | RANGE)
}

/// The places in t' that a reader refused.
pub fn refused_places(set: &TableSet, order: &Order, answer: &Answer) -> Vec<Place> {
    match answer.number {
        OFFGRID | MONITOR | RANGE => vec![place_of(answer)],
        TRELLIS => places_of_pair(set, order, answer),
        _ => Vec::new(),
    }
}

/// The answer's place, where it is one in t or t'.
pub fn place_of(answer: &Answer) -> Place {
    Place(answer.place as usize)
}

/// The answer's place, where it is a sub-carrier.
pub fn subcarrier_of(answer: &Answer) -> Subcarrier {
    Subcarrier(u16::try_from(answer.place).unwrap_or(u16::MAX))
}

fn places_of_pair(set: &TableSet, order: &Order, answer: &Answer) -> Vec<Place> {
    let pairs = order.pairs(set);
    pairs
        .get(answer.place as usize)
        .cloned()
        .unwrap_or_default()
}

fn whole(what: &'static str) -> Found {
    Found {
        kind: None,
        number: 0,
        whole: what,
        subcarriers: Vec::new(),
        line: None,
    }
}

fn at_place_in_t(set: &TableSet, place: Place) -> Found {
    // A number too large for the type was not typed as this one.
    let typed = |tone: &Subcarrier| tone.0 < u16::MAX;
    Found {
        kind: Some("place in t"),
        number: place.0 as u32,
        subcarriers: set.tone_at(place).filter(typed).into_iter().collect(),
        line: set
            .line_of_place(place)
            .map(|line| (line, set.name.clone())),
        ..whole("")
    }
}

fn at_subcarrier(set: &TableSet, tone: Subcarrier) -> Found {
    Found {
        kind: Some("sub-carrier"),
        number: tone.0.into(),
        subcarriers: vec![tone],
        line: set.line_of(tone).map(|line| (line, set.name.clone())),
        ..whole("")
    }
}

fn at_point(question: &Question, place: Place) -> Found {
    let tone = ask::order(question.set).1.tone_at(place);
    let points = question.points;
    let line = points.and_then(|points| Some((points.line_of(place)?, points.name.clone())));
    Found {
        kind: Some("place in t'"),
        number: place.0 as u32,
        subcarriers: tone.into_iter().collect(),
        line,
        ..whole("")
    }
}

fn at_pair(question: &Question, answer: &Answer) -> Found {
    let (_, order) = ask::order(question.set);
    let places = places_of_pair(question.set, &order, answer);
    let tones = places.iter().filter_map(|&place| order.tone_at(place));
    Found {
        kind: Some("pair"),
        number: answer.place,
        subcarriers: tones.collect(),
        ..whole("")
    }
}

impl Found {
    /// "at place 3 in t', sub-carrier 4, line 6 of points.csv"
    pub fn words(&self) -> String {
        let line = self.line.as_ref();
        let line = line.map_or(String::new(), |(line, file)| {
            format!(", line {line} of {file}")
        });
        self.spot() + &line
    }

    /// "at place 3 in t', sub-carrier 4"
    pub fn spot(&self) -> String {
        let number = self.number;
        let tone = |tone: &Subcarrier| format!(", sub-carrier {tone}");
        match self.kind {
            None => format!("at place 0: {}", self.whole),
            Some("pair") => format!("at pair {number}: {}", self.pair_words()),
            Some("sub-carrier") => format!("at sub-carrier {number}"),
            Some("place in t'") => {
                let tones: String = self.subcarriers.iter().map(tone).collect();
                format!("at place {number} in t'{tones}")
            }
            Some(_) => format!("at place {number} in t"),
        }
    }

    fn pair_words(&self) -> String {
        let names: Vec<String> = self.subcarriers.iter().map(Subcarrier::to_string).collect();
        match names.len() {
            1 => format!("sub-carrier {}", names[0]),
            _ => format!("sub-carriers {}", names.join(", ")),
        }
    }

    pub fn fields(&self) -> Fields {
        let number = |number: i64| Json::Number(number);
        let mut tones: Vec<i64> = self.subcarriers.iter().map(|tone| tone.0.into()).collect();
        let lone = if self.kind == Some("pair") {
            None
        } else {
            tones.pop()
        };
        vec![
            ("sub_carrier", lone.map_or(Json::Null, number)),
            (
                "pair_sub_carriers",
                match self.kind {
                    Some("pair") => Json::numbers(&tones),
                    _ => Json::Null,
                },
            ),
            (
                "file",
                self.line
                    .as_ref()
                    .map_or(Json::Null, |(_, file)| Json::text(file.clone())),
            ),
            (
                "line",
                self.line
                    .as_ref()
                    .map_or(Json::Null, |&(line, _)| number(line as i64)),
            ),
        ]
    }
}
