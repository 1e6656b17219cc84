//! What a verdict rests on, in fields, and on what condition it holds.

use super::tone_words::alike_one_in;
use super::verdict::{Ground, Origin, Verdict};
use crate::json::{Fields, Json};

/// What a verdict rests on, in fields.
pub fn ground_fields(verdict: Verdict, ground: &Ground, coded: bool, theorems: &[&str]) -> Fields {
    let (register, reach) = match ground {
        Ground::Tones(known) | Ground::OneTone(known) => {
            (Json::Number(known.register.into()), Some(known.agreed))
        }
        Ground::TooFew(reach) | Ground::OneWay(reach) => (Json::Null, Some(*reach)),
        Ground::NoRegister | Ground::Trellis(_) | Ground::Nothing => (Json::Null, None),
    };
    let number = |number: u64| Json::Number(i64::try_from(number).unwrap_or(i64::MAX));
    let few = reach.filter(|reach| reach.rank > 0 && !reach.fixes_register());
    let condition = condition(verdict, ground, coded);
    let theorems = theorems.iter().map(|&theorem| Json::text(theorem));
    vec![
        ("holds_if", condition.map_or(Json::Null, Json::text)),
        ("theorems", Json::List(theorems.collect())),
        ("trellis", Json::Flag(matches!(ground, Ground::Trellis(_)))),
        ("register", register),
        ("register_is", Json::text(register_word(ground))),
        (
            "monitored_tones",
            reach.map_or(Json::Null, |reach| number(reach.tones as u64)),
        ),
        (
            "wrong_register_alike_one_in",
            few.map_or(Json::Null, |reach| number(alike_one_in(reach))),
        ),
    ]
}

/// The condition of a verdict that rests on the register that was given.
pub const IF_GIVEN: &str = "the register that was given is the writer's";

/// And of one that rests on one tone, which nothing else bears out: no reading speaks for the tables.
pub const IF_BOTH: &str = "the tables and the register that were given are the writer's";
pub const ONE_POINT: &str =
    "the one point that was looked at came as it was written but for a turn";
pub const POINTS: &str = "the points that were looked at came as they were written but for a turn";

/// And of one that holds whatever the register, of uncoded tables: a quarter turn may look so to some
/// register.
pub const NO_QUARTER: &str = "the points are not turned by a quarter";

/// What has to be so for a way that is told to be the one, if anything has to.
fn condition(verdict: Verdict, ground: &Ground, coded: bool) -> Option<String> {
    let Verdict::Sure(_) = verdict else {
        return None;
    };
    match ground {
        _ if !ground.is_conditional() => (!coded).then(|| NO_QUARTER.to_string()),
        Ground::Tones(known) => Some(match known.carried {
            false => IF_GIVEN.to_string(),
            true => format!("{IF_GIVEN} and no symbol is missing since"),
        }),
        Ground::OneTone(known) => Some(match known.carried {
            false => format!("{IF_BOTH} and {ONE_POINT}"),
            true => format!("{IF_BOTH}, no symbol is missing since, and {ONE_POINT}"),
        }),
        _ => None,
    }
}

fn register_word(ground: &Ground) -> &'static str {
    match ground {
        Ground::Tones(known) | Ground::OneTone(known) => match known.origin {
            Origin::Reset => "reset value, assumed",
            Origin::Given => "given",
            Origin::Found(_) => "found",
            Origin::FoundAcross(_) => "found, if no symbol is missing",
            Origin::HandedBack => "handed back by a refused symbol",
            Origin::Contradicted => "contradicted by a symbol before",
            Origin::DrawnOn => "drawn on past a symbol that was refused or neither",
        },
        Ground::TooFew(_) => "not found",
        Ground::NoRegister => "none fits",
        Ground::Trellis(_) | Ground::OneWay(_) | Ground::Nothing => "not needed",
    }
}
