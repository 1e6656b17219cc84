//! The register in words: where it came from, and why it cannot be found.

use super::reading::Tables;
use super::tone_words::{enough, too_few};
use super::verdict::{Known, Origin};
use crate::files::PointList;
use crate::register::{or_a_few_more, Found, FoundRegister, Search, ENOUGH_TONES, TONES_OF_STREAM};
use crate::way::Family;

/// "register 4711, which was given,"
pub fn register_words(known: &Known) -> String {
    format!(
        "register {}, which {},",
        known.register,
        origin_words(known)
    )
}

fn origin_words(known: &Known) -> &'static str {
    match (known.origin, known.carried) {
        (Origin::Reset, false) => "is the value at reset, assumed because none was given",
        (Origin::Reset, true) => "follows from the value at reset, assumed because none was given",
        (Origin::Given, false) => "was given",
        (Origin::Given, true) => "follows from the one that was given",
        (Origin::Found(_) | Origin::FoundAcross(_), _) => "the monitored tones give",
        (Origin::HandedBack, _) => "a refused symbol handed back and which may be out of step",
        (Origin::Contradicted, _) => {
            "had a symbol before another way round and so may be out of step"
        }
        (Origin::DrawnOn, _) => {
            "goes on past a symbol that was refused or neither way round and so may be out of step"
        }
    }
}

/// Why the register of a symbol cannot be found.
pub fn not_found_sentence(tables: &Tables, points: &PointList) -> String {
    let mut search = Search::new(Family::Halves);
    search.add(&tables.set, &tables.order, points);
    match (search.reach(), search.found()) {
        (reach, _) if reach.tones == 0 => {
            "Cannot tell the register: no tone is monitored, so that \
                                           points are read the same with every register; leave \
                                           --register find out."
                .to_string()
        }
        (reach, Found::Open) => format!(
            "Cannot tell the register: {}{} {}.",
            too_few(reach, "its 23 bits"),
            match reach.tones {
                ENOUGH_TONES.. => "; it takes",
                _ => ", where it takes",
            },
            enough(tables)
        ),
        _ => format!(
            "Cannot tell the register: none gives the points of the monitored tones, so look for \
             noise, other tables or a quarter turn{}.",
            match tables.set.coded {
                true => " (see `turn`)",
                false => "",
            }
        ),
    }
}

/// Why a register that several symbols give is not read with.
pub fn not_checked_sentence(tables: &Tables, found: FoundRegister) -> String {
    format!(
        "Cannot tell the register: {} monitored tones of several symbols give {} before this one, \
         but only if none is missing between them; it takes {TONES_OF_STREAM}, or {ENOUGH_TONES} \
         in one symbol{}.",
        found.reach.tones,
        found.register,
        or_a_few_more(&tables.set)
    )
}
