//! Verdicts in words: one sentence for the jointer, and what it rests on.

use super::ground_fields::NO_QUARTER;
use super::reading::Tables;
use super::register_words::register_words;
use super::tone_words::{agreement, checks, enough, too_few};
use super::verdict::{Ground, Known, Origin, Verdict};
use super::verdict_theorems::theorems_of_readings;
use crate::register::{or_a_few_more, ENOUGH_TONES};
use crate::theorems::{named, QUARTER_ANY};
use crate::way::{Family, Way};

/// What makes a turned clip show in every symbol.
pub const SPARE: &str = "a spare tone with 0 bits and a gain";

pub const NO_TONE: &str = "this table set monitors no tone";

/// What to do about a quarter turn.
pub const QUARTER_ADVICE: &str =
    "look at the hybrid and leave the clips, for swapping them only changes the side";

/// What is sure of it.
pub const QUARTER_SURE: &str =
    "; that it is a quarter turn holds whatever the register, of a symbol \
                                of these tables that came as it was written but for a turn";

/// What is told of the clips, where it is.
fn told(way: Way) -> String {
    match way {
        Way::Straight => STRAIGHT.to_string(),
        Way::Turned => TURNED.to_string(),
        Way::QuarterLeft | Way::QuarterRight => {
            let (by, image) = (way.turn_words(), way.image());
            format!("Turned {by}: {QUARTER_ADVICE}; every (X, Y) came as {image}")
        }
    }
}

pub const STRAIGHT: &str = "Straight: the clips are the right way round";
pub const TURNED: &str = "Turned: the clips are the wrong way round, so swap them";

/// What the readings say for a way.
fn readings(way: Way) -> &'static str {
    match way {
        Way::Straight => "the points are read as they came and refused when turned",
        Way::Turned => "the points are refused as they came and read when turned",
        Way::QuarterLeft | Way::QuarterRight => {
            "the points are read so and refused the other three ways"
        }
    }
}

pub fn sure_sentence(way: Way, tables: &Tables, ground: &Ground) -> String {
    let coded = tables.set.coded;
    // Uncoded, a quarter turn may look so to some register.
    let clips = match !coded && !ground.is_conditional() {
        true => format!("{}, if {NO_QUARTER}", told(way)),
        false => told(way),
    };
    let because = match ground {
        Ground::Tones(known) => sure_by_register(&clips, way, known),
        Ground::Trellis(loaded) => format!(
            "{clips}, whatever the register: the trellis code tells, because {}",
            odd(*loaded)
        ),
        Ground::OneWay(reach) => format!(
            "{clips}, whatever the register: the {} monitored tones tell, because {} no register gives \
             their points ({} filler bits, where {} the others)",
            reach.tones,
            other(way),
            2 * reach.tones,
            checks(2 * reach.tones - reach.rank)
        ),
        _ => format!("{clips}: {}", readings(way)),
    };
    let theorems = theorems_of_readings(Verdict::Sure(way), ground, coded);
    let quarter = quarter_or_not(way, &theorems);
    format!("{because}{quarter}{}.", named(&theorems))
}

/// The other way of the family.
fn other(way: Way) -> &'static str {
    match way.family() {
        Family::Halves => "the other way round",
        Family::Quarters => "to the other side",
    }
}

/// What is sure of a quarter turn, where the theorems are not of the way alone.
fn quarter_or_not(way: Way, theorems: &[&str]) -> &'static str {
    match (way.family(), theorems) {
        (Family::Quarters, _) => QUARTER_SURE,
        (Family::Halves, [QUARTER_ANY]) => "; nor is it a quarter turn",
        (Family::Halves, _) => "",
    }
}

/// Why the trellis code tells.
pub fn odd(loaded: usize) -> String {
    format!("N, the count of non-zero re-ordered entries, is odd ({loaded})")
}

/// Why it does not.
pub fn even(loaded: usize) -> String {
    format!("N, its count of non-zero re-ordered entries, is even ({loaded})")
}

fn sure_by_register(clips: &str, way: Way, known: &Known) -> String {
    let Known {
        register, agreed, ..
    } = known;
    let readings = readings(way);
    match known.origin {
        Origin::Found(tones) if known.carried => format!(
            "{clips}: {readings} with register {register}, which goes on from the one that {tones} \
             monitored tones of the symbols before gave"
        ),
        Origin::Found(tones) => format!(
            "{clips}, whatever the register was: {readings} with register {register}, which \
             {tones} monitored tones give ({} filler bits, where 23 fix it and {} it), and \
             {} no register fits",
            2 * tones,
            checks(2 * tones - 23),
            other(way)
        ),
        _ if known.enough => format!(
            "{clips}: {readings} with {} and {} monitored tones agree, as with no other register",
            register_words(known),
            agreed.tones
        ),
        _ => format!(
            "{clips}, if {} is the writer's: {readings}, and {}",
            register_words(known),
            agreement(*agreed)
        ),
    }
}

pub fn perhaps_sentence(way: Way, tables: &Tables, ground: &Ground) -> String {
    format!(
        "Perhaps {}: {}, {}; the writer's register (--register N) would settle it, and so would \
         --register find from {}.",
        way.word(),
        readings(way),
        only_with(ground),
        enough(tables)
    )
}

/// What a "perhaps" rests on.
pub fn only_with(ground: &Ground) -> String {
    match ground {
        Ground::Tones(known) => match known.origin {
            Origin::FoundAcross(found) => format!(
                "but only with register {}, which {found} monitored tones of several symbols give \
                 if none is missing between them",
                known.register
            ),
            _ => format!(
                "but only with {} and {}",
                register_words(known),
                agreement(known.agreed)
            ),
        },
        _ => "but that rests on nothing".to_string(),
    }
}

pub fn neither_sentence(tables: &Tables, ground: &Ground) -> String {
    const QUARTER: &str = "a quarter turn (which is told of coded tables only)";
    let (ways, quarter, or_quarter) = match tables.set.coded {
        true => (
            "all four ways",
            String::new(),
            " or other tables".to_string(),
        ),
        false => (
            "both ways",
            format!(", {QUARTER}"),
            format!(", other tables or {QUARTER}"),
        ),
    };
    match ground {
        Ground::Tones(known) => format!(
            "Neither: the points are refused {ways} with {} so look for noise, other tables{quarter} or \
             another register (--register N, or --register find from {ENOUGH_TONES} monitored tones \
             on{}) before you swap the clips.",
            register_words(known),
            or_a_few_more(&tables.set)
        ),
        _ => format!(
            "Neither: the points are refused {ways} whatever the register, so look for \
             noise{or_quarter} before you swap the clips."
        ),
    }
}

pub fn cannot_tell_sentence(tables: &Tables, ground: &Ground) -> String {
    format!("Cannot tell: {}.", why_not_told(tables, ground))
}

/// Why nothing can be told, what would tell, and what is sure all the same.
fn why_not_told(tables: &Tables, ground: &Ground) -> String {
    let theorems = theorems_of_readings(Verdict::CannotTell, ground, tables.set.coded);
    let theorems = named(&theorems);
    let sure = match tables.set.coded {
        true => "; only that it is no quarter turn is sure, whatever the register",
        false => "",
    };
    if let Ground::TooFew(reach) = ground {
        return format!(
            "the points are read both ways, for {}; the writer's register (--register N) would \
             settle it, and so would {}{sure}{theorems}",
            too_few(*reach, "the 23 bits of the register"),
            enough(tables)
        );
    }
    let reason = match tables.set.coded {
        true => format!("{NO_TONE} and {}", even(tables.order.loaded())),
        false => "this table set is uncoded and monitors no tone".to_string(),
    };
    format!("the points are read both ways, for {reason}; {SPARE} would tell{sure}{theorems}")
}
