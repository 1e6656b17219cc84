//! What the first monitored tone tells, in one sentence for the jointer.

use super::clip_said::Said;
use super::ground_fields::ONE_POINT;
use super::reading::Tables;
use super::register_words::register_words;
use super::tone_words::{alike_one_in, enough};
use super::verdict::{Known, Origin, Verdict};
use super::verdict_theorems::theorems_of_one_tone;
use super::verdict_words::{even, odd, NO_TONE, SPARE, STRAIGHT, TURNED};
use crate::ask::trellis_tells;
use crate::theorems::{named, HALF_ANY, QUARTER_ANY};
use crate::way::{Family, Way};

const THE_TONE: &str = "the first monitored tone, the only one that was looked at, has";

/// What the whole symbol tells of a quarter turn.
fn turn_tells_quarters() -> String {
    format!(
        "`turn` reads the whole symbol and tells a quarter turn whatever the register{}",
        named(&[QUARTER_ANY])
    )
}

/// What the jointer should be told, in one sentence.
pub fn sentence(said: &Said, tables: &Tables) -> String {
    match said {
        Said::Way(way, known) if said.verdict().is_sure() => sure_sentence(*way, tables, known),
        Said::Way(way, known) => perhaps_sentence(*way, tables, known),
        Said::Neither => format!(
            "Neither: {THE_TONE} a point that filler bits never give, whatever the register, so look \
             for noise or other tables before you swap the clips; `turn` too refuses such a symbol \
             all four ways."
        ),
        Said::Nothing => cannot_tell_sentence(tables),
    }
}

/// What the tone has, if the points came so.
fn point(way: Way) -> &'static str {
    match way {
        Way::Straight => "the point that its filler bits give",
        Way::Turned => "the opposite of the point that its filler bits give",
        Way::QuarterLeft | Way::QuarterRight => "the point that its filler bits give, turned so,",
    }
}

fn told(way: Way) -> String {
    match way {
        Way::Straight => STRAIGHT.to_string(),
        Way::Turned => TURNED.to_string(),
        Way::QuarterLeft | Way::QuarterRight => {
            let (by, image) = (way.turn_words(), way.image());
            format!("Turned {by}: every (X, Y) came as {image}")
        }
    }
}

fn sure_sentence(way: Way, tables: &Tables, known: &Known) -> String {
    let theorems = named(&theorems_of_one_tone(Verdict::Sure(way)));
    let rest = match (way.family(), whatever_the_register(tables)) {
        (Family::Quarters, _) => format!(
            ", so check register and tables first, then the hybrid, and leave the clips, for swapping \
             them only changes the side{theorems}; {}",
            turn_tells_quarters()
        ),
        (Family::Halves, Some((turn, reason))) => {
            format!("{theorems}; {turn} tells it whatever the register{reason}")
        }
        (Family::Halves, None) => theorems,
    };
    let point = point(way).trim_end_matches(',');
    format!(
        "{}, if the tables and {} are the writer's and {ONE_POINT}: the first monitored tone has {point}, as it \
         would with a wrong register about one time in {}{rest}.",
        told(way),
        register_words(known),
        alike_one_in(known.agreed)
    )
}

fn perhaps_sentence(way: Way, tables: &Tables, known: &Known) -> String {
    let advice = match way {
        Way::Straight => "straight, so do not rely on it yet".to_string(),
        Way::Turned => "turned, so do not swap the clips yet".to_string(),
        Way::QuarterLeft | Way::QuarterRight => {
            format!("turned {}, so do not rely on it yet", way.turn_words())
        }
    };
    let quarter = match way.family() {
        Family::Halves => String::new(),
        Family::Quarters => format!(
            "; a wrong register is likelier unless the hybrid turns points, and swapping the clips \
             would mend neither; {}",
            turn_tells_quarters()
        ),
    };
    format!(
        "Perhaps {advice}: {THE_TONE} {} with {} and about one wrong register in {} would look \
         the same; {} would settle it, and so would {}{quarter}.",
        point(way),
        register_words(known),
        alike_one_in(known.agreed),
        writers_register(known),
        settled_by_turn(tables)
    )
}

fn cannot_tell_sentence(tables: &Tables) -> String {
    let rest = match trellis_tells(&tables.set, &tables.order) {
        true => format!(
            ", and `clip` looks at monitored tones only; `turn` reads the whole symbol and can tell, whatever the \
             register, because {}, and quarter turns too{}; for `clip` to tell, it takes {SPARE}",
            odd(tables.order.loaded()),
            named(&[HALF_ANY, QUARTER_ANY])
        ),
        false => format!(
            "; nor can `turn` tell a written symbol from one turned by half, because {}, but it tells a \
             quarter turn, whatever the register{}; {SPARE} would tell",
            even(tables.order.loaded()),
            named(&[QUARTER_ANY])
        ),
    };
    format!("Cannot tell: {NO_TONE}{rest}.")
}

/// What to give. Where the register may be out of step, the one before the first symbol is no help.
fn writers_register(known: &Known) -> &'static str {
    match known.origin {
        Origin::Reset | Origin::Given => "the writer's register (--register N)",
        _ => "the writer's register before this symbol (--register N, with this symbol first)",
    }
}

/// What tells the way round of a written symbol whatever the register, and the reason, if anything
/// does.
fn whatever_the_register(tables: &Tables) -> Option<(&'static str, String)> {
    if trellis_tells(&tables.set, &tables.order) {
        return Some((
            "`turn`",
            format!(", because {}", odd(tables.order.loaded())),
        ));
    }
    let tells_way = tables.reaches.alone().tells_way;
    tells_way.then(|| ("`turn --register find`", String::new()))
}

/// What `turn` needs to settle what one tone leaves open.
fn settled_by_turn(tables: &Tables) -> String {
    match whatever_the_register(tables) {
        Some((turn, reason)) => format!("{turn}, whatever the register{reason}"),
        None => format!("`turn --register find` from {}", enough(tables)),
    }
}
