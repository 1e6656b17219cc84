//! A quarter turn whose side is not told, in one sentence for the jointer.

use super::reading::Tables;
use super::register_words::register_words;
use super::tone_words::{enough, too_few};
use super::verdict::{Ground, Verdict};
use super::verdict_theorems::theorems_of_readings;
use super::verdict_words::{even, only_with, NO_TONE, QUARTER_ADVICE, QUARTER_SURE, SPARE};
use crate::theorems::named;
use crate::way::Way;

/// Of a symbol for which the two quarter turns say so, which is none that is sure.
pub fn quarter_sentence(seen: Verdict, tables: &Tables, ground: &Ground) -> String {
    let theorems = theorems_of_readings(Verdict::Quarter, ground, tables.set.coded);
    format!(
        "Turned by a quarter: {QUARTER_ADVICE}; {}{QUARTER_SURE}{}.",
        side(seen, tables, ground),
        named(&theorems)
    )
}

/// What speaks for a side, or why nothing does, and what would tell it.
fn side(seen: Verdict, tables: &Tables, ground: &Ground) -> String {
    let told = match (seen, ground) {
        (Verdict::Perhaps(way), _) => perhaps(way, ground),
        (_, Ground::Tones(known)) => format!(
            "the side is not told, for the points are refused either way with {}",
            register_words(known).trim_end_matches(',')
        ),
        (_, Ground::TooFew(reach)) => format!(
            "the side is not told, for the points are read either way: {}",
            too_few(*reach, "the 23 bits of the register")
        ),
        _ => {
            let even = even(tables.order.loaded());
            return format!(
                "nothing can tell the side, for the points are read either way, because \
                 {NO_TONE} and {even}; {SPARE} would tell it"
            );
        }
    };
    format!(
        "{told}; the writer's register (--register N) would settle the side, and so would --register \
         find from {}",
        enough(tables)
    )
}

fn perhaps(way: Way, ground: &Ground) -> String {
    format!(
        "perhaps it is {}, {} for (X, Y): the points are read so and refused as turned to the other \
         side, {}",
        way.turn_words(),
        way.image(),
        only_with(ground)
    )
}
