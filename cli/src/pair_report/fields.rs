//! What JSON says of a pair.

use super::meaning::meaning;
use super::pair::Pair;
use super::rate::Rate;
use super::remarks::remarks;
use super::strip::Strip;
use super::turned::turned;
use super::verdict::{verdict, Finding};
use crate::json::{Fields, Json};
use clevisroot_sys::refusals::name;

/// All pairs, an object each.
pub fn list(pairs: &[Pair]) -> Json {
    let object = |pair| Json::Object(object(pair));
    Json::List(pairs.iter().map(object).collect())
}

fn object(pair: &Pair) -> Fields {
    let tally = &pair.count.tally;
    let number = |number: u32| Json::Number(number.into());
    let first = pair.first_refused().map(|(symbol, _)| number(symbol));
    let mut fields = vec![("pair", Json::text(pair.name.clone()))];
    fields.extend(pair.source.fields());
    fields.push(("table_set", tables(pair)));
    fields.extend([
        ("symbols", number(tally.symbols)),
        ("refused", number(tally.refused)),
        ("wrong_frames", number(tally.wrong_frames)),
        ("wrong_bits", number(tally.wrong_bits)),
        ("first_refused", first.unwrap_or(Json::Null)),
    ]);
    fields.extend(rate(&Rate::of(pair)));
    fields.extend(words(pair));
    fields
}

fn words(pair: &Pair) -> Fields {
    let turned = turned(pair);
    let remarks = remarks(pair).into_iter().map(Json::text);
    vec![
        ("refusals", refusals(pair)),
        (
            "strip",
            Json::text(Strip::of(&pair.count.outcomes).letters()),
        ),
        ("verdict", Json::text(Finding::of(pair).word())),
        ("sentence", Json::text(verdict(pair))),
        ("remarks", Json::List(remarks.collect())),
        ("turned_clip", Json::text(turned.sentence)),
        ("turned_clip_cannot_show", Json::Flag(turned.bold)),
    ]
}

fn tables(pair: &Pair) -> Json {
    pair.tables.as_ref().map_or(Json::Null, |facts| {
        let mut fields = vec![
            ("file", Json::text(facts.name.clone())),
            ("size", Json::Number(facts.size.into())),
        ];
        fields.extend(facts.fields());
        Json::Object(fields)
    })
}

/// JSON has no fractions here, so that the rate is a word beside the two numbers.
fn rate(rate: &Rate) -> Fields {
    vec![
        ("bits_read", Json::Number(rate.bits as i64)),
        ("bits_are", Json::text(rate.basis())),
        (
            "wrong_bit_rate",
            rate.value().map_or(Json::Null, Json::text),
        ),
    ]
}

fn refusals(pair: &Pair) -> Json {
    let object = |(&number, &symbols): (&u32, &u32)| {
        Json::Object(vec![
            ("number", Json::Number(number.into())),
            ("name", Json::text(name(number))),
            ("symbols", Json::Number(symbols.into())),
            ("meaning", Json::text(meaning(number))),
        ])
    };
    Json::List(pair.count.refusals.iter().map(object).collect())
}
