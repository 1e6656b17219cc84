//! How far tones are off, for a person and for a program.

use super::decision::{Loaded, Monitored};
use crate::json::Json;
use crate::words::count;
use std::cmp::Reverse;

/// Without `--all` so many tones are shown, those that are farthest off.
const FARTHEST: usize = 10;

/// A row of the table of tones.
pub trait Row {
    const HEADER: &'static str;
    fn off(&self) -> u64;
    fn words(&self) -> String;
}

impl Row for Loaded {
    const HEADER: &'static str =
        "sub-carrier  bits  place in t'  received        decided       squared distance";

    fn off(&self) -> u64 {
        self.squared_distance()
    }

    fn words(&self) -> String {
        let point = |(x, y): (i16, i16)| format!("({x}, {y})");
        format!(
            "{:>11}  {:>4}  {:>11}  {:<14}  {:<12}  {:>16}",
            self.tone.0,
            self.bits,
            self.place.0,
            point(self.received),
            point(self.decided),
            self.squared_distance()
        )
    }
}

/// "total 11: 3 of 5 loaded tones are off", and the tones: the farthest first, or all of them.
pub fn table<T: Row>(total: &str, tones: &[T], all: bool) -> Vec<String> {
    let mut off: Vec<&T> = tones.iter().filter(|tone| tone.off() > 0).collect();
    let mut lines = vec![format!("{total}: {}", off_words(off.len(), tones.len()))];
    // Among equals the first in t' comes first.
    off.sort_by_key(|tone| Reverse(tone.off()));
    let left = match all {
        true => Vec::new(),
        false => off.split_off(FARTHEST.min(off.len())),
    };
    let shown = if all { tones.iter().collect() } else { off };
    if !shown.is_empty() {
        lines.push(T::HEADER.to_string());
    }
    lines.extend(shown.into_iter().map(T::words));
    lines.extend(left.first().map(|next| {
        let (more, most) = (left.len(), next.off());
        format!("and {more} more that are off, by {most} or less; --all shows them")
    }));
    lines
}

fn off_words(off: usize, loaded: usize) -> String {
    match loaded {
        0 => "no tone is loaded".to_string(),
        _ => format!("{} off", so_many(off, loaded, "loaded tone")),
    }
}

/// "1 of 5 loaded tones is", "0 of 5 loaded tones are"
fn so_many(part: usize, whole: usize, thing: &str) -> String {
    let are = if part == 1 || whole == 1 { "is" } else { "are" };
    format!("{part} of {} {are}", count(whole, thing))
}

impl Monitored {
    /// What they say of the register and the clips, if any tone is monitored.
    pub fn words(&self, register: u32) -> Option<String> {
        let (tones, agree) = (self.tones, self.agree);
        let told = format!(
            "{} nearest to the point of register {register}",
            so_many(agree, tones, "monitored tone")
        );
        let most = |part: usize| 2 * part > tones;
        match tones {
            0 => None,
            // Noise alone takes a few away.
            _ if most(agree) => Some(told),
            _ if most(self.opposite) => Some(format!(
                "{told}, and {} to the opposite one: the clips may be the wrong way round, and the \
                 frame is wrong if they are",
                self.opposite
            )),
            _ => Some(format!("{told}: see whether the register is the writer's")),
        }
    }

    pub fn json(&self) -> Json {
        let number = |number: usize| Json::Number(number as i64);
        Json::Object(vec![
            ("tones", number(self.tones)),
            ("agree", number(self.agree)),
            ("opposite", number(self.opposite)),
        ])
    }
}

/// All loaded tones with their points, in t' order.
pub fn list(tones: &[Loaded]) -> Json {
    let number = |value: i16| Json::Number(value.into());
    let object = |tone: &Loaded| {
        Json::Object(vec![
            ("place", Json::Number(tone.place.0 as i64)),
            ("sub_carrier", Json::Number(tone.tone.0.into())),
            ("bits", Json::Number(tone.bits.into())),
            ("x", number(tone.received.0)),
            ("y", number(tone.received.1)),
            ("decided_x", number(tone.decided.0)),
            ("decided_y", number(tone.decided.1)),
            ("squared_distance", whole(tone.squared_distance())),
        ])
    };
    Json::List(tones.iter().map(object).collect())
}

/// A sum of squared distances; none comes near what the type holds.
pub fn whole(number: u64) -> Json {
    Json::Number(i64::try_from(number).unwrap_or(i64::MAX))
}
