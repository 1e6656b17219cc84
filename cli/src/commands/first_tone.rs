//! The first monitored tone in t', at which alone a clip is told: its point, and the one that its
//! filler bits give. The words need them; the answer is the library's.

use super::reading::Tables;
use crate::files::{Class, PointList};
use crate::index::{Place, Subcarrier};
use crate::json::Json;
use crate::register::{after_draws, filler_point};

/// Where it stands.
#[derive(Clone, Copy)]
pub struct FirstTone {
    pub place: Place,
    tone: Subcarrier,
    /// The draws of the silent tones before it.
    draws: usize,
}

/// It in one symbol.
pub struct LookedAt<'a> {
    first: FirstTone,
    points: &'a PointList,
    /// The point that its filler bits give.
    filler: (i16, i16),
}

impl FirstTone {
    /// None where no tone is monitored.
    pub fn of(tables: &Tables) -> Option<FirstTone> {
        let mut drawing = tables.order.without_bits(&tables.set).enumerate();
        let (before, (place, _)) = drawing.find(|(_, (_, class))| *class == Class::Monitored)?;
        Some(FirstTone {
            place,
            tone: tables.order.tone_at(place)?,
            draws: 2 * before,
        })
    }

    /// It in a symbol with this register before it.
    pub fn in_symbol(self, points: &PointList, register: u32) -> LookedAt<'_> {
        LookedAt {
            first: self,
            points,
            filler: filler_point(after_draws(register, self.draws)),
        }
    }
}

impl LookedAt<'_> {
    /// "place 3 in t', sub-carrier 4, line 6 of points.csv: the point is (1, 1), and ..."
    pub fn words(&self) -> String {
        let (FirstTone { place, tone, .. }, points) = (self.first, self.points);
        let line = points.line_of(place).map_or(String::new(), |line| {
            format!(", line {line} of {}", points.name)
        });
        let point = points.words_at(place).unwrap_or_default();
        let (x, y) = self.filler;
        format!(
            "place {place} in t', sub-carrier {tone}{line}: the point is {point}, and the filler \
             bits give ({x}, {y})"
        )
    }

    pub fn json(&self) -> Json {
        let (FirstTone { place, tone, .. }, points) = (self.first, self.points);
        let number = |number: Option<i64>| number.map_or(Json::Null, Json::Number);
        let point = points.typed_at(place);
        Json::Object(vec![
            ("place", Json::Number(place.0 as i64)),
            ("sub_carrier", Json::Number(tone.0.into())),
            ("file", Json::text(points.name.clone())),
            (
                "line",
                number(points.line_of(place).map(|line| line as i64)),
            ),
            ("x", number(point.map(|(x, _)| x.into()))),
            ("y", number(point.map(|(_, y)| y.into()))),
            ("filler_x", Json::Number(self.filler.0.into())),
            ("filler_y", Json::Number(self.filler.1.into())),
        ])
    }
}
