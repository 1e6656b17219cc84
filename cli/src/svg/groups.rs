//! The symbol's points, grouped by what their tones carry.

use super::symbol::Symbol;
use crate::files::Class;
use crate::index::Subcarrier;
use clevisroot_sys as library;
use std::collections::BTreeMap;

/// One group of tones, with the points they have.
pub struct Group {
    pub class: Class,
    pub spots: Vec<Spot>,
}

/// A point that one or more tones of a group have.
pub struct Spot {
    pub point: (i16, i16),
    /// The point as it was typed.
    pub words: String,
    pub tones: Vec<Subcarrier>,
    /// The tones among them that a reader refused.
    pub refused: Vec<Subcarrier>,
}

/// The groups by bit count, then the monitored tones. Silent tones are there only if one of them
/// is not at (0, 0), which a reader refuses.
pub fn groups(symbol: &Symbol) -> Vec<Group> {
    let mut sorted: BTreeMap<Class, BTreeMap<(i16, i16), Spot>> = BTreeMap::new();
    let points = symbol.x.iter().copied().zip(symbol.y.iter().copied());
    for ((place, tone), point) in symbol.order.places().zip(points) {
        let class = symbol.set.class_of(tone);
        if (class, point) == (Class::Silent, (0, 0)) {
            continue;
        }
        let spots = sorted.entry(class).or_default();
        let spot = spots.entry(point).or_insert_with(|| Spot {
            point,
            words: symbol.words_at(place),
            tones: Vec::new(),
            refused: Vec::new(),
        });
        spot.tones.push(tone);
        if symbol.refused.contains(&place) {
            spot.refused.push(tone);
        }
    }
    let group = |(class, spots): (Class, BTreeMap<_, Spot>)| Group {
        class,
        spots: spots.into_values().collect(),
    };
    sorted.into_iter().map(group).collect()
}

impl Group {
    pub fn tone_count(&self) -> usize {
        self.spots.iter().map(|spot| spot.tones.len()).sum()
    }
}

/// Every point that a tone of this class can have.
pub fn constellation(class: Class) -> Vec<(i16, i16)> {
    let bits = match class {
        Class::Data(bits) => bits,
        Class::Monitored => 2,
        Class::Silent => return vec![(0, 0)],
    };
    let labels = 0..1u32 << bits.min(15);
    let points = labels.map(|label| library::map_label(bits, label));
    points.map(|point| (point.x, point.y)).collect()
}
