//! Received points and the decided ones they belong to, grouped by what their tones carry.

use super::groups::constellation;
use super::scale::{is_far, size};
use super::symbol::Compared;
use crate::files::Class;
use crate::index::Subcarrier;
use std::collections::BTreeMap;

/// Up to this many different vectors are drawn where they lie.
const FEW_VECTORS: usize = 64;
/// Up to this many of them may end outside.
const FEW_FAR: usize = 8;
/// Up to this many possible points, lines between them are long enough to see.
const FEW_POINTS: usize = 256;

type Point = (i16, i16);

/// One group of tones with their error vectors.
pub struct VectorGroup {
    pub class: Class,
    pub vectors: Vec<Vector>,
    /// The points that a tone of the group can have, seen from where the vectors begin.
    pub possible: Vec<Point>,
    /// Too many to be drawn where they lie: all begin at (0, 0), the decided points laid over each
    /// other.
    pub laid_over: bool,
}

/// From a decided point to the received one; one or more tones have it.
pub struct Vector {
    pub decided: Point,
    pub received: Point,
    pub tones: Vec<Subcarrier>,
}

/// The groups by bit count, then the monitored tones and what their filler bits give. Silent tones
/// are there only if one of them is not at (0, 0).
pub fn groups(compared: &Compared) -> Vec<VectorGroup> {
    let mut sorted: BTreeMap<Class, Vec<(Point, Point, Subcarrier)>> = BTreeMap::new();
    let symbol = &compared.symbol;
    let received = symbol.x.iter().copied().zip(symbol.y.iter().copied());
    for ((place, tone), received) in symbol.order.places().zip(received) {
        let class = symbol.set.class_of(tone);
        let decided = compared.decided.at(place).unwrap_or((0, 0));
        if (class, received) != (Class::Silent, (0, 0)) {
            let tones = sorted.entry(class).or_default();
            tones.push((decided, received, tone));
        }
    }
    let group = |(class, tones): (Class, Vec<_>)| VectorGroup::new(class, &tones);
    sorted.into_iter().map(group).collect()
}

impl VectorGroup {
    fn new(class: Class, tones: &[(Point, Point, Subcarrier)]) -> VectorGroup {
        let (vectors, possible) = (vectors(tones), constellation(class));
        let few = vectors.len() <= FEW_VECTORS && possible.len() <= FEW_POINTS;
        let far = tones.iter().filter(|tone| is_far(&possible, tone.1));
        if few && far.count() <= FEW_FAR {
            return VectorGroup {
                class,
                vectors,
                possible,
                laid_over: false,
            };
        }
        let moved: Vec<_> = tones.iter().map(|&tone| moved(tone)).collect();
        VectorGroup {
            class,
            vectors: self::vectors(&moved),
            possible: neighbours(class),
            laid_over: true,
        }
    }

    pub fn tone_count(&self) -> usize {
        self.vectors.iter().map(|vector| vector.tones.len()).sum()
    }

    /// Whether some vector is that of several tones.
    pub fn is_shared(&self) -> bool {
        self.vectors.iter().any(|vector| vector.tones.len() > 1)
    }

    /// What most tones do not go beyond, seen from where the vectors begin.
    pub fn common_size(&self) -> i16 {
        const LEAST: i16 = 3;
        let mut sizes: Vec<i16> = Vec::new();
        for vector in &self.vectors {
            let size = size(vector.received);
            sizes.extend(vector.tones.iter().map(|_| size));
        }
        sizes.sort_unstable();
        let common = sizes.get(sizes.len() * 9 / 10).copied();
        common.unwrap_or(LEAST).max(LEAST)
    }
}

/// The different vectors, each with the tones that have it.
fn vectors(tones: &[(Point, Point, Subcarrier)]) -> Vec<Vector> {
    let mut sorted: BTreeMap<(Point, Point), Vec<Subcarrier>> = BTreeMap::new();
    for &(decided, received, tone) in tones {
        sorted.entry((decided, received)).or_default().push(tone);
    }
    let vector = |((decided, received), tones)| Vector {
        decided,
        received,
        tones,
    };
    sorted.into_iter().map(vector).collect()
}

/// The same vector from (0, 0).
fn moved((decided, received, tone): (Point, Point, Subcarrier)) -> (Point, Point, Subcarrier) {
    let across = |to: i16, from: i16| to.saturating_sub(from);
    let difference = (across(received.0, decided.0), across(received.1, decided.1));
    ((0, 0), difference, tone)
}

/// Where other points lie, seen from one in the middle of its constellation.
fn neighbours(class: Class) -> Vec<Point> {
    match class {
        Class::Silent => vec![(0, 0)],
        Class::Data(1) => vec![(-2, -2), (0, 0), (2, 2)],
        Class::Data(_) | Class::Monitored => {
            let steps = || (-4..=4).map(|step| 2 * step);
            steps().flat_map(|x| steps().map(move |y| (x, y))).collect()
        }
    }
}
