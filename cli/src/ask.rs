//! Questions to the library, with lists of the right length lent for its answers.

use crate::files::{Class, TableSet};
use crate::index::{Place, Subcarrier};
use crate::span::Span;
use clevisroot_sys::{self as library, Answer, Clip};

/// The re-ordered tables.
pub struct Order {
    /// t'
    pub tones: Vec<u16>,
    /// b'
    pub bits: Vec<u8>,
}

/// A symbol in t' order.
pub struct Points {
    pub x: Vec<i16>,
    pub y: Vec<i16>,
}

pub fn order(set: &TableSet) -> (Answer, Order) {
    let mut order = Order {
        tones: vec![0; set.tone_count()],
        bits: vec![0; set.tone_count()],
    };
    let answer = library::reorder(set.lent(), &mut order.tones, &mut order.bits);
    (answer, order)
}

/// The points of a frame that starts at this bit of its first byte.
pub fn encode(set: &TableSet, frame: &[u8], start: u8, register: u32) -> (Answer, Points) {
    let mut points = Points {
        x: vec![0; set.tone_count()],
        y: vec![0; set.tone_count()],
    };
    let Points { x, y } = &mut points;
    let answer = library::encode_at(set.lent(), frame, start, register, x, y);
    (answer, points)
}

/// The frame of the points, with its start at this bit of its first byte.
pub fn read(
    set: &TableSet,
    (x, y): (&[i16], &[i16]),
    register: u32,
    start: u8,
) -> (Answer, Vec<u8>) {
    let mut frame = vec![0; frame_bytes(set, start)];
    let answer = library::read_at(set.lent(), x, y, register, &mut frame, start);
    (answer, frame)
}

/// What was decided for received points.
pub struct Nearest {
    pub answer: Answer,
    /// The squared distances of all loaded tones, added up.
    pub total: u64,
    pub frame: Vec<u8>,
}

/// The frame whose points are nearest to the received ones, with its start at this bit of its first
/// byte.
pub fn nearest(set: &TableSet, (x, y): (&[i16], &[i16]), register: u32, start: u8) -> Nearest {
    let tables = set.lent();
    let mut frame = vec![0; frame_bytes(set, start)];
    let mut work = vec![0; library::work_bytes(tables)];
    let told = library::read_nearest(tables, x, y, register, &mut frame, start, &mut work);
    let answer = Answer {
        number: told.number,
        place: told.place,
        size: told.size,
        reg: told.reg,
    };
    let total = told.total;
    Nearest {
        answer,
        total,
        frame,
    }
}

/// What the first monitored tone tells of the clip. The library takes the tables as coded.
pub fn clip(set: &TableSet, (x, y): (&[i16], &[i16]), register: u32) -> Clip {
    let tables = set.lent();
    library::clip_check(tables.bits, tables.gains, tables.tones, x, y, register)
}

/// N is odd in coded mode: then the trellis code refuses every symbol that is turned by half a turn,
/// whatever the register.
pub fn trellis_tells(set: &TableSet, order: &Order) -> bool {
    set.coded && order.loaded() % 2 == 1
}

/// The bits of a frame of these tables; L is 0 if they are refused.
pub fn span(set: &TableSet, start: u8) -> Span {
    let size = library::check(set.lent()).size;
    Span { start, size }
}

/// The bytes of a frame of these tables.
pub fn frame_bytes(set: &TableSet, start: u8) -> usize {
    span(set, start).bytes()
}

impl Points {
    pub fn at(&self, place: Place) -> Option<(i16, i16)> {
        Some((*self.x.get(place.0)?, *self.y.get(place.0)?))
    }
}

impl Order {
    pub fn tone_at(&self, place: Place) -> Option<Subcarrier> {
        self.tones.get(place.0).map(|&tone| Subcarrier(tone))
    }

    /// t' with its places.
    pub fn places(&self) -> impl Iterator<Item = (Place, Subcarrier)> + '_ {
        let tones = self.tones.iter().enumerate();
        tones.map(|(place, &tone)| (Place(place), Subcarrier(tone)))
    }

    /// N: the non-zero entries of b'.
    pub fn loaded(&self) -> usize {
        self.bits.iter().filter(|&&bits| bits > 0).count()
    }

    /// The tones without bits, monitored or silent, in the order of their draws.
    pub fn without_bits<'a>(
        &'a self,
        set: &'a TableSet,
    ) -> impl Iterator<Item = (Place, Class)> + 'a {
        let places = self.places();
        let classes = places.map(|(place, tone)| (place, set.class_of(tone)));
        classes.filter(|(_, class)| !matches!(class, Class::Data(_)))
    }

    /// The places of each coded pair. Two 1-bit tones share an entry; the first entry of an odd
    /// count makes a pair on its own.
    pub fn pairs(&self, set: &TableSet) -> Vec<Vec<Place>> {
        let (mut entries, mut ones) = (Vec::new(), Vec::new());
        for (place, tone) in self.places() {
            match set.class_of(tone) {
                Class::Data(1) => ones.push(place),
                Class::Data(_) => entries.push(vec![place]),
                Class::Monitored | Class::Silent => {}
            }
        }
        entries.extend(ones.chunks(2).map(<[Place]>::to_vec));
        let (first, rest) = entries.split_at(entries.len() % 2);
        let pairs = first.chunks(1).chain(rest.chunks(2));
        pairs.map(<[Vec<Place>]>::concat).collect()
    }
}
