//! Request R-10, "Is my clip the wrong way round?": what the first monitored tone in t' tells, and the
//! full way to find out, which reads the points twice.

use crate::filler::Filler;
use crate::forms::{frame_bytes, Class, Tables};
use crate::operations::read_at;
use crate::points::{point_of, Point};
use crate::reordering::frame_size;
use crate::symbol::classes;
use crate::words::{half_turn, lists_of};

#[derive(Clone, Copy, Debug, PartialEq, Eq)]
pub enum Clip {
    Straight,
    Turned,
    Neither,
    CantTell,
}

impl Clip {
    pub fn number(self) -> u32 {
        match self {
            Clip::Straight => 1,
            Clip::Turned => 2,
            Clip::Neither => 3,
            Clip::CantTell => 4,
        }
    }
}

/// A monitored tone: its place in t', and the point that its filler bits give.
#[derive(Clone, Copy, Debug, PartialEq, Eq)]
pub struct Monitored {
    pub place: usize,
    pub own: Point,
}

/// The first monitored tone in t'. Every silent one before it has drawn two bits, too.
pub fn first_monitored(tables: &Tables, register: u32) -> Option<Monitored> {
    let mut filler = Filler::from_register(register);
    for (place, class) in classes(tables).into_iter().enumerate() {
        match class {
            Class::Data(_) => {}
            Class::Silent => {
                filler.draw_label();
            }
            Class::Monitored => {
                let own = point_of(&filler.draw_label());
                return Some(Monitored { place, own });
            }
        }
    }
    None
}

/// What the first monitored tone's point tells; no other is looked at.
pub fn clip_of(tables: &Tables, x: &[i16], y: &[i16], register: u32) -> Clip {
    let Some(Monitored { place, own }) = first_monitored(tables, register) else {
        return Clip::CantTell;
    };
    let opposite = (-own.0, -own.1);
    match (x[place], y[place]) {
        point if point == own => Clip::Straight,
        point if point == opposite => Clip::Turned,
        _ => Clip::Neither,
    }
}

/// The full way, for accepted tables and a valid register: the points are read as they are, then with
/// all signs changed, each time from the given register, to see which is accepted.
pub fn by_two_readings(tables: &Tables, points: &[Point], register: u32, start: u8) -> Clip {
    let room = frame_bytes(start, frame_size(tables));
    let accepted = |points: &[Point]| {
        let (x, y) = lists_of(points);
        read_at(tables, &x, &y, register, room, start).number == 0
    };
    match (accepted(points), accepted(&half_turn(points))) {
        (true, false) => Clip::Straight,
        (false, true) => Clip::Turned,
        (false, false) => Clip::Neither,
        (true, true) => Clip::CantTell,
    }
}
