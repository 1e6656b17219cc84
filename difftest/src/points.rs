//! Point lists for reading: written by the reference, turned, damaged, random.

use crate::inputs::{packed_frame, valid_register, EXTREMES};
use crate::random::Random;
use reference::forms::Class;
use reference::points::{constellation, Point};
use reference::reordering::reordered_tones;
use reference::words::{half_turn, quarter_left, quarter_right};
use reference::Tables;

/// Points for tables that are refused: any.
pub fn any_points(random: &mut Random, nsc: usize) -> Vec<Point> {
    (0..nsc).map(|_| small_point(random)).collect()
}

/// Points for accepted tables with frame size L, to be read from this register.
pub fn points_to_read(random: &mut Random, tables: &Tables, l: usize, register: u32) -> Vec<Point> {
    if random.one_in(12) {
        return unwritten_points(random, tables);
    }
    let written_from = if random.one_in(16) {
        valid_register(random)
    } else {
        register
    };
    let frame = packed_frame(random, l, 0);
    let nsc = tables.nsc();
    let written = reference::encode(tables, &frame, written_from, nsc, nsc);
    let Some(mut points) = written.contents else {
        return any_points(random, nsc);
    };
    match random.below(12) {
        0 => points = half_turn(&points),
        1 => points = quarter_left(&points),
        2 => points = quarter_right(&points),
        3 => damage(random, tables, &mut points, 3),
        4 | 5 => damage(random, tables, &mut points, 1),
        6 => damage_end(random, tables, &mut points),
        _ => {}
    }
    points
}

/// Points that nobody wrote: of the right constellations, or anywhere.
fn unwritten_points(random: &mut Random, tables: &Tables) -> Vec<Point> {
    if random.one_in(3) {
        any_points(random, tables.nsc())
    } else {
        let classes = classes(tables);
        classes
            .iter()
            .map(|&class| grid_point(random, class))
            .collect()
    }
}

/// Changes this many points, each at any place.
fn damage(random: &mut Random, tables: &Tables, points: &mut [Point], count: usize) {
    let classes = classes(tables);
    for _ in 0..count {
        let place = random.below(points.len());
        points[place] = changed(random, classes[place], points[place]);
    }
}

/// Other points of the grid at the last places: mostly what only the forced bits can tell.
fn damage_end(random: &mut Random, tables: &Tables, points: &mut [Point]) {
    let classes = classes(tables);
    let first = points.len().saturating_sub(random.within(1, 5));
    for place in first..points.len() {
        points[place] = grid_point(random, classes[place]);
    }
}

fn changed(random: &mut Random, class: Class, (x, y): Point) -> Point {
    match random.below(6) {
        0 => (x.wrapping_neg(), y.wrapping_neg()),
        1 => (x.wrapping_add(random.pick(&[-2, -1, 1, 2])), y),
        2 => (x, y.wrapping_add(random.pick(&[-2, -1, 1, 2]))),
        3 if random.one_in(3) => (random.pick(&EXTREMES), random.pick(&EXTREMES)),
        _ => grid_point(random, class),
    }
}

fn grid_point(random: &mut Random, class: Class) -> Point {
    match class {
        Class::Data(b) => random.pick(constellation(b)),
        Class::Monitored => random.pick(constellation(2)),
        Class::Silent => (0, 0),
    }
}

fn small_point(random: &mut Random) -> Point {
    let mut coordinate = || random.below(11) as i16 - 5;
    (coordinate(), coordinate())
}

/// The classes of the tones in t' order.
pub fn classes(tables: &Tables) -> Vec<Class> {
    let tones = reordered_tones(tables);
    tones.iter().map(|&tone| tables.class_of(tone)).collect()
}
