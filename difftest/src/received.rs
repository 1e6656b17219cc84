//! Received points for nearest reading: written ones with noise, and points that no frame has.

use crate::inputs::{packed_frame, random_register, random_room, random_start};
use crate::nearest::Received;
use crate::points::{any_points, points_to_read};
use crate::random::Random;
use reference::forms::frame_bytes;
use reference::nearest::work_bytes;
use reference::points::Point;
use reference::words::lists_of;
use reference::Tables;

/// The ends of the range, and what is just past them or far outside.
const EDGES: [i16; 2] = [-1023, 1023];
const OUTSIDE: [i16; 8] = [
    -1024,
    1024,
    -1025,
    1025,
    i16::MIN,
    i16::MIN + 1,
    i16::MAX - 1,
    i16::MAX,
];

/// How far noise moves a coordinate at most.
const NOISE: [i16; 8] = [0, 1, 1, 2, 3, 9, 150, 2046];

/// Received points and lengths for these tables, once in a while wrong ones.
pub fn random_received(random: &mut Random, tables: &Tables) -> Received {
    let checked = reference::check(tables);
    let (nsc, l) = (tables.nsc(), checked.size as usize);
    let register = random_register(random);
    let (points, work) = match checked.number {
        0 => (
            received_points(random, tables, l, register),
            work_bytes(tables),
        ),
        _ => (any_points(random, nsc), random.below(40)),
    };
    let (mut x, mut y) = lists_of(&points);
    x.resize(random_room(random, nsc), 1);
    y.resize(random_room(random, nsc), 1);
    let start = random_start(random);
    Received {
        x,
        y,
        register,
        start,
        frame_room: random_room(random, frame_bytes(start, l)),
        work_room: random_room(random, work),
    }
}

/// Points for accepted tables with frame size L, once in a while one of them outside the range.
fn received_points(random: &mut Random, tables: &Tables, l: usize, register: u32) -> Vec<Point> {
    let mut points = match random.below(10) {
        0 => anywhere(random, tables.nsc()),
        1 => between(random, tables.nsc()),
        2 => at_edges(random, tables.nsc()),
        3 => points_to_read(random, tables, l, register),
        _ => {
            let most = random.pick(&NOISE);
            noisy_points(random, tables, l, most)
        }
    };
    if random.one_in(10) {
        let place = random.below(points.len());
        let far = random.pick(&OUTSIDE);
        match random.one_in(2) {
            true => points[place].0 = far,
            false => points[place].1 = far,
        }
    }
    points
}

/// A written symbol with each coordinate moved by at most this much, and kept in the range.
pub fn noisy_points(random: &mut Random, tables: &Tables, l: usize, most: i16) -> Vec<Point> {
    let frame = packed_frame(random, l, 0);
    let nsc = tables.nsc();
    let written = reference::encode(tables, &frame, reference::filler::RESET, nsc, nsc);
    let mut moved = |coordinate: i16| {
        let by = random.within(0, 2 * most as usize) as i16 - most;
        (coordinate + by).clamp(-1023, 1023)
    };
    let written = written.contents.expect("the frame is accepted");
    written.iter().map(|&(x, y)| (moved(x), moved(y))).collect()
}

/// Related to no frame.
fn anywhere(random: &mut Random, nsc: usize) -> Vec<Point> {
    let mut coordinate = || random.within(0, 2046) as i16 - 1023;
    (0..nsc).map(|_| (coordinate(), coordinate())).collect()
}

/// Between the points of the grid, so that several are as near.
fn between(random: &mut Random, nsc: usize) -> Vec<Point> {
    let mut coordinate = || 2 * (random.below(9) as i16 - 4);
    (0..nsc).map(|_| (coordinate(), coordinate())).collect()
}

fn at_edges(random: &mut Random, nsc: usize) -> Vec<Point> {
    let mut coordinate = || random.pick(&EDGES);
    (0..nsc).map(|_| (coordinate(), coordinate())).collect()
}
