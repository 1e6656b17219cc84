//! Points for the clip check: symbols as written and turned, and what one tone alone or all others make
//! of them.

use crate::clip::Asked;
use crate::inputs::{packed_frame, random_register, random_room, EXTREMES};
use crate::points::{any_points, points_to_read};
use crate::random::Random;
use reference::clip::first_monitored;
use reference::points::Point;
use reference::words::{half_turn, lists_of};
use reference::Tables;

/// Points and lengths for these coded tables, once in a while wrong ones.
pub fn random_asked(random: &mut Random, tables: &Tables) -> Asked {
    let checked = reference::check(tables);
    let (nsc, l) = (tables.nsc(), checked.size as usize);
    let register = random_register(random);
    let (points, is_symbol) = match checked.number {
        0 => asked_points(random, tables, l, register),
        _ => (any_points(random, nsc), false),
    };
    let (mut x, mut y) = lists_of(&points);
    x.resize(random_room(random, nsc), 1);
    y.resize(random_room(random, nsc), 1);
    Asked {
        x,
        y,
        register,
        start: random.below(8) as u8,
        is_symbol,
    }
}

/// Points for accepted tables with frame size L, and whether they are a symbol, straight or turned.
fn asked_points(
    random: &mut Random,
    tables: &Tables,
    l: usize,
    register: u32,
) -> (Vec<Point>, bool) {
    let nsc = tables.nsc();
    let frame = packed_frame(random, l, 0);
    let written = reference::encode(tables, &frame, register, nsc, nsc);
    let Some(written) = written.contents else {
        return (any_points(random, nsc), false);
    };
    let symbol = match random.one_in(2) {
        true => half_turn(&written),
        false => written,
    };
    match random.below(8) {
        0 => (with_first_changed(random, tables, register, symbol), false),
        1 => (with_first_turned(tables, register, symbol), false),
        2 | 3 => (with_others_changed(random, tables, register, symbol), false),
        4 => (points_to_read(random, tables, l, register), false),
        _ => (symbol, true),
    }
}

/// The first monitored point alone is another: near, far, or any of 2 bits.
fn with_first_changed(
    random: &mut Random,
    tables: &Tables,
    register: u32,
    mut symbol: Vec<Point>,
) -> Vec<Point> {
    if let Some(first) = first_monitored(tables, register) {
        let (x, y) = symbol[first.place];
        symbol[first.place] = match random.below(5) {
            0 => (x, -y),
            1 => (-x, y),
            2 => (random.pick(&EXTREMES), y),
            3 => (x, random.pick(&EXTREMES)),
            _ => any_points(random, 1)[0],
        };
    }
    symbol
}

/// The first monitored point alone is the opposite one.
fn with_first_turned(tables: &Tables, register: u32, mut symbol: Vec<Point>) -> Vec<Point> {
    if let Some(first) = first_monitored(tables, register) {
        let (x, y) = symbol[first.place];
        symbol[first.place] = (-x, -y);
    }
    symbol
}

/// All points but the first monitored one are turned, near the origin, or at the ends of 16 bits.
fn with_others_changed(
    random: &mut Random,
    tables: &Tables,
    register: u32,
    symbol: Vec<Point>,
) -> Vec<Point> {
    let mut others = match random.below(3) {
        0 => half_turn(&symbol),
        1 => any_points(random, symbol.len()),
        _ => {
            let mut far = || (random.pick(&EXTREMES), random.pick(&EXTREMES));
            symbol.iter().map(|_| far()).collect()
        }
    };
    if let Some(first) = first_monitored(tables, register) {
        others[first.place] = symbol[first.place];
    }
    others
}
