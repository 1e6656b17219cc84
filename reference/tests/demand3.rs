//! The words of demand 3 on small random tables, over every frame of one start and every list of
//! grid points.

mod small;

use clevisroot_sys::refusals::{DONE, MONITOR, OFFGRID, TRELLIS};
use reference::forms::Class;
use reference::points::{constellation, Point};
use reference::reordering::{nonzero_entries, reordered_bits};
use reference::symbol::classes;
use reference::words::half_turn;
use reference::{Mode, Tables};
use small::{cases, Case};
use std::collections::HashMap;

/// Every point list whose places all hold a point of their tone's constellation.
fn grid_lists(tables: &Tables) -> Vec<Vec<Point>> {
    let mut lists = vec![vec![]];
    for class in classes(tables) {
        let choices: &[Point] = match class {
            Class::Data(b) => constellation(b),
            Class::Monitored => constellation(2),
            Class::Silent => &[(0, 0)],
        };
        let longer = |list: &Vec<Point>| -> Vec<Vec<Point>> {
            choices
                .iter()
                .map(|&point| [list.as_slice(), &[point]].concat())
                .collect()
        };
        lists = lists.iter().flat_map(longer).collect();
    }
    lists
}

#[test]
fn distinct_frames_give_distinct_points_and_are_read_exactly() {
    for case in cases(120, 12) {
        let written: HashMap<_, _> = (0..1 << case.size())
            .map(|value| case.write(value))
            .map(|(frame, points)| (points, frame))
            .collect();
        assert_eq!(written.len(), 1 << case.size());
        for points in grid_lists(&case.tables) {
            let answer = case.read(&points);
            assert_eq!(answer.number == DONE, written.contains_key(&points));
            assert_eq!(answer.contents.as_ref(), written.get(&points));
        }
    }
}

#[test]
fn a_point_off_the_grid_is_never_read() {
    for case in cases(60, 14) {
        let (_, points) = case.write(0);
        for p in 0..points.len() {
            for wrong in [(0, 1), (2, 2), (9, 9), (i16::MIN, i16::MAX)] {
                let mut changed = points.clone();
                changed[p] = wrong;
                let answer = case.read(&changed);
                assert_eq!((answer.number, answer.place), (OFFGRID, p as u32));
            }
        }
    }
}

#[test]
fn half_a_turn_is_told_unless_none_is_monitored_and_n_is_even() {
    let cases = cases(400, 20);
    let is_coded = |case: &&Case| case.tables.mode == Mode::Coded;
    for case in cases.iter().filter(is_coded) {
        let n = nonzero_entries(&reordered_bits(&case.tables));
        let monitored = classes(&case.tables).contains(&Class::Monitored);
        for value in 0..1 << case.size() {
            let (frame, points) = case.write(value);
            let answer = case.read(&half_turn(&points));
            let number = match (monitored, n % 2) {
                (true, _) => MONITOR,
                (false, 1) => TRELLIS,
                _ => DONE,
            };
            assert_eq!(answer.number, number);
            assert_ne!(answer.contents, Some(frame));
        }
    }
}
