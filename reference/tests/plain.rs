//! Request R-1: the plain rule has the page's figures, and agrees with the direct one on all labels, a
//! square of points and three lines of them.

use clevisroot_sys::refusals::{DONE, LABEL, OFFGRID};
use reference::points::{constellation, Point};
use reference::{map_label, plain_map_label, plain_read_point, read_point, Answer};
use std::collections::HashMap;

/// A refusal has place 0 and carries nothing.
fn is_refused<C>(answer: &Answer<C>, number: u32) -> bool {
    (answer.number, answer.place) == (number, 0) && answer.contents.is_none()
}

/// What reading must answer, by the direct rule: a label or OFFGRID.
struct Direct(HashMap<Point, usize>);

impl Direct {
    fn of(b: u8) -> Direct {
        let points = constellation(usize::from(b)).iter().copied();
        Direct(points.zip(0..).collect())
    }

    fn agrees(&self, b: u8, (x, y): Point) -> bool {
        let plain = plain_read_point(b, x, y);
        match self.0.get(&(x, y)) {
            Some(&label) => (plain.number, plain.contents) == (DONE, Some(label as u32)),
            None => is_refused(&plain, OFFGRID),
        }
    }
}

#[test]
fn bench_figures() {
    for (b, label, (x, y)) in [
        (4, 9, (-3, 3)),
        (5, 16, (5, 1)),
        (5, 24, (-3, 5)),
        (5, 31, (-5, -1)),
        (7, 64, (9, 1)),
        (7, 67, (11, 3)),
        (15, 17_407, (191, 63)),
    ] {
        assert_eq!(plain_map_label(b, label).contents, Some((x, y)));
        assert_eq!(plain_read_point(b, x, y).contents, Some(label));
    }
}

#[test]
fn one_and_three_bits_are_the_page_s() {
    let points = |b: u8| (0..1 << b).map(move |label| plain_map_label(b, label).contents.unwrap());
    assert!(points(1).eq([(1, 1), (-1, -1)]));
    let three = [(1, 1), (1, -1), (-1, 1), (-1, -1)];
    assert!(points(3).eq(three
        .into_iter()
        .chain([(-3, 1), (1, 3), (-1, -3), (3, -1)])));
}

#[test]
fn every_label_is_mapped_alike_and_read_back() {
    for b in 1..=15 {
        for label in 0..1 << b {
            let plain = plain_map_label(b, label);
            assert_eq!(plain, map_label(b, label));
            let (x, y) = plain.contents.unwrap();
            assert_eq!(plain_read_point(b, x, y).contents, Some(label));
        }
    }
}

/// No coordinate of any label is beyond 191.
#[test]
fn every_point_of_a_wide_square_is_read_alike() {
    for b in 1..=15 {
        let direct = Direct::of(b);
        for x in -300..=300 {
            for y in -300..=300 {
                assert!(direct.agrees(b, (x, y)), "{b} bits, ({x}, {y})");
            }
        }
    }
}

#[test]
fn every_coordinate_of_16_bits_is_read_alike() {
    for b in 1..=15 {
        let direct = Direct::of(b);
        for far in i16::MIN..=i16::MAX {
            for point in [(far, 1), (-1, far), (far, far)] {
                assert!(direct.agrees(b, point), "{b} bits, {point:?}");
            }
        }
    }
}

#[test]
fn label_16_then_offgrid_13() {
    for b in (0..=255).filter(|b| !(1..=15).contains(b)) {
        for label in [0, 1, 1 << 15, u32::MAX] {
            assert!(is_refused(&plain_map_label(b, label), LABEL));
        }
        for coordinate in [i16::MIN, -1, 0, 1, i16::MAX] {
            assert!(is_refused(&plain_read_point(b, coordinate, 1), LABEL));
        }
    }
    for b in 1..=15 {
        for label in [1 << b, (1 << b) + 1, 1 << 16, 1 << 31, u32::MAX] {
            assert!(is_refused(&plain_map_label(b, label), LABEL));
        }
        for (x, y) in [(0, 0), (2, 1), (1, 255), (i16::MIN, i16::MAX)] {
            let plain = plain_read_point(b, x, y);
            assert!(is_refused(&plain, OFFGRID));
            assert_eq!(plain, read_point(b, x, y));
        }
    }
}
