//! "Points": one label to a point by the page's bit strings, one point to a label by search.

use std::sync::OnceLock;

/// X and Y.
pub type Point = (i16, i16);

/// The value of a two's complement bit string, highest bit first.
fn twos_complement(string: &[bool]) -> i16 {
    let mut value = if string[0] { -1 } else { 0 };
    for &bit in &string[1..] {
        value = 2 * value + i16::from(bit);
    }
    value
}

/// The point of a label of b bits, `v[0]` being v0.
pub fn point_of(v: &[bool]) -> Point {
    match v.len() {
        1 if v[0] => (-1, -1),
        1 => (1, 1),
        3 => point_of_three(v),
        b if b % 2 == 0 => point_of_even(v),
        _ => point_of_odd(v),
    }
}

/// The bits v(top), v(top−2) and so on down to v(end), then a 1.
fn every_second(v: &[bool], top: usize, end: usize) -> Vec<bool> {
    let mut string: Vec<bool> = (end..=top).rev().step_by(2).map(|k| v[k]).collect();
    string.push(true);
    string
}

fn point_of_even(v: &[bool]) -> Point {
    let b = v.len();
    let x = every_second(v, b - 1, 1);
    let y = every_second(v, b - 2, 0);
    (twos_complement(&x), twos_complement(&y))
}

fn point_of_three(v: &[bool]) -> Point {
    const LABELS: [Point; 8] = [
        (1, 1),
        (1, -1),
        (-1, 1),
        (-1, -1),
        (-3, 1),
        (1, 3),
        (-1, -3),
        (3, -1),
    ];
    LABELS[number_of(v)]
}

fn point_of_odd(v: &[bool]) -> Point {
    let b = v.len();
    let [xc, xd, yc, yd] = top_coordinate_bits(number_of(&v[b - 5..]));
    let x = [vec![xc, xd], every_second(v, b - 4, 1)].concat();
    let y = [vec![yc, yd], every_second(v, b - 5, 0)].concat();
    (twos_complement(&x), twos_complement(&y))
}

/// Table 10-3: Xc, Xd, Yc, Yd for the top five label bits as a number.
fn top_coordinate_bits(top_five: usize) -> [bool; 4] {
    let row = match top_five {
        0..=3 => "0000",
        4..=7 => "0011",
        8..=11 => "1100",
        12..=15 => "1111",
        16 | 17 => "0100",
        18 | 19 => "1000",
        20 | 22 => "0001",
        21 | 23 => "0010",
        24 | 26 => "1101",
        25 | 27 => "1110",
        28 | 29 => "0111",
        30 | 31 => "1011",
        _ => unreachable!("five bits"),
    };
    let row = row.as_bytes();
    [
        row[0] == b'1',
        row[1] == b'1',
        row[2] == b'1',
        row[3] == b'1',
    ]
}

/// The number whose bits these are, lowest first.
pub fn number_of(bits: &[bool]) -> usize {
    bits.iter()
        .rev()
        .fold(0, |number, &bit| 2 * number + usize::from(bit))
}

/// The b bits of a number, lowest first.
pub fn bits_of_number(number: usize, b: usize) -> Vec<bool> {
    (0..b).map(|k| number >> k & 1 == 1).collect()
}

/// The points of all labels of b bits, b from 1 to 15, in the labels' order. Each is mapped once.
pub fn constellation(b: usize) -> &'static [Point] {
    static MAPPED: [OnceLock<Vec<Point>>; 16] = [const { OnceLock::new() }; 16];
    let map_all = || {
        (0..1 << b)
            .map(|label| point_of(&bits_of_number(label, b)))
            .collect()
    };
    MAPPED[b].get_or_init(map_all)
}

/// The label that has the point, if any has.
pub fn label_of(b: usize, point: Point) -> Option<usize> {
    constellation(b)
        .iter()
        .position(|&candidate| candidate == point)
}
