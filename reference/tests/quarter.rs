//! Request R-14: a written symbol that is turned by a quarter, either way, on small tables over every frame
//! of one start.

mod small;

use clevisroot_sys::refusals::{DONE, MONITOR, OFFGRID, TRELLIS};
use reference::clip::Clip;
use reference::filler::RESET;
use reference::forms::Class;
use reference::points::{constellation, Point};
use reference::quarter::{quarter_refusal, refusal_by_a_tone};
use reference::refusals::Refusal;
use reference::reordering::{nonzero_entries, reordered_bits};
use reference::symbol::classes;
use reference::words::{half_turn, lists_of, quarter_left, quarter_right};
use reference::{check, clip_check, Mode, Tables};
use small::{cases, Case};
use std::collections::{HashMap, HashSet};

/// What a tone can be here: its bits and its gain.
const TONES: [(u8, u16); 5] = [(0, 0), (0, 512), (1, 512), (2, 512), (3, 512)];

/// Every accepted table set of at most so many tones of these, t in index order.
fn every_table_set(mode: Mode, most: usize, tones: &[(u8, u16)]) -> Vec<Tables> {
    let mut rows: Vec<Vec<(u8, u16)>> = vec![vec![]];
    let mut sets = Vec::new();
    for nsc in 1..=most as u16 {
        let longer = |row: &Vec<(u8, u16)>| -> Vec<_> {
            let with = |&tone| [row.as_slice(), &[tone]].concat();
            tones.iter().map(with).collect()
        };
        rows = rows.iter().flat_map(longer).collect();
        for row in &rows {
            let (bits, gains) = row.iter().copied().unzip();
            let tones = (0..nsc).collect();
            sets.push(Tables {
                mode,
                bits,
                gains,
                tones,
            });
        }
    }
    sets.retain(|tables| check(tables).number == DONE);
    sets
}

/// Each table set with another valid register and the next start.
fn each_as_a_case(sets: Vec<Tables>) -> Vec<Case> {
    let as_a_case = |(k, tables): (usize, Tables)| Case {
        tables,
        register: 1 + 7919 * k as u32 % RESET,
        start: (k % 8) as u8,
    };
    sets.into_iter().enumerate().map(as_a_case).collect()
}

/// Every set of at most 5 tones, of at most 7 with 2 or 3 bits each, and random ones with t in any order.
fn small_cases(mode: Mode) -> Vec<Case> {
    let mut sets = every_table_set(mode, 5, &TONES);
    sets.extend(every_table_set(mode, 7, &[(2, 512), (3, 512)]));
    let random = cases(400, 20);
    let of_mode = random.into_iter().filter(|case| case.tables.mode == mode);
    each_as_a_case(sets).into_iter().chain(of_mode).collect()
}

fn quarters(points: &[Point]) -> [Vec<Point>; 2] {
    [quarter_left(points), quarter_right(points)]
}

fn n_of(tables: &Tables) -> usize {
    nonzero_entries(&reordered_bits(tables))
}

fn is_monitored(tables: &Tables) -> bool {
    classes(tables).contains(&Class::Monitored)
}

/// The kind of refusal, by the tables: its number, pair 0 or not, and N odd or not.
fn kind(tables: &Tables) -> (u32, bool, bool) {
    let refusal = quarter_refusal(tables);
    let at_pair_0 = refusal == Refusal::Trellis(0);
    (refusal.number(), at_pair_0, n_of(tables) % 2 == 1)
}

#[test]
fn coded_it_is_always_refused_with_the_number_and_place_that_the_tables_give() {
    let mut seen = HashSet::new();
    for case in small_cases(Mode::Coded) {
        seen.insert(kind(&case.tables));
        let refusal = quarter_refusal(&case.tables);
        for value in 0..1 << case.size() {
            for turned in quarters(&case.write(value).1) {
                let told = case.read(&turned);
                assert_eq!(
                    (told.number, told.place),
                    (refusal.number(), refusal.place())
                );
                assert_eq!((told.size, told.register), (0, case.register));
                assert_eq!(told.contents, None);
            }
        }
    }
    let by_the_code = [
        (TRELLIS, true, true),
        (TRELLIS, true, false),
        (TRELLIS, false, false),
    ];
    let by_a_tone =
        [OFFGRID, MONITOR].map(|number| [(number, false, true), (number, false, false)]);
    let kinds = by_the_code
        .into_iter()
        .chain(by_a_tone.into_iter().flatten());
    assert_eq!(seen, kinds.collect());
}

/// A valid register for every value of the bits that these tables draw.
fn every_drawing(tables: &Tables) -> impl Iterator<Item = u32> {
    let is_data = |class: &&Class| matches!(class, Class::Data(_));
    let loaded = classes(tables).iter().filter(is_data).count();
    (0..1 << (2 * (tables.nsc() - loaded))).map(|drawn| 1 << 22 | drawn)
}

/// The numbers that reading the points gives with any filler bits.
fn numbers_by_register(case: &Case, points: &[Point], seen: &mut HashSet<(bool, u32)>) {
    for register in every_drawing(&case.tables) {
        let tables = case.tables.clone();
        let other = Case {
            tables,
            register,
            ..*case
        };
        seen.insert((is_monitored(&case.tables), other.read(points).number));
    }
}

/// Without a 1-bit tone, a monitored one of other filler bits may look right; the code then breaks.
#[test]
fn coded_it_is_never_read_whatever_register_it_is_read_with() {
    let mut seen = HashSet::new();
    for case in small_cases(Mode::Coded) {
        for value in (0..1 << case.size()).take(64) {
            for turned in quarters(&case.write(value).1) {
                numbers_by_register(&case, &turned, &mut seen);
            }
        }
    }
    let monitored = [OFFGRID, MONITOR, TRELLIS].map(|number| (true, number));
    let not = [OFFGRID, TRELLIS].map(|number| (false, number));
    assert_eq!(seen, monitored.into_iter().chain(not).collect());
}

#[test]
fn half_a_turn_with_n_odd_is_never_read_whatever_register_it_is_read_with() {
    let mut seen = HashSet::new();
    let is_odd = |case: &Case| n_of(&case.tables) % 2 == 1;
    for case in small_cases(Mode::Coded).into_iter().filter(is_odd) {
        for value in (0..1 << case.size()).take(64) {
            let turned = half_turn(&case.write(value).1);
            numbers_by_register(&case, &turned, &mut seen);
        }
    }
    assert_eq!(
        seen,
        [(true, MONITOR), (true, TRELLIS), (false, TRELLIS)].into()
    );
}

#[test]
fn uncoded_only_a_one_bit_tone_or_a_monitored_one_can_show_it() {
    let mut seen = HashSet::new();
    for case in small_cases(Mode::Uncoded) {
        let refusal = refusal_by_a_tone(&case.tables);
        let (number, place) =
            refusal.map_or((DONE, 0), |refusal| (refusal.number(), refusal.place()));
        for value in (0..1 << case.size()).take(256) {
            let (frame, points) = case.write(value);
            for turned in quarters(&points) {
                let told = case.read(&turned);
                assert_eq!((told.number, told.place), (number, place));
                let same = told.contents.as_ref() == Some(&frame);
                assert_eq!(same, number == DONE && case.size() == 0);
                seen.insert((number, same));
            }
        }
    }
    let kinds = [
        (OFFGRID, false),
        (MONITOR, false),
        (DONE, false),
        (DONE, true),
    ];
    assert_eq!(seen, kinds.into());
}

#[test]
fn the_clip_check_tells_neither() {
    let tells = |case: &Case| is_monitored(&case.tables);
    for case in small_cases(Mode::Coded).into_iter().filter(tells) {
        for value in (0..1 << case.size()).take(64) {
            for turned in quarters(&case.write(value).1) {
                let (x, y) = lists_of(&turned);
                let told = clip_check(&case.tables, &x, &y, case.register);
                assert_eq!(told.contents, Some(Clip::Neither));
            }
        }
    }
}

/// The label of each point of b bits, its two lowest bits being v0 and v1.
fn labels(b: usize) -> HashMap<Point, usize> {
    let points = constellation(b).iter().copied();
    points.zip(0..).collect()
}

#[test]
fn from_two_bits_on_turns_stay_in_the_constellation_and_turn_the_two_lowest_bits() {
    for b in 2..=15 {
        let labels = labels(b);
        let lowest = |point: Vec<Point>| {
            labels
                .get(&point[0])
                .map(|label| (label & 1, label >> 1 & 1))
        };
        for (label, &point) in constellation(b).iter().enumerate() {
            let (v0, v1) = (label & 1, label >> 1 & 1);
            assert_eq!(lowest(quarter_left(&[point])), Some((v1, 1 - v0)));
            assert_eq!(lowest(quarter_right(&[point])), Some((1 - v1, v0)));
            assert_eq!(lowest(half_turn(&[point])), Some((1 - v0, 1 - v1)));
        }
    }
}

#[test]
fn with_one_bit_a_quarter_turn_leaves_the_constellation() {
    let points = constellation(1);
    for turned in quarters(points).concat() {
        assert!(!points.contains(&turned));
    }
    assert!(half_turn(points)
        .iter()
        .all(|turned| points.contains(turned)));
}

#[test]
fn two_quarters_are_half_a_turn_and_left_and_right_undo_each_other() {
    let ends = [i16::MIN, i16::MIN + 1, -1, 0, 1, 2, i16::MAX];
    let points: Vec<Point> = ends.iter().flat_map(|&x| ends.map(|y| (x, y))).collect();
    assert_eq!(quarter_left(&[(3, 1)]), [(-1, 3)]);
    assert_eq!(quarter_right(&[(3, 1)]), [(1, -3)]);
    assert_eq!(quarter_left(&quarter_left(&points)), half_turn(&points));
    assert_eq!(quarter_right(&quarter_right(&points)), half_turn(&points));
    assert_eq!(quarter_left(&quarter_right(&points)), points);
    assert_eq!(quarter_right(&quarter_left(&points)), points);
}
