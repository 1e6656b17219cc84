//! Request R-10: one tone tells whether the clip is the wrong way round, as two readings would.

mod small;

use clevisroot_sys::clips;
use clevisroot_sys::refusals::*;
use reference::clip::{by_two_readings, first_monitored, Clip, Monitored};
use reference::figures::{table_a, table_a_silent};
use reference::filler::RESET;
use reference::points::{constellation, Point};
use reference::words::{half_turn, lists_of};
use reference::{clip_check, encode, Mode, Tables};
use small::{cases, Case};

/// Coordinates that a point of 2 bits can have, and others up to the ends of 16 bits.
const COORDINATES: [i16; 14] = [
    1, -1, 0, 2, -2, 3, -3, 255, 257, -257, 511, 32_767, -32_767, -32_768,
];

/// What the check tells, once it is done; the register comes back as it was given.
fn clip(tables: &Tables, points: &[Point], register: u32) -> Clip {
    let (x, y) = lists_of(points);
    let answer = clip_check(tables, &x, &y, register);
    assert_eq!(
        (answer.number, answer.place, answer.size, answer.register),
        (DONE, 0, 0, register)
    );
    answer.contents.expect("it is done")
}

/// Coded tables of all sub-carriers in order, with these bits and gains.
fn coded(bits: &[u8], gains: &[u16]) -> Tables {
    Tables {
        mode: Mode::Coded,
        bits: bits.to_vec(),
        gains: gains.to_vec(),
        tones: (0..bits.len() as u16).collect(),
    }
}

/// The answer for every point with these coordinates at the place, whatever the others are.
fn hold_at(tables: &Tables, register: u32, place: usize, (own_x, own_y): Point) {
    for others in [(0, 0), (1, 1), (-1, 1), (-32_768, 32_767)] {
        for x in COORDINATES {
            for y in COORDINATES {
                let mut points = vec![others; tables.nsc()];
                points[place] = (x, y);
                let told = match (x, y) {
                    own if own == (own_x, own_y) => Clip::Straight,
                    turned if turned == (-own_x, -own_y) => Clip::Turned,
                    _ => Clip::Neither,
                };
                assert_eq!(clip(tables, &points, register), told);
            }
        }
    }
}

#[test]
fn numbers_are_the_library_s() {
    let told = [Clip::Straight, Clip::Turned, Clip::Neither, Clip::CantTell];
    let numbers: Vec<u32> = clips::ALL.iter().map(|&(number, _)| number).collect();
    assert_eq!(told.map(Clip::number).to_vec(), numbers);
}

#[test]
fn the_four_answers_of_table_a() {
    let mut points = encode(&table_a(), &[21], RESET, 6, 6).contents.unwrap();
    assert_eq!(points[3], (-1, -1));
    assert_eq!(clip(&table_a(), &points, RESET), Clip::Straight);
    assert_eq!(clip(&table_a(), &half_turn(&points), RESET), Clip::Turned);
    for other in [(-1, 1), (1, -1), (0, 0), (-3, -3), (-2, -1)] {
        points[3] = other;
        assert_eq!(clip(&table_a(), &points, RESET), Clip::Neither);
    }
    assert_eq!(clip(&table_a_silent(), &points, RESET), Clip::CantTell);
}

/// Tone 4 is the last in t and at place 3 in t': the 1-bit tones 3 and 6 are behind it there.
#[test]
fn one_bit_tones_before_it_in_t_are_behind_it() {
    let reset_gives = Monitored {
        place: 3,
        own: (-1, -1),
    };
    assert_eq!(first_monitored(&table_a(), RESET), Some(reset_gives));
    for (register, own) in [(4, (1, 1)), (1, (1, -1)), (2, (-1, 1)), (3, (-1, -1))] {
        hold_at(&table_a(), register, 3, own);
    }
    let mut ones_first = table_a();
    ones_first.tones = vec![3, 6, 4, 7, 5, 2];
    hold_at(&ones_first, 1, 0, (1, -1));
}

/// Of register 16 the first two pairs of bits are 0 and 0, the third is 1 and 0.
#[test]
fn silent_tones_before_it_draw_too() {
    hold_at(&coded(&[0, 2, 2, 2, 2], &[512; 5]), 16, 0, (1, 1));
    let one_silent = [0, 512, 512, 512, 512, 512];
    hold_at(&coded(&[0, 0, 2, 2, 2, 2], &one_silent), 16, 1, (1, 1));
    let two_silent = [0, 512, 512, 0, 512, 512, 512];
    let tables = coded(&[0, 2, 2, 0, 0, 2, 2], &two_silent);
    hold_at(&tables, 16, 4, (1, -1));
    let mut behind_ones = coded(&[1, 0, 1, 0, 0, 2, 2, 2], &[512; 8]);
    (behind_ones.gains[1], behind_ones.gains[3]) = (0, 0);
    hold_at(&behind_ones, 16, 2, (1, -1));
}

/// The second one's bits are 1 and 0 where those of the first are 0 and 0.
#[test]
fn the_second_monitored_tone_does_not_matter() {
    let tables = coded(&[2, 0, 2, 0, 2, 2], &[512; 6]);
    for second in [(1, -1), (-1, 1), (1, 1), (0, 0), (-32_768, 5)] {
        let mut points = vec![(7, 7); 6];
        (points[1], points[3]) = ((1, 1), second);
        assert_eq!(clip(&tables, &points, 4), Clip::Straight);
        points[1] = (-1, -1);
        assert_eq!(clip(&tables, &points, 4), Clip::Turned);
        points[1] = (1, -1);
        assert_eq!(clip(&tables, &points, 4), Clip::Neither);
    }
}

#[test]
fn the_tables_are_coded_whatever_their_mode() {
    let uncoded = Tables {
        mode: Mode::Uncoded,
        ..table_a()
    };
    hold_at(&uncoded, RESET, 3, (-1, -1));
    let few = Tables {
        mode: Mode::Uncoded,
        ..coded(&[0, 2, 2, 2], &[512; 4])
    };
    assert_eq!(clip_check(&few, &[1; 4], &[1; 4], 1).number, FEW);
}

/// Coded cases with a monitored tone, each at every start.
fn at_every_start() -> impl Iterator<Item = Case> {
    let tells = |case: &Case| {
        let first = first_monitored(&case.tables, case.register);
        case.tables.mode == Mode::Coded && first.is_some()
    };
    let every_start = |case: Case| {
        (0..=7).map(move |start| Case {
            tables: case.tables.clone(),
            register: case.register,
            start,
        })
    };
    cases(400, 16)
        .into_iter()
        .filter(tells)
        .flat_map(every_start)
}

#[test]
fn written_symbols_and_turned_ones_are_told_as_two_readings_tell() {
    let mut count = 0;
    for case in at_every_start() {
        let (tables, register, start) = (&case.tables, case.register, case.start);
        for value in (0..1 << case.size()).take(32) {
            let (_, points) = case.write(value);
            let turned = half_turn(&points);
            for (points, told) in [(points, Clip::Straight), (turned, Clip::Turned)] {
                let by_reading = by_two_readings(tables, &points, register, start);
                assert_eq!(by_reading, told);
                assert_eq!(clip(tables, &points, register), told);
            }
            count += 1;
        }
    }
    assert!(count > 5000, "{count} symbols");
}

/// Each point of 2 bits at the first monitored tone, and data as written: what is read either way is
/// told so, and what is neither is not read. Where N is even, data as written is read turned, too.
#[test]
fn what_is_read_is_told_and_neither_is_not_read() {
    for case in at_every_start() {
        let (tables, register) = (&case.tables, case.register);
        let first = first_monitored(tables, register).expect("it has one");
        let (_, mut points) = case.write(0);
        for &other in constellation(2) {
            points[first.place] = other;
            let by_reading = by_two_readings(tables, &points, register, case.start);
            let told = clip(tables, &points, register);
            assert!([told, Clip::Neither].contains(&by_reading));
            assert_eq!(case.read(&points).number == DONE, told == Clip::Straight);
        }
    }
}

/// Number and place of a refusal, which tells no clip and hands the register back.
fn refused(tables: &Tables, x: &[i16], y: &[i16], register: u32) -> (u32, u32) {
    let answer = clip_check(tables, x, y, register);
    assert_eq!(
        (answer.size, answer.register, answer.contents),
        (0, register, None)
    );
    (answer.number, answer.place)
}

/// Bench table A after a change, with lengths and a register that are wrong too.
fn changed(change: impl Fn(&mut Tables)) -> (u32, u32) {
    let mut tables = table_a();
    change(&mut tables);
    refused(&tables, &[0; 5], &[0; 7], 0)
}

#[test]
fn tables_are_refused_first() {
    assert_eq!(changed(|a| a.gains.push(0)), (SIZE, 0));
    assert_eq!(changed(|a| a.tones[4] = 8), (TONE, 4));
    assert_eq!(changed(|a| a.tones[5] = 5), (TWICE, 5));
    assert_eq!(changed(|a| a.bits[2] = 16), (BITS, 2));
    assert_eq!(changed(|a| a.gains[1] = 1), (STRAY, 1));
    assert_eq!(changed(|a| a.gains[3] = 0), (GAIN, 3));
    assert_eq!(changed(|a| a.bits[3] = 2), (ODD, 0));
    assert_eq!(changed(|a| (a.bits[3], a.bits[6]) = (0, 0)), (FEW, 0));
}

#[test]
fn then_room_then_seed() {
    let zeros = [0; 7];
    for tables in [table_a(), table_a_silent()] {
        for register in [0, RESET + 1, u32::MAX, 1, RESET] {
            for (x, y) in [(5, 6), (7, 6), (6, 5), (6, 7), (0, 6), (6, 0), (5, 7)] {
                let told = refused(&tables, &zeros[..x], &zeros[..y], register);
                assert_eq!(told, (ROOM, 0));
            }
        }
        for register in [0, RESET + 1, u32::MAX] {
            let told = refused(&tables, &zeros[..6], &zeros[..6], register);
            assert_eq!(told, (SEED, 0));
        }
    }
}
