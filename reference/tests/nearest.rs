//! Request R-13: noisy points are read as a frame that no other comes nearer than.

mod small;

use clevisroot_sys::refusals::{DONE, FRAME, ODD, RANGE, ROOM, SEED};
use reference::figures::{equal_tones, table_a, table_a_silent};
use reference::filler::RESET;
use reference::forms::frame_bytes;
use reference::nearest::{smallest_of_all, total_distance, work_bytes};
use reference::points::Point;
use reference::words::lists_of;
use reference::{check, encode_at, read_nearest, Answer, Mode, Tables};
use small::{cases, Case, Random};

type Nearest = Answer<(Vec<u8>, u64)>;

/// Reads with the right lengths, from this register and start.
fn decide(tables: &Tables, received: &[Point], register: u32, start: u8) -> Nearest {
    let (x, y) = lists_of(received);
    let room = frame_bytes(start, check(tables).size as usize);
    let work = work_bytes(tables);
    read_nearest(tables, &x, &y, register, room, start, work)
}

/// The total of a frame, by writing it.
fn total_of(case: &Case, frame: &[u8], received: &[Point]) -> u64 {
    let Case {
        tables,
        register,
        start,
    } = case;
    let nsc = tables.nsc();
    let written = encode_at(tables, frame, *start, *register, nsc, nsc);
    let written = written.contents.expect("the frame is accepted");
    total_distance(tables, &written, received)
}

/// Each coordinate moved by at most this much, and kept in the range.
fn noisy(random: &mut Random, points: &[Point], most: i16) -> Vec<Point> {
    let mut moved = |coordinate: i16| {
        let by = random.below(2 * most as u64 + 1) as i16 - most;
        (coordinate + by).clamp(-1023, 1023)
    };
    points.iter().map(|&(x, y)| (moved(x), moved(y))).collect()
}

#[test]
fn no_frame_is_nearer() {
    let mut random = Random(5);
    for case in cases(240, 12) {
        let (_, written) = case.write(random.below(1 << case.size()) as usize);
        for most in [0, 1, 2, 3, 5, 1023] {
            let received = noisy(&mut random, &written, most);
            let answer = decide(&case.tables, &received, case.register, case.start);
            assert_eq!((answer.number, answer.size as usize), (DONE, case.size()));
            let (frame, total) = answer.contents.expect("it is done");
            let (smallest, _) = smallest_of_all(&case.tables, &received, case.register);
            assert_eq!(
                (total, total_of(&case, &frame, &received)),
                (smallest, smallest)
            );
        }
    }
}

#[test]
fn points_that_are_read_have_total_0_and_the_same_frame() {
    for case in cases(120, 12) {
        for value in 0..1 << case.size() {
            let (frame, points) = case.write(value);
            let exact = case.read(&points);
            let answer = decide(&case.tables, &points, case.register, case.start);
            assert_eq!((answer.number, answer.size), (DONE, exact.size));
            assert_eq!(answer.register, exact.register);
            assert_eq!(answer.contents, Some((frame, 0)));
        }
    }
}

#[test]
fn monitored_and_silent_tones_do_not_count() {
    for tables in [table_a(), table_a_silent()] {
        let written = encode_at(&tables, &[21], 0, RESET, 6, 6);
        let mut received = written.contents.expect("it is accepted");
        received[3] = (1023, -1023);
        let answer = decide(&tables, &received, RESET, 0);
        assert_eq!(answer.register, 2_097_151);
        assert_eq!(answer.contents, Some((vec![21], 0)));
    }
}

#[test]
fn a_small_error_is_taken_back_and_told() {
    let written = encode_at(&table_a(), &[21], 0, RESET, 6, 6);
    let mut received = written.contents.expect("it is accepted");
    received[0].0 += 1;
    received[2].1 -= 1;
    let answer = decide(&table_a(), &received, RESET, 0);
    assert_eq!(answer.contents, Some((vec![21], 2)));
}

/// The nearest point of 1 bit to (1023, −1023) is as far as both are.
#[test]
fn a_total_can_pass_32_bits() {
    let tables = equal_tones(4096, 1, Mode::Uncoded);
    let answer = decide(&tables, &vec![(1023, -1023); 4096], RESET, 0);
    let (_, total) = answer.contents.expect("it is done");
    assert_eq!(total, 4096 * (1022 * 1022 + 1024 * 1024));
}

#[test]
fn the_working_buffer_has_16_bytes_a_pair() {
    assert_eq!(work_bytes(&table_a()), 32);
    assert_eq!(work_bytes(&equal_tones(5, 2, Mode::Coded)), 48);
    assert_eq!(work_bytes(&equal_tones(8, 1, Mode::Coded)), 32);
    assert_eq!(work_bytes(&equal_tones(10, 1, Mode::Coded)), 48);
    assert_eq!(work_bytes(&equal_tones(4095, 15, Mode::Coded)), 32_768);
    assert_eq!(work_bytes(&equal_tones(4096, 15, Mode::Coded)), 32_768);
    assert_eq!(work_bytes(&equal_tones(4096, 15, Mode::Uncoded)), 0);
}

#[test]
fn room_then_frame_then_seed_then_range() {
    let (a, far) = (table_a(), [1024; 7]);
    let refused = |lens: (usize, usize), register, room, start, work, told: (u32, u32)| {
        let (x, y) = (&far[..lens.0], &far[..lens.1]);
        let answer = read_nearest(&a, x, y, register, room, start, work);
        assert_eq!((answer.number, answer.place), told);
        assert_eq!(
            (answer.size, answer.register, answer.contents),
            (0, register, None)
        );
    };
    refused((5, 6), 0, 2, 8, 32, (ROOM, 0));
    refused((6, 7), 0, 2, 8, 32, (ROOM, 0));
    refused((6, 6), 0, 1, 8, 32, (ROOM, 0));
    for work in [0, 16, 31, 33, 48] {
        refused((6, 6), 0, 2, 8, work, (ROOM, 0));
    }
    refused((6, 6), 0, 2, 8, 32, (FRAME, 0));
    refused((6, 6), 0, 2, 7, 32, (SEED, 0));
    refused((6, 6), RESET, 2, 7, 32, (RANGE, 0));
    let mut odd = table_a();
    odd.bits[3] = 2;
    assert_eq!(read_nearest(&odd, &far, &far, 0, 9, 8, 9).number, ODD);
    let uncoded = Tables {
        mode: Mode::Uncoded,
        ..a
    };
    let with_work = |work| read_nearest(&uncoded, &[0; 6], &[0; 6], 1, 2, 0, work).number;
    assert_eq!((with_work(0), with_work(16)), (DONE, ROOM));
}
