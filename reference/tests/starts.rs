//! Frames that start at bit 0 to 7 of their first byte: where their bits are, what is refused of
//! them, and in which order.

use clevisroot_sys::refusals::{DONE, FRAME, ODD, OFFGRID, ROOM, SEED};
use reference::figures::{equal_tones, table_a};
use reference::filler::RESET;
use reference::forms::frame_bytes;
use reference::points::Point;
use reference::words::lists_of;
use reference::{check, encode, encode_at, read, read_at, Answer, Mode, Tables};
use std::collections::BTreeSet;

/// Coded and uncoded tables, each with L of every remainder by 8, and L = 0.
fn tables_of_every_remainder() -> Vec<Tables> {
    let coded = (2..=9).map(|bits| equal_tones(5, bits, Mode::Coded));
    let uncoded = (0..=8).map(|bits| equal_tones(3, bits, Mode::Uncoded));
    coded.chain(uncoded).collect()
}

fn size(tables: &Tables) -> usize {
    check(tables).size as usize
}

/// A frame of L bits, at most 56, as the lowest bytes of a number that is moved up by the start.
fn moved(value: u64, start: u8, l: usize) -> Vec<u8> {
    let whole = (value % (1 << l)) << start;
    whole.to_le_bytes()[..(usize::from(start) + l).div_ceil(8)].to_vec()
}

fn write_at(tables: &Tables, frame: &[u8], start: u8) -> Answer<Vec<Point>> {
    encode_at(tables, frame, start, RESET, tables.nsc(), tables.nsc())
}

fn read_back_at(tables: &Tables, points: &[Point], room: usize, start: u8) -> Answer<Vec<u8>> {
    let (x, y) = lists_of(points);
    read_at(tables, &x, &y, RESET, room, start)
}

/// A refusal of this number: place 0, size 0, the register as given, and nothing written.
fn assert_refused<C: std::fmt::Debug + PartialEq>(answer: Answer<C>, number: u32, register: u32) {
    let expected = Answer {
        number,
        place: 0,
        size: 0,
        register,
        contents: None,
    };
    assert_eq!(answer, expected);
}

#[test]
fn every_remainder_comes_coded_and_uncoded() {
    for mode in [Mode::Coded, Mode::Uncoded] {
        let tables = tables_of_every_remainder();
        let of_mode = tables.iter().filter(|tables| tables.mode == mode);
        let remainders: BTreeSet<usize> = of_mode.map(|tables| size(tables) % 8).collect();
        assert_eq!(remainders.len(), 8);
    }
}

#[test]
fn the_start_moves_the_bits_and_no_point() {
    for tables in tables_of_every_remainder() {
        let l = size(&tables);
        for value in [0, u64::MAX, 0x9e37_79b9_7f4a_7c15] {
            let at_0 = moved(value, 0, l);
            let written = encode(&tables, &at_0, RESET, tables.nsc(), tables.nsc());
            assert_eq!((written.number, written.size as usize), (DONE, l));
            let points = written.contents.clone().unwrap();
            for start in 0..=7 {
                let frame = moved(value, start, l);
                assert_eq!(write_at(&tables, &frame, start), written);
                let answer = read_back_at(&tables, &points, frame.len(), start);
                assert_eq!((answer.number, answer.register), (DONE, written.register));
                assert_eq!((answer.size as usize, answer.contents), (l, Some(frame)));
            }
        }
    }
}

#[test]
fn the_calls_without_a_start_have_start_0() {
    let a = table_a();
    for byte in 0..=255 {
        let written = encode(&a, &[byte], RESET, 6, 6);
        assert_eq!(written, encode_at(&a, &[byte], 0, RESET, 6, 6));
        let (x, y) = lists_of(&written.contents.unwrap_or(vec![(1, 1); 6]));
        for room in 0..3 {
            let answer = read(&a, &x, &y, RESET, room);
            assert_eq!(answer, read_at(&a, &x, &y, RESET, room, 0));
        }
    }
}

#[test]
fn a_bit_before_the_start_or_after_the_end_is_refused() {
    for tables in tables_of_every_remainder() {
        let l = size(&tables);
        for start in 0..=7 {
            let own = usize::from(start)..usize::from(start) + l;
            let mut frame = vec![0; frame_bytes(start, l)];
            for k in 0..8 * frame.len() {
                frame[k / 8] = 1 << (k % 8);
                let answer = write_at(&tables, &frame, start);
                frame[k / 8] = 0;
                match own.contains(&k) {
                    true => assert_eq!(answer.number, DONE),
                    false => assert_refused(answer, FRAME, RESET),
                }
            }
        }
    }
}

#[test]
fn another_count_of_bytes_is_refused() {
    for tables in tables_of_every_remainder() {
        let l = size(&tables);
        for start in 0..=7 {
            let exact = (usize::from(start) + l).div_ceil(8);
            let frame = vec![0; exact];
            let points = write_at(&tables, &frame, start).contents.unwrap();
            for bytes in (0..exact + 3).filter(|&bytes| bytes != exact) {
                assert_refused(write_at(&tables, &vec![0; bytes], start), FRAME, RESET);
                assert_refused(read_back_at(&tables, &points, bytes, start), ROOM, RESET);
            }
        }
    }
}

#[test]
fn a_frame_of_no_bits_is_a_byte_of_zeros_unless_its_start_is_0() {
    let none = equal_tones(3, 0, Mode::Uncoded);
    for start in 1..=7 {
        let written = write_at(&none, &[0], start);
        assert_eq!((written.number, written.size), (DONE, 0));
        let read = read_back_at(&none, &written.contents.unwrap(), 1, start);
        assert_eq!((read.number, read.contents), (DONE, Some(vec![0])));
        assert_refused(write_at(&none, &[], start), FRAME, RESET);
        for byte in 1..=255 {
            assert_refused(write_at(&none, &[byte], start), FRAME, RESET);
        }
    }
    assert_eq!(write_at(&none, &[], 0).number, DONE);
    assert_refused(write_at(&none, &[0], 0), FRAME, RESET);
}

/// The bytes are counted with the start that was given, so that only one length passes ROOM.
#[test]
fn a_start_above_7_is_refused() {
    for tables in tables_of_every_remainder() {
        let points = vec![(1, 1); tables.nsc()];
        for start in [8, 9, 15, 16, 128, 255] {
            let exact = (usize::from(start) + size(&tables)).div_ceil(8);
            for bytes in 0..exact + 3 {
                assert_refused(write_at(&tables, &vec![0; bytes], start), FRAME, RESET);
                let number = if bytes == exact { FRAME } else { ROOM };
                assert_refused(read_back_at(&tables, &points, bytes, start), number, RESET);
            }
        }
    }
    assert_eq!(frame_bytes(255, 0), 32);
}

/// Bench table A with an odd number of 1-bit tones.
fn odd_table() -> Tables {
    let mut tables = table_a();
    tables.bits[3] = 2;
    tables
}

#[test]
fn encoding_tests_room_then_frame_then_seed() {
    let a = table_a();
    let refused = |frame: &[u8], start, x_room, number| {
        assert_refused(encode_at(&a, frame, start, 0, x_room, 6), number, 0);
    };
    refused(&[0, 0], 8, 5, ROOM);
    refused(&[0, 0], 8, 6, FRAME);
    refused(&[4], 3, 6, FRAME);
    refused(&[0, 2], 4, 6, FRAME);
    refused(&[8], 3, 6, SEED);
    assert_eq!(encode_at(&a, &[8], 3, 1, 6, 6).number, DONE);
    let odd = encode_at(&odd_table(), &[0, 0], 8, 0, 5, 6);
    assert_refused(odd, ODD, 0);
}

#[test]
fn reading_tests_room_then_frame_then_seed_then_the_points() {
    let (a, zeros) = (table_a(), [0; 7]);
    let refused = |x_len: usize, register, room, start, number| {
        let answer = read_at(&a, &zeros[..x_len], &zeros[..6], register, room, start);
        assert_refused(answer, number, register);
    };
    refused(5, 0, 2, 8, ROOM);
    refused(7, 0, 2, 8, ROOM);
    refused(6, 0, 1, 8, ROOM);
    refused(6, 0, 2, 8, FRAME);
    refused(6, RESET, 2, 8, FRAME);
    refused(6, 0, 2, 7, SEED);
    refused(6, RESET, 2, 7, OFFGRID);
    let odd = read_at(&odd_table(), &zeros, &zeros, 0, 9, 8);
    assert_refused(odd, ODD, 0);
}

#[test]
fn the_largest_frame_has_7681_bytes() {
    let largest = equal_tones(4096, 15, Mode::Uncoded);
    for (start, bytes) in [(0, 7680), (1, 7681), (7, 7681)] {
        let mut frame = vec![0; bytes];
        assert_eq!(write_at(&largest, &frame, start).number, DONE);
        frame.push(0);
        assert_eq!(write_at(&largest, &frame, start).number, FRAME);
    }
}
