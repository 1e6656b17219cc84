//! Every refusal number with its place, and the order in which they are tested.

use clevisroot_sys::refusals::*;
use reference::figures::{equal_tones, table_a};
use reference::filler::RESET;
use reference::points::Point;
use reference::tally::{Entry, Tally};
use reference::words::lists_of;
use reference::{check, draw, encode, map_label, read, read_nearest, read_point, reorder};
use reference::{tally_entry, tally_new, Mode, Tables};

/// Number and place for bench table A after a change.
fn changed(change: impl Fn(&mut Tables)) -> (u32, u32) {
    let mut tables = table_a();
    change(&mut tables);
    let answer = check(&tables);
    assert_eq!(
        (answer.size, answer.register, answer.contents),
        (0, 0, None)
    );
    (answer.number, answer.place)
}

/// Number and place for bench table A's frame 0 read after a change of its points.
fn read_changed(change: impl Fn(&mut Vec<Point>)) -> (u32, u32) {
    let mut points = encode(&table_a(), &[0], RESET, 6, 6).contents.unwrap();
    change(&mut points);
    let (x, y) = lists_of(&points);
    let answer = read(&table_a(), &x, &y, RESET, 1);
    assert_eq!(
        (answer.size, answer.register, answer.contents),
        (0, RESET, None)
    );
    (answer.number, answer.place)
}

#[test]
fn names_are_the_library_s() {
    for &(number, name) in ALL {
        assert_eq!(reference::refusals::name(number), name);
    }
}

#[test]
fn size_1() {
    assert_eq!(changed(|a| a.gains.push(0)), (SIZE, 0));
    assert_eq!(changed(|a| a.gains.truncate(7)), (SIZE, 0));
    assert_eq!(changed(|a| a.tones.clear()), (SIZE, 0));
    assert_eq!(changed(|a| a.tones = (0..9).collect()), (SIZE, 0));
    assert_eq!(changed(|a| (a.bits, a.gains) = (vec![], vec![])), (SIZE, 0));
    assert_eq!(check(&equal_tones(4097, 0, Mode::Uncoded)).number, SIZE);
    assert_eq!(check(&equal_tones(4096, 0, Mode::Uncoded)).number, DONE);
}

#[test]
fn tone_2() {
    assert_eq!(
        changed(|a| (a.tones[1], a.tones[4]) = (8, 65_535)),
        (TONE, 1)
    );
}

#[test]
fn twice_3() {
    assert_eq!(changed(|a| a.tones[5] = 5), (TWICE, 5));
    assert_eq!(changed(|a| (a.tones[3], a.tones[5]) = (7, 3)), (TWICE, 3));
}

#[test]
fn bits_4() {
    assert_eq!(changed(|a| (a.bits[1], a.bits[7]) = (16, 255)), (BITS, 1));
    assert_eq!(changed(|a| a.bits[2] = 16), (BITS, 2));
}

#[test]
fn stray_5() {
    assert_eq!(changed(|a| a.gains[1] = 1), (STRAY, 1));
    assert_eq!(changed(|a| (a.bits[0], a.bits[1]) = (1, 1)), (STRAY, 0));
}

#[test]
fn gain_6() {
    assert_eq!(changed(|a| (a.gains[3], a.gains[6]) = (0, 4096)), (GAIN, 3));
    assert_eq!(changed(|a| (a.gains[3], a.gains[6]) = (4096, 0)), (GAIN, 3));
    let mut tables = table_a();
    tables.gains[3] = 4095;
    assert_eq!(check(&tables).number, DONE);
}

#[test]
fn odd_7_and_few_8() {
    assert_eq!(changed(|a| a.bits[3] = 2), (ODD, 0));
    assert_eq!(changed(|a| (a.bits[3], a.bits[6]) = (0, 0)), (FEW, 0));
}

#[test]
fn room_10() {
    let a = table_a();
    assert_eq!(reorder(&a, 5, 6).number, ROOM);
    assert_eq!(reorder(&a, 6, 7).number, ROOM);
    assert_eq!(encode(&a, &[32], 0, 7, 6).number, ROOM);
    assert_eq!(encode(&a, &[32], 0, 6, 0).number, ROOM);
    assert_eq!(read(&a, &[0; 6], &[0; 5], 0, 1).number, ROOM);
    assert_eq!(read(&a, &[0; 7], &[0; 6], 0, 1).number, ROOM);
    assert_eq!(read(&a, &[0; 6], &[0; 6], 0, 2).number, ROOM);
}

#[test]
fn frame_11() {
    for frame in [&[][..], &[32], &[0, 0]] {
        let answer = encode(&table_a(), frame, 0, 6, 6);
        assert_eq!(
            (answer.number, answer.place, answer.register),
            (FRAME, 0, 0)
        );
    }
}

#[test]
fn seed_12() {
    for register in [0, 8_388_608, u32::MAX] {
        let encoded = encode(&table_a(), &[0], register, 6, 6);
        assert_eq!(
            (encoded.number, encoded.place, encoded.register),
            (SEED, 0, register)
        );
        let read = read(&table_a(), &[0; 6], &[0; 6], register, 1);
        assert_eq!(
            (read.number, read.place, read.register),
            (SEED, 0, register)
        );
        let drawn = draw(register);
        assert_eq!(
            (drawn.number, drawn.register, drawn.contents),
            (SEED, register, None)
        );
    }
}

#[test]
fn offgrid_13_before_monitor_14_before_trellis_15() {
    assert_eq!(read_changed(|points| points[1] = (3, 1)), (OFFGRID, 1));
    assert_eq!(read_changed(|points| points[3] = (1, 1)), (MONITOR, 3));
    assert_eq!(read_changed(|points| points[0] = (1, -1)), (TRELLIS, 0));
    assert_eq!(read_changed(|points| points[5] = (-1, -1)), (TRELLIS, 1));
    assert_eq!(
        read_changed(|points| (points[0], points[3]) = ((1, -1), (1, 1))),
        (MONITOR, 3)
    );
    let all = |points: &mut Vec<Point>| {
        (points[0], points[3], points[5]) = ((1, -1), (1, 1), (1, -1));
    };
    assert_eq!(read_changed(all), (OFFGRID, 5));
}

#[test]
fn monitored_has_two_bits_and_silent_one_point() {
    assert_eq!(read_changed(|points| points[3] = (0, 0)), (OFFGRID, 3));
    assert_eq!(read_changed(|points| points[3] = (3, 1)), (OFFGRID, 3));
    let silent = Tables {
        mode: Mode::Uncoded,
        bits: vec![0],
        gains: vec![0],
        tones: vec![0],
    };
    assert_eq!(read(&silent, &[0], &[0], 1, 0).number, DONE);
    assert_eq!(read(&silent, &[0], &[1], 1, 0).number, OFFGRID);
}

#[test]
fn label_16_then_offgrid_13() {
    for (bits, label) in [
        (0, 0),
        (16, 0),
        (255, 0),
        (1, 2),
        (15, 32_768),
        (4, u32::MAX),
    ] {
        let answer = map_label(bits, label);
        assert_eq!(
            (answer.number, answer.place, answer.contents),
            (LABEL, 0, None)
        );
    }
    assert_eq!(read_point(0, 1, 1).number, LABEL);
    assert_eq!(read_point(16, 0, 0).number, LABEL);
    let offgrid = read_point(2, 3, 1);
    assert_eq!(
        (offgrid.number, offgrid.place, offgrid.contents),
        (OFFGRID, 0, None)
    );
}

/// At every place, loaded (0 and 5) or not (3), and of several the first.
#[test]
fn range_23() {
    let told = |changes: &[(usize, Point)]| {
        let mut received = [(0, 0); 6];
        changes.iter().for_each(|&(p, point)| received[p] = point);
        let (x, y) = lists_of(&received);
        let answer = read_nearest(&table_a(), &x, &y, RESET, 1, 0, 32);
        assert_eq!(answer.contents.is_none(), answer.number != DONE);
        (answer.number, answer.place)
    };
    for p in [0, 3, 5] {
        for far in [1024, -1024, i16::MAX, i16::MIN] {
            assert_eq!(told(&[(p, (far, 0))]), (RANGE, p as u32));
            assert_eq!(told(&[(p, (0, far))]), (RANGE, p as u32));
        }
        assert_eq!(told(&[(p, (1023, -1023))]), (DONE, 0));
        assert_eq!(told(&[(p, (-1023, 1023))]), (DONE, 0));
    }
    assert_eq!(told(&[(4, (1024, 0)), (3, (0, -1024))]), (RANGE, 3));
}

/// The number with which an entry is refused by a tally of so many symbols.
fn counted(symbols: u32, entry: Entry) -> u32 {
    let tally = Tally {
        symbols,
        ..tally_new()
    };
    let answer = tally_entry(&tally, &entry);
    assert_eq!(answer.contents.is_none(), answer.number != DONE);
    assert_eq!((answer.place, answer.size, answer.register), (0, 0, 0));
    answer.number
}

fn read_entry(sent: usize, read: usize) -> Entry {
    Entry::Read {
        sent: vec![0; sent],
        read: vec![0; read],
    }
}

fn refused_entry(sent: usize, refusal: u32) -> Entry {
    Entry::Refused {
        sent: vec![0; sent],
        refusal,
    }
}

#[test]
fn full_22_before_frame_11() {
    for symbols in [65_535, 65_536, u32::MAX] {
        assert_eq!(counted(symbols, read_entry(1, 1)), FULL);
        assert_eq!(counted(symbols, read_entry(1, 2)), FULL);
        assert_eq!(counted(symbols, refused_entry(1, 1)), FULL);
        assert_eq!(counted(symbols, refused_entry(1, 0)), FULL);
    }
    for symbols in [0, 65_534] {
        assert_eq!(counted(symbols, read_entry(1, 1)), DONE);
        assert_eq!(counted(symbols, refused_entry(1, 1)), DONE);
    }
}

#[test]
fn frame_11_of_an_entry() {
    for (sent, read) in [(0, 1), (1, 0), (7681, 7680), (7681, 7682), (7682, 7682)] {
        assert_eq!(counted(0, read_entry(sent, read)), FRAME);
    }
    for (sent, refusal) in [(0, 0), (7681, 0), (7682, 1), (7682, 0)] {
        assert_eq!(counted(0, refused_entry(sent, refusal)), FRAME);
    }
    for bytes in [0, 1, 7680, 7681] {
        assert_eq!(counted(0, read_entry(bytes, bytes)), DONE);
        for refusal in [1, 9, 24, u32::MAX] {
            assert_eq!(counted(0, refused_entry(bytes, refusal)), DONE);
        }
    }
}

#[test]
fn the_smallest_number_is_given() {
    let told = |tables: &Tables| (check(tables).number, check(tables).place);
    let mut tables = table_a();
    tables.bits[0] = 16;
    tables.gains[1] = 5000;
    tables.tones[2] = 3;
    tables.tones[4] = 8;
    assert_eq!(told(&tables), (TONE, 4));
    tables.tones[4] = 6;
    assert_eq!(told(&tables), (TWICE, 2));
    tables.tones[2] = 5;
    assert_eq!(told(&tables), (BITS, 0));
    tables.bits[0] = 0;
    assert_eq!(told(&tables), (STRAY, 1));
    tables.gains[1] = 0;
    tables.gains[7] = 4096;
    tables.bits[3] = 2;
    assert_eq!(told(&tables), (GAIN, 7));
    tables.gains[7] = 512;
    assert_eq!(told(&tables), (ODD, 0));
}
