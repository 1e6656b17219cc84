//! "Bench figures": the page's tables, and its figures as lines of text.

use crate::filler::RESET;
use crate::forms::{Mode, Tables};
use crate::operations::{check, encode, map_label, read, reorder, Answer};
use crate::points::Point;
use crate::refusals::name;
use crate::words::{half_turn, lists_of, quarter_left, quarter_right};
use std::fmt::Display;

/// Bench table A.
pub fn table_a() -> Tables {
    Tables {
        mode: Mode::Coded,
        bits: vec![0, 0, 3, 1, 0, 2, 1, 4],
        gains: vec![0, 0, 512, 512, 512, 512, 512, 512],
        tones: vec![7, 3, 5, 2, 6, 4],
    }
}

/// Bench table A with the gain of tone 4 set to 0, so that no tone is monitored.
pub fn table_a_silent() -> Tables {
    let mut tables = table_a();
    tables.gains[4] = 0;
    tables
}

/// This many tones of equal bits, gain 512, in index order.
pub fn equal_tones(count: u16, bits: u8, mode: Mode) -> Tables {
    Tables {
        mode,
        bits: vec![bits; usize::from(count)],
        gains: vec![512; usize::from(count)],
        tones: (0..count).collect(),
    }
}

/// Bench table A with 2 bits for each tone of 1 bit.
pub fn table_a_of_twos() -> Tables {
    let mut tables = table_a();
    tables.bits = vec![0, 0, 3, 2, 0, 2, 2, 4];
    tables
}

/// Every figure of the page, one to a line, and what half a turn and quarter turns do.
pub fn page() -> String {
    let mut lines = vec!["bench figures".to_string()];
    lines.extend(table_a_figures());
    lines.extend(small_table_figures());
    lines.extend(point_figures());
    lines.extend(large_table_figures());
    lines.extend(half_turn_figures());
    lines.extend(quarter_turn_figures());
    lines.join("\n") + "\n"
}

fn table_a_figures() -> Vec<String> {
    let (a, silent) = (table_a(), table_a_silent());
    let (tones, entries) = reorder(&a, 6, 6).contents.expect("A is accepted");
    let turned = [(-1, -1), (-1, -1), (-1, -1), (0, 0), (-1, -1), (-1, -1)];
    vec![
        format!("table A: tones {}", words(&tones)),
        format!("table A: bits {}", words(&entries)),
        format!("table A: {}", size_line(&a)),
        format!("table A frame 0: {}", points_line(&a, 0)),
        format!("table A frame 0: register {}", write(&a, 0).register),
        format!("table A frame 1: {}", points_line(&a, 1)),
        format!("table A frame 32: {}", points_line(&a, 32)),
        format!("table A, gain of 4 is 0: points {}", point_words(&turned)),
        format!(
            "table A, gain of 4 is 0: read as {}",
            frame_line(&read_back(&silent, &turned))
        ),
        format!(
            "table A, gain of 4 is 0, frame 0: register {}",
            write(&silent, 0).register
        ),
    ]
}

fn small_table_figures() -> Vec<String> {
    let twos = |count| equal_tones(count, 2, Mode::Coded);
    let one = |mode| equal_tones(1, 1, mode);
    vec![
        format!("five 2-bit tones coded: {}", size_line(&twos(5))),
        format!(
            "five 2-bit tones coded, frame 1: {}",
            points_line(&twos(5), 1)
        ),
        format!("three 2-bit tones coded: {}", size_line(&twos(3))),
        format!("four 2-bit tones coded: {}", size_line(&twos(4))),
        format!("one 1-bit tone coded: {}", size_line(&one(Mode::Coded))),
        format!("one 1-bit tone uncoded: {}", size_line(&one(Mode::Uncoded))),
    ]
}

fn point_figures() -> Vec<String> {
    const ASKED: [(u8, u32); 7] = [
        (4, 9),
        (5, 16),
        (5, 24),
        (5, 31),
        (7, 64),
        (7, 67),
        (15, 17_407),
    ];
    let line = |(bits, label)| {
        let point = map_label(bits, label).contents.expect("the label fits");
        format!("{bits} bits label {label}: {}", point_words(&[point]))
    };
    ASKED.map(line).to_vec()
}

fn large_table_figures() -> Vec<String> {
    let large = |mode| size_line(&equal_tones(4096, 15, mode));
    vec![
        format!("4096 tones of 15 bits coded: {}", large(Mode::Coded)),
        format!("4096 tones of 15 bits uncoded: {}", large(Mode::Uncoded)),
    ]
}

fn half_turn_figures() -> Vec<String> {
    let twos = |count| equal_tones(count, 2, Mode::Coded);
    [
        vec!["half a turn: frame 0 written, every point turned, read".to_string()],
        half_turned("table A, tone 4 monitored", &table_a()),
        half_turned("five 2-bit tones, none monitored, N odd", &twos(5)),
        half_turned("four 2-bit tones, none monitored, N even", &twos(4)),
        half_turned(
            "table A, gain of 4 is 0, none monitored, N even",
            &table_a_silent(),
        ),
    ]
    .concat()
}

/// A table of each kind: by it goes what refuses a quarter turn, and where.
fn quarter_turn_figures() -> Vec<String> {
    let twos = |count| equal_tones(count, 2, Mode::Coded);
    [
        vec!["a quarter turn: frame 0 written, every point turned, read".to_string()],
        quarter_turned("table A, two 1-bit tones, tone 4 monitored", &table_a()),
        quarter_turned(
            "table A, 2 bits on 3 and 6, no 1-bit tone, tone 4 monitored",
            &table_a_of_twos(),
        ),
        quarter_turned("five 2-bit tones, none monitored, N odd", &twos(5)),
        quarter_turned("four 2-bit tones, none monitored, N 4", &twos(4)),
        quarter_turned(
            "six 2-bit tones, none monitored, N even and above 4",
            &twos(6),
        ),
    ]
    .concat()
}

/// Frame byte 0 written and read, as it is and with every point turned by half.
fn half_turned(tables_name: &str, tables: &Tables) -> Vec<String> {
    let points = frame_0(tables);
    let written = read_back(tables, &points);
    vec![
        tables_name.to_string(),
        format!("as written: read as {}", frame_line(&written)),
        format!("turned: {}", turned_line(tables, &half_turn(&points))),
    ]
}

/// Frame byte 0 written and read with every point turned by a quarter, each way.
fn quarter_turned(tables_name: &str, tables: &Tables) -> Vec<String> {
    let points = frame_0(tables);
    let [left, right] =
        [quarter_left, quarter_right].map(|turn| turned_line(tables, &turn(&points)));
    vec![
        tables_name.to_string(),
        format!("turned left: {left}"),
        format!("turned right: {right}"),
    ]
}

fn frame_0(tables: &Tables) -> Vec<Point> {
    write(tables, 0).contents.expect("frame 0 is accepted")
}

fn turned_line(tables: &Tables, turned: &[Point]) -> String {
    let answer = read_back(tables, turned);
    let place = answer.place;
    match answer.number {
        0 => format!("read as {}, the turn is not detected", frame_line(&answer)),
        15 => format!("refused 15 {} at pair {place}", name(15)),
        number => format!("refused {number} {} at place {place}", name(number)),
    }
}

fn write(tables: &Tables, byte: u8) -> Answer<Vec<Point>> {
    encode(tables, &[byte], RESET, tables.nsc(), tables.nsc())
}

fn read_back(tables: &Tables, points: &[Point]) -> Answer<Vec<u8>> {
    let (x, y) = lists_of(points);
    read(tables, &x, &y, RESET, 1)
}

fn size_line(tables: &Tables) -> String {
    let answer = check(tables);
    refusal_line(&answer).unwrap_or(format!("L {}", answer.size))
}

fn points_line(tables: &Tables, byte: u8) -> String {
    let answer = write(tables, byte);
    match &answer.contents {
        Some(points) => format!("points {}", point_words(points)),
        None => refusal_line(&answer).expect("no points, so refused"),
    }
}

fn frame_line(answer: &Answer<Vec<u8>>) -> String {
    format!("frame {}", words(answer.contents.as_ref().expect("read")))
}

fn refusal_line<C>(answer: &Answer<C>) -> Option<String> {
    let number = answer.number;
    (number != 0).then(|| format!("{number} {}", name(number)))
}

fn words<T: Display>(numbers: &[T]) -> String {
    let list: Vec<String> = numbers.iter().map(T::to_string).collect();
    list.join(" ")
}

fn point_words(points: &[Point]) -> String {
    let list: Vec<String> = points.iter().map(|(x, y)| format!("({x},{y})")).collect();
    list.join(" ")
}
