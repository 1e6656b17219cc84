//! Every bench figure of document 01, as amended, marked (*) and unmarked, and where quarter turns
//! are refused.

use clevisroot_sys::refusals::{DONE, FEW, FRAME, MONITOR, ODD, OFFGRID, TRELLIS};
use reference::figures::{equal_tones, table_a, table_a_of_twos, table_a_silent};
use reference::filler::RESET;
use reference::points::Point;
use reference::words::{lists_of, quarter_left, quarter_right};
use reference::{check, encode, map_label, read, reorder, Answer, Mode, Tables};

fn write(tables: &Tables, byte: u8) -> Answer<Vec<Point>> {
    encode(tables, &[byte], RESET, tables.nsc(), tables.nsc())
}

fn points(tables: &Tables, byte: u8) -> Vec<Point> {
    write(tables, byte).contents.unwrap()
}

fn size(tables: &Tables) -> (u32, u32) {
    let answer = check(tables);
    (answer.number, answer.size)
}

/// Frame 0 with every point turned: what reading it answers.
fn read_turned(tables: &Tables, turn: fn(&[Point]) -> Vec<Point>) -> (u32, u32) {
    let (x, y) = lists_of(&turn(&points(tables, 0)));
    let answer = read(tables, &x, &y, RESET, 1);
    (answer.number, answer.place)
}

#[test]
fn table_a_is_reordered() {
    let answer = reorder(&table_a(), 6, 6);
    let (tones, entries) = answer.contents.unwrap();
    assert_eq!(tones, [7, 5, 2, 4, 3, 6]);
    assert_eq!(entries, [0, 0, 4, 2, 3, 2]);
    assert_eq!(answer.size, 5);
}

#[test]
fn table_a_frame_0() {
    let answer = write(&table_a(), 0);
    let expected = [(1, 1), (1, 1), (1, 1), (-1, -1), (1, 1), (1, 1)];
    assert_eq!(answer.contents.unwrap(), expected);
    assert_eq!(answer.register, 2_097_151);
    assert_eq!((answer.number, answer.place, answer.size), (0, 0, 5));
}

#[test]
fn table_a_frame_1() {
    let expected = [(3, 3), (-1, -1), (1, 1), (-1, -1), (1, 1), (1, 1)];
    assert_eq!(points(&table_a(), 1), expected);
}

#[test]
fn silent_table_a_reads_frame_15() {
    let points = [(-1, -1), (-1, -1), (-1, -1), (0, 0), (-1, -1), (-1, -1)];
    let (x, y) = lists_of(&points);
    let answer = read(&table_a_silent(), &x, &y, RESET, 1);
    assert_eq!((answer.number, answer.contents.unwrap()), (0, vec![15]));
    assert_eq!(answer.register, 2_097_151);
}

#[test]
fn silent_table_a_draws_as_the_monitored_one_does() {
    assert_eq!(write(&table_a_silent(), 0).register, 2_097_151);
}

#[test]
fn table_a_frame_32_is_refused() {
    assert_eq!(write(&table_a(), 32).number, FRAME);
}

#[test]
fn five_two_bit_tones() {
    let five = equal_tones(5, 2, Mode::Coded);
    assert_eq!(size(&five), (DONE, 3));
    assert_eq!(
        points(&five, 1),
        [(-1, -1), (-1, 1), (-1, 1), (-1, 1), (-1, 1)]
    );
}

#[test]
fn few_and_odd() {
    assert_eq!(size(&equal_tones(3, 2, Mode::Coded)), (FEW, 0));
    assert_eq!(size(&equal_tones(4, 2, Mode::Coded)), (DONE, 2));
    assert_eq!(size(&equal_tones(1, 1, Mode::Coded)), (ODD, 0));
    assert_eq!(size(&equal_tones(1, 1, Mode::Uncoded)), (DONE, 1));
}

#[test]
fn single_labels() {
    let point = |bits, label| map_label(bits, label).contents.unwrap();
    assert_eq!(point(4, 9), (-3, 3));
    assert_eq!(
        [point(5, 16), point(5, 24), point(5, 31)],
        [(5, 1), (-3, 5), (-5, -1)]
    );
    assert_eq!([point(7, 64), point(7, 67)], [(9, 1), (11, 3)]);
    assert_eq!(point(15, 17_407), (191, 63));
}

#[test]
fn largest_frames() {
    assert_eq!(size(&equal_tones(4096, 15, Mode::Coded)), (DONE, 59_388));
    assert_eq!(size(&equal_tones(4096, 15, Mode::Uncoded)), (DONE, 61_440));
}

#[test]
fn quarter_turns_are_refused() {
    let twos = |count| equal_tones(count, 2, Mode::Coded);
    for (tables, refused) in [
        (table_a(), (OFFGRID, 4)),
        (table_a_of_twos(), (MONITOR, 5)),
        (twos(5), (TRELLIS, 0)),
        (twos(4), (TRELLIS, 0)),
        (twos(6), (TRELLIS, 1)),
    ] {
        assert_eq!(read_turned(&tables, quarter_left), refused);
        assert_eq!(read_turned(&tables, quarter_right), refused);
    }
}
