//! The calls: which refusals each uses, in the order in which it tests them, and what each answers.

use crate::clip::{clip_of, Clip};
use crate::filler::{register_valid, Filler};
use crate::forms::{bits_of_frame, frame_accepted, frame_bytes, frame_of_bits};
use crate::forms::{start_accepted, Mode, Place, Tables};
use crate::nearest::{nearest_bits, test_range, work_bytes};
use crate::plain;
use crate::points::{constellation, label_of, Point};
use crate::refusals::{refuse_if, test_tables, Refusal};
use crate::reordering::{frame_size, reordered_bits, reordered_tones};
use crate::symbol::{read_points, write_points};
use crate::tally::{figures_of, Entry, Tally};

/// What a call answers. Without contents every lent buffer is as it came.
#[derive(Clone, Debug, PartialEq, Eq)]
pub struct Answer<C> {
    pub number: u32,
    pub place: u32,
    /// L, 0 on refusal, in the clip check, the one-tone calls and those of a tally.
    pub size: u32,
    /// The register after the draws, as given on refusal, 0 where none was given.
    pub register: u32,
    pub contents: Option<C>,
}

/// L, the register after the draws, and the contents.
type Done<C> = (usize, u32, C);

fn answer<C>(given: u32, outcome: Result<Done<C>, Refusal>) -> Answer<C> {
    match outcome {
        Ok((l, register, contents)) => Answer {
            number: 0,
            place: 0,
            size: u32::try_from(l).expect("L is at most 61,440"),
            register,
            contents: Some(contents),
        },
        Err(refusal) => Answer {
            number: refusal.number(),
            place: refusal.place(),
            size: 0,
            register: given,
            contents: None,
        },
    }
}

/// Checks the tables and tells L: 1 to 8.
pub fn check(tables: &Tables) -> Answer<()> {
    answer(0, test_tables(tables).map(|()| (frame_size(tables), 0, ())))
}

/// t' and b' for lent lists of these lengths: 1 to 8 and 10.
pub fn reorder(
    tables: &Tables,
    tones_room: usize,
    bits_room: usize,
) -> Answer<(Vec<u16>, Vec<u8>)> {
    let outcome = || {
        test_tables(tables)?;
        let nsc = tables.nsc();
        refuse_if(tones_room != nsc || bits_room != nsc, Refusal::Room)?;
        let tones = reordered_tones(tables)
            .iter()
            .map(|tone| tone.0 as u16)
            .collect();
        let bits = reordered_bits(tables)
            .iter()
            .map(|&entry| entry as u8)
            .collect();
        Ok((frame_size(tables), 0, (tones, bits)))
    };
    answer(0, outcome())
}

/// Encoding a frame that starts at bit 0.
pub fn encode(
    tables: &Tables,
    frame: &[u8],
    register: u32,
    x_room: usize,
    y_room: usize,
) -> Answer<Vec<Point>> {
    encode_at(tables, frame, 0, register, x_room, y_room)
}

/// The points of a frame from this start, for lent lists of these lengths: 1 to 8 and 10 to 12.
pub fn encode_at(
    tables: &Tables,
    frame: &[u8],
    start: u8,
    register: u32,
    x_room: usize,
    y_room: usize,
) -> Answer<Vec<Point>> {
    let outcome = || {
        test_tables(tables)?;
        let (nsc, l) = (tables.nsc(), frame_size(tables));
        refuse_if(x_room != nsc || y_room != nsc, Refusal::Room)?;
        refuse_if(!frame_accepted(frame, start, l), Refusal::Frame)?;
        refuse_if(!register_valid(register), Refusal::Seed)?;
        let bits = bits_of_frame(frame, start, l);
        let (points, after) = write_points(tables, &bits, register);
        Ok((l, after, points))
    };
    answer(register, outcome())
}

/// Reading a frame that starts at bit 0.
pub fn read(
    tables: &Tables,
    x: &[i16],
    y: &[i16],
    register: u32,
    frame_room: usize,
) -> Answer<Vec<u8>> {
    read_at(tables, x, y, register, frame_room, 0)
}

/// The frame of the points from this start, for a lent frame of this length: 1 to 8 and 10 to 15, of
/// which 11 is for the start alone.
pub fn read_at(
    tables: &Tables,
    x: &[i16],
    y: &[i16],
    register: u32,
    frame_room: usize,
    start: u8,
) -> Answer<Vec<u8>> {
    let outcome = || {
        test_tables(tables)?;
        let (nsc, l) = (tables.nsc(), frame_size(tables));
        let exact = x.len() == nsc && y.len() == nsc && frame_room == frame_bytes(start, l);
        refuse_if(!exact, Refusal::Room)?;
        refuse_if(!start_accepted(start), Refusal::Frame)?;
        refuse_if(!register_valid(register), Refusal::Seed)?;
        let points: Vec<Point> = x.iter().copied().zip(y.iter().copied()).collect();
        let (bits, after) = read_points(tables, &points, register)?;
        Ok((l, after, frame_of_bits(&bits, start)))
    };
    answer(register, outcome())
}

/// A frame from this start whose points are nearest to the received ones, and the total of its squared
/// distances, for a lent frame and a working buffer of these lengths: 1 to 8, 10 to 12 and 23.
pub fn read_nearest(
    tables: &Tables,
    x: &[i16],
    y: &[i16],
    register: u32,
    frame_room: usize,
    start: u8,
    work_room: usize,
) -> Answer<(Vec<u8>, u64)> {
    let outcome = || {
        test_tables(tables)?;
        let (nsc, l) = (tables.nsc(), frame_size(tables));
        let exact = x.len() == nsc && y.len() == nsc && frame_room == frame_bytes(start, l);
        refuse_if(!exact || work_room != work_bytes(tables), Refusal::Room)?;
        refuse_if(!start_accepted(start), Refusal::Frame)?;
        refuse_if(!register_valid(register), Refusal::Seed)?;
        let received: Vec<Point> = x.iter().copied().zip(y.iter().copied()).collect();
        test_range(&received)?;
        let (bits, total) = nearest_bits(tables, &received);
        let (_, after) = write_points(tables, &bits, register);
        Ok((l, after, (frame_of_bits(&bits, start), total)))
    };
    answer(register, outcome())
}

/// What the first monitored tone tells of the clip: 1 to 8, 10 and 12. The tables are coded whatever
/// their mode says, and the register comes back as it was given.
pub fn clip_check(tables: &Tables, x: &[i16], y: &[i16], register: u32) -> Answer<Clip> {
    let tables = &Tables {
        mode: Mode::Coded,
        ..tables.clone()
    };
    let outcome = || {
        test_tables(tables)?;
        let nsc = tables.nsc();
        refuse_if(x.len() != nsc || y.len() != nsc, Refusal::Room)?;
        refuse_if(!register_valid(register), Refusal::Seed)?;
        Ok((0, register, clip_of(tables, x, y, register)))
    };
    answer(register, outcome())
}

/// The point of one label: 16.
pub fn map_label(bits: u8, label: u32) -> Answer<Point> {
    map_by(|b, label| constellation(b)[label], bits, label)
}

/// The same by the plain rule.
pub fn plain_map_label(bits: u8, label: u32) -> Answer<Point> {
    map_by(plain::point_of, bits, label)
}

fn map_by(rule: fn(usize, usize) -> Point, bits: u8, label: u32) -> Answer<Point> {
    let b = usize::from(bits);
    let fits = (1..=15).contains(&b) && label < 1 << b;
    let outcome = refuse_if(!fits, Refusal::Label);
    answer(0, outcome.map(|()| (0, 0, rule(b, label as usize))))
}

/// The label of one point: 16 for the bits, then 13.
pub fn read_point(bits: u8, x: i16, y: i16) -> Answer<u32> {
    read_by(label_of, bits, (x, y))
}

/// The same by the plain rule.
pub fn plain_read_point(bits: u8, x: i16, y: i16) -> Answer<u32> {
    read_by(plain::label_of, bits, (x, y))
}

fn read_by(rule: fn(usize, Point) -> Option<usize>, bits: u8, point: Point) -> Answer<u32> {
    let b = usize::from(bits);
    let outcome = || {
        refuse_if(!(1..=15).contains(&b), Refusal::Label)?;
        let label = rule(b, point).ok_or(Refusal::Offgrid(Place(0)))?;
        Ok((0, 0, label as u32))
    };
    answer(0, outcome())
}

/// One filler bit: 12.
pub fn draw(register: u32) -> Answer<bool> {
    let outcome = || {
        refuse_if(!register_valid(register), Refusal::Seed)?;
        let mut filler = Filler::from_register(register);
        let bit = filler.draw();
        Ok((0, filler.register(), bit))
    };
    answer(register, outcome())
}

/// A new tally, which is as reset: the figures of no entries.
pub fn tally_new() -> Tally {
    figures_of(&[])
}

/// Counting a symbol, which was read or refused: 22, then 11. Without contents the tally is as it came.
pub fn tally_entry(tally: &Tally, entry: &Entry) -> Answer<Tally> {
    let outcome = tally.test(entry);
    answer(0, outcome.map(|()| (0, 0, tally.with(entry))))
}
