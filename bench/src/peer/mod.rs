//! A hand-written fast implementation of the same calls: word-wise bit access, small tables for
//! the constellations, everything in linear time on the stack. No unsafe code.

pub(crate) mod bits;
mod clip;
mod constellation;
mod cosets;
mod filler;
mod nearest;
pub(crate) mod path;
mod plan;
mod read;
mod tables;
mod tally;
mod trellis;
mod write;

use clevisroot_sys::{Answer, Drawn, Label, Nearest, Point, Tables};
use constellation::{label_of, point_of};
use filler::{register_valid, Filler};
use nearest::Received;
use plan::Plan;

pub use clip::clip_check;
pub use tally::{tally_new, tally_read, tally_refused};

/// The largest G.
const MOST_TONES: usize = 4096;
/// The bytes of the largest frame, and room for a word past its end.
pub(crate) const FRAME_ROOM: usize = clevisroot_sys::MAX_FRAME + 8;

const SIZE: u32 = 1;
const TONE: u32 = 2;
const TWICE: u32 = 3;
const BITS: u32 = 4;
const STRAY: u32 = 5;
const GAIN: u32 = 6;
const ODD: u32 = 7;
const FEW: u32 = 8;
const ROOM: u32 = 10;
const FRAME: u32 = 11;
const SEED: u32 = 12;
const OFFGRID: u32 = 13;
const MONITOR: u32 = 14;
const TRELLIS: u32 = 15;
const LABEL: u32 = 16;
const FULL: u32 = 22;
const RANGE: u32 = 23;

/// A number and its place.
#[derive(Clone, Copy)]
struct Refusal(u32, usize);

/// L and the register after the draws.
type Outcome = Result<(usize, u32), Refusal>;

fn answer(reg: u32, outcome: Outcome) -> Answer {
    match outcome {
        Ok((l, reg)) => Answer {
            number: 0,
            place: 0,
            size: l as u32,
            reg,
        },
        Err(Refusal(number, place)) => Answer {
            number,
            place: place as u32,
            size: 0,
            reg,
        },
    }
}

fn refuse_if(applies: bool, number: u32) -> Result<(), Refusal> {
    if applies {
        Err(Refusal(number, 0))
    } else {
        Ok(())
    }
}

pub fn check(tables: Tables) -> Answer {
    answer(0, tables::check(&tables).map(|counts| (counts.l, 0)))
}

pub fn reorder(tables: Tables, tones_out: &mut [u16], bits_out: &mut [u8]) -> Answer {
    answer(0, try_reorder(&tables, tones_out, bits_out))
}

pub fn encode(tables: Tables, frame: &[u8], reg: u32, x: &mut [i16], y: &mut [i16]) -> Answer {
    encode_at(tables, frame, 0, reg, x, y)
}

pub fn encode_at(
    tables: Tables,
    frame: &[u8],
    start: u8,
    reg: u32,
    x: &mut [i16],
    y: &mut [i16],
) -> Answer {
    answer(reg, try_encode(&tables, frame, start, reg, x, y))
}

pub fn read(tables: Tables, x: &[i16], y: &[i16], reg: u32, frame: &mut [u8]) -> Answer {
    read_at(tables, x, y, reg, frame, 0)
}

pub fn read_at(
    tables: Tables,
    x: &[i16],
    y: &[i16],
    reg: u32,
    frame: &mut [u8],
    start: u8,
) -> Answer {
    answer(reg, try_read(&tables, x, y, reg, frame, start))
}

pub fn read_nearest(
    tables: Tables,
    x: &[i16],
    y: &[i16],
    reg: u32,
    frame: &mut [u8],
    start: u8,
    work: &mut [u8],
) -> Nearest {
    let outcome = try_nearest(&tables, Received { x, y }, reg, (frame, start), work);
    let total = outcome.as_ref().map_or(0, |&(_, _, total)| total);
    let Answer {
        number,
        place,
        size,
        reg,
    } = answer(reg, outcome.map(|(l, reg, _)| (l, reg)));
    Nearest {
        number,
        place,
        size,
        reg,
        total,
    }
}

fn try_reorder(tables: &Tables, tones_out: &mut [u16], bits_out: &mut [u8]) -> Outcome {
    let counts = tables::check(tables)?;
    let nsc = tables.tones.len();
    refuse_if(tones_out.len() != nsc || bits_out.len() != nsc, ROOM)?;
    tables::reorder(tables, &counts, tones_out, bits_out);
    Ok((counts.l, 0))
}

fn try_encode(
    tables: &Tables,
    frame: &[u8],
    start: u8,
    reg: u32,
    x: &mut [i16],
    y: &mut [i16],
) -> Outcome {
    let counts = tables::check(tables)?;
    let nsc = tables.tones.len();
    refuse_if(x.len() != nsc || y.len() != nsc, ROOM)?;
    refuse_if(!bits::frame_accepted(frame, start, counts.l), FRAME)?;
    refuse_if(!register_valid(reg), SEED)?;
    let plan = Plan::new(tables, &counts);
    let after = write::symbol(&plan, (frame, start), Filler(reg), x, y);
    Ok((counts.l, after.0))
}

fn try_read(
    tables: &Tables,
    x: &[i16],
    y: &[i16],
    reg: u32,
    frame: &mut [u8],
    start: u8,
) -> Outcome {
    let counts = tables::check(tables)?;
    let nsc = tables.tones.len();
    let bytes = (usize::from(start) + counts.l).div_ceil(8);
    let exact = x.len() == nsc && y.len() == nsc && frame.len() == bytes;
    refuse_if(!exact, ROOM)?;
    refuse_if(start > 7, FRAME)?;
    refuse_if(!register_valid(reg), SEED)?;
    let plan = Plan::new(tables, &counts);
    let after = read::symbol(&plan, x, y, Filler(reg), (frame, start))?;
    Ok((counts.l, after.0))
}

/// L, the register after the draws, and the total.
fn try_nearest(
    tables: &Tables,
    received: Received,
    reg: u32,
    (frame, start): (&mut [u8], u8),
    work: &mut [u8],
) -> Result<(usize, u32, u64), Refusal> {
    let counts = tables::check(tables)?;
    let nsc = tables.tones.len();
    let bytes = (usize::from(start) + counts.l).div_ceil(8);
    let points_exact = received.x.len() == nsc && received.y.len() == nsc;
    let exact = points_exact && frame.len() == bytes && work.len() == 16 * counts.pairs;
    refuse_if(!exact, ROOM)?;
    refuse_if(start > 7, FRAME)?;
    refuse_if(!register_valid(reg), SEED)?;
    nearest::test_range(received)?;
    let plan = Plan::new(tables, &counts);
    let (total, after) = nearest::symbol(&plan, received, Filler(reg), (frame, start), work);
    Ok((counts.l, after.0, total))
}

pub fn map_label(bits: u8, label: u32) -> Point {
    if !(1..=15).contains(&bits) || label >> bits != 0 {
        return Point {
            number: LABEL,
            x: 0,
            y: 0,
        };
    }
    let (x, y) = point_of(bits, label);
    Point { number: 0, x, y }
}

pub fn read_point(bits: u8, x: i16, y: i16) -> Label {
    let refused = |number| Label { number, label: 0 };
    if !(1..=15).contains(&bits) {
        return refused(LABEL);
    }
    match label_of(bits, x, y) {
        Some(label) => Label { number: 0, label },
        None => refused(OFFGRID),
    }
}

pub fn draw(reg: u32) -> Drawn {
    if !register_valid(reg) {
        return Drawn {
            number: SEED,
            bit: 0,
            reg,
        };
    }
    Drawn {
        number: 0,
        bit: reg & 1,
        reg: Filler(reg).after_one().0,
    }
}
