//! The one-tone calls on every label, and on every point near the origin and far beyond the
//! constellations; nearest reading of symbols with so few frames that each is tried, and of the largest.

use crate::compare::{Comparison, Mismatch};
use crate::inputs::EXTREMES;
use crate::nearest::Received;
use crate::random::Random;
use crate::received::noisy_points;
use crate::tables::GivenTables;
use reference::filler::RESET;
use reference::forms::frame_bytes;
use reference::nearest::work_bytes;
use reference::points::{constellation, Point};
use reference::words::lists_of;
use reference::{Mode, Tables};

/// By both mappers: all labels of 1 to `most_bits` bits both ways and all points of a square, then for
/// every bit count, right or wrong, labels of every size and points at the ends of 16 bits.
pub fn one_tone(comparison: &mut Comparison, most_bits: u8) -> Result<(), Mismatch> {
    for bits in 1..=most_bits {
        every_label(comparison, bits)?;
        every_point_near(comparison, bits)?;
        every_point_far(comparison, bits)?;
    }
    for bits in 0..=255 {
        label_sizes(comparison, bits)?;
        extreme_points(comparison, bits)?;
    }
    Ok(())
}

fn every_label(comparison: &mut Comparison, bits: u8) -> Result<(), Mismatch> {
    let points = constellation(usize::from(bits));
    for (label, &(x, y)) in points.iter().enumerate() {
        comparison.map_by_both(bits, label as u32)?;
        comparison.read_by_both(bits, x, y)?;
    }
    Ok(())
}

fn every_point_near(comparison: &mut Comparison, bits: u8) -> Result<(), Mismatch> {
    for x in -40..=40 {
        for y in -40..=40 {
            comparison.read_point(bits, x, y)?;
        }
    }
    Ok(())
}

/// A square that reaches beyond every constellation, then 16-bit coordinates each way. The reference's direct rule
/// searches too long for that, so the other mapper is held to the plain one alone.
fn every_point_far(comparison: &mut Comparison, bits: u8) -> Result<(), Mismatch> {
    for x in -300..=300 {
        for y in -300..=300 {
            comparison.plain_read_point(bits, x, y)?;
        }
    }
    for far in i16::MIN..=i16::MAX {
        for (x, y) in [(far, 1), (-1, far), (far, far)] {
            comparison.plain_read_point(bits, x, y)?;
        }
    }
    Ok(())
}

/// Every power of 2 with its neighbours: below 2 to the bits, at it and above.
fn label_sizes(comparison: &mut Comparison, bits: u8) -> Result<(), Mismatch> {
    for power in (0..32).map(|k| 1_u32 << k) {
        for label in power - 1..=power + 1 {
            comparison.map_by_both(bits, label)?;
        }
    }
    comparison.map_by_both(bits, u32::MAX)
}

fn extreme_points(comparison: &mut Comparison, bits: u8) -> Result<(), Mismatch> {
    let coordinates = [&EXTREMES[..], &[-1, 1]].concat();
    for &x in &coordinates {
        for &y in &coordinates {
            comparison.read_by_both(bits, x, y)?;
        }
    }
    Ok(())
}

/// Bit counts in the order of t with L at most 8. The first tone of 0 bits is monitored, the others are
/// silent.
const FEW_FRAMES: [(Mode, &[u8]); 24] = [
    (Mode::Coded, &[2, 2, 2, 2]),
    (Mode::Coded, &[8, 2, 2, 2]),
    (Mode::Coded, &[2, 8, 2, 2]),
    (Mode::Coded, &[2, 2, 8, 2]),
    (Mode::Coded, &[2, 2, 2, 8]),
    (Mode::Coded, &[5, 3, 2, 2]),
    (Mode::Coded, &[2, 2, 3, 7]),
    (Mode::Coded, &[3, 3, 4, 4]),
    (Mode::Coded, &[3, 0, 3, 3, 0, 3]),
    (Mode::Coded, &[7, 2, 2, 2, 2]),
    (Mode::Coded, &[3, 2, 5, 2, 2]),
    (Mode::Coded, &[2, 0, 2, 0, 2, 0, 2, 6]),
    (Mode::Coded, &[2, 2, 2, 2, 2, 2]),
    (Mode::Coded, &[2, 2, 2, 2, 2, 2, 2]),
    (Mode::Coded, &[2, 2, 2, 2, 2, 2, 2, 2]),
    (Mode::Coded, &[1, 1, 1, 1, 1, 1, 1, 1]),
    (Mode::Coded, &[1, 3, 1, 1, 5, 1]),
    (Mode::Coded, &[1, 0, 1, 4, 1, 0, 1, 1, 1]),
    (Mode::Uncoded, &[8]),
    (Mode::Uncoded, &[1, 7]),
    (Mode::Uncoded, &[3, 5]),
    (Mode::Uncoded, &[0, 1, 1, 0, 6]),
    (Mode::Uncoded, &[2, 1, 3]),
    (Mode::Uncoded, &[0, 0]),
];

/// Every start, with noise of every size.
pub fn few_frames(comparison: &mut Comparison) -> Result<(), Mismatch> {
    let random = &mut Random::for_case(0, 0);
    for (mode, counts) in FEW_FRAMES {
        let given = loaded(mode, counts);
        let l = reference::check(&given.tables).size as usize;
        for start in 0..8 {
            for most in [0, 1, 2, 4, 9, 100, 2046] {
                let points = noisy_points(random, &given.tables, l, most);
                let received = received(&given.tables, &points, start);
                comparison.read_nearest(random, &given, &received)?;
            }
        }
    }
    Ok(())
}

/// All 4096 tones as far off as can be.
pub fn largest_symbols(comparison: &mut Comparison) -> Result<(), Mismatch> {
    let random = &mut Random::for_case(0, 1);
    let loads = [
        (Mode::Coded, 1),
        (Mode::Coded, 2),
        (Mode::Coded, 15),
        (Mode::Uncoded, 1),
        (Mode::Uncoded, 10),
    ];
    for (mode, bits) in loads {
        let given = loaded(mode, &[bits; 4096]);
        let received = received(&given.tables, &[(1023, -1023); 4096], 7);
        comparison.read_nearest(random, &given, &received)?;
    }
    Ok(())
}

/// Tables with these bit counts in the order of t. The first tone of 0 bits is monitored, the others are silent.
pub fn loaded(mode: Mode, counts: &[u8]) -> GivenTables {
    let first_zero = counts.iter().position(|&bits| bits == 0);
    let gain = |(k, &bits): (usize, &u8)| match bits {
        0 if Some(k) != first_zero => 0,
        _ => 512,
    };
    let tables = Tables {
        mode,
        bits: counts.to_vec(),
        gains: counts.iter().enumerate().map(gain).collect(),
        tones: (0..counts.len() as u16).collect(),
    };
    let coded = u8::from(mode == Mode::Coded);
    GivenTables { coded, tables }
}

/// The points with the right lengths.
fn received(tables: &Tables, points: &[Point], start: u8) -> Received {
    let (x, y) = lists_of(points);
    let l = reference::check(tables).size as usize;
    Received {
        x,
        y,
        register: RESET,
        start,
        frame_room: frame_bytes(start, l),
        work_room: work_bytes(tables),
    }
}
