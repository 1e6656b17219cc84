//! One symbol: the bits of a frame to points in t' order, and points in t' order to the bits.

use crate::coding::{encode_pairs, read_pairs};
use crate::filler::Filler;
use crate::forms::{Class, Mode, Place, Tables};
use crate::points::{bits_of_number, label_of, point_of, Point};
use crate::refusals::{refuse_if, Refusal};
use crate::reordering::{pairs, reordered_bits, reordered_tones};

/// The class of each place in t'.
pub fn classes(tables: &Tables) -> Vec<Class> {
    reordered_tones(tables)
        .iter()
        .map(|&tone| tables.class_of(tone))
        .collect()
}

/// The points of a frame's L bits, and the register after the draws. Every 0-bit tone draws two
/// bits; a silent one's are thrown away.
pub fn write_points(tables: &Tables, frame: &[bool], register: u32) -> (Vec<Point>, u32) {
    let sent = match tables.mode {
        Mode::Uncoded => frame.to_vec(),
        Mode::Coded => encode_pairs(&pairs(&reordered_bits(tables)), frame),
    };
    let mut filler = Filler::from_register(register);
    let mut taken = 0;
    let mut points = Vec::new();
    for class in classes(tables) {
        points.push(match class {
            Class::Data(b) => {
                taken += b;
                point_of(&sent[taken - b..taken])
            }
            Class::Monitored => point_of(&filler.draw_label()),
            Class::Silent => {
                filler.draw_label();
                (0, 0)
            }
        });
    }
    (points, filler.register())
}

/// The L frame bits that the points carry, and the register after the draws. All places pass 13
/// before any is tested for 14, all 14 before 15.
pub fn read_points(
    tables: &Tables,
    points: &[Point],
    register: u32,
) -> Result<(Vec<bool>, u32), Refusal> {
    let classes = classes(tables);
    let sent = read_labels(&classes, points)?;
    let register = test_monitored(&classes, points, register)?;
    let frame = match tables.mode {
        Mode::Uncoded => sent,
        Mode::Coded => {
            let pairs = pairs(&reordered_bits(tables));
            read_pairs(&pairs, &sent).map_err(Refusal::Trellis)?
        }
    };
    Ok((frame, register))
}

/// The labels of the loaded tones in t' order as one list of bits, or OFFGRID.
fn read_labels(classes: &[Class], points: &[Point]) -> Result<Vec<bool>, Refusal> {
    let mut sent = Vec::new();
    for (p, (&class, &point)) in classes.iter().zip(points).enumerate() {
        let offgrid = Refusal::Offgrid(Place(p));
        match class {
            Class::Data(b) => {
                let label = label_of(b, point).ok_or(offgrid)?;
                sent.extend(bits_of_number(label, b));
            }
            Class::Monitored => refuse_if(label_of(2, point).is_none(), offgrid)?,
            Class::Silent => refuse_if(point != (0, 0), offgrid)?,
        }
    }
    Ok(sent)
}

/// The register after the draws, or MONITOR. A silent tone's bits are thrown away.
fn test_monitored(classes: &[Class], points: &[Point], register: u32) -> Result<u32, Refusal> {
    let mut filler = Filler::from_register(register);
    for (p, (&class, &point)) in classes.iter().zip(points).enumerate() {
        if matches!(class, Class::Data(_)) {
            continue;
        }
        let given = point_of(&filler.draw_label());
        let wrong = class == Class::Monitored && point != given;
        refuse_if(wrong, Refusal::Monitor(Place(p)))?;
    }
    Ok(filler.register())
}
