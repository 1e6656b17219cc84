//! A frame to points.

use super::bits::Source;
use super::constellation::point_of;
use super::filler::Filler;
use super::plan::Plan;
use super::{trellis, FRAME_ROOM, MOST_TONES};

/// Writes every point and hands back the register after the draws.
pub fn symbol(
    plan: &Plan,
    (frame, start): (&[u8], u8),
    filler: Filler,
    x: &mut [i16],
    y: &mut [i16],
) -> Filler {
    let mut padded = [0; FRAME_ROOM];
    padded[..frame.len()].copy_from_slice(frame);
    let mut source = Source::new(&padded, start);
    let mut labels = [0; MOST_TONES];
    let labels = &mut labels[..plan.entries];
    let bits = &plan.bits[..plan.entries];
    if plan.coded {
        trellis::encode(bits, &mut source, labels);
    } else {
        for (label, &b) in labels.iter_mut().zip(bits) {
            *label = source.take(u32::from(b)) as u16;
        }
    }
    write_tones(plan, labels, x, y);
    write_one_bit_tones(plan, labels, x, y);
    write_unloaded(plan, filler, x, y)
}

fn write_tones(plan: &Plan, labels: &[u16], x: &mut [i16], y: &mut [i16]) {
    let bits = &plan.bits[..plan.tones];
    let places = &plan.places[..plan.tones];
    for ((&label, &b), &place) in labels.iter().zip(bits).zip(places) {
        let place = usize::from(place);
        (x[place], y[place]) = point_of(b, u32::from(label));
    }
}

/// The 1-bit tones that share an entry: the lower bit of its label is the first one's.
fn write_one_bit_tones(plan: &Plan, labels: &[u16], x: &mut [i16], y: &mut [i16]) {
    for (entry, &label) in labels.iter().enumerate().skip(plan.tones) {
        let place = plan.first_of_two(entry);
        let (first, second) = (1 - 2 * (label & 1) as i16, 1 - (label & 2) as i16);
        x[place..place + 2].copy_from_slice(&[first, second]);
        y[place..place + 2].copy_from_slice(&[first, second]);
    }
}

/// Every tone without bits draws; a silent one has the point (0, 0) all the same.
fn write_unloaded(plan: &Plan, mut filler: Filler, x: &mut [i16], y: &mut [i16]) -> Filler {
    for (place, monitored) in plan.unloaded() {
        let (own_x, own_y) = filler.draw_point();
        let size = i16::from(monitored);
        (x[place], y[place]) = (size * own_x, size * own_y);
    }
    filler
}
