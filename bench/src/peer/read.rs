//! Points to a frame. All places pass 13 before any is tested for 14, all 14 before 15.

use super::bits::Sink;
use super::constellation::label_of;
use super::filler::Filler;
use super::plan::Plan;
use super::{trellis, Refusal, FRAME_ROOM, MONITOR, MOST_TONES, OFFGRID, TRELLIS};

/// Writes the frame once nothing can refuse, and hands back the register after the draws.
pub fn symbol(
    plan: &Plan,
    x: &[i16],
    y: &[i16],
    filler: Filler,
    (frame, start): (&mut [u8], u8),
) -> Result<Filler, Refusal> {
    let mut labels = [0; MOST_TONES];
    let labels = &mut labels[..plan.entries];
    test_grid(plan, x, y, labels)?;
    let filler = test_monitored(plan, x, y, filler)?;
    let bits = &plan.bits[..plan.entries];
    let mut padded = [0; FRAME_ROOM];
    let mut sink = Sink::new(&mut padded, start);
    if plan.coded {
        trellis::read(bits, labels, &mut sink).map_err(|pair| Refusal(TRELLIS, pair))?;
    } else {
        for (&label, &b) in labels.iter().zip(bits) {
            sink.put(u32::from(label), u32::from(b));
        }
    }
    frame.copy_from_slice(&padded[..frame.len()]);
    Ok(filler)
}

/// Reads every label. The loaded and the unloaded places lie mixed, the 1-bit tones last.
fn test_grid(plan: &Plan, x: &[i16], y: &[i16], labels: &mut [u16]) -> Result<(), Refusal> {
    let tones = read_tones(plan, x, y, labels);
    let unloaded = plan.unloaded().find(|&(place, monitored)| {
        let (x, y) = (i32::from(x[place]), i32::from(y[place]));
        let size = i32::from(monitored);
        x * x != size || y * y != size
    });
    match (tones, unloaded) {
        (Err(loaded), Some((place, _))) => Err(Refusal(OFFGRID, loaded.min(place))),
        (Err(place), None) | (Ok(()), Some((place, _))) => Err(Refusal(OFFGRID, place)),
        (Ok(()), None) => read_one_bit_tones(plan, x, y, labels),
    }
}

fn read_tones(plan: &Plan, x: &[i16], y: &[i16], labels: &mut [u16]) -> Result<(), usize> {
    let bits = &plan.bits[..plan.tones];
    let places = &plan.places[..plan.tones];
    for ((label, &b), &place) in labels.iter_mut().zip(bits).zip(places) {
        let place = usize::from(place);
        *label = label_of(b, x[place], y[place]).ok_or(place)? as u16;
    }
    Ok(())
}

/// The 1-bit tones that share an entry: the lower bit of its label is the first one's.
fn read_one_bit_tones(
    plan: &Plan,
    x: &[i16],
    y: &[i16],
    labels: &mut [u16],
) -> Result<(), Refusal> {
    for (entry, label) in labels.iter_mut().enumerate().skip(plan.tones) {
        let place = plan.first_of_two(entry);
        let bit = |at: usize| match (x[at], y[at]) {
            (1, 1) => Ok(0),
            (-1, -1) => Ok(1),
            _ => Err(Refusal(OFFGRID, at)),
        };
        *label = bit(place)? | bit(place + 1)? << 1;
    }
    Ok(())
}

fn test_monitored(
    plan: &Plan,
    x: &[i16],
    y: &[i16],
    mut filler: Filler,
) -> Result<Filler, Refusal> {
    for (place, monitored) in plan.unloaded() {
        let own = filler.draw_point();
        if monitored && own != (x[place], y[place]) {
            return Err(Refusal(MONITOR, place));
        }
    }
    Ok(filler)
}
