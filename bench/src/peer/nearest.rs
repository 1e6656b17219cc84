//! Received points to the nearest frame. Coded, the working buffer holds the survivors of each pair.

use super::bits::Sink;
use super::constellation::label_on_grid;
use super::cosets::{nearest_in_cosets, nearest_of_all, one_bit_costs};
use super::filler::Filler;
use super::path::{go_back, read_forward};
use super::plan::Plan;
use super::{Refusal, FRAME_ROOM, MOST_TONES, RANGE};

/// The largest coordinate that may be received, and the least with a minus.
const LARGEST: i16 = 1023;

/// The points as they were received, by place in t'.
#[derive(Clone, Copy)]
pub struct Received<'a> {
    pub x: &'a [i16],
    pub y: &'a [i16],
}

impl Received<'_> {
    #[inline(always)]
    fn at(self, place: usize) -> [i16; 2] {
        [self.x[place], self.y[place]]
    }
}

pub fn test_range(received: Received) -> Result<(), Refusal> {
    let any_outside = |list: &[i16]| list.iter().fold(false, |any, &c| any | is_outside(c));
    if any_outside(received.x) | any_outside(received.y) {
        return Err(first_outside(received));
    }
    Ok(())
}

fn is_outside(coordinate: i16) -> bool {
    !(-LARGEST..=LARGEST).contains(&coordinate)
}

#[cold]
fn first_outside(Received { x, y }: Received) -> Refusal {
    let mut places = x.iter().zip(y);
    let place = places.position(|(&x, &y)| is_outside(x) || is_outside(y));
    Refusal(RANGE, place.unwrap_or(0))
}

/// Writes the frame, and tells the total and the register after the draws.
pub fn symbol(
    plan: &Plan,
    received: Received,
    filler: Filler,
    (frame, start): (&mut [u8], u8),
    work: &mut [u8],
) -> (u64, Filler) {
    let mut padded = [0; FRAME_ROOM];
    let mut sink = Sink::new(&mut padded, start);
    let total = if plan.coded {
        let (survivors, _) = work.as_chunks_mut();
        read_coded(plan, received, survivors, &mut sink)
    } else {
        read_uncoded(plan, received, &mut sink)
    };
    frame.copy_from_slice(&padded[..frame.len()]);
    (total, filler.after_tones(plan.unloaded().count()))
}

fn read_uncoded(plan: &Plan, received: Received, sink: &mut Sink) -> u64 {
    let bits = &plan.bits[..plan.tones];
    let places = &plan.places[..plan.tones];
    let mut total = 0;
    for (&b, &place) in bits.iter().zip(places) {
        let (cost, [x, y]) = nearest_of_all(b, received.at(usize::from(place)));
        sink.put(label_on_grid(b, x, y), u32::from(b));
        total += u64::from(cost);
    }
    total
}

fn read_coded(plan: &Plan, received: Received, survivors: &mut [[u8; 16]], sink: &mut Sink) -> u64 {
    let mut costs = [[0; 4]; MOST_TONES];
    let mut points = [[[0; 2]; 4]; MOST_TONES];
    find_nearest(plan, received, &mut costs, &mut points);
    let total = go_back(&costs[..plan.entries], survivors);
    let label = |entry: usize, low: u32| {
        if entry < plan.tones {
            let [x, y] = points[entry][low as usize % 4];
            label_on_grid(plan.bits[entry], x, y)
        } else {
            low
        }
    };
    read_forward(&plan.bits[..plan.entries], survivors, label, sink);
    total
}

/// By entry and coset, the squared distance of the nearest point and that point. The label of two 1-bit
/// tones is its two lowest bits, and they have a point each, so that none is found for them.
fn find_nearest(
    plan: &Plan,
    received: Received,
    costs: &mut [[u32; 4]; MOST_TONES],
    points: &mut [[[i16; 2]; 4]; MOST_TONES],
) {
    let tones = plan.bits.iter().zip(&plan.places).take(plan.tones);
    for ((cost, point), (&b, &place)) in costs.iter_mut().zip(points).zip(tones) {
        (*cost, *point) = nearest_in_cosets(b, received.at(usize::from(place)));
    }
    for (entry, cost) in costs
        .iter_mut()
        .enumerate()
        .take(plan.entries)
        .skip(plan.tones)
    {
        let first = plan.first_of_two(entry);
        let [v0, v1] = [first, first + 1].map(|place| one_bit_costs(received.at(place)));
        *cost = [v0[0] + v1[0], v0[1] + v1[0], v0[0] + v1[1], v0[1] + v1[1]];
    }
}
