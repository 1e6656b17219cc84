//! What would be decided if points were not rounded: the peer's search with distances in a finer unit, to
//! see what rounding costs.

use crate::peer::bits::{Buffer, Sink};
use crate::peer::path::{go_back, read_forward};
use crate::peer::{map_label, FRAME_ROOM};

/// Parts of the unit that coordinates are rounded to after all.
const PARTS: i32 = 64;

/// Symbols of an even number of tones that all have the same bit count.
pub struct Unrounded {
    b: u8,
    /// By label, in the finer unit.
    points: Vec<[i32; 2]>,
}

impl Unrounded {
    pub fn new(b: u8) -> Unrounded {
        let point = |label| {
            let point = map_label(b, label);
            [point.x, point.y].map(|coordinate| PARTS * i32::from(coordinate))
        };
        let points = (0..1 << b).map(point).collect();
        Unrounded { b, points }
    }

    /// The nearest frame of a coded symbol, from bit 0.
    pub fn read_coded(&self, received: &[[f64; 2]]) -> Buffer {
        let nearest = received.iter().map(|&point| self.nearest_in_cosets(point));
        let nearest: Vec<[(u32, u32); 4]> = nearest.collect();
        let costs = nearest.iter().map(|cosets| cosets.map(|(cost, _)| cost));
        let costs: Vec<[u32; 4]> = costs.collect();
        let mut survivors = vec![[0; 16]; received.len() / 2];
        go_back(&costs, &mut survivors);
        let mut frame = [0; FRAME_ROOM];
        let bits = vec![self.b; received.len()];
        let label = |entry: usize, low: u32| nearest[entry][low as usize].1;
        read_forward(&bits, &survivors, label, &mut Sink::new(&mut frame, 0));
        frame
    }

    /// By coset, the squared distance of the nearest point, and its label.
    fn nearest_in_cosets(&self, received: [f64; 2]) -> [(u32, u32); 4] {
        let [x, y] = received.map(|coordinate| (f64::from(PARTS) * coordinate) as i32);
        let mut nearest = [(u32::MAX, 0); 4];
        for (label, point) in (0..).zip(&self.points) {
            let cost = (x - point[0]).pow(2) + (y - point[1]).pow(2);
            let coset = &mut nearest[label as usize % 4];
            *coset = (*coset).min((cost as u32, label));
        }
        nearest
    }
}
