//! Frames, registers, lent lengths and the numbers of the one-tone calls, right and wrong.

use crate::random::Random;
use crate::tables::change;
use reference::filler::RESET;
use reference::forms::frame_of_bits;
use reference::points::constellation;
use std::ops::Range;

/// The bit of its first byte that a frame starts at: 0 to 7, once in a while above.
pub fn random_start(random: &mut Random) -> u8 {
    match random.below(12) {
        0 => {
            let other = random.word() as u8;
            random.pick(&[8, 255, other])
        }
        1..=4 => 0,
        _ => random.within(1, 7) as u8,
    }
}

/// A frame of L bits from this start, once in a while one that isn't.
pub fn random_frame(random: &mut Random, l: usize, start: u8) -> Vec<u8> {
    let mut frame = packed_frame(random, l, start);
    if random.one_in(8) {
        let own = usize::from(start)..usize::from(start) + l;
        let end = 8 * frame.len();
        match random.below(6) {
            0 => drop(frame.pop()),
            1 => frame.push(0),
            2 => frame = vec![0; random.below(40)],
            3 => {
                let other = random_start(random);
                frame = packed_frame(random, l, other);
            }
            4 => set_bit(random, &mut frame, 0..own.start),
            _ => set_bit(random, &mut frame, own.end..end),
        }
    }
    frame
}

/// Sets one of these bits, if there are any.
fn set_bit(random: &mut Random, frame: &mut [u8], among: Range<usize>) {
    if !among.is_empty() {
        let k = random.within(among.start, among.end - 1);
        frame[k / 8] |= 1 << (k % 8);
    }
}

/// L bits from this start, zeros around them: accepted, if the start is.
pub fn packed_frame(random: &mut Random, l: usize, start: u8) -> Vec<u8> {
    let style = random.below(6);
    let mut bit = || match style {
        0 => false,
        1 => true,
        _ => random.one_in(2),
    };
    let bits: Vec<bool> = (0..l).map(|_| bit()).collect();
    frame_of_bits(&bits, start)
}

/// A register, once in a while one that isn't valid.
pub fn random_register(random: &mut Random) -> u32 {
    if random.one_in(16) {
        random.pick(&[0, RESET + 1, u32::MAX, 1 << 24, 1 << 31])
    } else {
        valid_register(random)
    }
}

pub fn valid_register(random: &mut Random) -> u32 {
    match random.below(6) {
        0 => RESET,
        1 => 1 << random.below(23),
        _ => random.within(1, RESET as usize) as u32,
    }
}

/// The exact length, once in a while another.
pub fn random_room(random: &mut Random, exact: usize) -> usize {
    if random.one_in(24) {
        let other = random.below(30);
        random.pick(&[0, exact + 1, exact.saturating_sub(1), 2 * exact, other])
    } else {
        exact
    }
}

/// A bit count for a one-tone call.
pub fn random_bits(random: &mut Random) -> u8 {
    match random.below(10) {
        0 => random.pick(&[0, 16, 17, 31, 32, 33, 64, 255]),
        1 => random.word() as u8,
        _ => random.within(1, 15) as u8,
    }
}

/// A label for a one-tone call.
pub fn random_label(random: &mut Random, bits: u8) -> u32 {
    let count = 1_u32 << bits.min(15);
    match random.below(8) {
        0 => random.word() as u32,
        1 => random.pick(&[count, count - 1, count + 1, u32::MAX, 1 << 16]),
        _ => random.below(count as usize) as u32,
    }
}

/// A point for a one-tone call: of the constellation, near it, or anywhere.
pub fn random_point(random: &mut Random, bits: u8) -> (i16, i16) {
    let (mut x, mut y) = random.pick(constellation(usize::from(bits.clamp(1, 15))));
    match random.below(6) {
        0 => (x, y) = (random.word() as i16, random.word() as i16),
        1 => x += random.pick(&[-2, -1, 1, 2]),
        2 => (x, y) = (y.wrapping_neg(), x),
        3 => {
            let mut list = [x, y];
            change(random, &mut list, &EXTREMES);
            [x, y] = list;
        }
        _ => {}
    }
    (x, y)
}

/// Coordinates at the ends of 16 bits, and those that leave a constellation when cut.
pub const EXTREMES: [i16; 8] = [
    i16::MIN,
    i16::MIN + 1,
    i16::MAX,
    i16::MAX - 1,
    0,
    257,
    -513,
    4097,
];
