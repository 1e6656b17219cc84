//! Random tables of all styles, whole and damaged in every way that document 01 names.

use crate::random::Random;
use reference::Mode;

/// The mode byte as the library is given it, and the tables as the reference is.
#[derive(Clone, Debug)]
pub struct GivenTables {
    pub coded: u8,
    pub tables: reference::Tables,
}

impl GivenTables {
    pub fn lent(&self) -> clevisroot_sys::Tables<'_> {
        clevisroot_sys::Tables {
            coded: self.coded,
            bits: &self.tables.bits,
            gains: &self.tables.gains,
            tones: &self.tables.tones,
        }
    }
}

/// Bit counts that a table draws from; a repeated count is likelier.
const STYLES: [&[u8]; 9] = [
    &[0, 1, 2, 3, 4, 5, 6, 7, 8, 9, 10, 11, 12, 13, 14, 15],
    &[0, 1, 1, 1, 1, 2, 3, 5],
    &[1],
    &[0, 0, 0, 0, 0, 1, 2, 4, 15],
    &[0, 0, 0, 2],
    &[2],
    &[1, 2, 3],
    &[5, 7, 9, 11],
    &[12, 13, 14, 15],
];

/// Gains that a tone without bits draws from: silent, monitored or both.
const ZERO_BIT_GAINS: [&[u16]; 4] = [&[0], &[512], &[0, 512], &[0, 0, 0, 1, 4095]];

pub fn random_tables(random: &mut Random) -> GivenTables {
    let mode = random.pick(&[Mode::Coded, Mode::Coded, Mode::Uncoded]);
    let coded = match mode {
        Mode::Uncoded => 0,
        Mode::Coded => random.pick(&[1, 1, 1, 2, 128, 255]),
    };
    let g = random_length(random);
    let nsc = if random.one_in(2) {
        g
    } else {
        random.within(1, g)
    };
    let tones = random_tones(random, g, nsc);
    let mut tables = load(random, mode, g, tones);
    if mode == Mode::Coded && !random.one_in(8) {
        make_ones_even(&mut tables);
    }
    for _ in 0..random.pick(&[0, 0, 0, 0, 0, 0, 0, 1, 1, 3]) {
        damage(random, &mut tables);
    }
    GivenTables { coded, tables }
}

/// G: mostly small, since the reference searches; now and then up to the largest.
fn random_length(random: &mut Random) -> usize {
    match random.below(1000) {
        0 | 1 => random.pick(&[1024, 2047, 4095, 4096, 4096]),
        2..=30 => random.within(1, 400),
        _ => random.within(1, 28),
    }
}

fn random_tones(random: &mut Random, g: usize, nsc: usize) -> Vec<u16> {
    let mut tones: Vec<u16> = (0..g as u16).collect();
    random.shuffle(&mut tones);
    tones.truncate(nsc);
    if random.one_in(4) {
        tones.sort();
    }
    tones
}

/// Bits and gains for the tones, in one style; zeros elsewhere.
fn load(random: &mut Random, mode: Mode, g: usize, tones: Vec<u16>) -> reference::Tables {
    let style = random.pick(&STYLES);
    let zero_bit_gains = random.pick(&ZERO_BIT_GAINS);
    let (mut bits, mut gains) = (vec![0; g], vec![0; g]);
    for &tone in &tones {
        let tone = usize::from(tone);
        bits[tone] = random.pick(style);
        gains[tone] = match bits[tone] {
            0 => random.pick(zero_bit_gains),
            _ => random.within(1, 4095) as u16,
        };
    }
    reference::Tables {
        mode,
        bits,
        gains,
        tones,
    }
}

/// Gives a second bit to one 1-bit tone if their count is odd.
fn make_ones_even(tables: &mut reference::Tables) {
    let ones = tables.bits.iter().filter(|&&bits| bits == 1).count();
    if ones % 2 == 1 {
        let first = tables.bits.iter().position(|&bits| bits == 1);
        tables.bits[first.expect("there is one")] = 2;
    }
}

/// One kind of damage, not always one that is refused.
fn damage(random: &mut Random, tables: &mut reference::Tables) {
    match random.below(10) {
        0 => damage_lengths(random, tables),
        1 => change(random, &mut tables.tones, &[4096, 65_535]),
        2 => tone_past_end(random, tables),
        3 => repeat_tone(random, tables),
        4 => change(random, &mut tables.bits, &[16, 17, 128, 255]),
        5 => drop(tables.tones.pop()),
        6 => change(random, &mut tables.gains, &[4096, 65_535]),
        7 => change(random, &mut tables.gains, &[0, 1, 512, 4095]),
        8 => change(random, &mut tables.bits, &[0, 1, 2, 3, 15]),
        _ => keep_few(random, tables),
    }
}

fn damage_lengths(random: &mut Random, tables: &mut reference::Tables) {
    match random.below(7) {
        0 => (tables.bits, tables.gains) = (vec![], vec![]),
        1 => drop(tables.bits.pop()),
        2 => drop(tables.gains.pop()),
        3 => tables.gains.push(0),
        4 => tables.tones.clear(),
        5 => {
            let longer = tables.bits.len() as u16 + 1;
            tables.tones = (0..longer).collect();
        }
        _ => {
            let longer = random.pick(&[4097, 5000, 70_000]);
            tables.bits.resize(longer, 0);
            tables.gains.resize(longer, 0);
        }
    }
}

fn tone_past_end(random: &mut Random, tables: &mut reference::Tables) {
    let g = tables.bits.len() as u16;
    change(random, &mut tables.tones, &[g]);
}

fn repeat_tone(random: &mut Random, tables: &mut reference::Tables) {
    if !tables.tones.is_empty() {
        let repeated = random.pick(&tables.tones);
        change(random, &mut tables.tones, &[repeated]);
    }
}

/// Takes the bits of all but a few tones.
fn keep_few(random: &mut Random, tables: &mut reference::Tables) {
    let kept = random.below(5);
    let mut loaded: Vec<&mut u8> = tables.bits.iter_mut().filter(|bits| **bits > 0).collect();
    random.shuffle(&mut loaded);
    loaded.into_iter().skip(kept).for_each(|bits| *bits = 0);
}

/// Puts one of the values somewhere into a list.
pub fn change<T: Copy>(random: &mut Random, list: &mut [T], values: &[T]) {
    if !list.is_empty() {
        list[random.below(list.len())] = random.pick(values);
    }
}
