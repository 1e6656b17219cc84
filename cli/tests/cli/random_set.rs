//! Small coded table sets that look random, and their symbols.

use crate::run::file;
use clevisroot_sys::{check, encode, reorder, Tables};

/// A small coded table set: bits and gains by sub-carrier, and t.
pub struct Set {
    bits: Vec<u8>,
    gains: Vec<u16>,
    tones: Vec<u16>,
}

impl Set {
    /// With so many monitored tones, other counts as they fall, in an order as it falls.
    pub fn random(random: &mut impl FnMut(u64) -> u64, monitored: usize) -> Set {
        let mut classes = vec![(0, 512); monitored];
        classes.extend(vec![(0, 0); random(4) as usize]);
        classes.extend(vec![(1, 512); 2 * random(3) as usize]);
        let data = 4 + random(4);
        classes.extend((0..data).map(|_| (2 + random(5) as u8, 400)));
        let mut tones: Vec<u16> = (0..classes.len() as u16 + 3).collect();
        shuffle(random, &mut tones);
        shuffle(random, &mut classes);
        let mut set = Set {
            bits: vec![0; tones.len()],
            gains: vec![0; tones.len()],
            tones: tones[..classes.len()].to_vec(),
        };
        for (&tone, &(bits, gain)) in set.tones.iter().zip(&classes) {
            set.bits[usize::from(tone)] = bits;
            set.gains[usize::from(tone)] = gain;
        }
        set
    }

    fn lent(&self) -> Tables<'_> {
        Tables {
            coded: 1,
            bits: &self.bits,
            gains: &self.gains,
            tones: &self.tones,
        }
    }

    /// Writes its file and tells the name.
    pub fn write(&self, name: &str) -> String {
        let mut text = format!("mode coded\ncarriers {}\n", self.bits.len());
        for tone in self.tones.iter().map(|&tone| usize::from(tone)) {
            text += &format!("{tone} {} {}\n", self.bits[tone], self.gains[tone]);
        }
        file(name, text)
    }

    /// The count of non-zero re-ordered entries.
    pub fn loaded(&self) -> usize {
        let count = |of: fn(&&u8) -> bool| self.bits.iter().filter(of).count();
        count(|bits| **bits > 1) + count(|bits| **bits == 1) / 2
    }

    pub fn is_odd(&self) -> bool {
        self.loaded() % 2 == 1
    }

    /// The first place in t' of a tone with these bits and, if it has 0, a gain.
    pub fn first_place(&self, bits: u8) -> Option<usize> {
        let (mut tones, mut entries) = (self.tones.clone(), vec![0; self.tones.len()]);
        assert_eq!(reorder(self.lent(), &mut tones, &mut entries).number, 0);
        let is = |tone: &u16| {
            let tone = usize::from(*tone);
            self.bits[tone] == bits && self.gains[tone] > 0
        };
        tones.iter().position(is)
    }

    /// The points of a frame as it falls.
    pub fn symbol(&self, random: &mut impl FnMut(u64) -> u64, register: u32) -> String {
        let size = check(self.lent()).size as usize;
        let mut frame: Vec<u8> = (0..size.div_ceil(8)).map(|_| random(256) as u8).collect();
        if let Some(last) = frame.last_mut().filter(|_| !size.is_multiple_of(8)) {
            *last &= (1 << (size % 8)) - 1;
        }
        let (mut x, mut y) = (vec![0; self.tones.len()], vec![0; self.tones.len()]);
        let answer = encode(self.lent(), &frame, register, &mut x, &mut y);
        assert_eq!(answer.number, 0);
        x.iter().zip(y).map(|(x, y)| format!("{x},{y}\n")).collect()
    }
}

fn shuffle<T>(random: &mut impl FnMut(u64) -> u64, list: &mut [T]) {
    for end in (1..list.len()).rev() {
        list.swap(end, random(end as u64 + 1) as usize);
    }
}
