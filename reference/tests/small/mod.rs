//! Small random tables, on which every frame of one start can be tried.

use reference::filler::RESET;
use reference::forms::{frame_bytes, frame_of_bits, Class};
use reference::points::{bits_of_number, Point};
use reference::symbol::classes;
use reference::words::lists_of;
use reference::{check, encode_at, read_at, Answer, Mode, Tables};

/// Splitmix.
pub struct Random(pub u64);

impl Random {
    pub fn below(&mut self, bound: u64) -> u64 {
        self.0 = self.0.wrapping_add(0x9e37_79b9_7f4a_7c15);
        let mut z = self.0;
        z = (z ^ z >> 30).wrapping_mul(0xbf58_476d_1ce4_e5b9);
        z = (z ^ z >> 27).wrapping_mul(0x94d0_49bb_1331_11eb);
        (z ^ z >> 31) % bound
    }
}

/// Tables of at most 7 tones with few bits each, accepted or not.
fn small_tables(random: &mut Random) -> Tables {
    let nsc = 1 + random.below(7) as u16;
    let mut tones: Vec<u16> = (0..nsc).collect();
    for k in 1..tones.len() {
        tones.swap(k, random.below(k as u64 + 1) as usize);
    }
    let bits: Vec<u8> = tones.iter().map(|_| random.below(4) as u8).collect();
    let mut gain = |&b: &u8| {
        if b > 0 || random.below(2) == 1 {
            512
        } else {
            0
        }
    };
    let gains = bits.iter().map(&mut gain).collect();
    let mode = if random.below(4) > 0 {
        Mode::Coded
    } else {
        Mode::Uncoded
    };
    Tables {
        mode,
        bits,
        gains,
        tones,
    }
}

/// Accepted tables, a valid register and a start, the same in every call.
pub struct Case {
    pub tables: Tables,
    pub register: u32,
    pub start: u8,
}

impl Case {
    /// L.
    pub fn size(&self) -> usize {
        check(&self.tables).size as usize
    }

    pub fn write(&self, value: usize) -> (Vec<u8>, Vec<Point>) {
        let frame = frame_of_bits(&bits_of_number(value, self.size()), self.start);
        let nsc = self.tables.nsc();
        let answer = encode_at(&self.tables, &frame, self.start, self.register, nsc, nsc);
        (frame, answer.contents.expect("the frame is accepted"))
    }

    pub fn read(&self, points: &[Point]) -> Answer<Vec<u8>> {
        let (x, y) = lists_of(points);
        let room = frame_bytes(self.start, self.size());
        read_at(&self.tables, &x, &y, self.register, room, self.start)
    }
}

/// Cases with at most this many lists of grid points, one start after the other.
pub fn cases(count: usize, most: u32) -> Vec<Case> {
    let mut random = Random(3);
    let mut found = Vec::new();
    while found.len() < count {
        let tables = small_tables(&mut random);
        let grid_bits: usize = classes(&tables)
            .iter()
            .map(|class| match class {
                Class::Data(b) => *b,
                Class::Monitored => 2,
                Class::Silent => 0,
            })
            .sum();
        if check(&tables).number == 0 && grid_bits <= most as usize {
            found.push(Case {
                tables,
                register: 1 + random.below(u64::from(RESET)) as u32,
                start: (found.len() % 8) as u8,
            });
        }
    }
    found
}
