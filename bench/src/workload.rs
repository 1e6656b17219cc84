//! Table sets with a few frames and their points, the same for both sides.

use crate::load::{Load, OwnTables};
use crate::peer;
use crate::symbols::{packed, Points, Set, Symbol, REGISTER};
use clevisroot_sys::{work_bytes, Answer, Nearest, Tables};
use difftest::random::Random;

pub type Encode = fn(Tables, &[u8], u32, &mut [i16], &mut [i16]) -> Answer;
pub type EncodeAt = fn(Tables, &[u8], u8, u32, &mut [i16], &mut [i16]) -> Answer;
pub type Read = fn(Tables, &[i16], &[i16], u32, &mut [u8]) -> Answer;
pub type ReadAt = fn(Tables, &[i16], &[i16], u32, &mut [u8], u8) -> Answer;
pub type ReadNearest = fn(Tables, &[i16], &[i16], u32, &mut [u8], u8, &mut [u8]) -> Nearest;

/// What encoding and reading write to, with room for the longest frame and the largest working buffer.
pub(crate) struct Output {
    frame: Vec<u8>,
    points: Points,
    work: Vec<u8>,
}

pub struct Workload {
    sets: Vec<Set>,
    /// Counts the symbols.
    next: usize,
    out: Output,
}

impl Workload {
    pub fn new(load: Load, nsc: usize) -> Workload {
        let random = &mut Random::for_case(nsc as u64, u64::from(load.bits.0));
        let sets: Vec<Set> = (0..load.sets)
            .map(|_| Set::random(random, load, nsc))
            .collect();
        Workload {
            sets,
            next: 0,
            out: Output {
                frame: packed(&vec![false; nsc * usize::from(load.bits.1)], 7),
                points: Points::zero(nsc),
                work: vec![0; clevisroot_sys::MAX_WORK],
            },
        }
    }

    /// After so many symbols the first comes again.
    pub fn cycle(&self) -> usize {
        self.sets.len() * self.sets[0].symbols.len()
    }

    /// The next symbol with its tables, and what to write to.
    pub(crate) fn step(&mut self) -> (Tables<'_>, &Symbol, &mut Output) {
        self.next = (self.next + 1) % self.cycle();
        let (tables, symbol) = symbol_at(&self.sets, self.next);
        (tables.lent(), symbol, &mut self.out)
    }

    /// Encodes the next frame.
    pub fn encode(&mut self, encode: Encode) -> Answer {
        let (tables, symbol, out) = self.step();
        let Points { x, y } = &mut out.points;
        encode(tables, &symbol.frames[0], REGISTER, x, y)
    }

    /// Encodes the next frame from a start.
    pub fn encode_at(&mut self, encode: EncodeAt, start: u8) -> Answer {
        let (tables, symbol, out) = self.step();
        let Points { x, y } = &mut out.points;
        let frame = &symbol.frames[usize::from(start)];
        encode(tables, frame, start, REGISTER, x, y)
    }

    /// Reads the next points.
    pub fn read(&mut self, read: Read) -> Answer {
        let (tables, symbol, out) = self.step();
        let Points { x, y } = &symbol.written;
        let frame = &mut out.frame[..symbol.frames[0].len()];
        read(tables, x, y, REGISTER, frame)
    }

    /// Reads the next points to a frame from a start.
    pub fn read_at(&mut self, read: ReadAt, start: u8) -> Answer {
        let (tables, symbol, out) = self.step();
        let Points { x, y } = &symbol.written;
        let frame = &mut out.frame[..symbol.frames[usize::from(start)].len()];
        read(tables, x, y, REGISTER, frame, start)
    }

    /// Reads the next points as received.
    pub fn read_nearest(&mut self, read: ReadNearest) -> Nearest {
        let (tables, symbol, out) = self.step();
        let Points { x, y } = &symbol.received;
        let frame = &mut out.frame[..symbol.frames[0].len()];
        let work = &mut out.work[..work_bytes(tables)];
        read(tables, x, y, REGISTER, frame, 0, work)
    }

    /// An implementation writes the peer's points, and reads the frames from them.
    pub fn agrees(&mut self, encode: Encode, read: Read) -> bool {
        self.alike(
            0,
            |workload| workload.encode(encode),
            |workload| workload.read(read),
        )
    }

    /// And so from a start.
    pub fn agrees_at(&mut self, encode: EncodeAt, read: ReadAt, start: u8) -> bool {
        let encode = |workload: &mut Workload| workload.encode_at(encode, start);
        self.alike(start, encode, |workload| workload.read_at(read, start))
    }

    fn alike(
        &mut self,
        start: u8,
        encode: impl Fn(&mut Workload) -> Answer,
        read: impl Fn(&mut Workload) -> Answer,
    ) -> bool {
        let written = (0..self.cycle()).all(|_| {
            let answer = encode(self);
            let (_, symbol) = symbol_at(&self.sets, self.next);
            answer.number == 0 && symbol.written == self.out.points
        });
        let understood = (0..self.cycle()).all(|_| {
            let answer = read(self);
            let (_, symbol) = symbol_at(&self.sets, self.next);
            let frame = &symbol.frames[usize::from(start)];
            answer.number == 0 && self.out.frame.starts_with(frame)
        });
        written && understood
    }

    /// Two implementations answer alike from the points as received, and the frame of each is as near
    /// as its total says: where several are nearest, they may be different ones.
    pub fn agree_nearest(&mut self, implementations: [ReadNearest; 2]) -> bool {
        (0..self.cycle()).all(|_| {
            let next = self.next;
            let [one, other] = implementations.map(|read| {
                self.next = next;
                let answer = self.read_nearest(read);
                (answer.number == 0 && answer.total == self.total_of_frame()).then_some(answer)
            });
            one.is_some() && one == other
        })
    }

    /// The total of squared distances at loaded tones, from the points of the frame that was read last to
    /// those received.
    fn total_of_frame(&mut self) -> u64 {
        let (tables, symbol) = symbol_at(&self.sets, self.next);
        let Output { frame, points, .. } = &mut self.out;
        let frame = &frame[..symbol.frames[0].len()];
        let answer = peer::encode(tables.lent(), frame, REGISTER, &mut points.x, &mut points.y);
        assert_eq!(answer.number, 0);
        let loaded = tables
            .in_order()
            .map(|tone| tables.bits[usize::from(tone)] > 0);
        let off = points.distances(&symbol.received);
        off.zip(loaded)
            .filter(|&(_, loaded)| loaded)
            .map(|(off, _)| off)
            .sum()
    }

    /// The tone tables of the sets.
    pub fn tone_tables(&self) -> impl Iterator<Item = &[u16]> {
        self.sets.iter().map(|set| set.tables.tones.as_slice())
    }
}

/// The symbol with this number, each of another set than the one before, and its tables.
fn symbol_at(sets: &[Set], number: usize) -> (&OwnTables, &Symbol) {
    let Set { tables, symbols } = &sets[number % sets.len()];
    (tables, &symbols[number / sets.len()])
}
