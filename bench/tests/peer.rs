//! The peer against the reference, on the cases of the differential test.

use bench::peer;
use clevisroot_sys::{Answer, Clip, Drawn, Label, Nearest, Point, Tables, Tallied, Tally};
use difftest::compare::Comparison;
use difftest::coverage::Coverage;
use difftest::exhaustive::{few_frames, largest_symbols, one_tone};
use difftest::first_monitored::{behind_any, every_coordinate};
use difftest::rows::{every_byte, every_length};
use difftest::run::random_cases;
use difftest::tally::long_run;
use difftest::under_test::Core;

struct Peer;

impl Core for Peer {
    fn check(&self, tables: Tables) -> Answer {
        peer::check(tables)
    }

    fn reorder(&self, tables: Tables, tones_out: &mut [u16], bits_out: &mut [u8]) -> Answer {
        peer::reorder(tables, tones_out, bits_out)
    }

    fn encode(
        &self,
        tables: Tables,
        frame: &[u8],
        reg: u32,
        x: &mut [i16],
        y: &mut [i16],
    ) -> Answer {
        peer::encode(tables, frame, reg, x, y)
    }

    fn encode_at(
        &self,
        tables: Tables,
        frame: &[u8],
        start: u8,
        reg: u32,
        x: &mut [i16],
        y: &mut [i16],
    ) -> Answer {
        peer::encode_at(tables, frame, start, reg, x, y)
    }

    fn read(&self, tables: Tables, x: &[i16], y: &[i16], reg: u32, frame: &mut [u8]) -> Answer {
        peer::read(tables, x, y, reg, frame)
    }

    fn read_at(
        &self,
        tables: Tables,
        x: &[i16],
        y: &[i16],
        reg: u32,
        frame: &mut [u8],
        start: u8,
    ) -> Answer {
        peer::read_at(tables, x, y, reg, frame, start)
    }

    fn read_nearest(
        &self,
        tables: Tables,
        (x, y): (&[i16], &[i16]),
        reg: u32,
        frame: &mut [u8],
        start: u8,
        work: &mut [u8],
    ) -> Nearest {
        peer::read_nearest(tables, x, y, reg, frame, start, work)
    }

    fn clip_check(
        &self,
        bits: &[u8],
        gains: &[u16],
        tones: &[u16],
        x: &[i16],
        y: &[i16],
        reg: u32,
    ) -> Clip {
        peer::clip_check(bits, gains, tones, x, y, reg)
    }

    fn map_label(&self, bits: u8, label: u32) -> Point {
        peer::map_label(bits, label)
    }

    fn read_point(&self, bits: u8, x: i16, y: i16) -> Label {
        peer::read_point(bits, x, y)
    }

    /// The peer has one mapper, which is held to both rules.
    fn plain_map_label(&self, bits: u8, label: u32) -> Point {
        peer::map_label(bits, label)
    }

    fn plain_read_point(&self, bits: u8, x: i16, y: i16) -> Label {
        peer::read_point(bits, x, y)
    }

    fn draw(&self, reg: u32) -> Drawn {
        peer::draw(reg)
    }

    fn tally_new(&self) -> Tally {
        peer::tally_new()
    }

    fn tally_read(&self, tally: Tally, sent: &[u8], read: &[u8]) -> Tallied {
        peer::tally_read(tally, sent, read)
    }

    fn tally_refused(&self, tally: Tally, sent: &[u8], refusal: u32) -> Tallied {
        peer::tally_refused(tally, sent, refusal)
    }
}

#[test]
fn peer_answers_as_the_reference() {
    let mut comparison = Comparison {
        core: &Peer,
        coverage: Coverage::default(),
    };
    one_tone(&mut comparison, 13).unwrap();
    few_frames(&mut comparison).unwrap();
    largest_symbols(&mut comparison).unwrap();
    random_cases(&mut comparison, 20_000, 7).unwrap();
    every_coordinate(&mut comparison).unwrap();
    behind_any(&mut comparison).unwrap();
    every_length(&mut comparison).unwrap();
    every_byte(&mut comparison).unwrap();
    long_run(&mut comparison, 7).unwrap();
    comparison.coverage.verdict().unwrap();
}
