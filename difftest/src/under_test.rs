//! What is held against the reference.

use clevisroot_sys::{Answer, Clip, Drawn, Label, Nearest, Point, Tables, Tallied, Tally};

/// The calls of include/clevisroot.h.
pub trait Core {
    fn check(&self, tables: Tables) -> Answer;
    fn reorder(&self, tables: Tables, tones_out: &mut [u16], bits_out: &mut [u8]) -> Answer;
    fn encode(
        &self,
        tables: Tables,
        frame: &[u8],
        reg: u32,
        x: &mut [i16],
        y: &mut [i16],
    ) -> Answer;
    fn encode_at(
        &self,
        tables: Tables,
        frame: &[u8],
        start: u8,
        reg: u32,
        x: &mut [i16],
        y: &mut [i16],
    ) -> Answer;
    fn read(&self, tables: Tables, x: &[i16], y: &[i16], reg: u32, frame: &mut [u8]) -> Answer;
    fn read_at(
        &self,
        tables: Tables,
        x: &[i16],
        y: &[i16],
        reg: u32,
        frame: &mut [u8],
        start: u8,
    ) -> Answer;
    /// X and Y come as one argument.
    fn read_nearest(
        &self,
        tables: Tables,
        points: (&[i16], &[i16]),
        reg: u32,
        frame: &mut [u8],
        start: u8,
        work: &mut [u8],
    ) -> Nearest;
    fn clip_check(
        &self,
        bits: &[u8],
        gains: &[u16],
        tones: &[u16],
        x: &[i16],
        y: &[i16],
        reg: u32,
    ) -> Clip;
    fn map_label(&self, bits: u8, label: u32) -> Point;
    fn read_point(&self, bits: u8, x: i16, y: i16) -> Label;
    fn plain_map_label(&self, bits: u8, label: u32) -> Point;
    fn plain_read_point(&self, bits: u8, x: i16, y: i16) -> Label;
    fn draw(&self, reg: u32) -> Drawn;
    fn tally_new(&self) -> Tally;
    fn tally_read(&self, tally: Tally, sent: &[u8], read: &[u8]) -> Tallied;
    fn tally_refused(&self, tally: Tally, sent: &[u8], refusal: u32) -> Tallied;
}

/// The static library.
pub struct Library;

impl Core for Library {
    fn check(&self, tables: Tables) -> Answer {
        clevisroot_sys::check(tables)
    }

    fn reorder(&self, tables: Tables, tones_out: &mut [u16], bits_out: &mut [u8]) -> Answer {
        clevisroot_sys::reorder(tables, tones_out, bits_out)
    }

    fn encode(
        &self,
        tables: Tables,
        frame: &[u8],
        reg: u32,
        x: &mut [i16],
        y: &mut [i16],
    ) -> Answer {
        clevisroot_sys::encode(tables, frame, reg, x, y)
    }

    fn encode_at(
        &self,
        tables: Tables,
        frame: &[u8],
        start: u8,
        reg: u32,
        x: &mut [i16],
        y: &mut [i16],
    ) -> Answer {
        clevisroot_sys::encode_at(tables, frame, start, reg, x, y)
    }

    fn read(&self, tables: Tables, x: &[i16], y: &[i16], reg: u32, frame: &mut [u8]) -> Answer {
        clevisroot_sys::read(tables, x, y, reg, frame)
    }

    fn read_at(
        &self,
        tables: Tables,
        x: &[i16],
        y: &[i16],
        reg: u32,
        frame: &mut [u8],
        start: u8,
    ) -> Answer {
        clevisroot_sys::read_at(tables, x, y, reg, frame, start)
    }

    fn read_nearest(
        &self,
        tables: Tables,
        (x, y): (&[i16], &[i16]),
        reg: u32,
        frame: &mut [u8],
        start: u8,
        work: &mut [u8],
    ) -> Nearest {
        clevisroot_sys::read_nearest(tables, x, y, reg, frame, start, work)
    }

    fn clip_check(
        &self,
        bits: &[u8],
        gains: &[u16],
        tones: &[u16],
        x: &[i16],
        y: &[i16],
        reg: u32,
    ) -> Clip {
        clevisroot_sys::clip_check(bits, gains, tones, x, y, reg)
    }

    fn map_label(&self, bits: u8, label: u32) -> Point {
        clevisroot_sys::map_label(bits, label)
    }

    fn read_point(&self, bits: u8, x: i16, y: i16) -> Label {
        clevisroot_sys::read_point(bits, x, y)
    }

    fn plain_map_label(&self, bits: u8, label: u32) -> Point {
        clevisroot_sys::plain_map_label(bits, label)
    }

    fn plain_read_point(&self, bits: u8, x: i16, y: i16) -> Label {
        clevisroot_sys::plain_read_point(bits, x, y)
    }

    fn draw(&self, reg: u32) -> Drawn {
        clevisroot_sys::draw(reg)
    }

    fn tally_new(&self) -> Tally {
        clevisroot_sys::tally_new()
    }

    fn tally_read(&self, tally: Tally, sent: &[u8], read: &[u8]) -> Tallied {
        clevisroot_sys::tally_read(tally, sent, read)
    }

    fn tally_refused(&self, tally: Tally, sent: &[u8], refusal: u32) -> Tallied {
        clevisroot_sys::tally_refused(tally, sent, refusal)
    }
}
