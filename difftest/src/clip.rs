//! The clip check of both sides, and where a tone is monitored the implementation's own two readings.

use crate::clips::Outcome;
use crate::compare::{Comparison, Mismatch};
use crate::coverage::Operation;
use crate::points::classes;
use crate::tables::GivenTables;
use clevisroot_sys::refusals::{DONE, ROOM};
use reference::clip::{first_monitored, Clip, Monitored};
use reference::filler::register_valid;
use reference::forms::{frame_bytes, Class};
use reference::points::Point;
use reference::words::{half_turn, lists_of};
use reference::{Answer, Mode, Tables};

/// Points with the register, the start of both readings, and whether they are a written symbol of that
/// register, as it is or turned.
#[derive(Debug)]
pub struct Asked {
    pub x: Vec<i16>,
    pub y: Vec<i16>,
    pub register: u32,
    pub start: u8,
    pub is_symbol: bool,
}

impl Asked {
    fn points(&self) -> Vec<Point> {
        let (x, y) = (self.x.iter().copied(), self.y.iter().copied());
        x.zip(y).collect()
    }
}

/// The same tables, coded whatever their mode is.
pub fn coded(given: &GivenTables) -> GivenTables {
    GivenTables {
        coded: given.coded.max(1),
        tables: Tables {
            mode: Mode::Coded,
            ..given.tables.clone()
        },
    }
}

impl Comparison<'_> {
    /// Of coded tables.
    pub fn clip_check(&mut self, given: &GivenTables, asked: &Asked) -> Result<(), Mismatch> {
        let Asked { x, y, register, .. } = asked;
        let told = reference::clip_check(&given.tables, x, y, *register);
        let expected = clevisroot_sys::Clip {
            number: told.number,
            place: told.place,
            clip: told.contents.map_or(0, Clip::number),
            reg: told.register,
        };
        let lent = given.lent();
        let core = self.core;
        let actual = core.clip_check(lent.bits, lent.gains, lent.tones, x, y, *register);
        let inputs = (given, asked);
        let number = told.number;
        self.hold(Operation::ClipCheck, number, &expected, &actual, inputs)?;
        self.record_asked(&given.tables, asked, &told);
        match told.contents {
            None | Some(Clip::CantTell) => Ok(()),
            Some(clip) => self.hold_two_readings(given, asked, clip),
        }
    }

    /// A reading that is accepted tells the clip; of a symbol, straight or turned, just one is. The two
    /// readings take the reference's place in a mismatch.
    fn hold_two_readings(
        &mut self,
        given: &GivenTables,
        asked: &Asked,
        clip: Clip,
    ) -> Result<(), Mismatch> {
        let points = asked.points();
        let readings = [points.clone(), half_turn(&points)];
        let accepted = readings.map(|points| self.is_read(given, &points, asked));
        let told = match clip {
            Clip::Straight => [true, false],
            Clip::Turned => [false, true],
            Clip::Neither | Clip::CantTell => [false, false],
        };
        let any = accepted[0] || accepted[1];
        let clips = &mut self.coverage.clips;
        clips.record_if(accepted[0], Outcome::ReadAsItIs);
        clips.record_if(accepted[1], Outcome::ReadTurned);
        clips.record_if(!any && clip != Clip::Neither, Outcome::OthersChanged);
        if !any && !asked.is_symbol {
            return Ok(());
        }
        let inputs = ("two readings", given, asked);
        self.alike(Operation::ClipCheck, &accepted, &told, inputs)
    }

    fn is_read(&self, given: &GivenTables, points: &[Point], asked: &Asked) -> bool {
        let (x, y) = lists_of(points);
        let l = self.core.check(given.lent()).size as usize;
        let mut frame = vec![0; frame_bytes(asked.start, l)];
        let core = self.core;
        let (register, start) = (asked.register, asked.start);
        let answer = core.read_at(given.lent(), &x, &y, register, &mut frame, start);
        answer.number == DONE
    }

    fn record_asked(&mut self, tables: &Tables, asked: &Asked, told: &Answer<Clip>) {
        match (told.number, told.contents) {
            (ROOM, _) => self.record_room(tables, asked),
            (_, Some(clip)) => {
                self.coverage.clips.record_clip(clip);
                self.record_first(tables, asked.register);
            }
            _ => {}
        }
    }

    fn record_room(&mut self, tables: &Tables, asked: &Asked) {
        let nsc = tables.nsc();
        let (x_wrong, y_wrong) = (asked.x.len() != nsc, asked.y.len() != nsc);
        let clips = &mut self.coverage.clips;
        clips.record_if(!y_wrong, Outcome::RoomOfX);
        clips.record_if(!x_wrong, Outcome::RoomOfY);
        clips.record_if(!register_valid(asked.register), Outcome::RoomBeforeSeed);
    }

    /// What lies before and behind the first monitored tone, if there is one.
    fn record_first(&mut self, tables: &Tables, register: u32) {
        let Some(Monitored { place, .. }) = first_monitored(tables, register) else {
            return;
        };
        let classes = classes(tables);
        let (before, behind) = (&classes[..place], &classes[place + 1..]);
        let silent = before.contains(&Class::Silent);
        let monitored = behind.contains(&Class::Monitored);
        let is_monitored = |&tone: &_| tables.class_of(tone) == Class::Monitored;
        let moved = tables.t().iter().position(is_monitored) != Some(place);
        let clips = &mut self.coverage.clips;
        clips.record_if(silent, Outcome::BehindSilent);
        clips.record_if(moved, Outcome::OnesBeforeInT);
        clips.record_if(monitored, Outcome::MonitoredBehind);
    }
}
