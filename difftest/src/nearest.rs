//! Nearest reading of both sides. Which of several nearest frames is given is free, and so is what a
//! call that is done leaves in the working buffer: the library's own frame is written by the reference
//! and measured.

use crate::compare::{Comparison, Mismatch};
use crate::coverage::Operation;
use crate::decisions::Outcome;
use crate::lent::Lent;
use crate::points::classes;
use crate::random::Random;
use crate::tables::GivenTables;
use clevisroot_sys::refusals::{DONE, RANGE, ROOM};
use clevisroot_sys::{Answer, Nearest};
use reference::forms::{bits_of_frame, frame_accepted, frame_bytes, Class};
use reference::nearest::{smallest_of_all, total_distance, work_bytes};
use reference::points::Point;
use reference::symbol::write_points;

/// Received points, the register and the start, and the lengths of the frame and the working buffer.
#[derive(Debug)]
pub struct Received {
    pub x: Vec<i16>,
    pub y: Vec<i16>,
    pub register: u32,
    pub start: u8,
    pub frame_room: usize,
    pub work_room: usize,
}

/// Every frame is tried where the points to be written are at most so many.
const MOST_WRITTEN: usize = 2048;

impl Received {
    fn points(&self) -> Vec<Point> {
        let (x, y) = (self.x.iter().copied(), self.y.iter().copied());
        x.zip(y).collect()
    }
}

impl Comparison<'_> {
    pub fn read_nearest(
        &mut self,
        random: &mut Random,
        given: &GivenTables,
        received: &Received,
    ) -> Result<(), Mismatch> {
        let (told, total) = told_by_reference(given, received);
        let mut frame = Lent::<u8>::new(random, received.frame_room);
        let mut work = Lent::<u8>::new(random, received.work_room);
        let (frame_before, work_before) = (frame.clone(), work.clone());
        let actual = self.core.read_nearest(
            given.lent(),
            (&received.x, &received.y),
            received.register,
            frame.buffer(),
            received.start,
            work.buffer(),
        );
        let done = told.number == DONE;
        let frame_after = frame_before.after(done.then(|| &*frame.buffer()));
        let work_after = work_before.after(done.then(|| &*work.buffer()));
        let expected = (with_total(told, total), frame_after, work_after);
        let answered = (actual, frame.whole().to_vec(), work.whole().to_vec());
        let inputs = (given, received);
        let number = told.number;
        self.hold(Operation::ReadNearest, number, &expected, &answered, inputs)?;
        self.coverage.nearest.record(received.start, &told);
        match number {
            DONE => self.hold_decided(given, received, (&told, total), frame.buffer()),
            _ => {
                self.record_refused(given, received, &told);
                Ok(())
            }
        }
    }

    /// The frame is accepted and, written, has the total that was told; where exact reading reads, it is
    /// that frame with total 0 and that register.
    fn hold_decided(
        &mut self,
        given: &GivenTables,
        received: &Received,
        (told, total): (&Answer, u64),
        frame: &[u8],
    ) -> Result<(), Mismatch> {
        let (tables, l) = (&given.tables, told.size as usize);
        let (register, start) = (received.register, received.start);
        let bits = bits_of_frame(frame, start, l);
        let (written, _) = write_points(tables, &bits, register);
        let measured = total_distance(tables, &written, &received.points());
        let accepted = frame_accepted(frame, start, l);
        let (x, y) = (&received.x, &received.y);
        let exact = reference::read_at(tables, x, y, register, frame.len(), start);
        let expected = match exact.contents {
            Some(read) => (true, 0, exact.register, read),
            None => (true, total, told.reg, frame.to_vec()),
        };
        let actual = (accepted, measured, told.reg, frame.to_vec());
        let inputs = (given, received);
        self.alike(Operation::ReadNearest, &expected, &actual, inputs)?;
        let work = clevisroot_sys::work_bytes(given.lent());
        self.alike(Operation::ReadNearest, &received.work_room, &work, inputs)?;
        self.record_decided(total, exact.number == DONE);
        self.hold_against_all(given, received, total, l)
    }

    /// Where the frames are few, none of them is nearer.
    fn hold_against_all(
        &mut self,
        given: &GivenTables,
        received: &Received,
        total: u64,
        l: usize,
    ) -> Result<(), Mismatch> {
        let tables = &given.tables;
        if l >= 16 || tables.nsc() << l > MOST_WRITTEN {
            return Ok(());
        }
        let (smallest, sharing) = smallest_of_all(tables, &received.points(), received.register);
        self.coverage.decisions.record(Outcome::EveryFrameTried);
        if sharing > 1 {
            self.coverage.decisions.record(Outcome::SeveralNearest);
        }
        let inputs = (given, received);
        self.alike(Operation::ReadNearest, &smallest, &total, inputs)
    }

    fn record_decided(&mut self, total: u64, read: bool) {
        let decisions = &mut self.coverage.decisions;
        decisions.record(match (total, read) {
            (0, true) => Outcome::Read,
            (0, false) => Outcome::ZeroUnread,
            _ => Outcome::Above0,
        });
        if total > u64::from(u32::MAX) {
            decisions.record(Outcome::Above32Bits);
        }
    }

    /// Counts what RANGE and ROOM were given for; ROOM where one length alone was wrong.
    fn record_refused(&mut self, given: &GivenTables, received: &Received, told: &Answer) {
        let outcome = match told.number {
            RANGE => match classes(&given.tables)[told.place as usize] {
                Class::Data(_) => Some(Outcome::RangeOfData),
                Class::Monitored => Some(Outcome::RangeOfMonitored),
                Class::Silent => Some(Outcome::RangeOfSilent),
            },
            ROOM => wrong_length(given, received),
            _ => None,
        };
        if let Some(outcome) = outcome {
            self.coverage.decisions.record(outcome);
        }
    }
}

fn told_by_reference(given: &GivenTables, received: &Received) -> (Answer, u64) {
    let told = reference::read_nearest(
        &given.tables,
        &received.x,
        &received.y,
        received.register,
        received.frame_room,
        received.start,
        received.work_room,
    );
    let total = told.contents.as_ref().map_or(0, |(_, total)| *total);
    (crate::compare::answer(&told), total)
}

fn with_total(told: Answer, total: u64) -> Nearest {
    let Answer {
        number,
        place,
        size,
        reg,
    } = told;
    Nearest {
        number,
        place,
        size,
        reg,
        total,
    }
}

/// Which length is wrong, if it is only one.
fn wrong_length(given: &GivenTables, received: &Received) -> Option<Outcome> {
    let tables = &given.tables;
    let l = reference::check(tables).size as usize;
    let wrong = [
        (Outcome::RoomOfX, received.x.len() != tables.nsc()),
        (Outcome::RoomOfY, received.y.len() != tables.nsc()),
        (
            Outcome::RoomOfFrame,
            received.frame_room != frame_bytes(received.start, l),
        ),
        (
            Outcome::RoomOfWork,
            received.work_room != work_bytes(tables),
        ),
    ];
    let mut wrong = wrong.into_iter().filter(|(_, wrong)| *wrong);
    match (wrong.next(), wrong.next()) {
        (Some((outcome, _)), None) => Some(outcome),
        _ => None,
    }
}
