//! What is decided for received points, and how far each tone is off.

use super::reading::Tables;
use crate::ask::{self, Nearest, Points};
use crate::files::{Class, PointList};
use crate::index::{Place, Subcarrier};
use crate::refusal::{is_of_points, Question, Refusal};
use clevisroot_sys::refusals::DONE;
use clevisroot_sys::Answer;

/// What the library answers for received points.
pub struct Decision {
    pub answer: Answer,
    pub frame: Vec<u8>,
    /// The squared distances of all loaded tones, added up.
    pub total: u64,
    /// The points of the frame.
    pub decided: Points,
    /// In t' order; none where the points are refused.
    pub loaded: Vec<Loaded>,
    pub monitored: Monitored,
    pub refusal: Option<Refusal>,
}

/// A tone with bits, the point that was received there and the one that was decided on.
#[derive(Clone, Copy)]
pub struct Loaded {
    pub place: Place,
    pub tone: Subcarrier,
    pub bits: u8,
    pub received: (i16, i16),
    pub decided: (i16, i16),
}

/// Which of their four points monitored tones are nearest to. They do not count in the total.
#[derive(Default)]
pub struct Monitored {
    pub tones: usize,
    /// The one that the filler bits give.
    pub agree: usize,
    /// The opposite one.
    pub opposite: usize,
}

impl Tables {
    pub fn nearest(&self, received: &PointList, register: u32) -> Decision {
        let (set, start) = (&self.set, self.start());
        let lists = (received.x.as_slice(), received.y.as_slice());
        let Nearest {
            answer,
            total,
            frame,
        } = ask::nearest(set, lists, register, start);
        let question = Question {
            points: Some(received),
            ..self.question(register)
        };
        let mut decision = Decision {
            answer,
            total,
            decided: ask::encode(set, &frame, start, register).1,
            frame,
            loaded: Vec::new(),
            monitored: Monitored::default(),
            refusal: (answer.number != DONE).then(|| question.refusal(&answer)),
        };
        if decision.refusal.is_none() {
            self.compare(received, &mut decision);
        }
        decision
    }

    /// Fills in how far the received points are from the decided ones.
    fn compare(&self, received: &PointList, decision: &mut Decision) {
        for (place, tone) in self.order.places() {
            let (received, decided) = (received.at(place), decision.decided.at(place));
            let Some((received, decided)) = received.zip(decided) else {
                continue;
            };
            match self.set.class_of(tone) {
                Class::Data(bits) => decision.loaded.push(Loaded {
                    place,
                    tone,
                    bits,
                    received,
                    decided,
                }),
                Class::Monitored => decision.monitored.add(received, decided),
                Class::Silent => {}
            }
        }
    }
}

impl Decision {
    /// Whether the points were looked at: nothing else was refused.
    pub fn is_of_points(&self) -> bool {
        self.refusal.is_none() || is_of_points(self.answer.number)
    }
}

impl Loaded {
    pub fn squared_distance(&self) -> u64 {
        let across = |one: i16, other: i16| u64::from(one.abs_diff(other)).pow(2);
        across(self.received.0, self.decided.0) + across(self.received.1, self.decided.1)
    }
}

impl Monitored {
    fn add(&mut self, received: (i16, i16), right: (i16, i16)) {
        let sides = (
            received.0.signum() * right.0.signum(),
            received.1.signum() * right.1.signum(),
        );
        self.tones += 1;
        self.agree += usize::from(sides == (1, 1));
        self.opposite += usize::from(sides == (-1, -1));
    }
}
