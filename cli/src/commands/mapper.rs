//! The library's two mappers for one tone. They give the same answers.

use crate::call::Call;
use crate::json::Json;
use crate::options::PLAIN;
use clevisroot_sys as library;
use clevisroot_sys::{Label, Point};

#[derive(Clone, Copy)]
pub enum Mapper {
    /// The one that answers where the call names none.
    Tuned,
    /// b bits by way of b - 2, with no code or table of the other.
    Plain,
}

impl Mapper {
    /// The mapper that a call asks.
    pub fn of(call: &Call) -> Mapper {
        match call.has(&PLAIN) {
            true => Mapper::Plain,
            false => Mapper::Tuned,
        }
    }

    pub fn map_label(self, bits: u8, label: u32) -> Point {
        match self {
            Mapper::Tuned => library::map_label(bits, label),
            Mapper::Plain => library::plain_map_label(bits, label),
        }
    }

    pub fn read_point(self, bits: u8, x: i16, y: i16) -> Label {
        match self {
            Mapper::Tuned => library::read_point(bits, x, y),
            Mapper::Plain => library::plain_read_point(bits, x, y),
        }
    }

    /// What follows an answer, or the place of a refusal: whose it is, where the call names the mapper.
    pub fn answered(self) -> &'static str {
        match self {
            Mapper::Tuned => "",
            Mapper::Plain => ", by the plain mapper",
        }
    }

    /// The same for JSON.
    pub fn field(self) -> Option<(&'static str, Json)> {
        match self {
            Mapper::Tuned => None,
            Mapper::Plain => Some(("mapper", Json::text("plain"))),
        }
    }
}
