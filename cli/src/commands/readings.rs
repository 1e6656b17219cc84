//! The points of a symbol, taken as having come each way, and read.

use super::reading::{Reading, Tables};
use crate::files::PointList;
use crate::register::Search;
use crate::way::{Family, Way};
use clevisroot_sys::refusals::MONITOR;
use clevisroot_sys::RESET;

/// Of uncoded tables two ways, of coded ones four.
pub struct Readings(Vec<(Way, Reading)>);

impl Readings {
    /// Each way with this register.
    pub fn with(tables: &Tables, points: &PointList, register: u32) -> Readings {
        let ways = ways(tables);
        Readings(
            ways.map(|way| taken(tables, points, way, register))
                .collect(),
        )
    }

    /// Each way with a register that fits the monitored points, taken so, as far as any does: read if
    /// and only if some register reads them so.
    pub fn fitted(tables: &Tables, points: &PointList) -> Readings {
        let mut readings = Vec::new();
        for &family in Family::told(tables.set.coded) {
            let mut search = Search::new(family);
            search.add(&tables.set, &tables.order, points);
            for (way, register) in family.ways().into_iter().zip(search.examples()) {
                readings.push(taken(tables, points, way, register.unwrap_or(RESET)));
            }
        }
        Readings(readings)
    }

    pub fn iter(&self) -> impl Iterator<Item = (Way, &Reading)> {
        self.0.iter().map(|(way, reading)| (*way, reading))
    }

    /// The points as they came.
    pub fn straight(&self) -> &Reading {
        &self.0[0].1
    }

    /// The ways that are read.
    fn done(&self) -> impl Iterator<Item = (Way, &Reading)> {
        self.iter().filter(|(_, reading)| reading.is_done())
    }

    /// One that is read.
    pub fn read(&self) -> Option<&Reading> {
        self.done().next().map(|(_, reading)| reading)
    }

    /// The only way that is read.
    pub fn only_way(&self) -> Option<Way> {
        let mut done = self.done();
        let way = done.next().map(|(way, _)| way);
        way.filter(|_| done.next().is_none())
    }

    pub fn are_both_read(&self) -> bool {
        self.done().count() > 1
    }

    /// The family of the ways that are read: there is never more than one.
    pub fn family(&self) -> Option<Family> {
        self.done().next().map(|(way, _)| way.family())
    }

    /// Whether both ways of a family are refused because of the register.
    pub fn deny_register(&self, family: Family) -> bool {
        let mut of_family = self.iter().filter(|(way, _)| way.family() == family);
        of_family.all(|(_, reading)| reading.answer.number == MONITOR)
    }
}

fn ways(tables: &Tables) -> impl Iterator<Item = Way> {
    let families = Family::told(tables.set.coded).iter();
    families.flat_map(|family| family.ways())
}

fn taken(tables: &Tables, points: &PointList, way: Way, register: u32) -> (Way, Reading) {
    let reading = match way {
        Way::Straight => tables.read(points, register),
        _ => tables.read(&points.undone(way), register),
    };
    (way, reading)
}
