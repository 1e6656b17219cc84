//! The judgement of one symbol: its readings, and what they say together.

use super::reading::Tables;
use super::readings::Readings;
use super::verdict::{Ground, Known, Origin, Verdict};
use crate::ask::trellis_tells;
use crate::files::PointList;
use crate::register::Reach;
use crate::way::{Family, Way};

pub struct Judged {
    pub readings: Readings,
    /// The register that they were read with; none if it had to be found and was not.
    pub known: Option<Known>,
    /// The family of the ways in which some register reads the points; none if none does.
    pub family: Option<Family>,
    /// What the two ways of the family say.
    pub seen: Verdict,
    pub ground: Ground,
}

impl Judged {
    pub fn of(tables: &Tables, points: &PointList, known: Option<Known>) -> Judged {
        let fitted = Readings::fitted(tables, points);
        let family = fitted.family();
        // Some register reads the points this way, and none any other way.
        let one_way = fitted.only_way();
        let readings = match known {
            Some(Known { register, .. }) => Readings::with(tables, points, register),
            None => fitted,
        };
        // Where the register was found and read with, both speak; the register is the news.
        let found = known.is_some_and(Known::is_found) && readings.only_way().is_some();
        let by_trellis = trellis_tells(&tables.set, &tables.order) && !found;
        let (seen, ground) = match (one_way, known) {
            (Some(way), known) if by_trellis || known.is_none() => {
                (Verdict::Sure(way), whatever_the_register(tables))
            }
            _ if family.is_none() => (Verdict::Neither, Ground::NoRegister),
            (_, Some(known)) => by_register(tables, &readings, known, one_way),
            (_, None) => without_register(tables.reaches.alone()),
        };
        Judged {
            readings,
            known,
            family,
            seen,
            ground,
        }
    }

    pub fn verdict(&self) -> Verdict {
        self.seen.of_family(self.family)
    }

    /// Whether the register is not that of this symbol: one may be missing before it.
    pub fn is_out_of_step(&self, known: Known) -> bool {
        match self.readings.only_way() {
            Some(way) => known.is_against(way),
            None => {
                let family = self.family.unwrap_or(Family::Halves);
                self.readings.deny_register(family)
            }
        }
    }
}

/// What tells the way round where some register reads the points and none reads them turned.
fn whatever_the_register(tables: &Tables) -> Ground {
    match trellis_tells(&tables.set, &tables.order) {
        true => Ground::Trellis(tables.order.loaded()),
        false => Ground::OneWay(tables.reaches.alone()),
    }
}

fn by_register(
    tables: &Tables,
    readings: &Readings,
    known: Known,
    one_way: Option<Way>,
) -> (Verdict, Ground) {
    if readings.are_both_read() {
        return (Verdict::CannotTell, Ground::Nothing);
    }
    let Some(way) = readings.only_way() else {
        return (Verdict::Neither, Ground::Tones(known));
    };
    let known = known.reading(way, &tables.reaches);
    match known.origin {
        Origin::Found(_) => (Verdict::Sure(way), Ground::Tones(known)),
        _ if known.enough => (Verdict::Sure(way), Ground::Tones(known)),
        _ if one_way.is_some() => (Verdict::Sure(way), whatever_the_register(tables)),
        Origin::Given => (Verdict::Sure(way), Ground::Tones(known)),
        _ => (Verdict::Perhaps(way), Ground::Tones(known)),
    }
}

/// The register is to be found, was not, and the points are read both ways of their family.
fn without_register(reach: Reach) -> (Verdict, Ground) {
    match reach.tones {
        0 => (Verdict::CannotTell, Ground::Nothing),
        _ => (Verdict::CannotTell, Ground::TooFew(reach)),
    }
}
