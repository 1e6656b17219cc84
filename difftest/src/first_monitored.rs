//! The clip check with every coordinate at the first monitored tone, and with that tone behind any
//! number of silent ones.

use crate::clip::Asked;
use crate::compare::{Comparison, Mismatch};
use crate::tables::GivenTables;
use reference::clip::{first_monitored, Monitored};
use reference::points::Point;
use reference::words::lists_of;
use reference::{Mode, Tables};

/// Four loaded tones behind so many silent ones and a monitored one.
fn behind_silent(silent: usize) -> GivenTables {
    let bits = [vec![0; silent + 1], vec![2; 4]].concat();
    let gains = [vec![0; silent], vec![512; 5]].concat();
    let tables = Tables {
        mode: Mode::Coded,
        tones: (0..bits.len() as u16).collect(),
        bits,
        gains,
    };
    GivenTables { coded: 1, tables }
}

fn ask(
    comparison: &mut Comparison,
    given: &GivenTables,
    register: u32,
    (place, point): (usize, Point),
) -> Result<(), Mismatch> {
    let mut points = vec![(1, 1); given.tables.nsc()];
    points[place] = point;
    let (x, y) = lists_of(&points);
    let asked = Asked {
        x,
        y,
        register,
        start: 0,
        is_symbol: false,
    };
    comparison.clip_check(given, &asked)
}

/// Each X with both Y that the tone can have, and each Y with both X. Of register 1 its point is
/// (1, −1).
pub fn every_coordinate(comparison: &mut Comparison) -> Result<(), Mismatch> {
    let given = behind_silent(0);
    for coordinate in i16::MIN..=i16::MAX {
        for other in [1, -1] {
            ask(comparison, &given, 1, (0, (coordinate, other)))?;
            ask(comparison, &given, 1, (0, (other, coordinate)))?;
        }
    }
    Ok(())
}

/// The four points of 2 bits, behind every small number of silent tones and some up to the largest.
pub fn behind_any(comparison: &mut Comparison) -> Result<(), Mismatch> {
    let most = 4096 - 5;
    for silent in (0..=64).chain((65..most).step_by(127)).chain([most]) {
        let given = behind_silent(silent);
        let register = 1 + 7919 * silent as u32 % 8_388_607;
        let first = first_monitored(&given.tables, register);
        let Monitored { place, own } = first.expect("there is one");
        for (x, y) in [(1, 1), (1, -1), (-1, 1), (-1, -1)] {
            ask(
                comparison,
                &given,
                register,
                (place, (x * own.0, y * own.1)),
            )?;
        }
    }
    Ok(())
}
