//! The random cases: each draws tables and makes every call at least once.

use crate::clip::coded;
use crate::compare::{Comparison, Mismatch};
use crate::entries::{random_entry, random_tally};
use crate::inputs::{random_bits, random_frame, random_label, random_point};
use crate::inputs::{random_register, random_room, random_start};
use crate::points::{any_points, points_to_read};
use crate::random::Random;
use crate::received::random_received;
use crate::tables::{random_tables, GivenTables};
use crate::tallied::Origin;
use crate::turned::random_asked;
use reference::forms::frame_bytes;
use reference::words::lists_of;

/// Runs this many cases; the case's number comes with a mismatch.
pub fn random_cases(
    comparison: &mut Comparison,
    cases: u64,
    seed: u64,
) -> Result<(), (u64, Mismatch)> {
    for case in 0..cases {
        let random = &mut Random::for_case(seed, case);
        run_case(comparison, random).map_err(|mismatch| (case, mismatch))?;
    }
    Ok(())
}

fn run_case(comparison: &mut Comparison, random: &mut Random) -> Result<(), Mismatch> {
    let given = random_tables(random);
    let nsc = given.tables.nsc();
    comparison.check(&given)?;
    let rooms = (random_room(random, nsc), random_room(random, nsc));
    comparison.reorder(random, &given, rooms)?;
    encode_case(comparison, random, &given)?;
    for _ in 0..2 {
        read_case(comparison, random, &given)?;
    }
    nearest_case(comparison, random, &given)?;
    one_tone_case(comparison, random)?;
    tally_case(comparison, random)?;
    clip_case(comparison, random, &given)?;
    quarter_case(comparison, random, &given)
}

fn encode_case(
    comparison: &mut Comparison,
    random: &mut Random,
    given: &GivenTables,
) -> Result<(), Mismatch> {
    let nsc = given.tables.nsc();
    let l = reference::check(&given.tables).size as usize;
    let start = random_start(random);
    let frame = random_frame(random, l, start);
    let register = random_register(random);
    let rooms = (random_room(random, nsc), random_room(random, nsc));
    comparison.encode(random, given, (&frame, start), register, rooms)
}

fn read_case(
    comparison: &mut Comparison,
    random: &mut Random,
    given: &GivenTables,
) -> Result<(), Mismatch> {
    let nsc = given.tables.nsc();
    let checked = reference::check(&given.tables);
    let l = checked.size as usize;
    let register = random_register(random);
    let points = match checked.number {
        0 => points_to_read(random, &given.tables, l, register),
        _ => any_points(random, nsc),
    };
    let (mut x, mut y) = lists_of(&points);
    x.resize(random_room(random, nsc), 1);
    y.resize(random_room(random, nsc), 1);
    let start = random_start(random);
    let room_from = if random.one_in(12) {
        random_start(random)
    } else {
        start
    };
    let room = random_room(random, frame_bytes(room_from, l));
    comparison.read(random, given, (&x, &y), register, (room, start))
}

/// The reference tries every label, so tables with many are read once in a while only.
fn nearest_case(
    comparison: &mut Comparison,
    random: &mut Random,
    given: &GivenTables,
) -> Result<(), Mismatch> {
    let labels = given
        .tables
        .bits
        .iter()
        .map(|&bits| 1_usize << bits.min(15));
    if labels.sum::<usize>() > 4096 && !random.one_in(48) {
        return Ok(());
    }
    let received = random_received(random, &given.tables);
    comparison.read_nearest(random, given, &received)
}

fn one_tone_case(comparison: &mut Comparison, random: &mut Random) -> Result<(), Mismatch> {
    let bits = random_bits(random);
    comparison.map_by_both(bits, random_label(random, bits))?;
    let bits = random_bits(random);
    let (x, y) = random_point(random, bits);
    comparison.read_by_both(bits, x, y)?;
    comparison.draw(random_register(random))
}

/// Two symbols counted in a tally from outside.
fn tally_case(comparison: &mut Comparison, random: &mut Random) -> Result<(), Mismatch> {
    let before = random_tally(random);
    let entries = [random_entry(random), random_entry(random)];
    let (_, between) = comparison.tally_entry((&before, Origin::Outside), &entries[0])?;
    comparison.tally_entry((&between, Origin::Outside), &entries[1])?;
    Ok(())
}

fn clip_case(
    comparison: &mut Comparison,
    random: &mut Random,
    given: &GivenTables,
) -> Result<(), Mismatch> {
    let given = coded(given);
    let asked = random_asked(random, &given.tables);
    comparison.clip_check(&given, &asked)
}

fn quarter_case(
    comparison: &mut Comparison,
    random: &mut Random,
    given: &GivenTables,
) -> Result<(), Mismatch> {
    let checked = reference::check(&given.tables);
    match checked.number {
        0 => comparison.quarter_turns(random, given, checked.size as usize),
        _ => Ok(()),
    }
}
