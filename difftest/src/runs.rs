//! Symbols whose bit counts come in runs: each kind of tone alone and beside every other, where a run ends with
//! a block of 128 places, or one place earlier or later. Coded, 1-bit tones go behind the others, and an odd
//! number of them is refused; uncoded every run is where it stands.

use crate::compare::{Comparison, Mismatch};
use crate::exhaustive::loaded;
use crate::inputs::packed_frame;
use crate::random::Random;
use reference::filler::RESET;
use reference::Mode;

/// What a run repeats: up to 8 bits, 9 bits or more, both, and tones without bits.
const KINDS: [&[u8]; 8] = [
    &[8],
    &[9],
    &[2],
    &[15],
    &[1, 3, 5, 7],
    &[10, 13, 14],
    &[8, 9, 2, 15, 0],
    &[0],
];

/// The tones of the first run and of the second.
const LENGTHS: [(usize, usize); 5] = [(127, 1), (128, 1), (129, 126), (128, 128), (255, 130)];

/// Every kind of run before every kind, encoded.
pub fn every_run(comparison: &mut Comparison) -> Result<(), Mismatch> {
    let random = &mut Random::for_case(0, 4);
    for (first, second) in KINDS.iter().flat_map(|one| KINDS.map(|other| (one, other))) {
        for (ahead, behind) in LENGTHS {
            let run = |kind: &[u8], tones| kind.iter().copied().cycle().take(tones).collect();
            let counts: [Vec<u8>; 2] = [run(first, ahead), run(second, behind)];
            for mode in [Mode::Coded, Mode::Uncoded] {
                encode(comparison, random, mode, &counts.concat())?;
            }
        }
    }
    Ok(())
}

fn encode(
    comparison: &mut Comparison,
    random: &mut Random,
    mode: Mode,
    counts: &[u8],
) -> Result<(), Mismatch> {
    let given = loaded(mode, counts);
    let l = reference::check(&given.tables).size as usize;
    let frame = packed_frame(random, l, 0);
    let rooms = (counts.len(), counts.len());
    comparison.encode(random, &given, (&frame, 0), RESET, rooms)
}
