//! Frames of a tally's entry, every length of them, and wrong bits at every byte: the library counts
//! rows of 256 bytes, and then what is left.

use crate::compare::{Comparison, Mismatch};
use crate::entries::random_frame_of;
use crate::random::Random;
use crate::tallied::Origin;
use reference::tally::{Entry, MOST_BYTES};

/// Every length up to one byte more than a frame may have: every bit wrong, and any.
pub fn every_length(comparison: &mut Comparison) -> Result<(), Mismatch> {
    let random = &mut Random::for_case(0, 2);
    for bytes in 0..=MOST_BYTES + 1 {
        let sent = random_frame_of(random, bytes);
        let turned = sent.iter().map(|byte| !byte).collect();
        count_read(comparison, &sent, turned)?;
        count_read(comparison, &sent, random_frame_of(random, bytes))?;
    }
    Ok(())
}

/// Wrong bits at each byte alone, of short frames and of long ones that end a row or nearly so.
pub fn every_byte(comparison: &mut Comparison) -> Result<(), Mismatch> {
    let random = &mut Random::for_case(0, 3);
    let after_rows = [2, 3, 4, 8, 16, 30].map(|rows| 256 * rows);
    let near_rows = after_rows
        .into_iter()
        .flat_map(|bytes| bytes - 1..=bytes + 1);
    for bytes in (1..=280).chain(near_rows) {
        let sent = random_frame_of(random, bytes);
        for at in 0..bytes {
            let mut read = sent.clone();
            read[at] ^= random.pick(&[1 << (at % 8), 255]);
            count_read(comparison, &sent, read)?;
        }
    }
    Ok(())
}

fn count_read(comparison: &mut Comparison, sent: &[u8], read: Vec<u8>) -> Result<(), Mismatch> {
    let sent = sent.to_vec();
    let tally = reference::tally_new();
    comparison.tally_entry((&tally, Origin::Calls), &Entry::Read { sent, read })?;
    Ok(())
}
