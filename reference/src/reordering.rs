//! "Re-ordering": t', b', N, the pairs, P and L.

use crate::forms::{Mode, Subcarrier, Tables};

/// Two neighbouring non-zero entries of b', or the 0 put in front and the first entry.
#[derive(Clone, Copy, Debug, PartialEq, Eq)]
pub struct Pair {
    pub x: usize,
    pub y: usize,
}

/// t'. Coded, the 1-bit tones go to the end; both parts stay in t order.
pub fn reordered_tones(tables: &Tables) -> Vec<Subcarrier> {
    let t = tables.t();
    match tables.mode {
        Mode::Uncoded => t,
        Mode::Coded => {
            let (ones, others): (Vec<_>, Vec<_>) =
                t.into_iter().partition(|&tone| tables.bits_of(tone) == 1);
            [others, ones].concat()
        }
    }
}

/// b', with NSC entries.
pub fn reordered_bits(tables: &Tables) -> Vec<usize> {
    let tones = reordered_tones(tables);
    let counts: Vec<usize> = tones.iter().map(|&tone| tables.bits_of(tone)).collect();
    match tables.mode {
        Mode::Uncoded => counts,
        Mode::Coded => {
            let loaded = counts.iter().filter(|&&b| b > 0).count();
            let ones = counts.iter().filter(|&&b| b == 1).count();
            let n = loaded - ones / 2;
            let mut entries = vec![0; tables.nsc() - n];
            entries.extend(counts.iter().filter(|&&b| b >= 2));
            entries.extend(vec![2; ones / 2]);
            entries
        }
    }
}

/// N, the count of non-zero re-ordered entries.
pub fn nonzero_entries(entries: &[usize]) -> usize {
    entries.iter().filter(|&&entry| entry != 0).count()
}

/// The pairs of coded mode: cut from the non-zero entries, one 0 in front if N is odd.
pub fn pairs(entries: &[usize]) -> Vec<Pair> {
    let mut row: Vec<usize> = entries.iter().copied().filter(|&b| b != 0).collect();
    if nonzero_entries(entries) % 2 == 1 {
        row.insert(0, 0);
    }
    let cut = |two: &[usize]| Pair {
        x: two[0],
        y: two[1],
    };
    row.chunks(2).map(cut).collect()
}

/// L, for tables that none of 1 to 8 refuses.
pub fn frame_size(tables: &Tables) -> usize {
    let sum: usize = tables.t().iter().map(|&tone| tables.bits_of(tone)).sum();
    match tables.mode {
        Mode::Uncoded => sum,
        Mode::Coded => {
            let p = nonzero_entries(&reordered_bits(tables)).div_ceil(2);
            sum - p - 4
        }
    }
}
