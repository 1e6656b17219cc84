//! Refusals 1 to 8 in linear time, and re-ordering.
//!
//! The passes over whole tables only find out whether anything is wrong, so that the compiler
//! can take many entries at a time; which entry it is, is found out afterwards.

use super::{Refusal, BITS, FEW, GAIN, MOST_TONES, ODD, SIZE, STRAY, TONE, TWICE};
use clevisroot_sys::Tables;

/// What checking finds out about accepted tables.
pub struct Counts {
    pub loaded: usize,
    pub ones: usize,
    /// P; 0 where nothing is coded.
    pub pairs: usize,
    pub l: usize,
}

pub fn check(tables: &Tables) -> Result<Counts, Refusal> {
    let &Tables {
        bits,
        gains,
        tones,
        coded,
    } = tables;
    let (g, nsc) = (bits.len(), tones.len());
    if g == 0 || g > MOST_TONES || gains.len() != g || nsc == 0 || nsc > g {
        return Err(Refusal(SIZE, 0));
    }
    let mut members = [0; MOST_TONES];
    mark_members(tones, g, &mut members)?;
    test_entries(bits, gains, &members[..g])?;
    count(bits, coded != 0)
}

/// Puts 1 for each sub-carrier in t. Every entry passes 2 before any is tested for 3.
fn mark_members(tones: &[u16], g: usize, members: &mut [u8; MOST_TONES]) -> Result<(), Refusal> {
    let largest = tones.iter().fold(0, |largest, &tone| tone.max(largest));
    if usize::from(largest) >= g {
        return Err(first_past_end(tones, g));
    }
    for &tone in tones {
        members[usize::from(tone) % MOST_TONES] = 1;
    }
    if count_where(members, |member| member == 1) < tones.len() {
        return Err(first_repeated(tones));
    }
    Ok(())
}

#[cold]
fn first_past_end(tones: &[u16], g: usize) -> Refusal {
    let place = tones.iter().position(|&tone| usize::from(tone) >= g);
    Refusal(TONE, place.unwrap_or(0))
}

#[cold]
fn first_repeated(tones: &[u16]) -> Refusal {
    let mut seen = [false; MOST_TONES];
    let mut met = |&tone: &u16| std::mem::replace(&mut seen[usize::from(tone)], true);
    let place = tones.iter().position(&mut met);
    Refusal(TWICE, place.unwrap_or(0))
}

fn test_entries(bits: &[u8], gains: &[u16], members: &[u8]) -> Result<(), Refusal> {
    let mut wrong = false;
    for ((&b, &gain), &member) in bits.iter().zip(gains).zip(members) {
        let b = u16::from(b);
        let stray = (member == 0) & (b | gain > 0);
        wrong |= (b > 15) | stray | (gain > 4095) | ((b > 0) & (gain == 0));
    }
    if wrong {
        return Err(first_wrong_entry(bits, gains, members));
    }
    Ok(())
}

/// 4 anywhere goes before 5 anywhere, and that before 6 anywhere.
#[cold]
fn first_wrong_entry(bits: &[u8], gains: &[u16], members: &[u8]) -> Refusal {
    let stray = |&i: &usize| members[i] == 0 && (bits[i] > 0 || gains[i] > 0);
    let gain = |&i: &usize| gains[i] > 4095 || (bits[i] > 0 && gains[i] == 0);
    if let Some(index) = bits.iter().position(|&b| b > 15) {
        Refusal(BITS, index)
    } else if let Some(index) = (0..bits.len()).find(stray) {
        Refusal(STRAY, index)
    } else {
        Refusal(GAIN, (0..bits.len()).find(gain).unwrap_or(0))
    }
}

/// N and L. All loaded sub-carriers are in t, so the order of t doesn't matter.
fn count(bits: &[u8], coded: bool) -> Result<Counts, Refusal> {
    let l = bits.iter().map(|&b| u32::from(b)).sum::<u32>() as usize;
    let loaded = count_where(bits, |b| b > 0);
    let ones = count_where(bits, |b| b == 1);
    if !coded {
        return Ok(Counts {
            loaded,
            ones,
            pairs: 0,
            l,
        });
    }
    let n = loaded - ones / 2;
    if ones % 2 == 1 {
        return Err(Refusal(ODD, 0));
    }
    if n < 4 {
        return Err(Refusal(FEW, 0));
    }
    let pairs = n.div_ceil(2);
    Ok(Counts {
        loaded,
        ones,
        pairs,
        l: l - pairs - 4,
    })
}

/// Counts in bytes as far as a byte can count.
fn count_where(list: &[u8], test: impl Fn(u8) -> bool) -> usize {
    let count_part = |part: &[u8]| part.iter().map(|&entry| u8::from(test(entry))).sum::<u8>();
    list.chunks(128)
        .map(|part| usize::from(count_part(part)))
        .sum()
}

/// Writes t' and b'.
pub fn reorder(tables: &Tables, counts: &Counts, tones_out: &mut [u16], bits_out: &mut [u8]) {
    let &Tables { bits, tones, .. } = tables;
    if tables.coded == 0 {
        tones_out.copy_from_slice(tones);
        for (out, &tone) in bits_out.iter_mut().zip(tones) {
            *out = bits[usize::from(tone)];
        }
        return;
    }
    let nsc = tones.len();
    let mut next = 0;
    let mut next_one = nsc - counts.ones;
    let mut next_entry = nsc - (counts.loaded - counts.ones / 2);
    bits_out[..next_entry].fill(0);
    bits_out[nsc - counts.ones / 2..].fill(2);
    for &tone in tones {
        let b = bits[usize::from(tone)];
        let to = if b == 1 { &mut next_one } else { &mut next };
        tones_out[*to] = tone;
        *to += 1;
        if b >= 2 {
            bits_out[next_entry] = b;
            next_entry += 1;
        }
    }
}
