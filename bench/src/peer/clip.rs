//! The clip check: the first monitored tone is looked for along t, and its filler bits are the draws
//! of the silent ones before it away.

use super::filler::{register_valid, Filler};
use super::{refuse_if, tables, Refusal, ROOM, SEED};
use clevisroot_sys::clips::{CANT_TELL, NEITHER, STRAIGHT, TURNED};
use clevisroot_sys::{Clip, Tables};

pub fn clip_check(
    bits: &[u8],
    gains: &[u16],
    tones: &[u16],
    x: &[i16],
    y: &[i16],
    reg: u32,
) -> Clip {
    let coded = 1;
    let tables = Tables {
        coded,
        bits,
        gains,
        tones,
    };
    let (number, place, clip) = match try_clip(&tables, x, y, reg) {
        Ok(clip) => (0, 0, clip),
        Err(Refusal(number, place)) => (number, place as u32, 0),
    };
    Clip {
        number,
        place,
        clip,
        reg,
    }
}

fn try_clip(tables: &Tables, x: &[i16], y: &[i16], reg: u32) -> Result<u32, Refusal> {
    tables::check(tables)?;
    let nsc = tables.tones.len();
    refuse_if(x.len() != nsc || y.len() != nsc, ROOM)?;
    refuse_if(!register_valid(reg), SEED)?;
    let Some((place, silent)) = first_monitored(tables) else {
        return Ok(CANT_TELL);
    };
    let (own_x, own_y) = Filler(reg).after_tones(silent).draw_point();
    Ok(match (x[place], y[place]) {
        point if point == (own_x, own_y) => STRAIGHT,
        point if point == (-own_x, -own_y) => TURNED,
        _ => NEITHER,
    })
}

/// Its place in t', and how many silent tones are before it. 1-bit tones are all behind it there. Only a
/// silent tone of accepted tables has no gain.
fn first_monitored(tables: &Tables) -> Option<(usize, usize)> {
    // of one length, so that one test of an index serves both
    let g = tables.bits.len();
    let (bits, gains) = (&tables.bits[..g], &tables.gains[..g]);
    let monitored = |b: u8, gain: u16| (b == 0) & (gain > 0);
    // over all sub-carriers, many at a time: where there is none, t need not be looked along
    let pairs = bits.iter().zip(gains);
    if !pairs.fold(false, |any, (&b, &gain)| any | monitored(b, gain)) {
        return None;
    }
    let (mut place, mut silent) = (0, 0);
    for &tone in tables.tones {
        let tone = usize::from(tone);
        let (b, gain) = (bits[tone], gains[tone]);
        if monitored(b, gain) {
            return Some((place, silent));
        }
        place += usize::from(b != 1);
        silent += usize::from(gain == 0);
    }
    None
}
