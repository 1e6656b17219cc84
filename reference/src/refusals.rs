//! "Refusal numbers": each refusal with its number, name and place, and the tests of 1 to 8.

use crate::forms::{Mode, Place, Subcarrier, Tables};
use crate::reordering::{nonzero_entries, reordered_bits};

/// One case for each number, carrying the place where it has one. Numbers 9 and 17 to 21 are unused.
#[derive(Clone, Copy, Debug, PartialEq, Eq)]
pub enum Refusal {
    Size,
    Tone(Place),
    Twice(Place),
    Bits(Subcarrier),
    Stray(Subcarrier),
    Gain(Subcarrier),
    Odd,
    Few,
    Room,
    Frame,
    Seed,
    Offgrid(Place),
    Monitor(Place),
    Trellis(usize),
    Label,
    Full,
    Range(Place),
}

use Refusal::*;

impl Refusal {
    pub fn number(self) -> u32 {
        match self {
            Size => 1,
            Tone(_) => 2,
            Twice(_) => 3,
            Bits(_) => 4,
            Stray(_) => 5,
            Gain(_) => 6,
            Odd => 7,
            Few => 8,
            Room => 10,
            Frame => 11,
            Seed => 12,
            Offgrid(_) => 13,
            Monitor(_) => 14,
            Trellis(_) => 15,
            Label => 16,
            Full => 22,
            Range(_) => 23,
        }
    }

    pub fn place(self) -> u32 {
        let place = match self {
            Tone(Place(p)) | Twice(Place(p)) | Offgrid(Place(p)) | Monitor(Place(p)) => p,
            Range(Place(p)) => p,
            Bits(Subcarrier(i)) | Stray(Subcarrier(i)) | Gain(Subcarrier(i)) => i,
            Trellis(number) => number,
            Size | Odd | Few | Room | Frame | Seed | Label | Full => 0,
        };
        u32::try_from(place).expect("places are below 2 to the 16")
    }
}

/// The name that the page gives a number; 9 and 17 to 21 have none.
pub fn name(number: u32) -> &'static str {
    const NAMES: [&str; 17] = [
        "DONE", "SIZE", "TONE", "TWICE", "BITS", "STRAY", "GAIN", "ODD", "FEW", "UNKNOWN", "ROOM",
        "FRAME", "SEED", "OFFGRID", "MONITOR", "TRELLIS", "LABEL",
    ];
    match number {
        17..=21 => "UNKNOWN",
        22 => "FULL",
        23 => "RANGE",
        _ => NAMES[number as usize],
    }
}

/// The smallest of 1 to 8 that applies. Each test may rely on the ones before it.
pub fn test_tables(tables: &Tables) -> Result<(), Refusal> {
    test_size(tables)?;
    test_tone(tables)?;
    test_twice(tables)?;
    test_bits(tables)?;
    test_stray(tables)?;
    test_gain(tables)?;
    if tables.mode == Mode::Coded {
        test_odd(tables)?;
        test_few(tables)?;
    }
    Ok(())
}

fn test_size(tables: &Tables) -> Result<(), Refusal> {
    let (g, nsc) = (tables.g(), tables.nsc());
    let wrong = !(1..=4096).contains(&g) || tables.gains.len() != g || nsc == 0 || nsc > g;
    refuse_if(wrong, Size)
}

fn test_tone(tables: &Tables) -> Result<(), Refusal> {
    for (p, &tone) in tables.tones.iter().enumerate() {
        refuse_if(usize::from(tone) >= tables.g(), Tone(Place(p)))?;
    }
    Ok(())
}

fn test_twice(tables: &Tables) -> Result<(), Refusal> {
    let t = &tables.tones;
    for p in 0..t.len() {
        refuse_if(t[..p].contains(&t[p]), Twice(Place(p)))?;
    }
    Ok(())
}

fn test_bits(tables: &Tables) -> Result<(), Refusal> {
    for index in subcarriers(tables) {
        refuse_if(tables.bits_of(index) > 15, Bits(index))?;
    }
    Ok(())
}

fn test_stray(tables: &Tables) -> Result<(), Refusal> {
    let t = tables.t();
    for index in subcarriers(tables) {
        let used = tables.bits_of(index) > 0 || tables.gain_of(index) > 0;
        refuse_if(used && !t.contains(&index), Stray(index))?;
    }
    Ok(())
}

fn test_gain(tables: &Tables) -> Result<(), Refusal> {
    for index in subcarriers(tables) {
        let (bits, gain) = (tables.bits_of(index), tables.gain_of(index));
        refuse_if(gain > 4095 || (bits > 0 && gain == 0), Gain(index))?;
    }
    Ok(())
}

fn test_odd(tables: &Tables) -> Result<(), Refusal> {
    let t = tables.t();
    let ones = t.iter().filter(|&&tone| tables.bits_of(tone) == 1).count();
    refuse_if(ones % 2 == 1, Odd)
}

fn test_few(tables: &Tables) -> Result<(), Refusal> {
    refuse_if(nonzero_entries(&reordered_bits(tables)) < 4, Few)
}

fn subcarriers(tables: &Tables) -> impl Iterator<Item = Subcarrier> {
    (0..tables.g()).map(Subcarrier)
}

pub fn refuse_if(applies: bool, refusal: Refusal) -> Result<(), Refusal> {
    if applies {
        Err(refusal)
    } else {
        Ok(())
    }
}
