//! The functions of include/clevisroot.h and safe wrappers around them. The header says what each
//! one does; the names here are its names without the prefix.

pub mod clips;
pub mod descriptors;
mod raw;
pub mod refusals;

/// The register at reset.
pub const RESET: u32 = 8_388_607;

/// The longest tables, in sub-carriers; the longest frame, in bytes, from any start; and the longest
/// working buffer, in bytes.
pub const MAX_TONES: usize = 4096;
pub const MAX_FRAME: usize = 7681;
pub const MAX_WORK: usize = 32768;

/// The most symbols that a tally holds; as the number of the first refused symbol, that none was
/// refused.
pub const MAX_SYMBOLS: u32 = 65535;
pub const NONE_REFUSED: u32 = 65535;

/// Number and place of the refusal (0 and 0 if done), frame size L, register.
#[repr(C)]
#[derive(Clone, Copy, Debug, PartialEq, Eq)]
pub struct Answer {
    pub number: u32,
    pub place: u32,
    pub size: u32,
    pub reg: u32,
}

/// The same, and the total of squared distances.
#[repr(C)]
#[derive(Clone, Copy, Debug, PartialEq, Eq)]
pub struct Nearest {
    pub number: u32,
    pub place: u32,
    pub size: u32,
    pub reg: u32,
    pub total: u64,
}

/// What the first monitored tone tells of the clip, one of [`clips`], or 0 where the call is refused;
/// the register as it was given.
#[repr(C)]
#[derive(Clone, Copy, Debug, PartialEq, Eq)]
pub struct Clip {
    pub number: u32,
    pub place: u32,
    pub clip: u32,
    pub reg: u32,
}

#[repr(C)]
#[derive(Clone, Copy, Debug, PartialEq, Eq)]
pub struct Point {
    pub number: u32,
    pub x: i16,
    pub y: i16,
}

#[repr(C)]
#[derive(Clone, Copy, Debug, PartialEq, Eq)]
pub struct Label {
    pub number: u32,
    pub label: u32,
}

#[repr(C)]
#[derive(Clone, Copy, Debug, PartialEq, Eq)]
pub struct Drawn {
    pub number: u32,
    pub bit: u32,
    pub reg: u32,
}

/// The report of a pair: symbols given, symbols refused, frames read wrong, wrong bits, and the first
/// refused symbol, [`NONE_REFUSED`] if none.
#[repr(C)]
#[derive(Clone, Copy, Debug, PartialEq, Eq)]
pub struct Tally {
    pub symbols: u32,
    pub refused: u32,
    pub wrong_frames: u32,
    pub wrong_bits: u32,
    pub first_refused: u32,
}

/// The tally with an entry more, or as it was given where the entry is refused.
#[repr(C)]
#[derive(Clone, Copy, Debug, PartialEq, Eq)]
pub struct Tallied {
    pub number: u32,
    pub tally: Tally,
}

/// The mode and the lent tables. `coded` 0 is uncoded, anything else coded.
#[derive(Clone, Copy, Debug)]
pub struct Tables<'a> {
    pub coded: u8,
    pub bits: &'a [u8],
    pub gains: &'a [u16],
    pub tones: &'a [u16],
}

/// Calls a function of [`raw`] with the tables taken apart, then the other arguments.
macro_rules! call_with_tables {
    ($function:ident, $tables:expr $(, $argument:expr)*) => {{
        let Tables { coded, bits, gains, tones } = $tables;
        // SAFETY: each pointer and length come from one live slice, the mutable ones from slices
        // that the borrow checker keeps apart from all others; the library keeps none of them.
        unsafe {
            raw::$function(
                coded,
                bits.as_ptr(),
                bits.len(),
                gains.as_ptr(),
                gains.len(),
                tones.as_ptr(),
                tones.len()
                $(, $argument)*
            )
        }
    }};
}

/// Checks the tables and tells L.
pub fn check(tables: Tables) -> Answer {
    call_with_tables!(clevisroot_check, tables)
}

/// Writes t' and b'.
pub fn reorder(tables: Tables, tones_out: &mut [u16], bits_out: &mut [u8]) -> Answer {
    call_with_tables!(
        clevisroot_reorder,
        tables,
        tones_out.as_mut_ptr(),
        tones_out.len(),
        bits_out.as_mut_ptr(),
        bits_out.len()
    )
}

/// Writes the points of a frame.
pub fn encode(tables: Tables, frame: &[u8], reg: u32, x: &mut [i16], y: &mut [i16]) -> Answer {
    call_with_tables!(
        clevisroot_encode,
        tables,
        frame.as_ptr(),
        frame.len(),
        reg,
        x.as_mut_ptr(),
        x.len(),
        y.as_mut_ptr(),
        y.len()
    )
}

/// Writes the points of a frame that starts at this bit of its first byte.
pub fn encode_at(
    tables: Tables,
    frame: &[u8],
    start: u8,
    reg: u32,
    x: &mut [i16],
    y: &mut [i16],
) -> Answer {
    call_with_tables!(
        clevisroot_encode_at,
        tables,
        frame.as_ptr(),
        frame.len(),
        start,
        reg,
        x.as_mut_ptr(),
        x.len(),
        y.as_mut_ptr(),
        y.len()
    )
}

/// Writes the frame of the points.
pub fn read(tables: Tables, x: &[i16], y: &[i16], reg: u32, frame: &mut [u8]) -> Answer {
    call_with_tables!(
        clevisroot_read,
        tables,
        x.as_ptr(),
        x.len(),
        y.as_ptr(),
        y.len(),
        reg,
        frame.as_mut_ptr(),
        frame.len()
    )
}

/// Writes the frame of the points so that it starts at this bit of its first byte.
pub fn read_at(
    tables: Tables,
    x: &[i16],
    y: &[i16],
    reg: u32,
    frame: &mut [u8],
    start: u8,
) -> Answer {
    call_with_tables!(
        clevisroot_read_at,
        tables,
        x.as_ptr(),
        x.len(),
        y.as_ptr(),
        y.len(),
        reg,
        frame.as_mut_ptr(),
        frame.len(),
        start
    )
}

/// The bytes of the working buffer, for tables that [`check`] accepts.
pub fn work_bytes(tables: Tables) -> usize {
    let ones = tables.bits.iter().filter(|&&bits| bits == 1).count();
    let others = tables.bits.iter().filter(|&&bits| bits > 1).count();
    match tables.coded {
        0 => 0,
        _ => 16 * (others + ones / 2).div_ceil(2),
    }
}

/// Writes a frame whose points have the smallest total of squared distances to the received ones, so
/// that it starts at this bit of its first byte.
pub fn read_nearest(
    tables: Tables,
    x: &[i16],
    y: &[i16],
    reg: u32,
    frame: &mut [u8],
    start: u8,
    work: &mut [u8],
) -> Nearest {
    call_with_tables!(
        clevisroot_read_nearest,
        tables,
        x.as_ptr(),
        x.len(),
        y.as_ptr(),
        y.len(),
        reg,
        frame.as_mut_ptr(),
        frame.len(),
        start,
        work.as_mut_ptr(),
        work.len()
    )
}

/// Tells from the first monitored tone whether the clip is the wrong way round. The tables are coded.
pub fn clip_check(
    bits: &[u8],
    gains: &[u16],
    tones: &[u16],
    x: &[i16],
    y: &[i16],
    reg: u32,
) -> Clip {
    // SAFETY: each pointer and length come from one live slice; the library keeps none of them.
    unsafe {
        raw::clevisroot_clip_check(
            bits.as_ptr(),
            bits.len(),
            gains.as_ptr(),
            gains.len(),
            tones.as_ptr(),
            tones.len(),
            x.as_ptr(),
            x.len(),
            y.as_ptr(),
            y.len(),
            reg,
        )
    }
}

/// The point of one label.
pub fn map_label(bits: u8, label: u32) -> Point {
    // SAFETY: takes and returns numbers only.
    unsafe { raw::clevisroot_map_label(bits, label) }
}

/// The label of one point.
pub fn read_point(bits: u8, x: i16, y: i16) -> Label {
    // SAFETY: takes and returns numbers only.
    unsafe { raw::clevisroot_read_point(bits, x, y) }
}

/// The point of one label, by the plain mapper.
pub fn plain_map_label(bits: u8, label: u32) -> Point {
    // SAFETY: takes and returns numbers only.
    unsafe { raw::clevisroot_plain_map_label(bits, label) }
}

/// The label of one point, by the plain mapper.
pub fn plain_read_point(bits: u8, x: i16, y: i16) -> Label {
    // SAFETY: takes and returns numbers only.
    unsafe { raw::clevisroot_plain_read_point(bits, x, y) }
}

/// One filler bit.
pub fn draw(reg: u32) -> Drawn {
    // SAFETY: takes and returns numbers only.
    unsafe { raw::clevisroot_draw(reg) }
}

/// A new tally, which is as reset.
pub fn tally_new() -> Tally {
    // SAFETY: takes nothing and returns numbers only.
    unsafe { raw::clevisroot_tally_new() }
}

/// Counts a symbol that was read.
pub fn tally_read(tally: Tally, sent: &[u8], read: &[u8]) -> Tallied {
    // SAFETY: each pointer and length come from one live slice; the library keeps none of them.
    unsafe {
        raw::clevisroot_tally_read(tally, sent.as_ptr(), sent.len(), read.as_ptr(), read.len())
    }
}

/// Counts a symbol that was refused, with the number of the refusal.
pub fn tally_refused(tally: Tally, sent: &[u8], refusal: u32) -> Tallied {
    // SAFETY: the pointer and the length come from one live slice; the library keeps neither.
    unsafe { raw::clevisroot_tally_refused(tally, sent.as_ptr(), sent.len(), refusal) }
}
