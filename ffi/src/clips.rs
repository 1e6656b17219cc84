//! Numbers and names of what a clip check tells. `tests/header.rs` holds them to the C headers.
//! None is 0, which is the clip of a refused call.

pub const STRAIGHT: u32 = 1;
pub const TURNED: u32 = 2;
pub const NEITHER: u32 = 3;
pub const CANT_TELL: u32 = 4;

/// Every number with its name, in the order of the numbers.
pub const ALL: &[(u32, &str)] = &[
    (STRAIGHT, "STRAIGHT"),
    (TURNED, "TURNED"),
    (NEITHER, "NEITHER"),
    (CANT_TELL, "CANT_TELL"),
];

/// The name of a number, as `clevisroot_clip_name` gives it.
pub fn name(clip: u32) -> &'static str {
    let known = ALL.iter().find(|(known, _)| *known == clip);
    known.map_or("UNKNOWN", |(_, name)| name)
}
