//! Numbers and names of the refusals, once for everything that is written in Rust.
//! `tests/header.rs` holds them to the C headers.

/// Makes a constant of each name, and the table [`ALL`].
macro_rules! refusals {
    ($($name:ident = $number:literal),* $(,)?) => {
        $(pub const $name: u32 = $number;)*

        /// Every number with its name, in the order of the numbers.
        pub const ALL: &[(u32, &str)] = &[$(($number, stringify!($name))),*];
    };
}

refusals! {
    DONE = 0,
    SIZE = 1,
    TONE = 2,
    TWICE = 3,
    BITS = 4,
    STRAY = 5,
    GAIN = 6,
    ODD = 7,
    FEW = 8,
    // 9 is unused
    ROOM = 10,
    FRAME = 11,
    SEED = 12,
    OFFGRID = 13,
    MONITOR = 14,
    TRELLIS = 15,
    LABEL = 16,
    // 17 to 21 are unused
    FULL = 22,
    RANGE = 23,
}

/// The name of a number, as `clevisroot_refusal_name` gives it.
pub fn name(number: u32) -> &'static str {
    let known = ALL.iter().find(|(known, _)| *known == number);
    known.map_or("UNKNOWN", |(_, name)| name)
}
