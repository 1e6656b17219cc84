//! What a refusal means, in a few words, for a reader who has its number alone.

use clevisroot_sys::refusals::{
    BITS, FEW, FRAME, FULL, GAIN, LABEL, MONITOR, ODD, OFFGRID, RANGE, ROOM, SEED, SIZE, STRAY,
    TONE, TRELLIS, TWICE,
};

/// The number's row in section 3 of docs/RULES.md.
pub fn meaning(number: u32) -> &'static str {
    match number {
        SIZE => "a table has a length that it cannot have",
        TONE => "the tone table names a sub-carrier that there is not",
        TWICE => "the tone table names a sub-carrier twice",
        BITS => "a sub-carrier has more than 15 bits",
        STRAY => "a sub-carrier outside the tone table has bits or a gain",
        GAIN => "a gain is above 4095, or there are bits without a gain",
        ODD => "coded, and the 1-bit tones are odd in number",
        FEW => "coded, and fewer than 4 entries are loaded",
        ROOM => "there is not one point for each tone, or a buffer has another length than it must",
        FRAME => "the frame, or where it starts, does not fit the table set",
        SEED => "the register is not from 1 to 8388607",
        OFFGRID => "a point is none that its tone can have",
        MONITOR => "a monitored tone has another point than its filler bits give",
        TRELLIS => "the points break the trellis code",
        LABEL => "a bit count or a label of a single tone is beyond the range",
        FULL => "a report held all the symbols that it can",
        RANGE => "a coordinate is not from -1023 to 1023",
        _ => "no call of this version gives this number",
    }
}
