//! What monitored tones are worth, in words.

use super::reading::Tables;
use crate::register::{or_a_few_more, Reach, ENOUGH_TONES, TONES_OF_STREAM, UNSEEN};
use crate::words::count;

/// What it takes where one symbol is not enough: "12 monitored tones in one symbol, or 32 in several
/// that follow each other".
pub fn enough(tables: &Tables) -> String {
    let several = format!("or {TONES_OF_STREAM} in several that follow each other");
    match tables.reaches.alone().tones {
        ENOUGH_TONES.. => format!("a few more monitored tones in one symbol, {several}"),
        _ => format!(
            "{ENOUGH_TONES} monitored tones in one symbol, {several}{}",
            or_a_few_more(&tables.set)
        ),
    }
}

/// "1 monitored tone gives only 2 equations for the 23 bits of the register"
pub fn too_few(reach: Reach, register: &str) -> String {
    let tones = count(reach.tones, "monitored tone");
    match reach.tones {
        ENOUGH_TONES.. => format!("{tones} do not settle {register}, because {UNSEEN}"),
        1 => format!("{tones} gives only 2 equations for {register}"),
        few => format!("{tones} give only {} equations for {register}", 2 * few),
    }
}

/// "1 monitored tone agrees, as it would with a wrong register one time in 4"
pub fn agreement(agreed: Reach) -> String {
    let tones = count(agreed.tones, "monitored tone");
    let alike = alike_one_in(agreed);
    match agreed.tones {
        _ if agreed.settles() => format!(
            "{tones} of several symbols agree, which settles it only if no symbol is missing \
             between them"
        ),
        ENOUGH_TONES.. => format!("{tones} agree, which does not settle it, because {UNSEEN}"),
        1 => format!("{tones} agrees, as it would with a wrong register one time in {alike}"),
        _ => format!("{tones} agree, as they would with a wrong register one time in {alike}"),
    }
}

/// One register in so many looks the same to these monitored tones.
pub fn alike_one_in(reach: Reach) -> u64 {
    1 << reach.rank
}

/// "1 checks", "2 check"
pub fn checks(bits: usize) -> String {
    let check = if bits == 1 { "checks" } else { "check" };
    format!("{bits} {check}")
}
