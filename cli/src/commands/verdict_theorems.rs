//! The theorems that a verdict rests on.

use super::verdict::{Ground, Verdict};
use crate::theorems::{
    CLIP_QUARTER, CLIP_TURNED, CLIP_WRITTEN, HALF, HALF_ANY, HALF_MONITORED, QUARTER_ANY,
};

/// Those of a verdict on a whole symbol, which was read each way.
pub fn theorems_of_readings(verdict: Verdict, ground: &Ground, coded: bool) -> Vec<&'static str> {
    match (verdict, ground) {
        _ if !coded => vec![],
        (Verdict::Perhaps(_) | Verdict::Neither, _) => vec![],
        (Verdict::Sure(_), Ground::Trellis(_)) => vec![HALF_ANY, QUARTER_ANY],
        (Verdict::Sure(_), Ground::Tones(_)) => vec![HALF_MONITORED, QUARTER_ANY],
        (_, Ground::Nothing) => vec![HALF, QUARTER_ANY],
        _ => vec![QUARTER_ANY],
    }
}

/// Those of a verdict on one tone: each tells what the check says of a symbol that came one way, and
/// so rules that way out where the check says otherwise.
pub fn theorems_of_one_tone(verdict: Verdict) -> Vec<&'static str> {
    match verdict {
        Verdict::Sure(_) => vec![CLIP_WRITTEN, CLIP_TURNED, CLIP_QUARTER],
        _ => vec![],
    }
}
