//! Symbols to ask for the clip, by where their first monitored tone is, the same for all sides.

use crate::load::{Load, Monitored, HALF_SILENT, MIXED, ROTATING};
use crate::symbols::{Points, REGISTER};
use crate::workload::Workload;
use clevisroot_sys::{Answer, Clip, Tables};

pub type Check = fn(Tables) -> Answer;
pub type ClipCheck = fn(&[u8], &[u16], &[u16], &[i16], &[i16], u32) -> Clip;

/// All of 0 to 15 bits coded. The last but one draws for most tones, the last repeats no table set.
pub const CLIP_LOADS: [Load; 5] = [
    Load {
        name: "first monitored early",
        ..MIXED
    },
    last_only("last of t monitored only", MIXED),
    Load {
        name: "none monitored",
        monitored: Monitored::Nothing,
        ..MIXED
    },
    last_only("last only, 1 in 2 silent", HALF_SILENT),
    last_only("last only, 64 sets in turn", ROTATING),
];

const fn last_only(name: &'static str, load: Load) -> Load {
    Load {
        name,
        monitored: Monitored::LastOnly,
        ..load
    }
}

impl Workload {
    /// Checks the tables of the next symbol.
    pub fn check(&mut self, check: Check) -> Answer {
        let (tables, _, _) = self.step();
        check(tables)
    }

    /// Asks the next points for the clip.
    pub fn clip_check(&mut self, clip_check: ClipCheck) -> Clip {
        let (tables, symbol, _) = self.step();
        ask(clip_check, tables, &symbol.written)
    }

    /// Two implementations answer alike, and refuse nothing: points as written, turned and as received.
    pub fn agree_clips(&mut self, implementations: [ClipCheck; 2]) -> bool {
        (0..self.cycle()).all(|_| {
            let (tables, symbol, _) = self.step();
            let turned = symbol.written.turned();
            let mut lists = [&symbol.written, &turned, &symbol.received].into_iter();
            lists.all(|points| {
                let clips = implementations.map(|clip_check| ask(clip_check, tables, points));
                clips[0] == clips[1] && clips[0].number == 0
            })
        })
    }
}

fn ask(clip_check: ClipCheck, tables: Tables, Points { x, y }: &Points) -> Clip {
    clip_check(tables.bits, tables.gains, tables.tones, x, y, REGISTER)
}
