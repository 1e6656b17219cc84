//! What is told of a table set that is accepted: its tones, and whether it shows a turned clip.

use crate::ask::{self, trellis_tells};
use crate::files::{Class, TableSet};
use crate::json::{Fields, Json};
use crate::register::{Reach, Reaches, ENOUGH_TONES, UNSEEN};
use crate::theorems::{named, QUARTER_ANY};
use crate::words::mode_word;
use clevisroot_sys::refusals::{FEW, MONITOR, SIZE, TRELLIS};

/// The most bits that a tone has.
const MOST_BITS: u8 = 15;

pub struct Facts {
    /// The file that the table set came from.
    pub name: String,
    pub coded: bool,
    /// L.
    pub size: u32,
    carriers: usize,
    tones: usize,
    silent: usize,
    /// How many tones have 1 bit, 2 bits and so on.
    by_bits: Vec<usize>,
    /// N.
    pub loaded: usize,
    /// What the monitored tones of one symbol can tell.
    reach: Reach,
    /// The trellis code refuses every turned symbol.
    pub trellis: bool,
}

impl Facts {
    /// The facts of an accepted table set with this L.
    pub fn of(set: &TableSet, size: u32) -> Facts {
        let (_, order) = ask::order(set);
        let of_bits = |bits| set.count(|class| class == Class::Data(bits));
        Facts {
            name: set.name.clone(),
            coded: set.coded,
            size,
            carriers: set.carriers(),
            tones: set.tone_count(),
            silent: set.count(|class| class == Class::Silent),
            by_bits: (1..=MOST_BITS).map(of_bits).collect(),
            loaded: order.loaded(),
            reach: Reaches::of(set, &order).alone(),
            trellis: trellis_tells(set, &order),
        }
    }

    /// How many tones are monitored.
    pub fn monitored(&self) -> usize {
        self.reach.tones
    }

    fn data(&self) -> usize {
        self.tones - self.monitored() - self.silent
    }

    /// Whether exact reading refuses a turned symbol, if the register is the writer's.
    fn shows_turned(&self) -> bool {
        self.trellis || self.monitored() > 0
    }

    /// "coded, G = 8, NSC = 6: 5 with data, 1 monitored, 0 silent"
    pub fn class_words(&self) -> String {
        format!(
            "{}, G = {}, NSC = {}: {} with data, {} monitored, {} silent",
            mode_word(self.coded),
            self.carriers,
            self.tones,
            self.data(),
            self.monitored(),
            self.silent
        )
    }

    /// "2 of 1 bit, 1 of 4 bits"
    pub fn loading_words(&self) -> String {
        let counts = (1..=MOST_BITS).zip(&self.by_bits);
        let words: Vec<String> = counts
            .filter(|(_, tones)| **tones > 0)
            .map(|(bits, tones)| format!("{tones} of {}", Class::Data(bits)))
            .collect();
        if words.is_empty() {
            "none has any".to_string()
        } else {
            words.join(", ")
        }
    }

    /// Whether a turned clip shows, and what reading needs for that.
    pub fn turned_words(&self) -> String {
        let Facts { loaded, reach, .. } = self;
        let tones = self.monitored_words();
        if self.trellis {
            format!("shows whatever the register, because N = {loaded} is odd")
        } else if reach.settles() {
            format!("shows whatever the register (--register find), because {tones}")
        } else if reach.tells_way {
            let checked = "and their filler bits check each other";
            format!("shows whatever the register (--register find), because {tones} {checked}")
        } else if reach.tones >= ENOUGH_TONES {
            format!("shows only if the register is known: {tones}, but {UNSEEN}")
        } else if reach.tones > 0 {
            format!("shows if the register is known, because {tones}")
        } else {
            format!("does not show, because {}", self.unshown_words())
        }
    }

    /// Tones that a quarter turn takes off their constellation, coded or not.
    fn ones(&self) -> usize {
        self.by_bits.first().copied().unwrap_or(0)
    }

    /// Whether points turned by a quarter show, and by what. Of uncoded tables nothing is proved.
    pub fn quarter_words(&self) -> String {
        const UNPROVED: &str = "; uncoded, this is not proved";
        let tones = self.monitored_words();
        match (self.ones(), self.monitored()) {
            _ if self.coded => format!("show whatever the register{}", named(&[QUARTER_ANY])),
            (0, 0) => "do not show, because no tone has 1 bit and none is monitored".to_string(),
            (0, _) => format!("show if the register is known, because {tones}{UNPROVED}"),
            (1, _) => format!("show whatever the register, because 1 tone has 1 bit{UNPROVED}"),
            (ones, _) => {
                format!("show whatever the register, because {ones} tones have 1 bit{UNPROVED}")
            }
        }
    }

    /// "1 tone is monitored"
    pub fn monitored_words(&self) -> String {
        match self.monitored() {
            1 => "1 tone is monitored".to_string(),
            tones => format!("{tones} tones are monitored"),
        }
    }

    /// Whether a symbol can be refused with this number: the tables themselves are accepted.
    pub fn can_refuse(&self, number: u32) -> bool {
        match number {
            SIZE..=FEW => false,
            MONITOR => self.monitored() > 0,
            TRELLIS => self.coded,
            _ => true,
        }
    }

    /// Why a turned clip does not show.
    pub fn unshown_words(&self) -> String {
        if self.coded {
            format!("no tone is monitored and N = {} is even", self.loaded)
        } else {
            "no tone is monitored".to_string()
        }
    }

    pub fn fields(&self) -> Fields {
        let number = |number: usize| Json::Number(number as i64);
        let by_bits = self.by_bits.iter().map(|&tones| number(tones)).collect();
        let always = self.trellis || self.reach.tells_way;
        let quarter = self.coded || self.ones() > 0;
        vec![
            ("mode", Json::text(mode_word(self.coded))),
            ("sub_carriers", number(self.carriers)),
            ("tones", number(self.tones)),
            ("data", number(self.data())),
            ("monitored", number(self.monitored())),
            ("silent", number(self.silent)),
            ("tones_by_bits", Json::List(by_bits)),
            ("non_zero_entries", number(self.loaded)),
            ("turned_shows", Json::Flag(self.shows_turned())),
            ("turned_shows_without_register", Json::Flag(always)),
            (
                "quarter_turn_shows",
                Json::Flag(quarter || self.monitored() > 0),
            ),
            ("quarter_turn_shows_without_register", Json::Flag(quarter)),
        ]
    }
}
