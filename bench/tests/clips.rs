//! Library and peer tell the same clip of the symbols of the bench, and each load has its monitored tones
//! where it says.

use bench::clips::{ClipCheck, CLIP_LOADS};
use bench::load::{Load, Monitored, OwnTables};
use bench::peer;
use bench::workload::Workload;
use clevisroot_sys::clips::{CANT_TELL, STRAIGHT};
use difftest::random::Random;

const BOTH: [ClipCheck; 2] = [clevisroot_sys::clip_check, peer::clip_check];

#[test]
fn library_and_peer_agree_on_every_load() {
    for load in CLIP_LOADS {
        for nsc in [64, 1024, 4096] {
            assert!(Workload::new(load, nsc).agree_clips(BOTH), "{}", load.name);
        }
    }
}

#[test]
fn a_written_symbol_is_straight_unless_none_is_monitored() {
    for load in CLIP_LOADS {
        let mut workload = Workload::new(load, 4096);
        let told = match load.monitored {
            Monitored::Nothing => CANT_TELL,
            Monitored::Half | Monitored::LastOnly => STRAIGHT,
        };
        for _ in 0..workload.cycle() {
            assert_eq!(workload.clip_check(peer::clip_check).clip, told);
        }
    }
}

/// The places in t that are monitored.
fn monitored_places(load: Load) -> Vec<usize> {
    let tables = OwnTables::random(&mut Random::for_case(1, 2), load, 4096);
    let monitored = |&place: &usize| {
        let tone = usize::from(tables.tones[place]);
        tables.bits[tone] == 0 && tables.gains[tone] > 0
    };
    (0..4096).filter(monitored).collect()
}

#[test]
fn monitored_tones_are_where_the_load_says() {
    for load in CLIP_LOADS {
        let places = monitored_places(load);
        match load.monitored {
            Monitored::Half => assert!(places[0] < 400 && places.len() > 50),
            Monitored::LastOnly => assert_eq!(places, [4095]),
            Monitored::Nothing => assert!(places.is_empty()),
        }
    }
}
