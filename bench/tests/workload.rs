//! The load of many table sets: no two are alike, and library and peer agree on each. They agree too
//! where one tone in two is silent, from every start, and on what noisy points are nearest to.

use bench::load::{HALF_SILENT, LOADS, MIXED, ROTATING, UNCODED};
use bench::peer;
use bench::symbols::STARTS;
use bench::workload::Workload;
use std::collections::BTreeSet;

#[test]
fn every_symbol_of_the_rotating_load_has_another_table_set() {
    let mut workload = Workload::new(ROTATING, 256);
    let tables: BTreeSet<&[u16]> = workload.tone_tables().collect();
    assert_eq!((tables.len(), workload.cycle()), (64, 64));
    assert!(workload.agrees(clevisroot_sys::encode, clevisroot_sys::read));
}

#[test]
fn library_and_peer_agree_among_silent_tones() {
    let mut workload = Workload::new(HALF_SILENT, 1024);
    assert!(workload.agrees(clevisroot_sys::encode, clevisroot_sys::read));
}

#[test]
fn library_and_peer_agree_from_every_start() {
    for load in [MIXED, UNCODED] {
        let mut workload = Workload::new(load, 1024);
        for start in STARTS {
            assert!(workload.agrees_at(clevisroot_sys::encode_at, clevisroot_sys::read_at, start));
            assert!(workload.agrees_at(peer::encode_at, peer::read_at, start));
        }
    }
}

#[test]
fn library_and_peer_agree_on_noisy_points() {
    for load in LOADS {
        let mut workload = Workload::new(load, 64);
        assert!(workload.agree_nearest([clevisroot_sys::read_nearest, peer::read_nearest]));
    }
}
