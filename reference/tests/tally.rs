//! The pair report: the figures of a few entries by hand, those of any calls against the list of the
//! accepted entries, and tallies that come with any figures.

use clevisroot_sys::refusals::{DONE, FRAME, FULL};
use reference::tally::{figures_of, Entry, Tally};
use reference::{tally_entry, tally_new};

/// The five figures in the order of the rules.
fn tally([symbols, refused, wrong_frames, wrong_bits, first_refused]: [u32; 5]) -> Tally {
    Tally {
        symbols,
        refused,
        wrong_frames,
        wrong_bits,
        first_refused,
    }
}

fn read(sent: &[u8], read: &[u8]) -> Entry {
    Entry::Read {
        sent: sent.to_vec(),
        read: read.to_vec(),
    }
}

fn refused(sent: &[u8], refusal: u32) -> Entry {
    Entry::Refused {
        sent: sent.to_vec(),
        refusal,
    }
}

/// The tally after an accepted entry.
fn counted(before: &Tally, entry: &Entry) -> Tally {
    let answer = tally_entry(before, entry);
    assert_eq!(answer.number, DONE);
    answer.contents.expect("a tally")
}

#[test]
fn a_new_tally_has_no_symbols() {
    assert_eq!(tally_new(), tally([0, 0, 0, 0, 65_535]));
}

#[test]
fn figures_of_a_few_entries() {
    let entries = [
        (read(&[21], &[21]), [1, 0, 0, 0, 65_535]),
        (read(&[21, 255], &[20, 0]), [2, 0, 1, 9, 65_535]),
        (refused(&[21], 14), [3, 1, 1, 9, 2]),
        (read(&[], &[]), [4, 1, 1, 9, 2]),
        (refused(&[], u32::MAX), [5, 2, 1, 9, 2]),
        (read(&[0; 7681], &[255; 7681]), [6, 2, 2, 61_457, 2]),
    ];
    let mut now = tally_new();
    let mut list = Vec::new();
    for (entry, figures) in entries {
        now = counted(&now, &entry);
        list.push(entry);
        assert_eq!(now, tally(figures));
        assert_eq!(figures_of(&list), tally(figures));
    }
}

/// Every one of 65,535 symbols of the most bits, all wrong: the largest figure.
#[test]
fn the_largest_figures_fit() {
    let entry = read(&[0; 7681], &[255; 7681]);
    let most = 65_534 * 61_448;
    let before = tally([65_534, 0, 65_534, most, 65_535]);
    let full = counted(&before, &entry);
    assert_eq!(full, tally([65_535, 0, 65_535, 4_026_994_680, 65_535]));
    assert_eq!(tally_entry(&full, &entry).number, FULL);
}

/// Entries of all kinds, accepted or not, until the tally is full and beyond.
#[test]
fn figures_are_those_of_the_accepted_entries() {
    let kinds = [
        read(&[1, 2, 3], &[1, 2, 3]),
        read(&[1, 2, 3], &[1, 2, 131]),
        read(&[1], &[1, 2]),
        refused(&[7], 15),
        refused(&[7], 0),
        read(&[0], &[255]),
    ];
    let mut now = tally_new();
    let mut list = Vec::new();
    let mut told = Vec::new();
    for k in 0..100_000_usize {
        let entry = &kinds[k * k % 97 % kinds.len()];
        let answer = tally_entry(&now, entry);
        if let Some(after) = answer.contents {
            now = after;
            list.push(entry.clone());
        }
        told.push(answer.number);
        if k % 9_999 == 0 {
            assert_eq!(now, figures_of(&list));
        }
    }
    assert_eq!((list.len(), now.symbols), (65_535, 65_535));
    assert!(told.contains(&FRAME));
    assert_eq!(told.last(), Some(&FULL));
    assert_eq!(now, figures_of(&list));
}

#[test]
fn a_figure_that_would_not_fit_stays_at_the_largest() {
    let most = u32::MAX;
    let eight = read(&[0], &[255]);
    assert_eq!(
        counted(&tally([5, 6, most, most - 7, 8]), &eight),
        tally([6, 6, most, most, 8])
    );
    assert_eq!(
        counted(&tally([5, 6, most - 1, most - 8, 8]), &eight),
        tally([6, 6, most, most, 8])
    );
    assert_eq!(
        counted(&tally([5, most, 1, 2, 8]), &refused(&[], 1)),
        tally([6, most, 1, 2, 8])
    );
}

#[test]
fn first_refused_is_set_only_where_it_is_65535() {
    let entry = refused(&[], 1);
    for (first, after) in [(65_535, 5), (0, 0), (65_534, 65_534), (u32::MAX, u32::MAX)] {
        let came = tally([5, 0, 0, 0, first]);
        assert_eq!(counted(&came, &entry), tally([6, 1, 0, 0, after]));
        assert_eq!(counted(&came, &read(&[], &[])), tally([6, 0, 0, 0, first]));
    }
}
