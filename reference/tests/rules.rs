//! Rules of document 01, as amended, that a table of its own shows: the code's equations, the
//! points, the draws.

use reference::coding::{encode_pairs, read_pairs, State};
use reference::filler::{Filler, RESET};
use reference::forms::{bits_of_frame, frame_of_bits, Subcarrier};
use reference::points::{bits_of_number, constellation, label_of, number_of, point_of};
use reference::reordering::{pairs, reordered_tones, Pair};
use reference::{encode, read_point, Mode, Tables};

#[test]
fn forcing_clears_the_state_in_two_pairs() {
    for s in 0..16 {
        let bit = |k| s >> k & 1 == 1;
        let mut state = State {
            s3: bit(3),
            s2: bit(2),
            s1: bit(1),
            s0: bit(0),
        };
        for _ in 0..2 {
            state = state.next(state.s1 ^ state.s3, state.s2);
        }
        assert_eq!(state, State::default());
    }
}

#[test]
fn sent_bits_read_back() {
    let tables = [
        vec![4, 2, 3, 2],
        vec![2, 2, 2, 2, 2],
        vec![5, 2, 3, 15, 2, 2, 4],
        vec![2; 8],
    ];
    for entries in tables {
        let pairs = pairs(&entries);
        let l = entries.iter().sum::<usize>() - pairs.len() - 4;
        for value in 0..1 << l.min(10) {
            let frame = bits_of_number(value * 0x9_e375 % (1 << l), l);
            let sent = encode_pairs(&pairs, &frame);
            assert_eq!(sent.len(), entries.iter().sum());
            assert_eq!(read_pairs(&pairs, &sent), Ok(frame));
        }
    }
}

#[test]
fn odd_counts_have_the_zero_in_front() {
    let expected = [
        Pair { x: 0, y: 3 },
        Pair { x: 2, y: 4 },
        Pair { x: 2, y: 2 },
    ];
    assert_eq!(pairs(&[0, 0, 3, 2, 4, 2, 2]), expected);
}

#[test]
fn one_bit_tones_keep_the_order_of_t() {
    let tables = Tables {
        mode: Mode::Coded,
        bits: vec![1, 2, 1, 0, 1, 1],
        gains: vec![512; 6],
        tones: vec![4, 1, 0, 5, 3, 2],
    };
    let expected = [1, 3, 4, 0, 5, 2].map(Subcarrier);
    assert_eq!(reordered_tones(&tables), expected);
}

#[test]
fn points_are_distinct_odd_and_alike_under_half_a_turn() {
    for b in 1..=15 {
        let points = constellation(b);
        assert!(points.iter().all(|(x, y)| x % 2 != 0 && y % 2 != 0));
        let mut sorted = points.to_vec();
        sorted.sort();
        let mut turned: Vec<_> = points.iter().map(|(x, y)| (-x, -y)).collect();
        turned.sort();
        assert_eq!(sorted, turned);
        sorted.dedup();
        assert_eq!(sorted.len(), 1 << b);
    }
}

#[test]
fn points_read_back() {
    for b in 1..=15 {
        let step = 1 + (1 << b) / 512;
        for label in (0..1 << b).step_by(step) {
            let point = constellation(b)[label];
            assert_eq!(label_of(b, point), Some(label));
            assert_eq!(
                read_point(b as u8, point.0, point.1).contents,
                Some(label as u32)
            );
        }
    }
}

#[test]
fn filler_follows_its_recurrence() {
    let mut filler = Filler::from_register(RESET);
    let d: Vec<bool> = (0..500).map(|_| filler.draw()).collect();
    assert!(d[..23].iter().all(|&bit| bit));
    for n in 23..d.len() {
        assert_eq!(d[n], d[n - 18] ^ d[n - 23]);
    }
}

#[test]
fn register_shifts_down() {
    for register in [1, 2, 33, 0x40_0000, 1_234_567, RESET] {
        let mut filler = Filler::from_register(register);
        assert_eq!(filler.draw(), register & 1 == 1);
        let bit_22 = (register ^ register >> 5) & 1;
        assert_eq!(filler.register(), register >> 1 | bit_22 << 22);
    }
}

/// Of twenty 0-bit tones, every third monitored, each draws two bits, and each monitored one has
/// the point of its own two.
#[test]
fn every_0_bit_tone_draws_two_bits() {
    let tables = Tables {
        mode: Mode::Uncoded,
        bits: vec![0; 20],
        gains: (0..20).map(|tone| 512 * u16::from(tone % 3 == 2)).collect(),
        tones: (0..20).collect(),
    };
    let mut filler = Filler::from_register(4711);
    let d: Vec<bool> = (0..40).map(|_| filler.draw()).collect();
    let own = |tone: usize| match tone % 3 {
        2 => point_of(&d[2 * tone..2 * tone + 2]),
        _ => (0, 0),
    };
    let written = encode(&tables, &[], 4711, 20, 20);
    assert_eq!(written.register, filler.register());
    assert_eq!(
        written.contents.unwrap(),
        (0..20).map(own).collect::<Vec<_>>()
    );
}

#[test]
fn frames_are_packed_lowest_first() {
    let bits = bits_of_frame(&[0b1000_0110, 0b1], 0, 9);
    assert_eq!(number_of(&bits), 0b1_1000_0110);
    assert_eq!(frame_of_bits(&bits, 0), [0b1000_0110, 0b1]);
    assert_eq!(frame_of_bits(&bits, 5), [0b1100_0000, 0b11_0000]);
    assert_eq!(bits_of_frame(&[0b1100_0000, 0b11_0000], 5, 9), bits);
}
