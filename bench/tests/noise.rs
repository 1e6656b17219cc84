//! The error rates: the uncoded one is what the formula says, and the code helps; and how far different
//! symbols are apart on paper.

use bench::noise::{draw, Curve, Effort, CODED_FINE, CODED_WHOLE, UNCODED, UNCODED_WHOLE, WAYS};

const EFFORT: Effort = Effort {
    wrong: 150,
    frames: 3000,
};

/// At 17 dB the nearest border is 3.54 deviations away, so that one of 128 coordinates, of which 7 in 8
/// have a neighbour on a side, is beyond it in 0.0439 of the symbols.
#[test]
fn uncoded_rate_is_that_of_the_formula() {
    let curve = Curve::measure(UNCODED, EFFORT);
    let rate = curve.rates.iter().find(|rate| rate.decibels == 17.0);
    let share = rate.expect("a rate at 17 dB").share();
    assert!((0.036..0.052).contains(&share), "{share}");
}

#[test]
fn the_code_helps_and_rounding_costs() {
    let ways = [CODED_FINE, CODED_WHOLE, UNCODED, UNCODED_WHOLE];
    let [fine, whole, uncoded, uncoded_whole] = ways.map(|way| {
        let curve = Curve::measure(way, EFFORT);
        curve.decibels_at(0.1).expect("rates on both sides")
    });
    assert!((4.0..5.0).contains(&(uncoded - fine)));
    assert!((1.5..2.5).contains(&(uncoded - whole)));
    assert!((5.0..6.0).contains(&(uncoded_whole - uncoded)));
}

#[test]
fn the_picture_names_every_way() {
    let few = Effort {
        wrong: 2,
        frames: 20,
    };
    let picture = draw(&WAYS.map(|way| Curve::measure(way, few)));
    for way in WAYS {
        assert!(picture.contains(way.name), "{}", way.name);
    }
}

/// From a state by which two paths differ, and a word by which they do: how the next states differ, and the
/// least squared distance of the pair's labels, 4 for each of v0, v1, w0 and w1 that differs.
fn step(state: usize, word: usize) -> (usize, u32) {
    let [s0, s1, s2, s3] = [0, 1, 2, 3].map(|k| state >> k & 1);
    let [u1, u2, u3] = [0, 1, 2].map(|k| word >> k & 1);
    let labels = [u3, u1 ^ u3, u2 ^ u3, s0 ^ u1 ^ u2 ^ u3];
    let next = s1 << 3 | s0 << 2 | (s2 ^ u2) << 1 | (s1 ^ s3 ^ u1);
    (next, 4 * labels.iter().sum::<usize>() as u32)
}

/// What differs in higher label bits alone, or in u3, is at 16 already.
#[test]
fn paths_that_part_are_at_20_when_they_meet() {
    assert_eq!(step(0, 4), (0, 16));
    let mut least = [u32::MAX; 16];
    for (next, distance) in (0..8).map(|word| step(0, word)) {
        if next > 0 {
            least[next] = least[next].min(distance);
        }
    }
    for _ in 0..16 {
        for (state, word) in (1..16).flat_map(|state| (0..8).map(move |word| (state, word))) {
            let (next, distance) = step(state, word);
            least[next] = least[next].min(least[state].saturating_add(distance));
        }
    }
    assert_eq!(least[0], 20);
}
