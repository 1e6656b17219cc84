//! Request R-13, "Noisy points": a frame whose points are nearest to the received ones. Every label of
//! every tone is tried; coded, the states are followed from the first pair to the last, and of the
//! ways that lead to a state the shortest is kept.

use crate::coding::{implied_word, is_last_two, read_pairs, State};
use crate::forms::{Class, Mode, Place, Tables};
use crate::points::{bits_of_number, constellation, Point};
use crate::refusals::{refuse_if, Refusal};
use crate::reordering::{frame_size, nonzero_entries, pairs, reordered_bits, Pair};
use crate::symbol::{classes, write_points};
use std::collections::BTreeMap;

/// RANGE: a coordinate that is not −1,023 to 1,023, at any place.
pub fn test_range(received: &[Point]) -> Result<(), Refusal> {
    let within = -1023..=1023;
    for (p, (x, y)) in received.iter().enumerate() {
        let outside = !within.contains(x) || !within.contains(y);
        refuse_if(outside, Refusal::Range(Place(p)))?;
    }
    Ok(())
}

/// The bytes of the working buffer: 16 a pair, none uncoded.
pub fn work_bytes(tables: &Tables) -> usize {
    match tables.mode {
        Mode::Uncoded => 0,
        Mode::Coded => 16 * nonzero_entries(&reordered_bits(tables)).div_ceil(2),
    }
}

fn squared_distance(from: Point, to: Point) -> u64 {
    let along = |from: i16, to: i16| u64::from(from.abs_diff(to)).pow(2);
    along(from.0, to.0) + along(from.1, to.1)
}

/// The total of squared distances between written and received points, at the loaded tones only.
pub fn total_distance(tables: &Tables, written: &[Point], received: &[Point]) -> u64 {
    let places = classes(tables)
        .into_iter()
        .zip(written.iter().zip(received));
    let loaded = places.filter(|(class, _)| matches!(class, Class::Data(_)));
    loaded
        .map(|(_, (&written, &received))| squared_distance(written, received))
        .sum()
}

/// The smallest total of any frame, by writing each of the 2 to the L frames, and how many have it.
pub fn smallest_of_all(tables: &Tables, received: &[Point], register: u32) -> (u64, usize) {
    let l = frame_size(tables);
    let total = |frame| {
        let (written, _) = write_points(tables, &bits_of_number(frame, l), register);
        total_distance(tables, &written, received)
    };
    let totals: Vec<u64> = (0..1 << l).map(total).collect();
    let smallest = *totals.iter().min().expect("there is a frame");
    let sharing = totals.iter().filter(|&&total| total == smallest).count();
    (smallest, sharing)
}

/// The L bits of a frame with the smallest total, and that total.
pub fn nearest_bits(tables: &Tables, received: &[Point]) -> (Vec<bool>, u64) {
    let carriers = carriers(tables, received);
    match tables.mode {
        Mode::Uncoded => {
            let nearest: Vec<Labelled> = carriers.iter().map(|own| own.nearest(0, 1)).collect();
            let bits = nearest.iter().flat_map(|own| own.label.clone()).collect();
            (bits, nearest.iter().map(|own| own.distance).sum())
        }
        Mode::Coded => {
            let pairs = pairs(&reordered_bits(tables));
            let (sent, total) = nearest_way(&pairs, &carriers);
            let bits = read_pairs(&pairs, &sent).expect("the way keeps to the code");
            (bits, total)
        }
    }
}

/// What carries one label: a tone, or coded two 1-bit tones; each with its bits and its received point.
struct Carrier(Vec<(usize, Point)>);

/// A label and its squared distance.
struct Labelled {
    label: Vec<bool>,
    distance: u64,
}

impl Carrier {
    /// The nearest of the labels `first`, `first + step`, and so on, of which each is tried.
    fn nearest(&self, first: usize, step: usize) -> Labelled {
        let bits: usize = self.0.iter().map(|(b, _)| b).sum();
        let labels = (first..1 << bits).step_by(step);
        let tried = labels.map(|label| (self.distance(label), label));
        let (distance, label) = tried.min().expect("there is a label");
        Labelled {
            label: bits_of_number(label, bits),
            distance,
        }
    }

    /// The lowest bits of the label are those of the first tone.
    fn distance(&self, label: usize) -> u64 {
        let mut rest = label;
        let mut distance = 0;
        for &(b, received) in &self.0 {
            distance += squared_distance(constellation(b)[rest % (1 << b)], received);
            rest >>= b;
        }
        distance
    }

    /// The nearest label for each choice of its two lowest bits, the ones that the code gives.
    fn nearest_four(&self) -> Vec<Labelled> {
        (0..4).map(|lowest| self.nearest(lowest, 4)).collect()
    }
}

/// The carriers in t' order. Coded, two 1-bit tones that follow each other are one.
fn carriers(tables: &Tables, received: &[Point]) -> Vec<Carrier> {
    let places = classes(tables).into_iter().zip(received);
    let loaded = places.filter_map(|(class, &point)| match class {
        Class::Data(b) => Some((b, point)),
        Class::Monitored | Class::Silent => None,
    });
    let shared = |b: usize| tables.mode == Mode::Coded && b == 1;
    let (ones, others): (Vec<_>, Vec<_>) = loaded.partition(|&(b, _)| shared(b));
    let single = others.into_iter().map(|tone| Carrier(vec![tone]));
    let double = ones.chunks(2).map(|two| Carrier(two.to_vec()));
    single.chain(double).collect()
}

/// What a pair can send: the word u, its labels one after the other, and their squared distance.
struct Choice {
    u: Vec<bool>,
    sent: Vec<bool>,
    distance: u64,
}

/// The choices of a pair of one carrier (x = 0) or two.
fn choices(pair: Pair, own: &[Carrier]) -> Vec<Choice> {
    let (last, first) = own.split_last().expect("a pair has a carrier");
    let none = || Labelled {
        label: vec![],
        distance: 0,
    };
    let of_x = first.first().map_or(vec![none()], Carrier::nearest_four);
    let of_y = last.nearest_four();
    let both = of_x.iter().flat_map(|v| of_y.iter().map(move |w| (v, w)));
    let choice = |(v, w): (&Labelled, &Labelled)| Choice {
        u: implied_word(pair, &v.label, &w.label),
        sent: [v.label.as_slice(), &w.label].concat(),
        distance: v.distance + w.distance,
    };
    both.map(choice).collect()
}

/// The shortest way to a state: its total, the state that the last pair found, and what that pair sent.
struct Way {
    total: u64,
    from: State,
    sent: Vec<bool>,
}

type Ways = BTreeMap<State, Way>;

/// The shortest way to each state that a pair can lead to, from the totals before it.
fn ways_on(before: &BTreeMap<State, u64>, pair: Pair, last_two: bool, own: &[Carrier]) -> Ways {
    let mut ways = Ways::new();
    let choices = choices(pair, own);
    for (&from, &so_far) in before {
        for Choice { u, sent, distance } in &choices {
            let Some(state) = from.read(u, last_two) else {
                continue;
            };
            let total = so_far + distance;
            if ways.get(&state).is_none_or(|known| total < known.total) {
                let sent = sent.clone();
                ways.insert(state, Way { total, from, sent });
            }
        }
    }
    ways
}

/// The sent bits of the shortest way through all pairs, and its total. It ends in state zero, to which
/// the last two pairs lead.
fn nearest_way(pairs: &[Pair], carriers: &[Carrier]) -> (Vec<bool>, u64) {
    let mut totals = BTreeMap::from([(State::default(), 0)]);
    let mut rest = carriers;
    let mut passed = Vec::new();
    for (number, &pair) in pairs.iter().enumerate() {
        let (own, after) = rest.split_at(if pair.x == 0 { 1 } else { 2 });
        rest = after;
        let ways = ways_on(&totals, pair, is_last_two(number, pairs), own);
        totals = ways.iter().map(|(&at, way)| (at, way.total)).collect();
        passed.push(ways);
    }
    let mut state = State::default();
    let mut sent = Vec::new();
    for ways in passed.iter().rev() {
        sent.push(ways[&state].sent.as_slice());
        state = ways[&state].from;
    }
    sent.reverse();
    (sent.concat(), totals[&State::default()])
}
