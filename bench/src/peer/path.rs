//! The nearest path through the 16 states: add, compare, select from the last pair to the first, so
//! that the survivors are read forward from state 0.
//!
//! A number of the search is 8·cost + (u1 + 2·u2 + 4·u3), so that the least of several has its
//! choice with it. What a state's survivor chose is its byte of the pair's sixteen.

use super::bits::Sink;
use super::trellis::{State, LABEL_BITS};

/// What the least path from each state on costs, times 8, by 8·S3 + 4·S2 + 2·S1 + S0.
type Ahead = [u64; 16];

/// Fills in the survivors, sixteen bytes a pair, from what the cosets of each entry cost, by 2·v1 + v0;
/// tells the least total.
pub fn go_back(costs: &[[u32; 4]], survivors: &mut [[u8; 16]]) -> u64 {
    let (lone, costs) = costs.split_at(costs.len() % 2);
    let (pairs, _) = costs.as_chunks();
    let (first, survivors) = survivors.split_at_mut(lone.len());
    let (free, last) = survivors.split_at_mut(pairs.len() - 2);
    let (free_pairs, last_pairs) = pairs.split_at(free.len());
    let mut ahead: Ahead = [0; 16];
    for ([v, w], survivors) in last_pairs.iter().zip(last).rev() {
        ahead = step_back(&ahead, v, w, true, survivors);
    }
    for ([v, w], survivors) in free_pairs.iter().zip(free).rev() {
        ahead = step_back(&ahead, v, w, false, survivors);
    }
    if let ([w], [survivors]) = (lone, first) {
        ahead[0] = first_alone(&ahead, w, survivors);
    }
    ahead[0] / 8
}

/// Follows the survivors from state 0 and puts the frame's bits. The label of an entry is the one that was
/// nearest among those with the two lowest bits that the path has there.
pub fn read_forward(
    bits: &[u8],
    survivors: &[[u8; 16]],
    label: impl Fn(usize, u32) -> u32,
    sink: &mut Sink,
) {
    let lone = bits.len() % 2;
    let mut state = State(0);
    if lone == 1 {
        let chosen = u32::from(survivors[0][0]);
        let w = label(0, 3 * (chosen >> 1));
        sink.put(w & 1 | w >> 2 << 1, u32::from(bits[0]) - 1);
        state = state.next(chosen);
    }
    for (pair, survivors) in survivors[lone..].iter().enumerate() {
        let entry = lone + 2 * pair;
        let forced = if entry + 4 >= bits.len() { 2 } else { 0 };
        let chosen = u32::from(survivors[state.0 as usize % 16]);
        let low = u32::from(LABEL_BITS[(chosen << 1 | state.s0()) as usize % 16]);
        let (v, w) = (label(entry, low & 3), label(entry + 1, low >> 2));
        let (x, y) = (u32::from(bits[entry]), u32::from(bits[entry + 1]));
        let word = chosen | (v >> 2 | w >> 2 << (x - 2)) << 3;
        sink.put(word >> forced, x + y - 1 - forced);
        state = state.next(chosen & 3);
    }
}

/// The cheaper u3 for each u0, u2 and u1, by 4·u0 + 2·u2 + u1, from the costs of the cosets of v and w.
#[inline(always)]
fn branches(v: &[u32; 4], w: &[u32; 4]) -> [u64; 8] {
    std::array::from_fn(|k| {
        let (u0, u2, u1) = (k >> 2, k >> 1 & 1, k & 1);
        let with = |u3: usize| {
            let (v0, v1, w0, w1) = (u3, u1 ^ u3, u2 ^ u3, u0 ^ u1 ^ u2 ^ u3);
            let cost = v[2 * v1 + v0] + w[2 * w1 + w0];
            8 * u64::from(cost) + (u1 + 2 * u2 + 4 * u3) as u64
        };
        with(0).min(with(1))
    })
}

/// The least over u2 u1 for each u2 u1 that leads to the first of the states ahead; another leads to
/// the state that is as far from the first as the two differ.
#[inline(always)]
fn select([a0, a1, a2, a3]: [u64; 4], [b0, b1, b2, b3]: [u64; 4]) -> [u64; 4] {
    [
        (a0 + b0).min(a1 + b1).min((a2 + b2).min(a3 + b3)),
        (a1 + b0).min(a0 + b1).min((a3 + b2).min(a2 + b3)),
        (a2 + b0).min(a3 + b1).min((a0 + b2).min(a1 + b3)),
        (a3 + b0).min(a2 + b1).min((a1 + b2).min(a0 + b3)),
    ]
}

/// Goes one pair back. The four states that share S1 and S0 go on to the same four, 4·(2·S1 + S0) and
/// up, and to the first of them by u1 = S1 xor S3 and u2 = S2; a pair that is forced goes there only.
#[inline(always)]
fn step_back(
    ahead: &Ahead,
    v: &[u32; 4],
    w: &[u32; 4],
    forced: bool,
    survivors: &mut [u8; 16],
) -> Ahead {
    let branches = branches(v, w);
    let of_group = |s1: usize, s0: usize| {
        let to = std::array::from_fn(|k| ahead[4 * (2 * s1 + s0) + k]);
        let by: [u64; 4] = std::array::from_fn(|k| branches[4 * s0 + k]);
        let least = if forced {
            by.map(|by| to[0] + by)
        } else {
            select(to, by)
        };
        // By 2·S3 + S2.
        [least[s1], least[2 + s1], least[1 - s1], least[3 - s1]]
    };
    let groups = [
        of_group(0, 0),
        of_group(0, 1),
        of_group(1, 0),
        of_group(1, 1),
    ];
    let back: Ahead = std::array::from_fn(|state| groups[state % 4][state / 4]);
    *survivors = back.map(|least| (least & 7) as u8);
    back.map(|least| least & !7)
}

/// The pair whose x is 0, from state 0: u1 and u3 are 0, and u2 leads to state 0 or 2.
fn first_alone(ahead: &Ahead, w: &[u32; 4], survivors: &mut [u8; 16]) -> u64 {
    let without = ahead[0] + 8 * u64::from(w[0]);
    let with_u2 = ahead[2] + 8 * u64::from(w[3]);
    survivors[0] = 2 * u8::from(with_u2 < without);
    without.min(with_u2)
}
