//! The nearest point to a received one, among all of a constellation or among those of one coset:
//! the labels that share their two lowest bits v1 and v0.
//!
//! From 2 bits on, X is 1 or 3 more than a multiple of 4 by v1, and Y by v0. The points of a coset
//! fill two rectangles, which are the same if the bit count is even and cross each other if it is
//! odd; so the nearest of them is found by clamping, once for each rectangle.

/// The coordinates of points in a row in each of several rectangles, from `first` to `last`.
#[derive(Clone, Copy)]
struct Rows<const COUNT: usize> {
    first: [i16; COUNT],
    last: [i16; COUNT],
}

/// Rectangles of points, X and Y apart.
#[derive(Clone, Copy)]
struct Rectangles<const COUNT: usize> {
    x: Rows<COUNT>,
    y: Rows<COUNT>,
}

/// By bit count, those of 0 and 1 unused: one rectangle of each coset, by 2·v1 + v0, then the others.
static COSETS: [Rectangles<8>; 16] = cosets();
/// Those of whole constellations by bit count, of 0 and 3 unused: the points of 3 bits fill no two
/// rectangles.
static WHOLE: [Rectangles<2>; 16] = whole();

/// Half as many points as a side of the whole constellation's rectangles has, the short and the long.
const fn half_sides(b: usize) -> (i16, i16) {
    let short = 1 << (b / 2 - 1);
    (short, short + (b % 2) as i16 * ((short + 1) / 2))
}

/// Half sides in X and Y of a coset's rectangle; of 3 bits both are one, long in X where v1 and v0 are
/// alike.
const fn sides_in_coset(b: usize, other: bool, low: usize) -> (i16, i16) {
    let (short, long) = half_sides(b);
    let alike = low == 0 || low == 3;
    if (b == 3 && alike) || (b != 3 && other) {
        (long, short)
    } else {
        (short, long)
    }
}

/// The least and the largest coordinate of a side that has this label bit.
const fn ends(half_side: i16, bit: i16) -> (i16, i16) {
    let (least, largest) = (1 - 2 * half_side, 2 * half_side - 1);
    let coordinate = 1 + 2 * bit;
    (
        least + (coordinate - least) % 4,
        largest - (largest + 4 - coordinate) % 4,
    )
}

const fn cosets() -> [Rectangles<8>; 16] {
    let none = Rows {
        first: [0; 8],
        last: [0; 8],
    };
    let mut all = [Rectangles { x: none, y: none }; 16];
    let mut b = 2;
    while b < 16 {
        let mut k = 0;
        while k < 8 {
            let (other, low) = (k >= 4, k % 4);
            let (half_x, half_y) = sides_in_coset(b, other, low);
            let Rectangles { x, y } = &mut all[b];
            (x.first[k], x.last[k]) = ends(half_x, low as i16 >> 1);
            (y.first[k], y.last[k]) = ends(half_y, low as i16 & 1);
            k += 1;
        }
        b += 1;
    }
    all
}

/// Those of 1 bit are a point each.
const fn whole() -> [Rectangles<2>; 16] {
    let points = Rows {
        first: [1, -1],
        last: [1, -1],
    };
    let mut all = [Rectangles {
        x: points,
        y: points,
    }; 16];
    let mut b = 2;
    while b < 16 {
        let (short, long) = half_sides(b);
        let (short, long) = (2 * short - 1, 2 * long - 1);
        all[b].x = Rows {
            first: [-short, -long],
            last: [short, long],
        };
        all[b].y = Rows {
            first: [-long, -short],
            last: [long, short],
        };
        b += 1;
    }
    all
}

impl<const COUNT: usize> Rows<COUNT> {
    /// The nearest coordinate of each row: among all that are so far apart from `one`, and then not
    /// beyond an end.
    #[inline(always)]
    fn nearest(&self, received: i16, apart: i16, one: [i16; COUNT]) -> [i16; COUNT] {
        std::array::from_fn(|k| {
            let endless = ((received - one[k] + apart / 2) & -apart) + one[k];
            endless.max(self.first[k]).min(self.last[k])
        })
    }
}

/// A point with its squared distance from the received one, signed because the processor compares signed
/// numbers four at a time.
type Candidate = (i32, [i16; 2]);

#[inline(always)]
fn candidate(received: [i16; 2], point: [i16; 2]) -> Candidate {
    let off = |k: usize| i32::from(received[k] - point[k]);
    (off(0) * off(0) + off(1) * off(1), point)
}

#[inline(always)]
fn nearer(one: Candidate, other: Candidate) -> Candidate {
    if other.0 < one.0 {
        other
    } else {
        one
    }
}

/// The least squared distance to each coset, by 2·v1 + v0, and the point there; b from 2 to 15.
#[inline(always)]
pub fn nearest_in_cosets(b: u8, received: [i16; 2]) -> ([u32; 4], [[i16; 2]; 4]) {
    let [x, y] = received;
    let rectangles = &COSETS[usize::from(b % 16)];
    let x = rectangles.x.nearest(x, 4, [1, 1, -1, -1, 1, 1, -1, -1]);
    let y = rectangles.y.nearest(y, 4, [1, -1, 1, -1, 1, -1, 1, -1]);
    let mut costs = [0; 4];
    let mut points = [[0; 2]; 4];
    for low in 0..4 {
        let one = candidate(received, [x[low], y[low]]);
        let other = candidate(received, [x[low + 4], y[low + 4]]);
        let (cost, point) = nearer(one, other);
        (costs[low], points[low]) = (cost as u32, point);
    }
    (costs, points)
}

/// The least squared distance to the constellation, and the point there; b from 1 to 15.
#[inline(always)]
pub fn nearest_of_all(b: u8, received: [i16; 2]) -> (u32, [i16; 2]) {
    if b == 3 {
        let (costs, points) = nearest_in_cosets(3, received);
        let low = (0..4).min_by_key(|&low| costs[low]).unwrap_or(0);
        return (costs[low], points[low]);
    }
    let [x, y] = received;
    let rectangles = &WHOLE[usize::from(b % 16)];
    let x = rectangles.x.nearest(x, 2, [1; 2]);
    let y = rectangles.y.nearest(y, 2, [1; 2]);
    let one = candidate(received, [x[0], y[0]]);
    let other = candidate(received, [x[1], y[1]]);
    let (cost, point) = nearer(one, other);
    (cost as u32, point)
}

/// What both points of a 1-bit tone are off, squared, by its bit.
#[inline(always)]
pub fn one_bit_costs(received: [i16; 2]) -> [u32; 2] {
    [[1, 1], [-1, -1]].map(|point| candidate(received, point).0 as u32)
}
