//! Labels and points without a branch on the bit count.
//!
//! A label is a few top bits, which choose a block of the plane, and an even number of low bits,
//! which choose a point of the block: the odd ones for X, the even ones for Y. The block lies at
//! (Xt, Yt), each −2 to 1, times its side; for odd counts from 5 it depends on the two highest
//! low bits too. Two coordinates travel in one word, X in the low half.

/// How a bit count cuts its labels.
#[derive(Clone, Copy)]
#[repr(align(16))]
struct Shape {
    /// The block of a label is at `blocks + (label >> shift)` of `BLOCKS`.
    blocks: u16,
    shift: u8,
    /// Low bits are `MOST_LOW − unused`: b − 2 if b is even, b − 3 if it is odd.
    unused: u8,
    low_mask: u16,
    /// 2 to the half of `unused`.
    scale: i16,
    row: u8,
}

static SHAPES: [Shape; 16] = shapes();
/// The lowest point of every block of every bit count.
static BLOCKS: [u32; 230] = blocks();
/// What six low bits add to that.
static INSIDE: [u32; 64] = inside();
/// The top label bits of a block, by row, three bits of X and three of Y.
static TOPS: [[u8; 64]; 4] = tops();
/// Bit k of an index at bit 2k.
static SPREAD: [u16; 64] = spread();

/// The bit counts that share their blocks: 1, the even ones, 3, the odd ones from 5.
const ROW_ONE: u8 = 0;
const ROW_EVEN: u8 = 1;
const ROW_THREE: u8 = 2;
const ROW_ODD: u8 = 3;
/// The blocks of a row.
const BLOCK_COUNTS: [u16; 4] = [2, 4, 8, 32];
const NO_TOP: u8 = 255;
/// The low bits of 14 and 15 bits, which have the most.
const MOST_LOW: u8 = 12;

/// Xc Xd Yc Yd, which are Xt and Yt in two's complement, for the blocks of the odd counts from 5.
/// Every fourth of the first half also serves 1 bit and the even counts.
const CORNERS: [u8; 32] = [
    0b0000, 0b0000, 0b0000, 0b0000, 0b0011, 0b0011, 0b0011, 0b0011, 0b1100, 0b1100, 0b1100, 0b1100,
    0b1111, 0b1111, 0b1111, 0b1111, 0b0100, 0b0100, 0b1000, 0b1000, 0b0001, 0b0010, 0b0001, 0b0010,
    0b1101, 0b1110, 0b1101, 0b1110, 0b0111, 0b0111, 0b1011, 0b1011,
];
const CORNERS_OF_THREE: [u8; 8] = [
    0b0000, 0b0011, 0b1100, 0b1111, 0b1000, 0b0001, 0b1110, 0b0111,
];

const fn block_corner(row: u8, block: usize) -> u8 {
    match row {
        ROW_ONE => CORNERS[12 * block],
        ROW_EVEN => CORNERS[4 * block],
        ROW_THREE => CORNERS_OF_THREE[block],
        _ => CORNERS[block],
    }
}

const fn row_of(b: usize) -> u8 {
    match b {
        1 => ROW_ONE,
        3 => ROW_THREE,
        _ if b.is_multiple_of(2) => ROW_EVEN,
        _ => ROW_ODD,
    }
}

const fn shape_of(b: usize, blocks: u16) -> Shape {
    let row = row_of(b);
    let low = match row {
        ROW_EVEN => b as u8 - 2,
        ROW_ODD => b as u8 - 3,
        _ => 0,
    };
    let unused = MOST_LOW - low;
    Shape {
        blocks,
        shift: if row == ROW_ODD { low - 2 } else { low },
        unused,
        low_mask: (1 << low) - 1,
        scale: 1 << (unused / 2),
        row,
    }
}

const fn shapes() -> [Shape; 16] {
    let mut shapes = [shape_of(1, 0); 16];
    let mut blocks = 0;
    let mut b = 1;
    while b < 16 {
        shapes[b] = shape_of(b, blocks);
        blocks += BLOCK_COUNTS[shapes[b].row as usize];
        b += 1;
    }
    shapes
}

/// The sign bit of two's complement bits counts −2.
const fn signed(two_bits: u8) -> i16 {
    (two_bits & 1) as i16 - (two_bits & 2) as i16
}

const fn packed(x: i16, y: i16) -> u32 {
    x as u16 as u32 | (y as u16 as u32) << 16
}

const fn blocks() -> [u32; 230] {
    let shapes = shapes();
    let mut blocks = [0; 230];
    let mut b = 1;
    while b < 16 {
        let Shape {
            blocks: start,
            row,
            scale,
            ..
        } = shapes[b];
        let side = 128 / scale;
        let mut block = 0;
        while block < BLOCK_COUNTS[row as usize] as usize {
            let corner = block_corner(row, block);
            let (x, y) = (
                signed(corner >> 2) * side + 1,
                signed(corner & 3) * side + 1,
            );
            blocks[start as usize + block] = packed(x, y);
            block += 1;
        }
        b += 1;
    }
    blocks
}

const fn inside() -> [u32; 64] {
    let mut inside = [0; 64];
    let mut low = 0;
    while low < 64 {
        let x = low >> 1 & 1 | low >> 2 & 2 | low >> 3 & 4;
        let y = low & 1 | low >> 1 & 2 | low >> 2 & 4;
        inside[low as usize] = packed(2 * x, 2 * y);
        low += 1;
    }
    inside
}

/// A block is told by Xt + 2 and Yt + 2, and for the odd counts from 5 by its lowest two bits.
const fn tops() -> [[u8; 64]; 4] {
    let mut tops = [[NO_TOP; 64]; 4];
    let mut cell = 0;
    while cell < 64 {
        let corner = (cell >> 2 & 0b1100 | cell >> 1 & 0b0011) as u8 ^ 0b1010;
        let lowest_two = cell >> 2 & 2 | cell & 1;
        let mut block = 0;
        while block < 32 {
            let mut row = 0;
            while row < 4 {
                let there = block < BLOCK_COUNTS[row] as usize;
                if there && block_corner(row as u8, block) == corner {
                    if row as u8 != ROW_ODD {
                        tops[row][cell] = block as u8;
                    } else if block % 4 == lowest_two {
                        tops[row][cell] = block as u8 / 4;
                    }
                }
                row += 1;
            }
            block += 1;
        }
        cell += 1;
    }
    tops
}

const fn spread() -> [u16; 64] {
    let mut spread = [0; 64];
    let mut k = 0;
    while k < 64 {
        let mut bit = 0;
        while bit < 6 {
            spread[k] |= ((k >> bit & 1) << (2 * bit)) as u16;
            bit += 1;
        }
        k += 1;
    }
    spread
}

/// The point of a label below 2 to the b, b from 1 to 15.
#[inline(always)]
pub fn point_of(b: u8, label: u32) -> (i16, i16) {
    let shape = &SHAPES[usize::from(b % 16)];
    let block = u32::from(shape.blocks) + (label >> shape.shift);
    let low = label as usize & usize::from(shape.low_mask);
    // A block never reaches from negative to positive, so no half runs over into the other.
    let point = BLOCKS[block as usize] + (INSIDE[low & 63] | INSIDE[low >> 6 & 63] << 3);
    (point as i16, (point >> 16) as i16)
}

/// The label that has the point, b from 1 to 15.
#[inline(always)]
pub fn label_of(b: u8, x: i16, y: i16) -> Option<u32> {
    let (label, on_grid) = look_up(b, x, y);
    on_grid.then_some(label)
}

/// The label of a point of the constellation.
#[inline(always)]
pub fn label_on_grid(b: u8, x: i16, y: i16) -> u32 {
    look_up(b, x, y).0
}

/// The label that has the point if any has, and whether one has.
///
/// Coordinates are scaled to the blocks of 14 and 15 bits, so that until the last shift every
/// bit is at the same place for all bit counts.
#[inline(always)]
fn look_up(b: u8, x: i16, y: i16) -> (u32, bool) {
    let shape = &SHAPES[usize::from(b % 16)];
    let scale = i32::from(shape.scale);
    let x64 = (i32::from(x) >> 1) * scale + 128;
    let y64 = (i32::from(y) >> 1) * scale + 128;
    let cell = (x64 >> 5 & 7) << 3 | y64 >> 5 & 7;
    let top = TOPS[usize::from(shape.row % 4)][cell as usize];
    let low = SPREAD[(x64 & 63) as usize] << 1 | SPREAD[(y64 & 63) as usize];
    let outside = (x64 | y64) & !255 != 0 || x & y & 1 == 0 || top == NO_TOP;
    let label = (u32::from(top) << MOST_LOW | u32::from(low)) >> shape.unused;
    (label, !outside)
}
