//! The place of one id in millimetres, in two ways.
//!
//! Follows document 02, request F-1: the place call's refusals in its order
//! (1, 3, 4, 8, 9), then 13 for a unit that is not a number from 1/1,048,576
//! to 16; otherwise each whole number of the place, turned exactly into a
//! float and multiplied by the unit once. The unit is the millimetres per
//! step. By document 01, "The block", a cube's side has 512 steps.
//!
//! [`place_mm`] uses the machine's floats. [`place_mm_plain`] uses whole
//! numbers only, follows IEEE 754's account of bit patterns and rounding, and
//! decides in case of doubt.
//!
//! F-1 leaves two things open. The rounding is taken to be the one that IEEE
//! 754 has by default: to the nearest float, and of two equally near ones to
//! the even one. The zeros of a refusal are taken to be positive.

use crate::place::place;
use crate::refusal;

/// A point in millimetres.
#[derive(Clone, Copy, Debug, PartialEq)]
pub struct Metric {
    /// Millimetres along x.
    pub x: f64,
    /// The same along y.
    pub y: f64,
    /// The same along z.
    pub z: f64,
}

/// The answer of the place call in millimetres.
#[derive(Clone, Copy, Debug, PartialEq)]
pub struct PlacedMm {
    /// 0, or the number of the refusal with three positive zeros.
    pub number: u32,
    /// The place times the unit.
    pub point: Metric,
}

const SMALLEST_UNIT: f64 = 1.0 / 1_048_576.0;
const LARGEST_UNIT: f64 = 16.0;

/// The place of a lattice point or of a cut, by its id, in millimetres.
pub fn place_mm(
    nx: u32,
    ny: u32,
    nz: u32,
    cuts: &[u8],
    state: &[u8],
    id: u32,
    unit: f64,
) -> PlacedMm {
    let placed = place(nx, ny, nz, cuts, state, id);
    if placed.number != refusal::NONE {
        return refused(placed.number);
    }
    // No range contains a NaN.
    if !(SMALLEST_UNIT..=LARGEST_UNIT).contains(&unit) {
        return refused(refusal::UNIT);
    }
    // Every u32 is a float; the conversion is exact.
    let [x, y, z] = [placed.x, placed.y, placed.z].map(|whole| f64::from(whole) * unit);
    PlacedMm {
        number: refusal::NONE,
        point: Metric { x, y, z },
    }
}

fn refused(number: u32) -> PlacedMm {
    let [x, y, z] = [0.0; 3];
    PlacedMm {
        number,
        point: Metric { x, y, z },
    }
}

/// The same as [`place_mm`] for the unit with this bit pattern: the number and
/// the bit patterns of x, y and z. Without float arithmetic or comparison.
pub fn place_mm_plain(
    nx: u32,
    ny: u32,
    nz: u32,
    cuts: &[u8],
    state: &[u8],
    id: u32,
    unit_bits: u64,
) -> (u32, [u64; 3]) {
    let placed = place(nx, ny, nz, cuts, state, id);
    if placed.number != refusal::NONE {
        return (placed.number, [POSITIVE_ZERO; 3]);
    }
    let unit = Fields::of(unit_bits);
    if !unit.is_allowed() {
        return (refusal::UNIT, [POSITIVE_ZERO; 3]);
    }
    let products = [placed.x, placed.y, placed.z].map(|whole| product(whole, &unit));
    (refusal::NONE, products)
}

/// The bit pattern of the zero with sign 0.
const POSITIVE_ZERO: u64 = 0;
/// The exponent field of 1, the numbers from 1 to below 2.
const BIAS: u64 = 1023;
/// The digits' field is this wide.
const DIGIT_BITS: u32 = 52;
/// The digit of a normal number that is not written.
const LEADING_DIGIT: u64 = 1 << DIGIT_BITS;

/// A binary64 bit pattern in its three fields, from the top: one bit for the
/// sign, eleven for the exponent, 52 for the digits.
///
/// Exponent field 2047 means infinite (digits 0) or not a number (all other
/// digits), 0 means zero (digits 0) or subnormal, that is below 2^-1022. All
/// others mean a normal number: with `LEADING_DIGIT` before the digits,
/// (2^52 + digits) times 2^(exponent - 1075), negative if the sign is 1.
struct Fields {
    sign: u64,
    exponent: u64,
    digits: u64,
}

impl Fields {
    fn of(bits: u64) -> Fields {
        Fields {
            sign: bits >> 63,
            exponent: (bits >> DIGIT_BITS) % 2048,
            digits: bits % LEADING_DIGIT,
        }
    }

    /// Whether this is a number from 2^-20 to 2^4, both included. A normal
    /// number is at least 2^(exponent - 1023) and below the double of that,
    /// and equal to it if the digits are 0. Fields 0 and 2047 are none of
    /// those named here.
    fn is_allowed(&self) -> bool {
        let (lowest, highest) = (BIAS - 20, BIAS + 4);
        let not_below = self.exponent >= lowest;
        let not_above = self.exponent < highest || (self.exponent == highest && self.digits == 0);
        self.sign == 0 && not_below && not_above
    }
}

/// The bit pattern of a place's whole number times an allowed unit, rounded to
/// the nearest float, a tie to the one whose last digit is 0.
///
/// Whole numbers of a place are at most 256 times 128. So a product other than
/// zero is at least 1 times 2^-20 and at most 32,768 times 16, which is 2^19:
/// always among the normal numbers, which reach from 2^-1022 to below 2^1024.
/// Neither a subnormal nor an infinity can arise, and none is made here.
fn product(whole: u32, unit: &Fields) -> u64 {
    if whole == 0 {
        // Both factors have sign 0, and so has their product.
        return POSITIVE_ZERO;
    }
    // Exact, as a multiple of 2^(unit.exponent - 1075).
    let exact = u128::from(whole) * u128::from(LEADING_DIGIT + unit.digits);
    // Of its binary digits, 53 or more, a float keeps the first 53.
    let dropped = exact.ilog2() - DIGIT_BITS;
    let step = 1u128 << dropped;
    let (below, rest) = (exact / step, exact % step);
    let is_nearer_above = 2 * rest > step;
    let is_tie = 2 * rest == step;
    let goes_up = is_nearer_above || (is_tie && below % 2 == 1);
    let mut significand = below as u64 + u64::from(goes_up);
    let mut exponent = unit.exponent + u64::from(dropped);
    if significand == 2 * LEADING_DIGIT {
        // Rounded up to a power of two, which has one binary digit more.
        significand = LEADING_DIGIT;
        exponent += 1;
    }
    (exponent << DIGIT_BITS) | (significand - LEADING_DIGIT)
}
