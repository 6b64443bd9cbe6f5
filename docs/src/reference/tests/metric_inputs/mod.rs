//! What the tests of places in millimetres are fed: tables with places in
//! them, bit patterns of units, and every whole number a place can have.

use reference::block::Block;
use reference::blockfile::fill_block;
use reference::metric::{place_mm, place_mm_plain};
use reference::place::{measures, place};
use reference::random::Random;

/// What a refusal gives, with sign 0.
pub const ZEROS: [u64; 3] = [0; 3];
/// The field of the digits.
pub const DIGITS: u64 = (1 << 52) - 1;
/// The exponent field of infinities and NaNs; alone, the positive infinity.
pub const INFINITE: u64 = 2047 << 52;
/// The field of the sign.
pub const SIGN: u64 = 1 << 63;

/// The bits of a power of two.
pub const fn power(exponent: i64) -> u64 {
    ((1023 + exponent) as u64) << 52
}

/// Both ends and their neighbours inside.
pub const GOOD: [u64; 5] = [power(-20), power(-20) + 1, power(0), power(4) - 1, power(4)];

/// The neighbours outside, the accepted numbers' negatives, zeros, subnormals,
/// the smallest and the largest normal number, infinities, NaNs.
pub const BAD: [u64; 16] = [
    power(-20) - 1,
    power(4) + 1,
    SIGN | power(-20),
    SIGN | power(0),
    SIGN | power(4),
    0,
    SIGN,
    1,
    DIGITS,
    power(-1022),
    INFINITE - 1,
    INFINITE,
    SIGN | INFINITE,
    INFINITE + 1,
    INFINITE | (1 << 51),
    u64::MAX,
];

/// An accepted unit, often with digits next to a tie at some whole number, or
/// next to a power of two at this one.
pub fn any_accepted(random: &mut Random, whole: u32) -> u64 {
    let exponent = random.between(-20, 3);
    let bits = random.bits();
    let shift = random.below(52);
    let digits = match random.below(8) {
        // Few high digits; ones at the top; ones at the bottom.
        0 => bits & (DIGITS << (36 + random.below(16))),
        1 => DIGITS << shift,
        2 => DIGITS >> shift,
        // The last two digits 01 and 10.
        3 => bits & !3 | 1,
        4 => bits & !3 | 2,
        // The quotient of a power of two and the whole number.
        5 if !whole.is_power_of_two() && whole != 0 => {
            let quotient = (1u128 << (53 + whole.ilog2())) / u128::from(whole);
            quotient as u64 + random.below(3) as u64 - 1
        }
        _ => bits,
    };
    power(exponent) | (digits & DIGITS)
}

/// Any bit pattern, often one of the rare kinds or near the ends of the range.
pub fn any_pattern(random: &mut Random) -> u64 {
    let bits = random.bits();
    match random.below(12) {
        0 => bits | INFINITE,
        1 => bits & SIGN | INFINITE,
        2 => bits & (SIGN | DIGITS),
        3 => bits & SIGN,
        4 => (power(-20) - 2 + bits % 5) | bits & SIGN,
        5 => (power(4) - 2 + bits % 5) | bits & SIGN,
        6 => power(random.between(-22, 5)) | bits & (SIGN | DIGITS),
        _ => bits,
    }
}

/// The ends, powers of two, units in use and random ones.
pub fn twenty_units(random: &mut Random) -> Vec<u64> {
    let mut units = [0.5, 8.0, 1.0 / 512.0, 0.1, 1.0 / 3.0, 0.7]
        .map(f64::to_bits)
        .to_vec();
    units.extend(GOOD);
    units.push(power(-13));
    units.extend((units.len()..20).map(|_| any_accepted(random, 3)));
    units
}

/// What the place call reads besides the id.
pub struct Tables {
    pub sizes: [u32; 3],
    pub cuts: Vec<u8>,
    pub state: Vec<u8>,
}

impl Tables {
    /// A block and the state table that filling it leaves.
    pub fn filled(block: Block) -> Tables {
        let filled = fill_block(&block, 0);
        assert_eq!(filled.filled.number, 0);
        let (sizes, cuts, state) = (block.sizes, block.cuts, filled.state);
        Tables { sizes, cuts, state }
    }

    /// No point moved; the cut bytes by their offset.
    pub fn unmoved(sizes: [u32; 3], byte: impl FnMut(usize) -> u8) -> Tables {
        let [nx, ny, nz] = sizes;
        let n = measures(nx, ny, nz).points as usize;
        let (cuts, state) = ((0..7 * n).map(byte).collect(), vec![0; n]);
        Tables { sizes, cuts, state }
    }

    /// The number and the whole numbers of the place call.
    pub fn place(&self, id: u32) -> (u32, [u32; 3]) {
        let [nx, ny, nz] = self.sizes;
        let placed = place(nx, ny, nz, &self.cuts, &self.state, id);
        (placed.number, [placed.x, placed.y, placed.z])
    }

    /// The number and the bits of the point, in both ways, which must agree.
    pub fn mm(&self, id: u32, unit: u64) -> (u32, [u64; 3]) {
        let [nx, ny, nz] = self.sizes;
        let (cuts, state) = (&self.cuts, &self.state);
        let placed = place_mm(nx, ny, nz, cuts, state, id, f64::from_bits(unit));
        let point = [placed.point.x, placed.point.y, placed.point.z];
        let answer = (placed.number, point.map(f64::to_bits));
        let plain = place_mm_plain(nx, ny, nz, cuts, state, id, unit);
        assert_eq!(answer, plain, "id {id}, unit {unit:#018x}");
        answer
    }

    /// An id that has a place, and the place.
    pub fn any_id(&self, random: &mut Random) -> (u32, [u32; 3]) {
        loop {
            let id = random.below(8 * self.state.len()) as u32;
            let (number, place) = self.place(id);
            if number == 0 {
                return (id, place);
            }
        }
    }
}

/// The largest block with noise for cut bytes: places all over the range.
pub fn noise(random: &mut Random) -> Tables {
    Tables::unmoved([64; 3], |_| random.between(1, 255) as u8)
}

/// Hands on every whole number from 0 to 32,768, each as the x of a point or
/// of a cut in a block of 64 by 1 by 1 cubes, with x times each unit.
pub fn for_every_whole_number(units: &[u64], mut hand_on: impl FnMut(u32, u64, u64)) {
    let corners = 65 * 2 * 2;
    let n = corners + 64;
    let mut count = 0;
    for byte in 0..=255 {
        // Direction 3 leads from each corner to a centre and on to a corner.
        let tables = Tables::unmoved([64, 1, 1], |offset| if offset % 7 == 3 { byte } else { 0 });
        for doubled in 0..128 + u32::from(byte == 0) {
            let point = doubled / 2 + if doubled % 2 == 0 { 0 } else { corners };
            let id = if byte == 0 { point } else { n + 7 * point + 3 };
            let whole = 256 * doubled + u32::from(byte);
            let (number, place) = tables.place(id);
            assert_eq!((number, place[0]), (0, whole));
            for &unit in units {
                let (number, point) = tables.mm(id, unit);
                assert_eq!(number, 0);
                hand_on(whole, unit, point[0]);
            }
            count += 1;
        }
    }
    assert_eq!(count, 32_769);
}
