//! Bits instead of points and bytes, for the fast mending.
//!
//! Which edges of a line must be cut (document 01, "The block", and request F-9
//! of document 02) comes out of the labels' signs along it and along the lines
//! where its edges end, a bit for each point, all points of a line together. Bytes of the cut table are looked at
//! in groups of eight points, 56 bytes, and there a bit stands for each byte.

use crate::strides::{Ahead, Line, LONGEST_LINE};

/// The points of a group.
pub const GROUP: usize = 8;

/// The bytes of a group.
pub const GROUP_BYTES: usize = 7 * GROUP;

/// The signs of the labels along a line: bit n is that of point n.
#[derive(Clone, Copy, Debug, PartialEq, Eq)]
pub struct Signs {
    /// The labels that are plus.
    pub plus: u128,
    /// The labels that are minus.
    pub minus: u128,
}

impl Signs {
    /// The signs of the labels of one line, from its samples and the band, which
    /// is 0 to 32767.
    pub fn of(band: i16, samples: &[i16]) -> Signs {
        Signs {
            plus: bits_of(samples, |sample| sample > band),
            minus: bits_of(samples, |sample| sample < -band),
        }
    }

    /// The points whose signs are opposite to those of the points on another
    /// line, or on the same one, that are -1, 0 or 1 indices on.
    fn opposite(self, other: Signs, step: isize) -> u128 {
        let beside = |bits: u128| match step {
            0 => bits,
            1 => bits >> 1,
            _ => bits << 1,
        };
        self.plus & beside(other.minus) | self.minus & beside(other.plus)
    }
}

fn bits_of(samples: &[i16], is_one: impl Fn(i16) -> bool) -> u128 {
    let mut ones = [0; LONGEST_LINE.next_multiple_of(8)];
    for (one, &sample) in ones.iter_mut().zip(samples) {
        *one = u8::from(is_one(sample));
    }
    let (eights, _) = ones.as_chunks();
    let gathered = eights
        .iter()
        .map(|&eight| gather(u64::from_le_bytes(eight)));
    let shifted = gathered
        .enumerate()
        .map(|(n, bits)| u128::from(bits) << (8 * n));
    shifted.fold(0, |all, bits| all | bits)
}

/// The lowest bits of eight bytes, whose other bits are zero. The factor brings
/// each of them to its place in the highest byte, and no two to any one place.
fn gather(ones: u64) -> u8 {
    (ones.wrapping_mul(0x0102_0408_1020_4080) >> 56) as u8
}

/// Which edges of a line's points must be cut: for each direction, bit n is set
/// if that of point n must. Where there is no other end there is no bit, as no
/// line has a sign beyond its ends.
pub fn needs_of_line(line: &Line, signs: &[Signs]) -> [u128; 7] {
    let own = signs[line.number()];
    let need = |ahead: Ahead| own.opposite(signs[ahead.line], ahead.step);
    line.ahead().map(|ahead| ahead.map_or(0, need))
}

/// The needs of a group from those of its points in each direction: bit 7n+d is
/// set if byte 7n+d must be non-zero.
pub fn needs_of_group(needs: [u8; 7]) -> u64 {
    let spread = needs.map(|need| EVERY_SEVENTH[usize::from(need)]);
    (0..7).fold(0, |all, direction| all | spread[direction] << direction)
}

/// Bit 7n of an entry is bit n of its index, and the others are zero.
static EVERY_SEVENTH: [u64; 256] = table_of_sevenths();

const fn table_of_sevenths() -> [u64; 256] {
    let mut table = [0; 256];
    let mut index = 0;
    while index < 256 {
        let mut n = 0;
        while n < 8 {
            table[index] |= (index as u64 >> n & 1) << (7 * n);
            n += 1;
        }
        index += 1;
    }
    table
}

/// The cuts of a group, or of less at the end of a line: bit n is set if byte n
/// is not zero.
pub fn cuts_of_group(bytes: &[u8]) -> u64 {
    let whole = bytes.first_chunk().copied();
    let whole: [u8; GROUP_BYTES] = whole.unwrap_or_else(|| {
        let mut whole = [0; GROUP_BYTES];
        whole[..bytes.len()].copy_from_slice(bytes);
        whole
    });
    let (eights, _) = whole.as_chunks();
    let gathered = eights.iter().map(|&eight| {
        let eight = u64::from_le_bytes(eight);
        // A carry into the highest bit of a byte, or that bit itself.
        let carried = (eight & 0x7f7f_7f7f_7f7f_7f7f) + 0x7f7f_7f7f_7f7f_7f7f;
        gather((carried | eight) >> 7 & 0x0101_0101_0101_0101)
    });
    let shifted = gathered
        .enumerate()
        .map(|(n, bits)| u64::from(bits) << (8 * n));
    shifted.fold(0, |all, bits| all | bits)
}

#[cfg(test)]
mod tests {
    use super::*;
    use crate::lattice::Lattice;
    use crate::plain::label;
    use crate::random::Random;
    use crate::strides::Grids;

    /// Bands, and samples at both ends of each and beside them.
    const BANDS: [u32; 5] = [0, 1, 5, 32766, 32767];
    const SAMPLES: [i16; 13] = [
        -32768, -32767, -32766, -6, -5, -2, -1, 0, 1, 5, 6, 32766, 32767,
    ];

    #[test]
    fn signs_are_those_of_labels() {
        let mut random = Random::new(1);
        for length in 1..=LONGEST_LINE {
            for band in BANDS {
                let any = |_| random.pick(&SAMPLES);
                let samples: Vec<i16> = (0..length).map(any).collect();
                let signs = Signs::of(band as i16, &samples);
                for n in 0..128 {
                    let sign = samples.get(n).map_or(0, |&sample| label(band, sample));
                    assert_eq!(signs.plus >> n & 1 == 1, sign == 1);
                    assert_eq!(signs.minus >> n & 1 == 1, sign == -1);
                }
            }
        }
    }

    #[test]
    fn cuts_are_bytes_that_are_not_zero() {
        let mut random = Random::new(2);
        for length in 0..=GROUP_BYTES {
            for _ in 0..50 {
                let any = |_| random.pick(&[0, 0, 1, 2, 127, 128, 129, 254, 255]);
                let bytes: Vec<u8> = (0..length).map(any).collect();
                let cuts = cuts_of_group(&bytes);
                for n in 0..64 {
                    let byte = bytes.get(n).copied().unwrap_or(0);
                    assert_eq!(cuts >> n & 1 == 1, byte != 0);
                }
            }
        }
    }

    #[test]
    fn needs_are_those_of_edges() {
        let mut random = Random::new(3);
        for sizes in [[1, 1, 1], [3, 1, 2], [7, 2, 3], [8, 3, 1], [64, 2, 2]] {
            let lattice = Lattice::new(sizes[0], sizes[1], sizes[2]).unwrap();
            let any = |_| random.pick(&SAMPLES);
            let samples: Vec<i16> = (0..lattice.point_count()).map(any).collect();
            for band in BANDS {
                check_needs(&lattice, band, &samples);
            }
        }
    }

    fn check_needs(lattice: &Lattice, band: u32, samples: &[i16]) {
        let grids = Grids::new(lattice);
        let own = |line: Line| &samples[line.first..line.first + line.count()];
        let signs = grids.lines().map(|line| Signs::of(band as i16, own(line)));
        let signs: Vec<Signs> = signs.collect();
        for line in grids.lines() {
            let needs = needs_of_line(&line, &signs);
            for index in 0..128 {
                let need = |direction: usize| {
                    let end = lattice.end(line.first + index, direction);
                    let end = end.map_or(0, |end| label(band, samples[end]));
                    label(band, samples[line.first + index]) * end < 0
                };
                for (direction, needs) in needs.iter().enumerate() {
                    let expected = index < line.count() && need(direction);
                    assert_eq!(needs >> index & 1 == 1, expected);
                }
            }
        }
    }

    #[test]
    fn needs_of_a_group_are_in_the_order_of_bytes() {
        let mut random = Random::new(4);
        for _ in 0..1000 {
            let needs = [0; 7].map(|_| random.bits() as u8);
            let group = needs_of_group(needs);
            for n in 0..64 {
                let expected = n < GROUP_BYTES && needs[n % 7] >> (n / 7) & 1 == 1;
                assert_eq!(group >> n & 1 == 1, expected);
            }
        }
    }
}
