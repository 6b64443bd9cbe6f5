//! Mending a cut table, written for speed.
//!
//! Follows request F-4 of document 02: missing bytes are filled in, stray ones
//! cleared, good ones left alone, and both kinds of change counted. Which bytes
//! must be non-zero is said in document 01, "The block", and by request F-9: the
//! band comes first, and an edge must be cut if its ends' labels are opposite.
//! What a missing byte becomes is still a matter of the samples' sizes. There is
//! no test of the rim here.
//!
//! Only groups of eight points with an edge that must be cut are looked at
//! byte by byte ([`crate::bits`]). What lies between two of them, often the
//! bytes of many lines, must all be zero; it is tested by eights ([`all_zero`],
//! request F-5) and cleared in wide steps. If no two labels are opposite, that is
//! the whole table. Otherwise there is one buffer, of 32 bytes for each line.

use crate::bits::{cuts_of_group, needs_of_group, needs_of_line, Signs, GROUP};
use crate::bytes::all_zero;
use crate::fill::LARGEST_BAND;
use crate::lattice::Lattice;
use crate::refusal;
use crate::strides::{Grids, Line, Reach};

/// The answer of mending.
#[derive(Clone, Copy, Debug, PartialEq, Eq)]
pub struct Mended {
    /// 0, or the number of the refusal.
    pub number: u32,
    /// The bytes filled in: those that were zero and must not be.
    pub filled: u64,
    /// The bytes cleared: those that were not zero and must be.
    pub cleared: u64,
}

impl Mended {
    /// The answer of every refusal.
    pub fn refused(number: u32) -> Mended {
        Mended {
            number,
            filled: 0,
            cleared: 0,
        }
    }
}

/// A mending: [`mend`] or [`crate::plain::mend`].
pub type Mending = fn(u32, u32, u32, u32, &[i16], &mut [u8]) -> Mended;

/// Mends a cut table, so that filling with the same band no longer refuses it
/// with 6 or 7: fills in the bytes that are zero and must not be, and clears
/// those that are not zero and must be.
///
/// Refusals come in the order 1, 14, 2, 3. They change nothing and give two
/// zeros.
pub fn mend(nx: u32, ny: u32, nz: u32, band: u32, samples: &[i16], cuts: &mut [u8]) -> Mended {
    let Some(lattice) = Lattice::new(nx, ny, nz) else {
        return Mended::refused(refusal::SIZE);
    };
    if band > LARGEST_BAND {
        return Mended::refused(refusal::BAND);
    }
    let band = band as i16;
    let n = lattice.point_count();
    if samples.len() != n {
        return Mended::refused(refusal::SAMPLES);
    }
    if cuts.len() != 7 * n {
        return Mended::refused(refusal::CUTS);
    }
    let mut table = Table {
        samples,
        cuts,
        done: 0,
        filled: 0,
        cleared: 0,
    };
    if has_both_signs(band, samples) {
        let grids = Grids::new(&lattice);
        let of_line = |line: Line| Signs::of(band, &samples[line.first..line.first + line.count()]);
        let signs: Vec<Signs> = grids.lines().map(of_line).collect();
        for line in grids.lines() {
            table.mend_line(&line, &signs);
        }
    }
    table.clear_up_to(7 * n);
    Mended {
        number: refusal::NONE,
        filled: table.filled,
        cleared: table.cleared,
    }
}

/// Whether a label is plus and another minus; otherwise no edge is cut.
fn has_both_signs(band: i16, samples: &[i16]) -> bool {
    let outermost = |(low, high): (i16, i16), &s: &i16| (low.min(s), high.max(s));
    let (low, high) = samples.iter().fold((0, 0), outermost);
    low < -band && high > band
}

/// A cut table in the course of being mended, in ascending offset.
struct Table<'a> {
    samples: &'a [i16],
    cuts: &'a mut [u8],
    /// The offset up to which the table is mended.
    done: usize,
    filled: u64,
    cleared: u64,
}

impl Table<'_> {
    /// Mends a line as far as its last group with a byte that must be non-zero.
    /// What follows is left to be cleared with more of the kind.
    fn mend_line(&mut self, line: &Line, signs: &[Signs]) {
        let needs = needs_of_line(line, signs);
        let mut left = needs.iter().fold(0, |all, need| all | need);
        if left == 0 {
            return;
        }
        let reaches = line.forward();
        let needs = needs.map(u128::to_le_bytes);
        while left != 0 {
            let group = left.trailing_zeros() as usize / GROUP;
            let from = line.first + GROUP * group;
            let to = (from + GROUP).min(line.first + line.count());
            let need = needs_of_group(needs.map(|needs| needs[group]));
            self.clear_up_to(7 * from);
            self.mend_group(from, to, &reaches, need);
            left &= !(0xff << (GROUP * group));
        }
    }

    /// Mends the bytes of the points from one up to, not with, another.
    fn mend_group(&mut self, from: usize, to: usize, reaches: &[Reach; 7], need: u64) {
        self.done = 7 * to;
        let bytes = &mut self.cuts[7 * from..7 * to];
        let cuts = cuts_of_group(bytes);
        if cuts == need {
            return;
        }
        let mut missing = need & !cuts;
        let mut stray = cuts & !need;
        self.filled += u64::from(missing.count_ones());
        self.cleared += u64::from(stray.count_ones());
        while missing != 0 {
            let offset = missing.trailing_zeros() as usize;
            let start = from + offset / 7;
            let end = reaches[offset % 7].other_end(start);
            bytes[offset] = cut_between(self.samples[start], self.samples[end]);
            missing &= missing - 1;
        }
        while stray != 0 {
            bytes[stray.trailing_zeros() as usize] = 0;
            stray &= stray - 1;
        }
    }

    /// Clears the bytes from where the table is mended up to this offset.
    fn clear_up_to(&mut self, offset: usize) {
        for piece in self.cuts[self.done..offset].chunks_mut(PIECE) {
            if !all_zero(piece) {
                self.cleared += count_cuts(piece);
                piece.fill(0);
            }
        }
        self.done = offset;
    }
}

/// How many bytes are tested together, and looked at again if one is not zero.
const PIECE: usize = 1024;

/// How many bytes are not zero. A byte can hold the count of 255 of them, and
/// narrow counts are faster.
fn count_cuts(bytes: &[u8]) -> u64 {
    let count = |part: &[u8]| part.iter().map(|&byte| u8::from(byte != 0)).sum::<u8>();
    bytes.chunks(255).map(|part| u64::from(count(part))).sum()
}

/// What a missing byte becomes: 256 times the start's size divided by the sum
/// of both sizes, rounded half up and held within 1 to 255.
fn cut_between(start: i16, end: i16) -> u8 {
    let (start, end) = (start.unsigned_abs(), end.unsigned_abs());
    let sum = u32::from(start) + u32::from(end);
    let half_up = (512 * u32::from(start) + sum) / (2 * sum);
    half_up.clamp(1, 255) as u8
}
