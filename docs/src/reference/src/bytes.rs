//! Reading the inputs of the fast filling: labels, rim test, cut byte test.
//!
//! Follows document 01, "The block" (which bytes must be non-zero) and
//! "Calls and refusals" (5, then the lowest byte that is a 6 or a 7), and
//! requests F-3 and F-9 of document 02: a band makes labels zero, and "rim and
//! cut-byte tests read labels".
//!
//! Everything goes line by line. The bytes of a line of which no edge must be
//! cut must all be zero, and are tested by eights, as request F-5 says: "test
//! them together and look closer only if one is not". On the other lines each
//! point is tested by itself; if none of its edges must be cut, its seven bytes
//! are tested together.
//!
//! Since every cut byte is looked at here, every point is marked on the way
//! with the nearest cut that violates it ([`crate::mark`]), be it live or not,
//! and moving need only search where that cut is not live.

use crate::mark::{MARKS, UNMARKED};
use crate::refusal;
use crate::strides::{Grids, Line, Reach, LONGEST_LINE};

/// Label of a point on the skin.
pub const ZERO: u8 = 0;
/// Label of a point in the part.
pub const PLUS: u8 = 1;
/// Label of a point in the air.
pub const MINUS: u8 = 2;

/// A refused cut byte.
#[derive(Clone, Copy, Debug, PartialEq, Eq)]
pub struct WrongByte {
    /// 6 or 7.
    pub number: u32,
    /// The byte's offset in the cut table.
    pub offset: usize,
}

/// Reads the labels of all points: zero for a sample whose size is at most the
/// band, which is 0 to 32767. So -32768 is never zero.
pub fn read_labels(band: i16, samples: &[i16]) -> Vec<u8> {
    let label = |&sample: &i16| u8::from(sample > band) * PLUS + u8::from(sample < -band) * MINUS;
    samples.iter().map(label).collect()
}

/// The lowest rim point whose label is plus.
pub fn lowest_plus_on_rim(grids: &Grids, labels: &[u8]) -> Option<usize> {
    for line in grids.lines() {
        let own = &labels[line.first..line.first + line.count()];
        let last = own.len() - 1;
        let found = if line.is_on_rim() {
            own.iter().position(|&label| label == PLUS)
        } else if own[0] == PLUS {
            Some(0)
        } else {
            (own[last] == PLUS).then_some(last)
        };
        if let Some(index) = found {
            return Some(line.first + index);
        }
    }
    None
}

/// Tests every cut byte by the labels and answers the marks of all points,
/// or no marks at all if the block has no cuts.
pub fn test_cuts(grids: &Grids, labels: &[u8], cuts: &[u8]) -> Result<Vec<u32>, WrongByte> {
    let mut marks = Vec::new();
    for line in grids.lines() {
        let reaches = line.forward();
        let bytes = &cuts[7 * line.first..7 * (line.first + line.count())];
        let mut needs = [0; LONGEST_LINE];
        let needs = &mut needs[..line.count()];
        find_needs(&line, &reaches, labels, needs);
        if all_zero(needs) {
            test_empty(bytes, 7 * line.first)?;
        } else {
            marks.resize(labels.len(), UNMARKED);
            test_line(&line, &reaches, needs, bytes, &mut marks)?;
        }
    }
    Ok(marks)
}

/// Sets bit d of a point's need if its edge in direction d must be cut.
fn find_needs(line: &Line, reaches: &[Reach; 7], labels: &[u8], needs: &mut [u8]) {
    for (direction, reach) in reaches.iter().enumerate() {
        let count = reach.to - reach.from;
        let starts = line.first + reach.from;
        let ends = reach.other_end(starts);
        let needs = &mut needs[reach.from..reach.to];
        let starts = &labels[starts..starts + count];
        let ends = &labels[ends..ends + count];
        for ((need, start), end) in needs.iter_mut().zip(starts).zip(ends) {
            let opposite = start | end == PLUS | MINUS;
            *need |= u8::from(opposite) << direction;
        }
    }
}

/// The joint test of eight bytes: "passes exactly when all eight are zero".
pub fn eight_zero(eight: &[u8; 8]) -> bool {
    u64::from_ne_bytes(*eight) == 0
}

/// Whether all of the bytes are zero. They go by eights, and what is left over
/// at the end is tested by itself.
///
/// The eights are laid one upon the other, and the joint test takes what comes
/// of them. That is faster than to take them in turn and leave at the first
/// that does not pass, which is a rare one.
pub fn all_zero(bytes: &[u8]) -> bool {
    let (eights, rest) = bytes.as_chunks();
    eight_zero(&overlaid(eights)) && rest.iter().all(|&byte| byte == 0)
}

/// Eights laid one upon the other: a bit is set if it is set in any of them.
fn overlaid(eights: &[[u8; 8]]) -> [u8; 8] {
    let words = eights.iter().map(|&eight| u64::from_ne_bytes(eight));
    words.fold(0, |all, word| all | word).to_ne_bytes()
}

/// Tests a range of bytes, of which the first has this offset, that must all be
/// zero; looks closer, for the lowest one that is not, only if there is one.
fn test_empty(bytes: &[u8], first_offset: usize) -> Result<(), WrongByte> {
    if all_zero(bytes) {
        return Ok(());
    }
    let index = bytes.iter().position(|&byte| byte != 0);
    Err(WrongByte {
        number: refusal::STRAY,
        offset: first_offset + index.expect("a byte that is not zero"),
    })
}

/// Tests the bytes of one line's points against their needs.
fn test_line(
    line: &Line,
    reaches: &[Reach; 7],
    needs: &[u8],
    bytes: &[u8],
    marks: &mut [u32],
) -> Result<(), WrongByte> {
    let (sevens, _) = bytes.as_chunks();
    for (index, (&need, seven)) in needs.iter().zip(sevens).enumerate() {
        if need == 0 && *seven == [0; 7] {
            continue;
        }
        let point = line.first + index;
        test_point(point, need, seven)?;
        mark_violated(point, reaches, need, seven, marks);
    }
    Ok(())
}

/// Tests the seven bytes of one point against its need.
fn test_point(point: usize, need: u8, seven: &[u8; 7]) -> Result<(), WrongByte> {
    let cut = bits_of_cuts(seven);
    if cut == need {
        return Ok(());
    }
    let direction = (cut ^ need).trailing_zeros() as usize;
    let is_gap = need >> direction & 1 != 0;
    Err(WrongByte {
        number: if is_gap { refusal::GAP } else { refusal::STRAY },
        offset: 7 * point + direction,
    })
}

/// Bit d is set if byte d is a cut.
fn bits_of_cuts(seven: &[u8; 7]) -> u8 {
    (0..7).fold(0, |bits, d| bits | u8::from(seven[d] != 0) << d)
}

/// Marks the points that the cuts of one point's edges violate.
fn mark_violated(point: usize, reaches: &[Reach; 7], need: u8, seven: &[u8; 7], marks: &mut [u32]) {
    let mut left = need;
    let mut own = marks[point];
    while left != 0 {
        let direction = left.trailing_zeros() as usize;
        let t = usize::from(seven[direction]);
        own = own.min(MARKS[direction][t]);
        let other = &mut marks[reaches[direction].other_end(point)];
        *other = (*other).min(MARKS[direction + 7][t]);
        left &= left - 1;
    }
    marks[point] = own;
}
