//! Filling a block, written for speed.
//!
//! Follows document 01, "Calls and refusals", and hands the work to the
//! modules [`crate::bytes`] (labels, rim, cut bytes), [`crate::warp`] (state
//! bytes, moving points) and [`crate::emit`] (rows). Besides the lent tables it
//! uses two buffers: N label bytes and, if there are cuts, N marks of four
//! bytes.
//!
//! The labels are read once, with the band (request F-3 of document 02), and
//! everything else reads them: the tests of the rim and of the cut bytes too,
//! since request F-9.

use crate::bytes::{lowest_plus_on_rim, read_labels, test_cuts};
use crate::emit::{count_rows, write_rows};
use crate::lattice::Lattice;
use crate::refusal;
use crate::strides::Grids;
use crate::warp::move_points;

/// The largest band.
pub const LARGEST_BAND: u32 = 32767;

/// The answer of filling.
#[derive(Clone, Copy, Debug, PartialEq, Eq)]
pub struct Filled {
    /// 0, or the number of the refusal.
    pub number: u32,
    /// T, the rows written; after refusal 10 those a longer table would hold.
    pub rows: u64,
    /// M, the state bytes that are a move, 1 to 14.
    pub moved: u64,
    /// The place of refusals 5, 6 and 7; otherwise 0.
    pub place: u64,
}

impl Filled {
    /// The answer of refusals 1 to 7 and 14.
    pub fn refused(number: u32, place: usize) -> Filled {
        Filled {
            number,
            rows: 0,
            moved: 0,
            place: place as u64,
        }
    }
}

/// Fills a block: writes the state table, then four ids a row into the row
/// table, and leaves the entries behind the last row alone.
///
/// A sample whose size is at most the band, 0 to 32767, has label zero, and its
/// point the state byte 15. The rim and the cut bytes are tested by the labels.
///
/// Refusals come in the order 1, 14, 2 to 5, then the lowest byte that is a 6
/// or a 7, then 10. Refusals 1 to 7 and 14 write nothing; after 10 the state
/// table is filled and the row table untouched.
#[allow(clippy::too_many_arguments)]
pub fn fill(
    nx: u32,
    ny: u32,
    nz: u32,
    band: u32,
    samples: &[i16],
    cuts: &[u8],
    state: &mut [u8],
    rows: &mut [u32],
) -> Filled {
    let Some(lattice) = Lattice::new(nx, ny, nz) else {
        return Filled::refused(refusal::SIZE, 0);
    };
    if band > LARGEST_BAND {
        return Filled::refused(refusal::BAND, 0);
    }
    let n = lattice.point_count();
    if samples.len() != n {
        return Filled::refused(refusal::SAMPLES, 0);
    }
    if cuts.len() != 7 * n {
        return Filled::refused(refusal::CUTS, 0);
    }
    if state.len() != n {
        return Filled::refused(refusal::STATE, 0);
    }
    let grids = Grids::new(&lattice);
    let mut labels = read_labels(band as i16, samples);
    if let Some(point) = lowest_plus_on_rim(&grids, &labels) {
        return Filled::refused(refusal::RIM, point);
    }
    let marks = match test_cuts(&grids, &labels, cuts) {
        Ok(marks) => marks,
        Err(wrong) => return Filled::refused(wrong.number, wrong.offset),
    };
    let moved = move_points(&grids, &marks, &mut labels, cuts, state);
    let count = count_rows(&grids, &labels);
    let fits = rows.len() >= 4 * count;
    if fits {
        write_rows(&grids, &labels, &mut rows[..4 * count]);
    }
    Filled {
        number: if fits { refusal::NONE } else { refusal::TABLE },
        rows: count as u64,
        moved: moved as u64,
        place: 0,
    }
}
