//! State bytes and moving points (warping the lattice), for the fast filling.
//!
//! Follows document 01, "Moving points", and requests F-2, F-3 and F-8 of
//! document 02. A point's mark is the nearest of all cuts that violate it. Since
//! request F-9 no cut has an end whose label is zero from the start, so all are
//! live at first, and a point with a mark has a non-zero label at its turn. As
//! points move, the live cuts are some of these. A point without a mark is
//! therefore not violated at its turn either, and the cut in a point's mark is
//! the nearest live one if it is live.
//!
//! These marks are not what request F-8 calls to mark a point: its state byte is
//! 15 then. Such bytes are written first, for all points with label zero from
//! the start in one go, as no such point moves.

use crate::bytes::ZERO;
use crate::mark::{code_of_mark, MARKS, UNMARKED};
use crate::state::ON_SKIN;
use crate::strides::{Grids, Reach};

/// Fills the state table: 15 where the label is zero from the start, a code
/// where the point moves, and 0 elsewhere. Sets the labels of the points that
/// move to zero and answers how many there are. No marks at all means that no
/// cut violates anything.
pub fn move_points(
    grids: &Grids,
    marks: &[u32],
    labels: &mut [u8],
    cuts: &[u8],
    state: &mut [u8],
) -> usize {
    for (code, &label) in state.iter_mut().zip(labels.iter()) {
        *code = u8::from(label == ZERO) * ON_SKIN;
    }
    if marks.is_empty() {
        return 0;
    }
    let mut moved = 0;
    for line in grids.lines() {
        let own = &marks[line.first..line.first + line.count()];
        if own.iter().fold(UNMARKED, |all, mark| all & mark) == UNMARKED {
            continue;
        }
        let codes = line.all_codes();
        for (index, &mark) in own.iter().enumerate() {
            let Some(code) = code_of_mark(mark) else {
                continue;
            };
            let point = line.first + index;
            let other = codes[usize::from(code) - 1].other_end(point);
            let code = if labels[other] != ZERO {
                Some(code)
            } else {
                nearest_violating(&codes, index, point, labels, cuts)
            };
            if let Some(code) = code {
                state[point] = code;
                labels[point] = ZERO;
                moved += 1;
            }
        }
    }
    moved
}

/// The code of the nearest cut that is live and violates the point; if several
/// are as near, the lowest code. The point itself is non-zero.
fn nearest_violating(
    codes: &[Reach; 14],
    index: usize,
    point: usize,
    labels: &[u8],
    cuts: &[u8],
) -> Option<u8> {
    let mut nearest = UNMARKED;
    for (n, reach) in codes.iter().enumerate() {
        if !reach.covers(index) {
            continue;
        }
        let other = reach.other_end(point);
        if labels[other] == ZERO {
            continue;
        }
        let start = if n < 7 { point } else { other };
        let t = cuts[7 * start + n % 7];
        nearest = nearest.min(MARKS[n][usize::from(t)]);
    }
    code_of_mark(nearest)
}
