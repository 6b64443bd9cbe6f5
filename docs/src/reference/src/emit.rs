//! Counting and writing the rows, for the fast filling.
//!
//! Follows document 01, "Lattice tetrahedra and rows". Pairs of neighbouring
//! cubes are taken in lines along x, with the six labels of each pair's
//! octahedron ([`crate::stencil`]) read from six lines of labels. Along such
//! a line the ids of points grow by one and those of cuts by seven.

use crate::bytes::PLUS;
use crate::stencil::{FIRST_EDGE, ROW_COUNTS, SLOTS, STARTS, STENCILS, TURN};
use crate::strides::Grids;

/// The most pairs on a line.
const LONGEST: usize = 64;

/// No corner of the pair's octahedron is plus: no rows.
const EMPTY: u8 = 0;
/// All six corners are plus: the four tetrahedra whole.
const FULL: u8 = 2;
/// The pattern of four plus corners.
const ALL_PLUS: usize = (PLUS | PLUS << 2 | PLUS << 4 | PLUS << 6) as usize;

/// The pairs of cubes that are neighbours along one axis, for all cubes with
/// the same y and z.
struct PairLine {
    axis: usize,
    /// The six points of the first pair's octahedron, in the order of slots.
    points: [usize; 6],
    count: usize,
}

/// How many rows the labels give: T.
pub fn count_rows(grids: &Grids, labels: &[u8]) -> usize {
    let mut rows = 0;
    let mut kinds = [EMPTY; LONGEST];
    for_each_line(grids, |line| {
        let lines = line.labels(labels);
        let kinds = &mut kinds[..line.count];
        if !sort_pairs(&lines, kinds) {
            return;
        }
        for (index, &kind) in kinds.iter().enumerate() {
            rows += match kind {
                EMPTY => 0,
                FULL => 4,
                _ => count_mixed(patterns(&lines, index)),
            };
        }
    });
    rows
}

/// Writes all rows; the table has exactly their length.
pub fn write_rows(grids: &Grids, labels: &[u8], table: &mut [u32]) {
    let mut rest = table;
    let mut kinds = [EMPTY; LONGEST];
    for_each_line(grids, |line| {
        let lines = line.labels(labels);
        let kinds = &mut kinds[..line.count];
        if !sort_pairs(&lines, kinds) {
            return;
        }
        let first_ids = line.first_ids(grids.point_count());
        let first_full = first_full(&first_ids);
        let mut left = std::mem::take(&mut rest);
        for (index, &kind) in kinds.iter().enumerate() {
            left = match kind {
                EMPTY => left,
                FULL => write_full(&first_full, index, left),
                _ => write_mixed(&first_ids, index, patterns(&lines, index), left),
            };
        }
        rest = left;
    });
    assert!(rest.is_empty(), "as many rows written as counted");
}

/// Takes the lines of pairs in the order of the lattice tetrahedra.
fn for_each_line(grids: &Grids, mut take: impl FnMut(&PairLine)) {
    let corner = grids.corners.strides();
    for axis in 0..3 {
        let (second, third) = ((axis + 1) % 3, (axis + 2) % 3);
        let next_centre = grids.centres.strides()[axis];
        let mut pairs = grids.centres.wide;
        pairs[axis] -= 1;
        for k in 0..pairs[2] {
            for j in 0..pairs[1] {
                let face = grids.corners.line_start(j, k) + corner[axis];
                let centre = grids.centres.line_start(j, k);
                let points = [
                    face,
                    face + corner[second],
                    face + corner[second] + corner[third],
                    face + corner[third],
                    centre,
                    centre + next_centre,
                ];
                let count = pairs[0];
                take(&PairLine {
                    axis,
                    points,
                    count,
                });
            }
        }
    }
}

impl PairLine {
    /// The labels of the six points, for all pairs of the line.
    fn labels<'a>(&self, labels: &'a [u8]) -> [&'a [u8]; 6] {
        self.points.map(|first| &labels[first..first + self.count])
    }

    /// The ids in all slots for the first pair of the line.
    fn first_ids(&self, point_count: usize) -> [u32; SLOTS] {
        let mut ids = [0; SLOTS];
        for (id, &point) in ids.iter_mut().zip(&self.points) {
            *id = point as u32;
        }
        let cut_ids = &mut ids[FIRST_EDGE..];
        for (id, &(start, direction)) in cut_ids.iter_mut().zip(&STARTS[self.axis]) {
            let start = self.points[usize::from(start)];
            *id = (point_count + 7 * start) as u32 + u32::from(direction);
        }
        ids
    }
}

/// Finds for each pair whether none, some or all of its six points are plus.
/// Answers whether some pair has a plus.
fn sort_pairs(lines: &[&[u8]; 6], kinds: &mut [u8]) -> bool {
    let count = kinds.len();
    let [f0, f1, f2, f3, c0, c1] = lines.map(|line| &line[..count]);
    let mut any = 0;
    for n in 0..count {
        let some = f0[n] | f1[n] | f2[n] | f3[n] | c0[n] | c1[n];
        let all = f0[n] & f1[n] & f2[n] & f3[n] & c0[n] & c1[n];
        kinds[n] = (some & PLUS) + (all & PLUS);
        any |= some;
    }
    any & PLUS != 0
}

/// The patterns of the four tetrahedra of a pair.
fn patterns(lines: &[&[u8]; 6], index: usize) -> [usize; 4] {
    let six = lines.map(|line| usize::from(line[index]));
    TURN.map(|[a, b, c, d]| six[a] | six[b] << 2 | six[c] << 4 | six[d] << 6)
}

fn count_mixed(patterns: [usize; 4]) -> usize {
    let counts = patterns.map(|pattern| usize::from(ROW_COUNTS[pattern]));
    counts.iter().sum()
}

/// The ids of four whole tetrahedra for the first pair of a line.
fn first_full(first_ids: &[u32; SLOTS]) -> [u32; 16] {
    let mut full = [0; 16];
    for (row, stencils) in full.as_chunks_mut().0.iter_mut().zip(&STENCILS) {
        *row = stencils[ALL_PLUS].entries[0].map(|slot| first_ids[usize::from(slot)]);
    }
    full
}

/// Writes four whole tetrahedra; answers the table behind them.
fn write_full<'a>(first_full: &[u32; 16], index: usize, table: &'a mut [u32]) -> &'a mut [u32] {
    let (rows, rest) = table.split_at_mut(16);
    for (id, first) in rows.iter_mut().zip(first_full) {
        *id = first + index as u32;
    }
    rest
}

/// Writes the rows of four tetrahedra by their stencils; answers the table
/// behind them.
fn write_mixed<'a>(
    first_ids: &[u32; SLOTS],
    index: usize,
    patterns: [usize; 4],
    table: &'a mut [u32],
) -> &'a mut [u32] {
    let mut ids = *first_ids;
    for id in &mut ids[..FIRST_EDGE] {
        *id += index as u32;
    }
    for id in &mut ids[FIRST_EDGE..] {
        *id += 7 * index as u32;
    }
    let mut rest = table;
    for (stencils, pattern) in STENCILS.iter().zip(patterns) {
        let stencil = &stencils[pattern];
        let length = 4 * usize::from(stencil.rows);
        let row_of = |entry: [u8; 4]| entry.map(|slot| ids[usize::from(slot) % SLOTS]);
        let (rows, _) = rest[..length].as_chunks_mut::<4>();
        for (row, &entry) in rows.iter_mut().zip(&stencil.entries) {
            *row = row_of(entry);
        }
        rest = &mut rest[length..];
    }
    rest
}
