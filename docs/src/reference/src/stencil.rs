//! The stencils as a table, for the fast filling.
//!
//! Follows the table of document 01, "Lattice tetrahedra and rows". The four
//! lattice tetrahedra around one pair of neighbouring cubes lie in an
//! octahedron of six points and thirteen edges. Each point and each edge has
//! a slot, the same for all axes, and a stencil is a list of slots.
//!
//! The last two corners of a row are exchanged here already, by the sign that
//! the row has where no point has moved. That this is also the sign of the
//! six-volume with moved points is no matter of course: it holds because under
//! the limits 63 and 105 no tetrahedron with a plus corner turns inside out.
//! `tests/orientation.rs` shows that over all moves that its corners can make,
//! and compares with the signed six-volume of every row on random blocks, as
//! the comparison with [`crate::plain`] does.

use crate::bytes::{MINUS, PLUS, ZERO};
use crate::lattice::DIRECTIONS;

/// Slots 0 to 3 are the corners of the shared face in their turn, 4 and 5 the
/// centres; from here on the slots are edges.
pub const FIRST_EDGE: usize = 8;

/// Room for all slots; a power of two, so that masking an entry replaces a
/// bounds check.
pub const SLOTS: usize = 32;

/// The ends of the edge in each slot from [`FIRST_EDGE`] on, lower first: the
/// face's four edges in the turn, the one between the centres, then those
/// from the face's corners to each centre.
const EDGES: [[usize; 2]; 13] = [
    [0, 1],
    [1, 2],
    [3, 2],
    [0, 3],
    [4, 5],
    [0, 4],
    [1, 4],
    [2, 4],
    [3, 4],
    [0, 5],
    [1, 5],
    [2, 5],
    [3, 5],
];

/// The four tetrahedra in the turn: their corners in ascending number. All
/// corners of cubes are numbered before all centres, and the third and the
/// fourth edge of the turn run downwards.
pub const TURN: [[usize; 4]; 4] = [[0, 1, 4, 5], [1, 2, 4, 5], [3, 2, 4, 5], [0, 3, 4, 5]];

/// The rows of one tetrahedron for one pattern of labels.
#[derive(Clone, Copy, Debug)]
pub struct Stencil {
    /// How many rows there are, 0 to 3.
    pub rows: u8,
    /// Four slots a row.
    pub entries: [[u8; 4]; 3],
}

/// The stencils by place in the turn and by pattern, that is the labels of
/// the ascending corners with two bits each, the first one lowest. Of the 256
/// patterns 81 occur; the others have no rows.
pub static STENCILS: [[Stencil; 256]; 4] = build_stencils();

/// The count of rows by pattern, the same all around the turn.
pub static ROW_COUNTS: [u8; 256] = build_row_counts();

/// For each axis and each edge slot: the slot of the start, the direction.
pub static STARTS: [[(u8, u8); 13]; 3] = build_starts();

/// A corner of a row: two equal corners of the tetrahedron for a lattice
/// point, or the two ends of a cut edge.
type Pair = [usize; 2];

const NO_ROWS: Stencil = Stencil {
    rows: 0,
    entries: [[0; 4]; 3],
};

const fn build_stencils() -> [[Stencil; 256]; 4] {
    let mut table = [[NO_ROWS; 256]; 4];
    let mut turn = 0;
    while turn < 4 {
        let mut pattern = 0;
        while pattern < 256 {
            table[turn][pattern] = build_stencil(turn, pattern);
            pattern += 1;
        }
        turn += 1;
    }
    table
}

const fn build_row_counts() -> [u8; 256] {
    let mut counts = [0; 256];
    let mut pattern = 0;
    while pattern < 256 {
        counts[pattern] = build_stencil(0, pattern).rows;
        pattern += 1;
    }
    counts
}

const fn build_stencil(turn: usize, pattern: usize) -> Stencil {
    let (count, rows) = rows_of_pattern(pattern);
    let mut entries = [[0; 4]; 3];
    let mut n = 0;
    while n < count {
        let [a, b, c, d] = rows[n];
        let row = [slot(turn, a), slot(turn, b), slot(turn, c), slot(turn, d)];
        let sign = sign_at_rest(turn) * sign_within(rows[n]);
        entries[n] = if sign < 0 {
            [row[0], row[1], row[3], row[2]]
        } else {
            row
        };
        n += 1;
    }
    Stencil {
        rows: count as u8,
        entries,
    }
}

/// The rows of the table in document 01, with corners 0 to 3 ascending.
const fn rows_of_pattern(pattern: usize) -> (usize, [[Pair; 4]; 3]) {
    let none = [[0, 0]; 4];
    let ([p, m, z], [plus, minus, zero]) = sort_by_label(pattern);
    if plus + minus + zero < 4 {
        return (0, [none; 3]);
    }
    let [p1, p2, p3, p4] = [[p[0]; 2], [p[1]; 2], [p[2]; 2], [p[3]; 2]];
    let [z1, z2, z3] = [[z[0]; 2], [z[1]; 2], [z[2]; 2]];
    let [p1m1, p1m2, p1m3] = [[p[0], m[0]], [p[0], m[1]], [p[0], m[2]]];
    let [p2m1, p2m2, p3m1] = [[p[1], m[0]], [p[1], m[1]], [p[2], m[0]]];
    match (plus, minus, zero) {
        (4, 0, 0) => (1, [[p1, p2, p3, p4], none, none]),
        (3, 0, 1) => (1, [[p1, p2, p3, z1], none, none]),
        (2, 0, 2) => (1, [[p1, p2, z1, z2], none, none]),
        (1, 0, 3) => (1, [[p1, z1, z2, z3], none, none]),
        (3, 1, 0) => (
            3,
            [
                [p1, p2, p3, p3m1],
                [p1, p2, p2m1, p3m1],
                [p1, p1m1, p2m1, p3m1],
            ],
        ),
        (2, 2, 0) => (
            3,
            [
                [p1, p2, p2m1, p2m2],
                [p1, p1m1, p1m2, p2m2],
                [p1, p1m1, p2m1, p2m2],
            ],
        ),
        (2, 1, 1) => (2, [[p1, p2, p2m1, z1], [p1, p1m1, p2m1, z1], none]),
        (1, 3, 0) => (1, [[p1, p1m1, p1m2, p1m3], none, none]),
        (1, 2, 1) => (1, [[p1, p1m1, p1m2, z1], none, none]),
        (1, 1, 2) => (1, [[p1, p1m1, z1, z2], none, none]),
        _ => (0, [none; 3]),
    }
}

/// The corners with label plus, minus and zero, ascending, and their counts.
const fn sort_by_label(pattern: usize) -> ([[usize; 4]; 3], [usize; 3]) {
    let mut corners = [[0; 4]; 3];
    let mut counts = [0; 3];
    let mut corner = 0;
    while corner < 4 {
        let group = match (pattern >> (2 * corner) & 3) as u8 {
            PLUS => 0,
            MINUS => 1,
            ZERO => 2,
            _ => return (corners, [0; 3]),
        };
        corners[group][counts[group]] = corner;
        counts[group] += 1;
        corner += 1;
    }
    (corners, counts)
}

/// The slot of a row's corner in the tetrahedron at this place in the turn.
const fn slot(turn: usize, [a, b]: Pair) -> u8 {
    let (a, b) = (TURN[turn][a], TURN[turn][b]);
    if a == b {
        return a as u8;
    }
    let mut n = 0;
    while !(EDGES[n][0] == a && EDGES[n][1] == b || EDGES[n][0] == b && EDGES[n][1] == a) {
        n += 1;
    }
    (FIRST_EDGE + n) as u8
}

/// The doubled coordinates of the octahedron's six points, from the middle of
/// the shared face, in the axes (pair's axis, second, third).
const AROUND: [[i32; 3]; 6] = [
    [0, -1, -1],
    [0, 1, -1],
    [0, 1, 1],
    [0, -1, 1],
    [-1, 0, 0],
    [1, 0, 0],
];

/// The sign of the six-volume of an unmoved tetrahedron. The axes follow each
/// other in the cycle, so it is the same for all three.
const fn sign_at_rest(turn: usize) -> i32 {
    let corners = TURN[turn];
    let mut matrix = [[1; 4]; 4];
    let mut n = 0;
    while n < 4 {
        let [x, y, z] = AROUND[corners[n]];
        matrix[n] = [1, x, y, z];
        n += 1;
    }
    determinant(matrix).signum()
}

/// The orientation of a row in the tetrahedron with corners 0 to 3, by the
/// shares each of the row's corners has in those. A cut lies between its
/// ends; where exactly does not matter, as the determinant is a product of
/// such shares.
const fn sign_within(row: [Pair; 4]) -> i32 {
    let mut shares = [[0; 4]; 4];
    let mut n = 0;
    while n < 4 {
        let [a, b] = row[n];
        shares[n][a] += 1;
        shares[n][b] += 1;
        n += 1;
    }
    determinant(shares).signum()
}

const fn determinant(m: [[i32; 4]; 4]) -> i32 {
    let mut sum = 0;
    let mut column = 0;
    while column < 4 {
        let [a, b, c] = [(column + 1) % 4, (column + 2) % 4, (column + 3) % 4];
        let minor = m[1][a] * (m[2][b] * m[3][c] - m[2][c] * m[3][b])
            + m[1][b] * (m[2][c] * m[3][a] - m[2][a] * m[3][c])
            + m[1][c] * (m[2][a] * m[3][b] - m[2][b] * m[3][a]);
        // Taken in the cycle, the other columns are an even permutation of
        // their ascending order: the usual signs hold.
        let sign = if column % 2 == 0 { 1 } else { -1 };
        sum += sign * m[0][column] * minor;
        column += 1;
    }
    sum
}

const fn build_starts() -> [[(u8, u8); 13]; 3] {
    let mut table = [[(0, 0); 13]; 3];
    let mut axis = 0;
    while axis < 3 {
        let mut n = 0;
        while n < 13 {
            table[axis][n] = start_of(axis, EDGES[n]);
            n += 1;
        }
        axis += 1;
    }
    table
}

const fn start_of(axis: usize, [a, b]: [usize; 2]) -> (u8, u8) {
    let mut direction = 0;
    loop {
        if leads(axis, a, b, direction) {
            return (a as u8, direction as u8);
        }
        if leads(axis, b, a, direction) {
            return (b as u8, direction as u8);
        }
        direction += 1;
    }
}

/// Whether the direction leads from one of the six points to the other.
const fn leads(axis: usize, from: usize, to: usize, direction: usize) -> bool {
    let mut n = 0;
    while n < 3 {
        let step = AROUND[to][n] - AROUND[from][n];
        if step != DIRECTIONS[direction][(axis + n) % 3] {
            return false;
        }
        n += 1;
    }
    true
}

#[cfg(test)]
mod tests {
    use super::*;

    #[test]
    fn eighty_one_patterns_of_which_sixteen_have_no_plus() {
        let valid = (0..256).filter(|pattern| sort_by_label(*pattern).1 != [0; 3]);
        assert_eq!(valid.count(), 81);
        let with_rows = ROW_COUNTS.iter().filter(|&&rows| rows > 0).count();
        assert_eq!(with_rows, 81 - 16);
    }

    #[test]
    fn determinant_of_known_matrices() {
        let unit = [[1, 0, 0, 0], [0, 1, 0, 0], [0, 0, 1, 0], [0, 0, 0, 1]];
        assert_eq!(determinant(unit), 1);
        assert_eq!(determinant([unit[1], unit[0], unit[2], unit[3]]), -1);
        assert_eq!(determinant([unit[1], unit[2], unit[3], unit[0]]), -1);
        let m = [[2, 0, 1, 3], [1, 1, 0, 2], [0, 5, 1, 1], [4, 1, 1, 0]];
        assert_eq!(determinant(m), -47);
    }
}
