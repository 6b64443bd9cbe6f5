//! Cuts: when one violates a point, what a code means, where a cut lies.
//!
//! Follows document 01, "The block" (places) and "Moving points" (violation
//! and codes), and request F-2 of document 02 (the squared distance).

use crate::lattice::{is_long, Edge, Lattice, DIRECTIONS};

/// A place on the fine grid, 256 steps for one doubled coordinate.
pub type Place = [i64; 3];

/// The largest distance, in 256ths of the edge, at which a cut violates an
/// end: 63 on a long edge, 105 on a short one.
pub const fn limit(direction: usize) -> u32 {
    if is_long(direction) {
        63
    } else {
        105
    }
}

/// The square of the direction's length, in doubled coordinates: 4 on a long
/// edge, 3 on a short one.
pub const fn squared_length(direction: usize) -> u32 {
    if is_long(direction) {
        4
    } else {
        3
    }
}

/// Which end of its edge a point is.
#[derive(Clone, Copy, Debug, PartialEq, Eq)]
pub enum End {
    /// The edge has its direction from this point.
    Start,
    /// The edge arrives here.
    Far,
}

/// The test of violation: the squared distance between a cut `t` 256ths along
/// from the start and the named end if the cut violates that end, or none.
/// Byte 0 is no cut and violates nothing.
///
/// With t counted from the end, the squared distance is 4 times t squared on a
/// long edge and 3 times t squared on a short one, at most 33,075. Equal
/// distances mean two long or two short edges with equal t: no two squares of
/// whole numbers above zero are as 3 to 4.
pub const fn violation(t: u8, direction: usize, end: End) -> Option<u32> {
    let from_end = match end {
        End::Start => t as u32,
        End::Far => 256 - t as u32,
    };
    if t != 0 && from_end <= limit(direction) {
        Some(squared_length(direction) * from_end * from_end)
    } else {
        None
    }
}

/// What a code from 1 to 14 names at a point: the edge, and which end of it
/// the point is. None if the state byte is no move or the edge does not exist.
pub fn edge_of_code(lattice: &Lattice, point: usize, code: u8) -> Option<(Edge, End)> {
    let code = usize::from(code);
    match code {
        1..=7 => {
            let direction = code - 1;
            let start = point;
            lattice.end(point, direction)?;
            Some((Edge { start, direction }, End::Start))
        }
        8..=14 => {
            let direction = code - 8;
            let start = lattice.start(point, direction)?;
            Some((Edge { start, direction }, End::Far))
        }
        _ => None,
    }
}

/// The place of a point that did not move.
pub fn place_of_point(lattice: &Lattice, point: usize) -> Place {
    lattice.coordinates(point).map(|c| 256 * i64::from(c))
}

/// The place of the cut `t` 256ths along an edge.
pub fn place_of_cut(lattice: &Lattice, edge: Edge, t: u8) -> Place {
    let from = place_of_point(lattice, edge.start);
    let step = DIRECTIONS[edge.direction];
    [0, 1, 2].map(|a| from[a] + i64::from(t) * i64::from(step[a]))
}

/// The triple product of the differences from the first place to the others.
pub fn six_volume([a, b, c, d]: [Place; 4]) -> i64 {
    let from_a = |q: Place| [0, 1, 2].map(|n| q[n] - a[n]);
    let (u, v, w) = (from_a(b), from_a(c), from_a(d));
    u[0] * (v[1] * w[2] - v[2] * w[1])
        + u[1] * (v[2] * w[0] - v[0] * w[2])
        + u[2] * (v[0] * w[1] - v[1] * w[0])
}

#[cfg(test)]
mod tests {
    use super::*;

    #[test]
    fn limits_are_measured_from_each_end() {
        for (direction, near, far) in [(0, 63, 193), (2, 63, 193), (3, 105, 151), (6, 105, 151)] {
            for t in 1..=255 {
                let [start, other] = [End::Start, End::Far].map(|end| violation(t, direction, end));
                assert_eq!(start.is_some(), t <= near);
                assert_eq!(other.is_some(), t >= far);
            }
            assert_eq!(violation(0, direction, End::Start), None);
            assert_eq!(violation(0, direction, End::Far), None);
        }
    }

    #[test]
    fn distances_are_squared_and_counted_from_each_end() {
        for direction in 0..3 {
            assert_eq!(violation(60, direction, End::Start), Some(14_400));
            assert_eq!(violation(196, direction, End::Far), Some(14_400));
            assert_eq!(violation(63, direction, End::Start), Some(15_876));
            assert_eq!(violation(255, direction, End::Far), Some(4));
        }
        for direction in 3..7 {
            assert_eq!(violation(66, direction, End::Start), Some(13_068));
            assert_eq!(violation(190, direction, End::Far), Some(13_068));
            assert_eq!(violation(105, direction, End::Start), Some(33_075));
            assert_eq!(violation(255, direction, End::Far), Some(3));
        }
    }

    /// The squared distance is that between the two places.
    #[test]
    fn distances_are_those_of_places() {
        let lattice = Lattice::new(2, 2, 2).unwrap();
        for code in 1..=14 {
            let (edge, end) = edge_of_code(&lattice, 13, code).unwrap();
            let from = place_of_point(&lattice, 13);
            for t in 1..=255 {
                let to = place_of_cut(&lattice, edge, t);
                let squared: i64 = (0..3).map(|a| (to[a] - from[a]).pow(2)).sum();
                if let Some(distance) = violation(t, edge.direction, end) {
                    assert_eq!(i64::from(distance), squared);
                }
            }
        }
    }

    /// A long and a short edge never tie.
    #[test]
    fn a_long_cut_is_never_as_far_as_a_short_one() {
        let distances =
            |direction| (1..=255).filter_map(move |t| violation(t, direction, End::Start));
        assert!(distances(0).all(|long| distances(3).all(|short| long != short)));
        assert_eq!((distances(0).count(), distances(3).count()), (63, 105));
    }

    #[test]
    fn six_volume_is_signed() {
        let unit = [[0, 0, 0], [1, 0, 0], [0, 1, 0], [0, 0, 1]];
        assert_eq!(six_volume(unit), 1);
        assert_eq!(six_volume([unit[0], unit[1], unit[3], unit[2]]), -1);
    }
}
