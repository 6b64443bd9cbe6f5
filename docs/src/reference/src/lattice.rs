//! The lattice of a block: sizes, counts, numbers, directions, rim.
//!
//! Follows document 01, "The block", with plain arithmetic: every number is
//! decoded into doubled coordinates and back. It is meant to be read; the
//! fast filling walks by strides instead ([`crate::strides`]).

/// The largest size, in cubes.
pub const LARGEST_SIZE: u32 = 64;

/// The seven directions, as differences of doubled coordinates.
pub const DIRECTIONS: [[i32; 3]; 7] = [
    [2, 0, 0],
    [0, 2, 0],
    [0, 0, 2],
    [1, 1, 1],
    [-1, 1, 1],
    [1, -1, 1],
    [-1, -1, 1],
];

/// Directions 0 to 2 are long edges, 3 to 6 short ones.
pub const fn is_long(direction: usize) -> bool {
    direction < 3
}

/// An edge, named by its start and its direction from there.
#[derive(Clone, Copy, Debug, PartialEq, Eq)]
pub struct Edge {
    /// The end from which the edge has a direction.
    pub start: usize,
    /// The direction, 0 to 6.
    pub direction: usize,
}

impl Edge {
    /// The offset of the edge's byte in the cut table.
    pub fn offset(self) -> usize {
        7 * self.start + self.direction
    }
}

/// The lattice of a block whose sizes are all 1 to 64.
#[derive(Clone, Copy, Debug, PartialEq, Eq)]
pub struct Lattice {
    cubes: [usize; 3],
}

impl Lattice {
    /// The lattice of these sizes, or none if a size is outside 1 to 64.
    pub fn new(nx: u32, ny: u32, nz: u32) -> Option<Lattice> {
        let sizes = [nx, ny, nz];
        let allowed = sizes.iter().all(|size| (1..=LARGEST_SIZE).contains(size));
        allowed.then_some(Lattice {
            cubes: sizes.map(|size| size as usize),
        })
    }

    /// The count of cubes along x, y and z.
    pub fn cubes(&self) -> [usize; 3] {
        self.cubes
    }

    /// The count of cube corners; the first centre has this number.
    pub fn corner_count(&self) -> usize {
        self.cubes.iter().map(|n| n + 1).product()
    }

    /// N, the count of lattice points.
    pub fn point_count(&self) -> usize {
        self.corner_count() + self.cubes.iter().product::<usize>()
    }

    /// The count of lattice tetrahedra: four for each pair of cubes that
    /// share a face.
    pub fn tetrahedron_count(&self) -> usize {
        let [nx, ny, nz] = self.cubes;
        4 * ((nx - 1) * ny * nz + nx * (ny - 1) * nz + nx * ny * (nz - 1))
    }

    /// The doubled coordinates of a point.
    pub fn coordinates(&self, point: usize) -> [i32; 3] {
        assert!(point < self.point_count(), "no such point");
        let [nx, ny, _] = self.cubes;
        let corners = self.corner_count();
        let decode = |n: usize, wx: usize, wy: usize, odd: usize| {
            [n % wx, n / wx % wy, n / wx / wy].map(|index| (2 * index + odd) as i32)
        };
        if point < corners {
            decode(point, nx + 1, ny + 1, 0)
        } else {
            decode(point - corners, nx, ny, 1)
        }
    }

    /// The number of the point at these doubled coordinates, if there is one.
    pub fn number(&self, at: [i32; 3]) -> Option<usize> {
        let inside = (0..3).all(|a| (0..=2 * self.cubes[a] as i32).contains(&at[a]));
        if !inside {
            return None;
        }
        let [nx, ny, _] = self.cubes;
        let [x, y, z] = at.map(|coordinate| coordinate as usize);
        match [x % 2, y % 2, z % 2] {
            [0, 0, 0] => Some(x / 2 + (nx + 1) * (y / 2 + (ny + 1) * (z / 2))),
            [1, 1, 1] => {
                let cube = (x - 1) / 2 + nx * ((y - 1) / 2 + ny * ((z - 1) / 2));
                Some(self.corner_count() + cube)
            }
            _ => None,
        }
    }

    /// The other end of the edge that starts at the point, if the edge exists.
    pub fn end(&self, point: usize, direction: usize) -> Option<usize> {
        let at = self.coordinates(point);
        let step = DIRECTIONS[direction];
        self.number([at[0] + step[0], at[1] + step[1], at[2] + step[2]])
    }

    /// The start of the edge that ends at the point, if the edge exists.
    pub fn start(&self, point: usize, direction: usize) -> Option<usize> {
        let at = self.coordinates(point);
        let step = DIRECTIONS[direction];
        self.number([at[0] - step[0], at[1] - step[1], at[2] - step[2]])
    }

    /// The edge between two points, if there is one.
    pub fn edge_between(&self, a: usize, b: usize) -> Option<Edge> {
        let from = |start, end| {
            (0..7)
                .find(|&direction| self.end(start, direction) == Some(end))
                .map(|direction| Edge { start, direction })
        };
        from(a, b).or_else(|| from(b, a))
    }

    /// Whether the point is a corner on the block's outside or the centre of
    /// a cube with an outside face.
    pub fn is_rim(&self, point: usize) -> bool {
        let at = self.coordinates(point);
        let margin = if point < self.corner_count() { 0 } else { 1 };
        (0..3).any(|a| at[a] == margin || at[a] == 2 * self.cubes[a] as i32 - margin)
    }
}

#[cfg(test)]
mod tests {
    use super::*;

    #[test]
    fn counts_of_document_01() {
        assert_eq!(Lattice::new(1, 1, 1).unwrap().point_count(), 9);
        assert_eq!(Lattice::new(64, 64, 64).unwrap().point_count(), 536_769);
        assert_eq!(Lattice::new(2, 2, 2).unwrap().tetrahedron_count(), 48);
        assert_eq!(Lattice::new(0, 1, 1), None);
        assert_eq!(Lattice::new(1, 65, 1), None);
        assert_eq!(Lattice::new(1, 1, u32::MAX), None);
    }

    #[test]
    fn numbers_and_coordinates_are_inverse() {
        for sizes in [[1, 1, 1], [2, 3, 4], [5, 1, 2]] {
            let lattice = Lattice::new(sizes[0], sizes[1], sizes[2]).unwrap();
            for point in 0..lattice.point_count() {
                assert_eq!(lattice.number(lattice.coordinates(point)), Some(point));
            }
            let mut found = 0;
            for z in -1..=2 * sizes[2] as i32 + 1 {
                for y in -1..=2 * sizes[1] as i32 + 1 {
                    for x in -1..=2 * sizes[0] as i32 + 1 {
                        found += usize::from(lattice.number([x, y, z]).is_some());
                    }
                }
            }
            assert_eq!(found, lattice.point_count());
        }
    }

    #[test]
    fn start_and_end_are_inverse() {
        let lattice = Lattice::new(3, 2, 4).unwrap();
        for point in 0..lattice.point_count() {
            for direction in 0..7 {
                if let Some(end) = lattice.end(point, direction) {
                    assert_eq!(lattice.start(end, direction), Some(point));
                    let edge = Edge {
                        start: point,
                        direction,
                    };
                    assert_eq!(lattice.edge_between(end, point), Some(edge));
                }
            }
        }
    }

    #[test]
    fn a_point_off_the_rim_has_all_fourteen_edges() {
        let lattice = Lattice::new(4, 3, 5).unwrap();
        for point in 0..lattice.point_count() {
            let edges = (0..7)
                .flat_map(|d| [lattice.end(point, d), lattice.start(point, d)])
                .flatten()
                .count();
            assert_eq!(edges == 14, !lattice.is_rim(point), "point {point}");
        }
    }
}
