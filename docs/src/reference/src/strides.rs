//! Walking the lattice by strides, for the fast filling, mending and numbering.
//!
//! The points form two cubic grids, corners and centres (document 01, "The
//! block"). Along a line of one grid, points with the same Y and Z, every
//! neighbour is a fixed distance away in number. So a line is decoded once
//! and its points need no division.

use crate::lattice::{is_long, Lattice, DIRECTIONS};

/// The most points on a line.
pub const LONGEST_LINE: usize = 65;

/// One of the two cubic grids of points.
#[derive(Clone, Copy, Debug)]
pub struct Grid {
    /// The number of its first point.
    pub first: usize,
    /// The number of its first line.
    pub first_line: usize,
    /// Its points along x, y and z.
    pub wide: [usize; 3],
}

impl Grid {
    /// The differences in number of neighbours along x, y and z.
    pub fn strides(&self) -> [usize; 3] {
        [1, self.wide[0], self.wide[0] * self.wide[1]]
    }

    /// The number of the first point of the line at these indices.
    pub fn line_start(&self, j: usize, k: usize) -> usize {
        self.first + self.wide[0] * (j + self.wide[1] * k)
    }

    /// The number of the line at these indices, among the lines of both grids.
    pub fn line_number(&self, j: usize, k: usize) -> usize {
        self.first_line + j + self.wide[1] * k
    }
}

/// Both grids of a block.
#[derive(Clone, Copy, Debug)]
pub struct Grids {
    /// The cube corners.
    pub corners: Grid,
    /// The cube centres.
    pub centres: Grid,
}

impl Grids {
    /// The grids of a lattice.
    pub fn new(lattice: &Lattice) -> Grids {
        let cubes = lattice.cubes();
        let corners = cubes.map(|n| n + 1);
        Grids {
            corners: Grid {
                first: 0,
                first_line: 0,
                wide: corners,
            },
            centres: Grid {
                first: lattice.corner_count(),
                first_line: corners[1] * corners[2],
                wide: cubes,
            },
        }
    }

    /// N, the count of points.
    pub fn point_count(&self) -> usize {
        self.centres.first + self.centres.wide.iter().product::<usize>()
    }

    /// All lines in ascending number of their points.
    pub fn lines(&self) -> impl Iterator<Item = Line> + '_ {
        let lines_of = |own: Grid, other: Grid, bias: isize| {
            let [_, wy, wz] = own.wide;
            (0..wz).flat_map(move |k| {
                (0..wy).map(move |j| Line {
                    own,
                    other,
                    bias,
                    first: own.line_start(j, k),
                    j,
                    k,
                })
            })
        };
        let corners = lines_of(self.corners, self.centres, -1);
        corners.chain(lines_of(self.centres, self.corners, 1))
    }
}

/// The points of one grid with the same Y and Z.
#[derive(Clone, Copy, Debug)]
pub struct Line {
    own: Grid,
    other: Grid,
    /// A short step of +1 or -1 changes the index by half of itself plus this:
    /// by 0 or -1 from a corner, by 1 or 0 from a centre.
    bias: isize,
    /// The number of the first point.
    pub first: usize,
    j: usize,
    k: usize,
}

/// Where one code leads from the points of a line.
#[derive(Clone, Copy, Debug, Default, PartialEq, Eq)]
pub struct Reach {
    /// The edge exists for the indices from this one ..
    pub from: usize,
    /// .. up to, not with, this one; none if they are equal.
    pub to: usize,
    /// The other end's number less the point's own.
    pub shift: isize,
}

impl Reach {
    /// Whether the edge exists at this index of the line.
    pub fn covers(&self, index: usize) -> bool {
        (self.from..self.to).contains(&index)
    }

    /// The number of the other end.
    pub fn other_end(&self, point: usize) -> usize {
        point.wrapping_add_signed(self.shift)
    }
}

/// Where one direction leads from a line.
#[derive(Clone, Copy, Debug, PartialEq, Eq)]
pub struct Ahead {
    /// The number of the line on which the other ends lie.
    pub line: usize,
    /// The other end's index on that line less the point's own: -1, 0 or 1.
    pub step: isize,
}

/// The line to which one code leads from the points of another: its grid, its
/// indices there, and the other end's index on it less the point's own.
struct Target {
    grid: Grid,
    j: usize,
    k: usize,
    step: isize,
}

impl Line {
    /// The number of the line; lines are numbered as [`Grids::lines`] goes.
    pub fn number(&self) -> usize {
        self.own.line_number(self.j, self.k)
    }

    /// How many points the line has.
    pub fn count(&self) -> usize {
        self.own.wide[0]
    }

    /// The doubled coordinates of the line's first point; along the line X
    /// grows by 2.
    pub fn first_coordinates(&self) -> [i32; 3] {
        let odd = usize::from(self.bias > 0);
        [0, self.j, self.k].map(|index| (2 * index + odd) as i32)
    }

    /// Whether all points of the line are rim points; otherwise only the
    /// first and the last are.
    pub fn is_on_rim(&self) -> bool {
        let [_, wy, wz] = self.own.wide;
        self.j == 0 || self.j == wy - 1 || self.k == 0 || self.k == wz - 1
    }

    /// Where the edges lead that start here in direction 0 to 6.
    pub fn forward(&self) -> [Reach; 7] {
        std::array::from_fn(|direction| self.reach(direction, 1))
    }

    /// Where codes 1 to 14 lead: the edges that start here, then those that
    /// end here.
    pub fn all_codes(&self) -> [Reach; 14] {
        std::array::from_fn(|n| self.reach(n % 7, if n < 7 { 1 } else { -1 }))
    }

    /// The lines to which the edges lead that start here in direction 0 to 6.
    pub fn ahead(&self) -> [Option<Ahead>; 7] {
        std::array::from_fn(|direction| {
            let target = self.target(direction, 1)?;
            Some(Ahead {
                line: target.grid.line_number(target.j, target.k),
                step: target.step,
            })
        })
    }

    fn reach(&self, direction: usize, sense: isize) -> Reach {
        let Some(Target { grid, j, k, step }) = self.target(direction, sense) else {
            return Reach::default();
        };
        let start = grid.line_start(j, k) as isize;
        Reach {
            from: (-step).max(0) as usize,
            to: (grid.wide[0] as isize - step).min(self.count() as isize) as usize,
            shift: start + step - self.first as isize,
        }
    }

    fn target(&self, direction: usize, sense: isize) -> Option<Target> {
        let step = DIRECTIONS[direction].map(|s| s as isize * sense);
        let (grid, index_step) = if is_long(direction) {
            (self.own, step.map(|s| s / 2))
        } else {
            (self.other, step.map(|s| (s + self.bias) / 2))
        };
        let [_, wy, wz] = grid.wide.map(|w| w as isize);
        let j = self.j as isize + index_step[1];
        let k = self.k as isize + index_step[2];
        if j < 0 || j >= wy || k < 0 || k >= wz {
            return None;
        }
        Some(Target {
            grid,
            j: j as usize,
            k: k as usize,
            step: index_step[0],
        })
    }
}

#[cfg(test)]
mod tests {
    use super::*;

    #[test]
    fn strides_agree_with_decoding() {
        for sizes in [[1, 1, 1], [1, 2, 1], [3, 1, 2], [4, 5, 3], [2, 2, 2]] {
            let lattice = Lattice::new(sizes[0], sizes[1], sizes[2]).unwrap();
            let grids = Grids::new(&lattice);
            assert_eq!(grids.point_count(), lattice.point_count());
            let lines: Vec<Line> = grids.lines().collect();
            let mut next = 0;
            for (number, line) in lines.iter().enumerate() {
                assert_eq!((line.number(), line.first), (number, next));
                next += line.count();
                check_line(&lattice, line);
                check_ahead(&lattice, &lines, line);
            }
            assert_eq!(next, lattice.point_count());
        }
    }

    fn check_line(lattice: &Lattice, line: &Line) {
        for index in 0..line.count() {
            let point = line.first + index;
            let at_end = index == 0 || index == line.count() - 1;
            assert_eq!(lattice.is_rim(point), line.is_on_rim() || at_end);
            let [x, y, z] = line.first_coordinates();
            assert_eq!(lattice.coordinates(point), [x + 2 * index as i32, y, z]);
            for (n, reach) in line.all_codes().iter().enumerate() {
                let decoded = if n < 7 {
                    lattice.end(point, n)
                } else {
                    lattice.start(point, n - 7)
                };
                let stepped = reach.covers(index).then(|| reach.other_end(point));
                assert_eq!(decoded, stepped);
            }
        }
    }

    fn check_ahead(lattice: &Lattice, lines: &[Line], line: &Line) {
        for index in 0..line.count() {
            for (direction, ahead) in line.ahead().iter().enumerate() {
                let other_end = |ahead: &Ahead| {
                    let other = lines[ahead.line];
                    let index = index.checked_add_signed(ahead.step)?;
                    (index < other.count()).then_some(other.first + index)
                };
                let stepped = ahead.as_ref().and_then(other_end);
                assert_eq!(lattice.end(line.first + index, direction), stepped);
            }
        }
    }
}
