//! A block file's mesh, for other programs and for the eye.
//!
//! | Module | Meaning |
//! |---|---|
//! | [`block`] | reading, mending and filling a block file and numbering its nodes, through the library |
//! | [`vtk`], [`gmsh`], [`abaqus`] | the mesh as text, and read back from it |
//! | [`view`], [`picture`], [`png`] | the mesh as a picture, cut open |
//!
//! All three formats number a tetrahedron's corners so that the fourth lies on the side to which the first three turn
//! counter-clockwise: (b-a) x (c-a) . (d-a) is above zero. The library's rows have that already, so they are written as they are. So are
//! the coordinates: the library answers them in the unit that is asked for. It also numbers the nodes, from 0 on.

#![forbid(unsafe_code)]

pub mod abaqus;
pub mod block;
pub mod gmsh;
pub mod picture;
pub mod png;
pub mod text;
pub mod view;
pub mod vtk;

/// The unit that gives coordinates in cubes: a step of a place is a 512th of a cube's side. It is a power of two, so nothing is rounded.
pub const CUBES: f64 = 1.0 / 512.0;

/// Three coordinates, in cubes or in millimetres.
pub type Point = [f64; 3];

/// Nodes, and elements of four nodes each, numbered from 0.
#[derive(Clone, Debug, Default, PartialEq)]
pub struct Mesh {
    /// The coordinates of each node.
    pub nodes: Vec<Point>,
    /// The nodes of each tetrahedron.
    pub elements: Vec<[usize; 4]>,
}

impl Mesh {
    /// Six times an element's volume, with its sign. Where the unit is a power of two nothing is rounded: differences of coordinates have
    /// 16 bits at most and the whole sum 48, and a double holds 53.
    pub fn six_volume(&self, element: [usize; 4]) -> f64 {
        let [a, b, c, d] = element.map(|node| self.nodes[node]);
        let from_a = |q: Point| [q[0] - a[0], q[1] - a[1], q[2] - a[2]];
        let [b, c, d] = [from_a(b), from_a(c), from_a(d)];
        let across = |i: usize, j: usize| b[i] * c[j] - b[j] * c[i];
        across(1, 2) * d[0] + across(2, 0) * d[1] + across(0, 1) * d[2]
    }
}
