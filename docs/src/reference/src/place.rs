//! Measures of a block and the place of one id.
//!
//! Follows document 01, "Calls and refusals": measures can only be refused
//! with 1, the place of an id with 1, 3, 4, 8, 9 in that order; and request F-8
//! of document 02: "Code 15 is believable, so 9 begins above 15. A cut with an
//! end coded 15 is refused by 8."

use crate::cut::{edge_of_code, place_of_cut, place_of_point, violation, Place};
use crate::lattice::{Edge, Lattice};
use crate::refusal;
use crate::state::ON_SKIN;

/// The answer of measures.
#[derive(Clone, Copy, Debug, PartialEq, Eq)]
pub struct Measures {
    /// 0, or 1 with both counts 0.
    pub number: u32,
    /// N, the count of lattice points.
    pub points: u64,
    /// The count of lattice tetrahedra.
    pub tetrahedra: u64,
}

/// The answer of the place call.
#[derive(Clone, Copy, Debug, PartialEq, Eq)]
pub struct Placed {
    /// 0, or the number of the refusal with the place (0, 0, 0).
    pub number: u32,
    /// 256ths of a doubled coordinate along x.
    pub x: u32,
    /// The same along y.
    pub y: u32,
    /// The same along z.
    pub z: u32,
}

/// The count of points and of lattice tetrahedra of a block.
pub fn measures(nx: u32, ny: u32, nz: u32) -> Measures {
    match Lattice::new(nx, ny, nz) {
        None => Measures {
            number: refusal::SIZE,
            points: 0,
            tetrahedra: 0,
        },
        Some(lattice) => Measures {
            number: refusal::NONE,
            points: lattice.point_count() as u64,
            tetrahedra: lattice.tetrahedron_count() as u64,
        },
    }
}

/// The place of a lattice point or of a cut, by its id.
pub fn place(nx: u32, ny: u32, nz: u32, cuts: &[u8], state: &[u8], id: u32) -> Placed {
    match find_place(nx, ny, nz, cuts, state, id as usize) {
        Ok(place) => {
            let [x, y, z] = place.map(|coordinate| coordinate as u32);
            let number = refusal::NONE;
            Placed { number, x, y, z }
        }
        Err(number) => Placed {
            number,
            x: 0,
            y: 0,
            z: 0,
        },
    }
}

fn find_place(
    nx: u32,
    ny: u32,
    nz: u32,
    cuts: &[u8],
    state: &[u8],
    id: usize,
) -> Result<Place, u32> {
    let lattice = Lattice::new(nx, ny, nz).ok_or(refusal::SIZE)?;
    let n = lattice.point_count();
    if cuts.len() != 7 * n {
        return Err(refusal::CUTS);
    }
    if state.len() != n {
        return Err(refusal::STATE);
    }
    if id >= 8 * n {
        return Err(refusal::CORNER);
    }
    if id < n {
        point_place(&lattice, cuts, state, id).ok_or(refusal::CODE)
    } else {
        let edge = Edge {
            start: (id - n) / 7,
            direction: (id - n) % 7,
        };
        cut_place(&lattice, cuts, state, edge).ok_or(refusal::CORNER)
    }
}

/// The place of a point, unless its state byte is not believable: a move whose
/// edge does not exist, has byte 0 or does not violate the point, or a byte
/// above 15.
fn point_place(lattice: &Lattice, cuts: &[u8], state: &[u8], point: usize) -> Option<Place> {
    let code = state[point];
    if code == 0 || code == ON_SKIN {
        return Some(place_of_point(lattice, point));
    }
    let (edge, end) = edge_of_code(lattice, point, code)?;
    let t = cuts[edge.offset()];
    violation(t, edge.direction, end).map(|_| place_of_cut(lattice, edge, t))
}

/// The place of a cut, unless the edge does not exist, has byte 0 or has an
/// end with a state byte other than 0: one that moved, or lies on the skin
/// unmoved, or has a byte that is not believable.
fn cut_place(lattice: &Lattice, cuts: &[u8], state: &[u8], edge: Edge) -> Option<Place> {
    let end = lattice.end(edge.start, edge.direction)?;
    let t = cuts[edge.offset()];
    let is_corner = t != 0 && state[edge.start] == 0 && state[end] == 0;
    is_corner.then(|| place_of_cut(lattice, edge, t))
}
