//! Brute-force check of the finished mesh: demand 3.
//!
//! Follows document 01, "Lattice tetrahedra and rows", from "Demand 3 is one
//! claim about all T rows" on: every row has four different corners and a
//! six-volume above zero, and every face lies in exactly two rows that wind it
//! opposite ways, or in exactly one and then with its three corners on the
//! skin. On the skin are a cut point, a moved point and, since request F-3 of
//! document 02, a point whose sample's size is at most the band. Request F-8
//! changes no row and no face, and so not the skin either. Nothing of how the
//! rows came about is used, but which points the rules move is found anew and
//! not read off the state table, nor is which points are in the band.

use crate::block::Block;
use crate::cut::{six_volume, Place};
use crate::place::place;
use crate::plain::move_points;
use crate::state::is_move;
use std::collections::HashMap;

/// The faces of a good mesh.
#[derive(Clone, Copy, Debug, PartialEq, Eq)]
pub struct Faces {
    /// Faces in two rows.
    pub inner: usize,
    /// Faces in one row.
    pub skin: usize,
}

/// How often a face is wound as its ascending ids are, up to a turn in a
/// cycle, and how often the other way.
#[derive(Clone, Copy, Default)]
struct Windings {
    even: usize,
    odd: usize,
}

/// Checks demand 3 for the rows of an accepted block, or says what is wrong.
pub fn check_mesh(block: &Block, band: u32, state: &[u8], rows: &[u32]) -> Result<Faces, String> {
    let mut faces: HashMap<[u32; 3], Windings> = HashMap::new();
    for row in rows.chunks(4) {
        let row: [u32; 4] = row.try_into().map_err(|_| "not whole rows")?;
        check_row(block, state, row)?;
        let [a, b, c, d] = row;
        for face in [[b, c, d], [a, d, c], [a, b, d], [a, c, b]] {
            let (key, even) = ascending(face);
            let windings = faces.entry(key).or_default();
            windings.even += usize::from(even);
            windings.odd += usize::from(!even);
        }
    }
    check_faces(block, band, &faces)
}

fn check_row(block: &Block, state: &[u8], row: [u32; 4]) -> Result<(), String> {
    for n in 0..4 {
        if row[..n].contains(&row[n]) {
            return Err(format!("a corner twice in row {row:?}"));
        }
    }
    let mut places = [[0; 3]; 4];
    for n in 0..4 {
        places[n] = place_of_id(block, state, row[n])?;
    }
    let volume = six_volume(places);
    if volume <= 0 {
        return Err(format!("six-volume {volume} of row {row:?}"));
    }
    Ok(())
}

/// The place of a corner of a row, or what is wrong with its id.
pub fn place_of_id(block: &Block, state: &[u8], id: u32) -> Result<Place, String> {
    let [nx, ny, nz] = block.sizes;
    let placed = place(nx, ny, nz, &block.cuts, state, id);
    match placed.number {
        0 => Ok([placed.x, placed.y, placed.z].map(i64::from)),
        number => Err(format!("place of id {id} refused with {number}")),
    }
}

/// The ids ascending, and whether an even permutation (a turn in a cycle)
/// leads there.
fn ascending(face: [u32; 3]) -> ([u32; 3], bool) {
    let [a, b, c] = face;
    let inversions = [a > b, a > c, b > c].iter().filter(|&&i| i).count();
    let mut key = face;
    key.sort();
    (key, inversions % 2 == 0)
}

fn check_faces(
    block: &Block,
    band: u32,
    faces: &HashMap<[u32; 3], Windings>,
) -> Result<Faces, String> {
    let lattice = block.lattice().ok_or("sizes")?;
    let moved = move_points(&lattice, band, &block.samples, &block.cuts).codes;
    let in_band = |sample: i16| i64::from(sample).abs() <= i64::from(band);
    let on_skin = |&id: &u32| {
        let id = id as usize;
        id >= lattice.point_count() || is_move(moved[id]) || in_band(block.samples[id])
    };
    let mut count = Faces { inner: 0, skin: 0 };
    for (face, windings) in faces {
        match (windings.even, windings.odd) {
            (1, 1) => count.inner += 1,
            (1, 0) | (0, 1) if face.iter().all(on_skin) => count.skin += 1,
            (1, 0) | (0, 1) => return Err(format!("open face {face:?} off the skin")),
            (even, odd) => return Err(format!("face {face:?} wound {even} and {odd} times")),
        }
    }
    Ok(count)
}

#[cfg(test)]
mod tests {
    use super::*;
    use crate::blockfile::fill_block;

    /// The check must find fault with a mesh that was tampered with.
    #[test]
    fn finds_faults() {
        let block = Block::given_case();
        let tables = fill_block(&block, 0);
        let check = |rows: &[u32]| check_mesh(&block, 0, &tables.state, rows);
        let faces = check(&tables.rows).unwrap();
        assert_eq!((faces.inner, faces.skin), (36, 24));

        let mut swapped = tables.rows.clone();
        swapped.swap(2, 3);
        assert!(check(&swapped).unwrap_err().contains("six-volume -8388608"));
        assert!(check(&tables.rows[4..]).unwrap_err().contains("open face"));
        let mut doubled = tables.rows.clone();
        doubled.extend_from_slice(&tables.rows[..4]);
        assert!(check(&doubled).unwrap_err().contains("wound"));
        let mut repeated = tables.rows.clone();
        repeated[1] = repeated[0];
        assert!(check(&repeated).unwrap_err().contains("twice"));
        assert!(check(&tables.rows[1..]).is_err());
    }
}
