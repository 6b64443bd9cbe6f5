//! The faces that belong to one row only (document 02, request F-7), by brute
//! force from the rows and the places of their corners.
//!
//! "The sum equals the sum over faces in one row only of the triple product of
//! their three corners, wound outward; and among those faces each edge is run
//! equally often each way." Winding is that of document 01, "Lattice tetrahedra
//! and rows". Nothing of how the rows came about is used.
//!
//! The faces and the runs of their edges are found in two ways: with a map, and
//! by looking through all rows, or all faces, again and again. The second way is
//! for small blocks.

use crate::block::Block;
use crate::check::place_of_id;
use crate::cut::{six_volume, Place};
use std::collections::{BTreeSet, HashMap};

/// The ids of a row's four corners.
pub type Row = [u32; 4];

/// The ids of a face's three corners in the order in which they are wound; it
/// runs from the first to the second, to the third, and back to the first.
pub type Face = [u32; 3];

/// What the faces of a good mesh are like.
#[derive(Clone, Copy, Debug, PartialEq, Eq)]
pub struct Boundary {
    /// The sum of all six-volumes, from the rows and from the faces.
    pub sum: i128,
    /// The faces in one row only.
    pub faces: usize,
    /// The ids p, q such that more than one of these faces runs p to q.
    pub run_again: usize,
}

/// Checks both claims for the rows of an accepted block, or says what is wrong.
pub fn check_boundary(block: &Block, state: &[u8], rows: &[Row]) -> Result<Boundary, String> {
    let place = |id| place_of_id(block, state, id).expect("a corner of a row has a place");
    let faces = faces_in_one_row(rows);
    let sum = sum_over_rows(rows, place);
    check_sum(sum, &faces, place)?;
    Ok(Boundary {
        sum,
        faces: faces.len(),
        run_again: check_edges(&faces)?,
    })
}

/// The four faces of a row: "a row a b c d winds its faces outward as bcd, adc,
/// abd, acb".
pub fn faces_of([a, b, c, d]: Row) -> [Face; 4] {
    [[b, c, d], [a, d, c], [a, b, d], [a, c, b]]
}

/// The faces in one row only, as this row winds them, in the order of the rows.
///
/// "Faces with the same three ids, in any order, are the same face", so ids in
/// ascending order name them.
pub fn faces_in_one_row(rows: &[Row]) -> Vec<Face> {
    let name = |mut face: Face| {
        face.sort();
        face
    };
    let mut row_counts: HashMap<Face, usize> = HashMap::new();
    let faces = || rows.iter().flat_map(|&row| faces_of(row));
    for face in faces() {
        *row_counts.entry(name(face)).or_default() += 1;
    }
    let is_in_one = |face: &Face| row_counts[&name(*face)] == 1;
    faces().filter(is_in_one).collect()
}

/// The same by looking through all rows for each face: "it belongs to each row
/// that holds all three".
pub fn faces_in_one_row_plain(rows: &[Row]) -> Vec<Face> {
    let mut faces = Vec::new();
    for &row in rows {
        for face in faces_of(row) {
            let holds_all = |row: &&Row| face.iter().all(|id| row.contains(id));
            if rows.iter().filter(holds_all).count() == 1 {
                faces.push(face);
            }
        }
    }
    faces
}

/// The sum of the rows' six-volumes.
pub fn sum_over_rows(rows: &[Row], place: impl Fn(u32) -> Place) -> i128 {
    let six_volume = |row: &Row| i128::from(six_volume(row.map(&place)));
    rows.iter().map(six_volume).sum()
}

/// The sum of the triple products of the faces' corners, as the faces are
/// wound.
pub fn sum_over_faces(faces: &[Face], place: impl Fn(u32) -> Place) -> i128 {
    let triple = |face: &Face| triple_product(face.map(&place));
    faces.iter().map(triple).sum()
}

/// The triple product of three places: the first by the cross product of the
/// other two.
pub fn triple_product(places: [Place; 3]) -> i128 {
    let [[ax, ay, az], [bx, by, bz], [cx, cy, cz]] = places.map(|place| place.map(i128::from));
    ax * (by * cz - bz * cy) + ay * (bz * cx - bx * cz) + az * (bx * cy - by * cx)
}

/// The first claim: the sum over these faces is this sum of six-volumes.
pub fn check_sum(sum: i128, faces: &[Face], place: impl Fn(u32) -> Place) -> Result<(), String> {
    match sum_over_faces(faces, place) {
        found if found == sum => Ok(()),
        found => Err(format!("{found} over faces, {sum} over rows")),
    }
}

/// The second claim: for all ids p and q as many of these faces run p to q as q
/// to p. Answers for how many p and q it is more than one.
pub fn check_edges(faces: &[Face]) -> Result<usize, String> {
    let mut runs: HashMap<[u32; 2], usize> = HashMap::new();
    for run in faces.iter().flat_map(|&face| runs_of(face)) {
        *runs.entry(run).or_default() += 1;
    }
    // If no face runs p to q, then none may run q to p, and that is seen at q, p.
    for (&[p, q], &forth) in &runs {
        let back = runs.get(&[q, p]).copied().unwrap_or(0);
        check_edge([p, q], forth, back)?;
    }
    Ok(runs.values().filter(|&&count| count > 1).count())
}

/// The same by looking through all faces for all ids p and q.
pub fn check_edges_plain(faces: &[Face]) -> Result<usize, String> {
    let ids: BTreeSet<u32> = faces.iter().flatten().copied().collect();
    let count = |run: [u32; 2]| {
        let has_run = |face: &&Face| runs_of(**face).contains(&run);
        faces.iter().filter(has_run).count()
    };
    let mut run_again = 0;
    for &p in &ids {
        for &q in &ids {
            let forth = count([p, q]);
            check_edge([p, q], forth, count([q, p]))?;
            run_again += usize::from(forth > 1);
        }
    }
    Ok(run_again)
}

/// From where to where a face runs.
fn runs_of([x, y, z]: Face) -> [[u32; 2]; 3] {
    [[x, y], [y, z], [z, x]]
}

fn check_edge([p, q]: [u32; 2], forth: usize, back: usize) -> Result<(), String> {
    if forth == back {
        Ok(())
    } else {
        Err(format!("{forth} run {p} to {q}, {back} run back"))
    }
}

#[cfg(test)]
mod tests {
    use super::*;
    use crate::blockfile::fill_block;
    use crate::generate::crowded_block;
    use crate::random::Random;
    use crate::state::count_moves;

    /// A block with what filling leaves, and its faces in one row only.
    struct Mesh {
        block: Block,
        state: Vec<u8>,
        rows: Vec<Row>,
        faces: Vec<Face>,
    }

    impl Mesh {
        fn of(block: Block) -> Mesh {
            let tables = fill_block(&block, 0);
            let rows = tables.rows.as_chunks().0.to_vec();
            let faces = faces_in_one_row(&rows);
            Mesh {
                block,
                state: tables.state,
                rows,
                faces,
            }
        }

        fn place(&self, id: u32) -> Place {
            place_of_id(&self.block, &self.state, id).unwrap()
        }

        /// Whether the first claim holds between these rows and these faces.
        fn sum_holds(&self, rows: &[Row], faces: &[Face]) -> bool {
            let sum = sum_over_rows(rows, |id| self.place(id));
            check_sum(sum, faces, |id| self.place(id)).is_ok()
        }
    }

    /// Whether the second claim holds, by both ways.
    fn edges_hold(faces: &[Face]) -> bool {
        let found = check_edges(faces);
        let plain = check_edges_plain(faces);
        assert_eq!(found.as_ref().ok(), plain.as_ref().ok());
        found.is_ok()
    }

    /// The given case and some blocks with moved points.
    fn meshes() -> Vec<Mesh> {
        let mut random = Random::new(73);
        let mut meshes = vec![Mesh::of(Block::given_case())];
        while meshes.len() < 12 {
            let mesh = Mesh::of(crowded_block(&mut random, 3));
            if count_moves(&mesh.state) > 0 && (2..100).contains(&mesh.rows.len()) {
                meshes.push(mesh);
            }
        }
        meshes
    }

    #[test]
    fn the_given_case() {
        let mesh = Mesh::of(Block::given_case());
        assert_eq!(mesh.faces.len(), 24);
        // Row 13, 65, 235, 227 has its face opposite 13 on the skin.
        assert_eq!(mesh.faces[0], [65, 235, 227]);
        let good = Boundary {
            sum: 201_326_592,
            faces: 24,
            run_again: 0,
        };
        let found = check_boundary(&mesh.block, &mesh.state, &mesh.rows);
        assert_eq!(found, Ok(good));
    }

    /// "A row's six-volume", and the same over all its faces wherever it lies.
    #[test]
    fn one_row_alone() {
        let places = [[1, 2, 3], [5, 2, 3], [1, 7, 3], [1, 2, 9]];
        let place = |id: u32| places[id as usize];
        let faces = faces_in_one_row(&[[0, 1, 2, 3]]);
        assert_eq!(faces, [[1, 2, 3], [0, 3, 2], [0, 1, 3], [0, 2, 1]]);
        assert_eq!(sum_over_rows(&[[0, 1, 2, 3]], place), 120);
        assert_eq!(sum_over_faces(&faces, place), 120);
        assert_eq!(check_edges(&faces), Ok(0));
    }

    #[test]
    fn triple_products_are_signed() {
        let [x, y, z] = [[2, 0, 0], [0, 3, 0], [0, 0, 5]];
        for turned in [[x, y, z], [y, z, x], [z, x, y]] {
            assert_eq!(triple_product(turned), 30);
            let [a, b, c] = turned;
            assert_eq!(triple_product([a, c, b]), -30);
        }
        assert_eq!(triple_product([[1, 2, 3], [4, 5, 6], [7, 8, 10]]), -3);
    }

    #[test]
    fn a_face_of_three_rows_is_in_no_row_only() {
        let rows = [[0, 1, 2, 3], [0, 2, 1, 4], [5, 2, 0, 1]];
        let faces = faces_in_one_row(&rows);
        assert_eq!(faces, faces_in_one_row_plain(&rows));
        assert_eq!(faces.len(), 9);
    }

    #[test]
    fn a_face_wound_inward_is_noticed() {
        for mesh in meshes() {
            assert!(mesh.sum_holds(&mesh.rows, &mesh.faces) && edges_hold(&mesh.faces));
            for n in 0..mesh.faces.len() {
                let mut faces = mesh.faces.clone();
                faces[n].swap(0, 1);
                assert!(!edges_hold(&faces));
                // In a plane with the origin there is no volume to be seen.
                let flat = triple_product(faces[n].map(|id| mesh.place(id))) == 0;
                assert_eq!(mesh.sum_holds(&mesh.rows, &faces), flat);
            }
            let inward: Vec<Face> = mesh.faces.iter().map(|&[x, y, z]| [x, z, y]).collect();
            assert!(edges_hold(&inward));
            assert!(!mesh.sum_holds(&mesh.rows, &inward));
        }
    }

    #[test]
    fn a_face_turned_in_a_cycle_is_the_same() {
        for mesh in meshes() {
            let turned: Vec<Face> = mesh.faces.iter().map(|&[x, y, z]| [y, z, x]).collect();
            assert!(edges_hold(&turned) && mesh.sum_holds(&mesh.rows, &turned));
        }
    }

    #[test]
    fn an_edge_counted_one_way_is_noticed() {
        for mesh in meshes() {
            for n in 0..mesh.faces.len() {
                let mut missing = mesh.faces.clone();
                let face = missing.remove(n);
                assert!(!edges_hold(&missing));
                let doubled = [&mesh.faces[..], &[face]].concat();
                assert!(!edges_hold(&doubled));
                let mut elsewhere = mesh.faces.clone();
                elsewhere[n][2] = u32::MAX;
                assert!(!edges_hold(&elsewhere));
            }
        }
    }

    #[test]
    fn a_row_too_few_or_too_many_is_noticed() {
        for mesh in meshes() {
            for n in 0..mesh.rows.len() {
                let mut fewer = mesh.rows.clone();
                let row = fewer.remove(n);
                assert!(!mesh.sum_holds(&fewer, &mesh.faces));
                assert!(!mesh.sum_holds(&mesh.rows, &faces_in_one_row(&fewer)));
                let more = [&mesh.rows[..], &[row]].concat();
                assert!(!mesh.sum_holds(&more, &mesh.faces));
            }
        }
    }

    /// A row with its last two corners exchanged winds its faces as its
    /// neighbours do.
    #[test]
    fn a_row_turned_inside_out_is_noticed() {
        for mesh in meshes() {
            for n in 0..mesh.rows.len() {
                let mut rows = mesh.rows.clone();
                rows[n].swap(2, 3);
                let alone = faces_of(mesh.rows[n])
                    .iter()
                    .all(|face| mesh.faces.contains(face));
                let found = check_boundary(&mesh.block, &mesh.state, &rows);
                assert_eq!(found.is_ok(), alone);
            }
        }
    }
}
