//! What is looked at: the outer faces of a mesh that is cut open, and from where.

use crate::Mesh;
use std::collections::HashMap;

/// A point or a direction.
pub type Vector = [f64; 3];

/// A triangle to be drawn.
#[derive(Clone, Copy, Debug, PartialEq)]
pub struct Face {
    /// Its corners, counter-clockwise from outside.
    pub corners: [Vector; 3],
    /// Whether it is the part's own skin, or shows where the mesh was cut open.
    pub skin: bool,
}

/// The four faces of an element, wound outward.
fn faces([a, b, c, d]: [usize; 4]) -> [[usize; 3]; 4] {
    [[b, c, d], [a, d, c], [a, b, d], [a, c, b]]
}

/// How many elements each face belongs to.
fn count_faces(elements: &[[usize; 4]]) -> HashMap<[usize; 3], usize> {
    let mut counts = HashMap::new();
    for face in elements.iter().flat_map(|&element| faces(element)) {
        *counts.entry(sorted(face)).or_insert(0) += 1;
    }
    counts
}

fn sorted(mut face: [usize; 3]) -> [usize; 3] {
    face.sort_unstable();
    face
}

/// The middle of an element.
fn middle(mesh: &Mesh, element: [usize; 4]) -> Vector {
    let corners = element.map(|node| mesh.nodes[node]);
    [0, 1, 2].map(|axis| corners.iter().map(|corner| corner[axis]).sum::<f64>() / 4.0)
}

/// The outer faces of the elements whose middle is kept.
pub fn cut_open(mesh: &Mesh, keep: impl Fn(Vector) -> bool) -> Vec<Face> {
    let kept = mesh.elements.iter().copied().filter(|&element| keep(middle(mesh, element)));
    let kept: Vec<[usize; 4]> = kept.collect();
    let (among_all, among_kept) = (count_faces(&mesh.elements), count_faces(&kept));
    let outer = kept.iter().flat_map(|&element| faces(element));
    let outer = outer.filter(|&face| among_kept[&sorted(face)] == 1);
    outer
        .map(|face| Face {
            corners: face.map(|node| mesh.nodes[node]),
            skin: among_all[&sorted(face)] == 1,
        })
        .collect()
}

/// From the mesh to the eye.
pub const EYE: Vector = [-0.46, -0.60, 0.655];

/// Keeps all but the quarter that is nearest to the eye, around the upright axis through the middle of the mesh.
pub fn quarter_away(mesh: &Mesh) -> impl Fn(Vector) -> bool {
    let bound = |axis: usize| {
        let along = mesh.nodes.iter().map(|node| node[axis]);
        let (low, high) = (along.clone().reduce(f64::min), along.reduce(f64::max));
        (low.unwrap_or(0.0) + high.unwrap_or(0.0)) / 2.0
    };
    let [x, y] = [bound(0), bound(1)];
    move |at| {
        let [x, y] = [at[0] - x, at[1] - y];
        let towards = x * EYE[0] + y * EYE[1];
        let aside = x * EYE[1] - y * EYE[0];
        towards < aside.abs()
    }
}
