//! Legacy VTK, ASCII, an unstructured grid. Nodes are numbered from 0.

use crate::text::{element, point, shortest, whole};
use crate::Mesh;
use std::fmt::Write;

const HEAD: &str = "# vtk DataFile Version 3.0\nYakuemi\nASCII\nDATASET UNSTRUCTURED_GRID\n";

/// VTK_TETRA.
const TETRAHEDRON: &str = "10";

/// The mesh as a VTK file.
pub fn write(mesh: &Mesh) -> String {
    let (nodes, elements) = (mesh.nodes.len(), mesh.elements.len());
    let mut text = format!("{HEAD}POINTS {nodes} double\n");
    for &node in &mesh.nodes {
        text += &node.map(shortest).join(" ");
        text.push('\n');
    }
    writeln!(text, "CELLS {elements} {}", 5 * elements).unwrap();
    for [a, b, c, d] in &mesh.elements {
        writeln!(text, "4 {a} {b} {c} {d}").unwrap();
    }
    writeln!(text, "CELL_TYPES {elements}").unwrap();
    for _ in 0..elements {
        writeln!(text, "{TETRAHEDRON}").unwrap();
    }
    text
}

/// The mesh of a file such as [`write`] gives.
pub fn read(text: &str) -> Option<Mesh> {
    let mut lines = text.strip_prefix(HEAD)?.lines().map(|line| line.split(' ').collect::<Vec<_>>());
    let count = |line: Option<Vec<&str>>, word: &str| match line?[..] {
        [first, count, ..] if first == word => count.parse::<usize>().ok(),
        _ => None,
    };
    let mut mesh = Mesh::default();
    for _ in 0..count(lines.next(), "POINTS")? {
        mesh.nodes.push(point(&lines.next()?)?);
    }
    let elements = count(lines.next(), "CELLS")?;
    for _ in 0..elements {
        match lines.next()?[..] {
            ["4", ref nodes @ ..] => mesh.elements.push(element(nodes, 0)?),
            _ => return None,
        }
    }
    let types = count(lines.next(), "CELL_TYPES")?;
    let rest: Vec<_> = lines.collect();
    let fits = types == elements && rest.len() == types && rest.iter().all(|line| line[..] == [TETRAHEDRON]);
    fits.then_some(mesh).and_then(whole)
}
