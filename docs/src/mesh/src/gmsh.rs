//! Gmsh 2.2, ASCII. Nodes and elements are numbered from 1.

use crate::text::{element, numbered, point, shortest, whole};
use crate::Mesh;
use std::fmt::Write;

const HEAD: &str = "$MeshFormat\n2.2 0 8\n$EndMeshFormat\n";

/// A tetrahedron of four nodes, with two tags: physical and elementary entity 1.
const TETRAHEDRON: [&str; 4] = ["4", "2", "1", "1"];

/// The mesh as a Gmsh file.
pub fn write(mesh: &Mesh) -> String {
    let mut text = format!("{HEAD}$Nodes\n{}\n", mesh.nodes.len());
    for (k, &node) in mesh.nodes.iter().enumerate() {
        writeln!(text, "{} {}", k + 1, node.map(shortest).join(" ")).unwrap();
    }
    write!(text, "$EndNodes\n$Elements\n{}\n", mesh.elements.len()).unwrap();
    let kind = TETRAHEDRON.join(" ");
    for (k, element) in mesh.elements.iter().enumerate() {
        let [a, b, c, d] = element.map(|node| node + 1);
        writeln!(text, "{} {kind} {a} {b} {c} {d}", k + 1).unwrap();
    }
    text + "$EndElements\n"
}

/// The mesh of a file such as [`write`] gives.
pub fn read(text: &str) -> Option<Mesh> {
    let mut lines = text.strip_prefix(HEAD)?.lines();
    let mut mesh = Mesh::default();
    let mut section = |begin: &str, end: &str, take: &mut dyn FnMut(&[&str]) -> Option<()>| {
        (lines.next()? == begin).then_some(())?;
        for number in 1..=lines.next()?.parse::<usize>().ok()? {
            let words: Vec<&str> = lines.next()?.split(' ').collect();
            take(numbered(&words, number)?)?;
        }
        (lines.next()? == end).then_some(())
    };
    section("$Nodes", "$EndNodes", &mut |words| {
        mesh.nodes.push(point(words)?);
        Some(())
    })?;
    section("$Elements", "$EndElements", &mut |words| {
        mesh.elements.push(element(words.strip_prefix(&TETRAHEDRON)?, 1)?);
        Some(())
    })?;
    lines.next().is_none().then_some(mesh).and_then(whole)
}
