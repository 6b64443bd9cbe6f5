//! The input file of CalculiX and Abaqus: nodes, and elements of type C3D4. Both are numbered from 1.

use crate::text::{element, numbered, point, shortest, whole};
use crate::Mesh;
use std::fmt::Write;

const NODES: &str = "*NODE, NSET=NALL\n";
const ELEMENTS: &str = "*ELEMENT, TYPE=C3D4, ELSET=RUBBER\n";

/// As far as we know both programs read so many characters of a number and no more.
const WIDEST: usize = 20;

/// A coordinate as text that is read whole: the shortest that reads back as the same number, if it fits. Else the number is below 0.01
/// and has 16 or 17 digits, and 16 of them are written, the most that fit: as the least coordinate above zero is 1/1048576, the
/// exponent has one digit.
fn coordinate(number: f64) -> String {
    let text = shortest(number);
    if text.len() <= WIDEST {
        text
    } else {
        format!("{number:.15e}")
    }
}

/// The mesh as an input file.
pub fn write(mesh: &Mesh) -> String {
    let mut text = NODES.to_string();
    for (k, &node) in mesh.nodes.iter().enumerate() {
        writeln!(text, "{}, {}", k + 1, node.map(coordinate).join(", ")).unwrap();
    }
    text += ELEMENTS;
    for (k, element) in mesh.elements.iter().enumerate() {
        let [a, b, c, d] = element.map(|node| node + 1);
        writeln!(text, "{}, {a}, {b}, {c}, {d}", k + 1).unwrap();
    }
    text
}

/// The mesh of a file such as [`write`] gives.
pub fn read(text: &str) -> Option<Mesh> {
    let (nodes, elements) = text.strip_prefix(NODES)?.split_once(ELEMENTS)?;
    let mut mesh = Mesh::default();
    for (k, line) in nodes.lines().enumerate() {
        let words: Vec<&str> = line.split(", ").collect();
        mesh.nodes.push(point(numbered(&words, k + 1)?)?);
    }
    for (k, line) in elements.lines().enumerate() {
        let words: Vec<&str> = line.split(", ").collect();
        mesh.elements.push(element(numbered(&words, k + 1)?, 1)?);
    }
    whole(mesh)
}
