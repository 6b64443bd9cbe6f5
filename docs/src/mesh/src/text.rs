//! What the formats share: numbers as text, and reading them back.

use crate::{Mesh, Point};

/// The text with the fewest digits that reads back as the same number.
pub fn shortest(number: f64) -> String {
    format!("{number:?}")
}

/// The point of three coordinates.
pub fn point(words: &[&str]) -> Option<Point> {
    let numbers = words.iter().map(|word| word.parse().ok());
    numbers.collect::<Option<Vec<f64>>>()?.try_into().ok()
}

/// An element's nodes, from the numbers that a format gives them.
pub fn element(words: &[&str], first_number: usize) -> Option<[usize; 4]> {
    let numbers = words.iter().map(|word| word.parse::<usize>().ok()?.checked_sub(first_number));
    numbers.collect::<Option<Vec<usize>>>()?.try_into().ok()
}

/// Lines that start with their own number, counted from 1; what follows the number is handed on.
pub fn numbered<'a>(words: &'a [&'a str], number: usize) -> Option<&'a [&'a str]> {
    let (first, rest) = words.split_first()?;
    (first.parse() == Ok(number)).then_some(rest)
}

/// The mesh, if its elements name its nodes only.
pub fn whole(mesh: Mesh) -> Option<Mesh> {
    let nodes = mesh.nodes.len();
    mesh.elements.iter().flatten().all(|&node| node < nodes).then_some(mesh)
}
