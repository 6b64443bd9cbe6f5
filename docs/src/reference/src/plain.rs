//! Filling a block, mending a cut table and the node table sentence by
//! sentence: slow, simple, the oracle.
//!
//! Follows document 01, "The block", "Moving points", "Lattice tetrahedra and
//! rows" and "Calls and refusals" in their order, and in "Moving points"
//! requests F-2, F-3 and F-8 of document 02; for mending, request F-4; for the
//! node table, request F-6. The band comes first, as request F-9 says: the rim,
//! the cut bytes and mending read labels. Every number is decoded, every
//! tetrahedron listed, every corner sorted, every six-volume computed from the
//! places of the moved points, every entry of a row table placed on its own.

use crate::cut::{edge_of_code, place_of_cut, place_of_point, six_volume, violation, Place};
use crate::fill::Filled;
use crate::lattice::{Edge, Lattice};
use crate::mend::Mended;
use crate::nodes::Numbered;
use crate::place::{place, Placed};
use crate::refusal;
use crate::state::{count_moves, ON_SKIN};
use std::collections::BTreeSet;

/// A corner in a row: a lattice point or the cut of an edge.
#[derive(Clone, Copy, Debug, PartialEq, Eq)]
pub enum Corner {
    /// A lattice point.
    Point(usize),
    /// The cut of an edge.
    Cut(Edge),
}

/// What moving the points leaves behind.
#[derive(Clone, Debug, PartialEq, Eq)]
pub struct Moved {
    /// The state table: a code from 1 to 14 for a point that moved, 15 for one
    /// whose label is zero from the start, or 0 for any other.
    pub codes: Vec<u8>,
    /// The labels afterwards: 1 plus, -1 minus, 0 zero.
    pub labels: Vec<i16>,
}

/// Fills a block; same contract as [`crate::fill::fill`].
#[allow(clippy::too_many_arguments)]
pub fn fill(
    nx: u32,
    ny: u32,
    nz: u32,
    band: u32,
    samples: &[i16],
    cuts: &[u8],
    state: &mut [u8],
    rows: &mut [u32],
) -> Filled {
    fill_by(label, nx, ny, nz, band, samples, cuts, state, rows)
}

/// Fills a block as before request F-9, when the tests of the rim and of the cut
/// bytes read raw samples whatever the band. For comparison only.
#[allow(clippy::too_many_arguments)]
pub fn fill_by_raw_samples(
    nx: u32,
    ny: u32,
    nz: u32,
    band: u32,
    samples: &[i16],
    cuts: &[u8],
    state: &mut [u8],
    rows: &mut [u32],
) -> Filled {
    let sign = |_: u32, sample: i16| sample.signum();
    fill_by(sign, nx, ny, nz, band, samples, cuts, state, rows)
}

/// Fills a block; the tests of the rim and of the cut bytes read what is given
/// for a band and a sample.
#[allow(clippy::too_many_arguments)]
fn fill_by(
    tested: fn(u32, i16) -> i16,
    nx: u32,
    ny: u32,
    nz: u32,
    band: u32,
    samples: &[i16],
    cuts: &[u8],
    state: &mut [u8],
    rows: &mut [u32],
) -> Filled {
    let Some(lattice) = Lattice::new(nx, ny, nz) else {
        return Filled::refused(refusal::SIZE, 0);
    };
    if band > 32767 {
        return Filled::refused(refusal::BAND, 0);
    }
    let n = lattice.point_count();
    if samples.len() != n {
        return Filled::refused(refusal::SAMPLES, 0);
    }
    if cuts.len() != 7 * n {
        return Filled::refused(refusal::CUTS, 0);
    }
    if state.len() != n {
        return Filled::refused(refusal::STATE, 0);
    }
    let labels: Vec<i16> = samples.iter().map(|&s| tested(band, s)).collect();
    if let Some(point) = lowest_plus_on_rim(&lattice, &labels) {
        return Filled::refused(refusal::RIM, point);
    }
    if let Some((number, offset)) = lowest_wrong_byte(&lattice, &labels, cuts) {
        return Filled::refused(number, offset);
    }
    let moved = move_points(&lattice, band, samples, cuts);
    state.copy_from_slice(&moved.codes);
    let ids = ids_of_rows(&lattice, cuts, &moved);
    let fits = ids.len() <= rows.len();
    if fits {
        rows[..ids.len()].copy_from_slice(&ids);
    }
    Filled {
        number: if fits { refusal::NONE } else { refusal::TABLE },
        rows: ids.len() as u64 / 4,
        moved: count_moves(&moved.codes) as u64,
        place: 0,
    }
}

/// The lowest rim point whose label is plus.
fn lowest_plus_on_rim(lattice: &Lattice, labels: &[i16]) -> Option<usize> {
    (0..labels.len()).find(|&point| lattice.is_rim(point) && labels[point] > 0)
}

/// The lowest offset whose byte is a gap or a stray by the labels, with that
/// refusal.
fn lowest_wrong_byte(lattice: &Lattice, labels: &[i16], cuts: &[u8]) -> Option<(u32, usize)> {
    for (offset, &byte) in cuts.iter().enumerate() {
        let must_be_cut = must_be_cut(lattice, labels, offset);
        if must_be_cut && byte == 0 {
            return Some((refusal::GAP, offset));
        }
        if !must_be_cut && byte != 0 {
            return Some((refusal::STRAY, offset));
        }
    }
    None
}

/// "A byte must be non-zero exactly where the edge exists and one end's sample
/// is above zero and the other's below"; since request F-9, where one end's
/// label is plus and the other's minus.
fn must_be_cut(lattice: &Lattice, labels: &[i16], offset: usize) -> bool {
    let (start, direction) = (offset / 7, offset % 7);
    match lattice.end(start, direction) {
        None => false,
        Some(end) => {
            let (a, b) = (labels[start], labels[end]);
            (a > 0 && b < 0) || (a < 0 && b > 0)
        }
    }
}

/// A point's label: its sample's sign, 1 plus, -1 minus, or 0. "A sample whose
/// size is at most the band has label zero." The size of -32768 is 32,768,
/// above every band.
pub fn label(band: u32, sample: i16) -> i16 {
    let size = u32::from(sample.unsigned_abs());
    if size <= band {
        0
    } else {
        sample.signum()
    }
}

/// A live cut that violates a point at its turn.
#[derive(Clone, Copy, Debug, PartialEq, Eq)]
pub struct Violation {
    /// The code that names the cut's edge at the point.
    pub code: u8,
    /// The squared distance between the cut and the point.
    pub distance: u32,
}

/// To which of the live cuts that violate it, in code order, a point moves.
pub type Choice = fn(&[Violation]) -> Option<Violation>;

/// The choice of request F-2: the nearest; a tie goes to the lower code.
pub fn nearest(violations: &[Violation]) -> Option<Violation> {
    let nearer_or_lower = |violation: &&Violation| (violation.distance, violation.code);
    violations.iter().min_by_key(nearer_or_lower).copied()
}

/// The choice of document 01, before request F-2: edges are tried in code
/// order and the search stops at the first that violates. For comparison only.
pub fn first(violations: &[Violation]) -> Option<Violation> {
    violations.first().copied()
}

/// The state byte of a point that does not move, by its label at the outset.
pub type Unmoved = fn(i16) -> u8;

/// The byte of request F-8: 15 for "a point with label zero from the start".
pub fn marked(label: i16) -> u8 {
    match label {
        0 => ON_SKIN,
        _ => 0,
    }
}

/// The byte of document 01, before request F-8: "0 for a point that did not
/// move", whatever its label. For comparison only.
pub fn unmarked(_: i16) -> u8 {
    0
}

/// Takes the points once each, in ascending number, and moves each non-zero
/// one that a live cut violates to the nearest such cut. Points with label zero
/// from the start are marked.
pub fn move_points(lattice: &Lattice, band: u32, samples: &[i16], cuts: &[u8]) -> Moved {
    move_points_by(nearest, marked, lattice, band, samples, cuts)
}

/// The same with any choice, and with any byte for the others.
pub fn move_points_by(
    choice: Choice,
    unmoved: Unmoved,
    lattice: &Lattice,
    band: u32,
    samples: &[i16],
    cuts: &[u8],
) -> Moved {
    let mut labels: Vec<i16> = samples.iter().map(|&s| label(band, s)).collect();
    let mut codes: Vec<u8> = labels.iter().map(|&label| unmoved(label)).collect();
    for point in 0..labels.len() {
        if labels[point] == 0 {
            continue;
        }
        let live_violation = |code| live_violation(lattice, cuts, &labels, point, code);
        let violations: Vec<Violation> = (1..=14).filter_map(live_violation).collect();
        if let Some(chosen) = choice(&violations) {
            codes[point] = chosen.code;
            labels[point] = 0;
        }
    }
    Moved { codes, labels }
}

fn live_violation(
    lattice: &Lattice,
    cuts: &[u8],
    labels: &[i16],
    point: usize,
    code: u8,
) -> Option<Violation> {
    let (edge, end) = edge_of_code(lattice, point, code)?;
    let other = lattice.end(edge.start, edge.direction).unwrap();
    let live = labels[edge.start] != 0 && labels[other] != 0;
    let distance = violation(cuts[edge.offset()], edge.direction, end)?;
    live.then_some(Violation { code, distance })
}

/// The lattice tetrahedra in their order: two centres, lower first, then the
/// two ends of an edge of the face their cubes share.
pub fn tetrahedra(lattice: &Lattice) -> Vec<[usize; 4]> {
    let mut list = Vec::new();
    for axis in 0..3 {
        for centre in lattice.corner_count()..lattice.point_count() {
            let mut at = lattice.coordinates(centre);
            at[axis] += 2;
            let Some(next) = lattice.number(at) else {
                continue;
            };
            at[axis] -= 1;
            let face = corners_around(lattice, at, axis);
            for turn in 0..4 {
                list.push([centre, next, face[turn], face[(turn + 1) % 4]]);
            }
        }
    }
    list
}

/// The four corners of the face with this middle, square to this axis.
fn corners_around(lattice: &Lattice, middle: [i32; 3], axis: usize) -> [usize; 4] {
    let (second, third) = ((axis + 1) % 3, (axis + 2) % 3);
    [(-1, -1), (1, -1), (1, 1), (-1, 1)].map(|(u, v)| {
        let mut at = middle;
        at[second] += u;
        at[third] += v;
        lattice.number(at).expect("a corner of a face")
    })
}

/// The ids of all rows, four a row.
pub fn ids_of_rows(lattice: &Lattice, cuts: &[u8], moved: &Moved) -> Vec<u32> {
    let mut ids = Vec::new();
    for tetrahedron in tetrahedra(lattice) {
        for row in rows_of(lattice, &moved.labels, tetrahedron) {
            let places = row.map(|corner| place_of(lattice, cuts, &moved.codes, corner));
            let [a, b, c, d] = row.map(|corner| id_of(lattice, corner));
            if six_volume(places) < 0 {
                ids.extend([a, b, d, c]);
            } else {
                ids.extend([a, b, c, d]);
            }
        }
    }
    ids
}

/// The rows of one lattice tetrahedron, before the last two corners may
/// change places.
pub fn rows_of(lattice: &Lattice, labels: &[i16], mut tetrahedron: [usize; 4]) -> Vec<[Corner; 4]> {
    tetrahedron.sort();
    let with_label = |label: i16| -> Vec<usize> {
        let has_label = |point: &usize| labels[*point] == label;
        tetrahedron.into_iter().filter(has_label).collect()
    };
    let (plus, minus, zero) = (with_label(1), with_label(-1), with_label(0));
    let p = |n: usize| Corner::Point(plus[n - 1]);
    let z = |n: usize| Corner::Point(zero[n - 1]);
    let pm = |n: usize, k: usize| {
        let edge = lattice.edge_between(plus[n - 1], minus[k - 1]);
        Corner::Cut(edge.expect("an edge of the tetrahedron"))
    };
    match (plus.len(), minus.len(), zero.len()) {
        (0, _, _) => vec![],
        (4, 0, 0) => vec![[p(1), p(2), p(3), p(4)]],
        (3, 0, 1) => vec![[p(1), p(2), p(3), z(1)]],
        (2, 0, 2) => vec![[p(1), p(2), z(1), z(2)]],
        (1, 0, 3) => vec![[p(1), z(1), z(2), z(3)]],
        (3, 1, 0) => vec![
            [p(1), p(2), p(3), pm(3, 1)],
            [p(1), p(2), pm(2, 1), pm(3, 1)],
            [p(1), pm(1, 1), pm(2, 1), pm(3, 1)],
        ],
        (2, 2, 0) => vec![
            [p(1), p(2), pm(2, 1), pm(2, 2)],
            [p(1), pm(1, 1), pm(1, 2), pm(2, 2)],
            [p(1), pm(1, 1), pm(2, 1), pm(2, 2)],
        ],
        (2, 1, 1) => vec![
            [p(1), p(2), pm(2, 1), z(1)],
            [p(1), pm(1, 1), pm(2, 1), z(1)],
        ],
        (1, 3, 0) => vec![[p(1), pm(1, 1), pm(1, 2), pm(1, 3)]],
        (1, 2, 1) => vec![[p(1), pm(1, 1), pm(1, 2), z(1)]],
        (1, 1, 2) => vec![[p(1), pm(1, 1), z(1), z(2)]],
        _ => unreachable!("four labels"),
    }
}

/// The id of a corner: p for a point, N+7p+d for a cut.
pub fn id_of(lattice: &Lattice, corner: Corner) -> u32 {
    match corner {
        Corner::Point(point) => point as u32,
        Corner::Cut(edge) => (lattice.point_count() + edge.offset()) as u32,
    }
}

/// The place of a corner, with the moved points. Any other point is at its own
/// place, be its byte 0 or 15.
pub fn place_of(lattice: &Lattice, cuts: &[u8], codes: &[u8], corner: Corner) -> Place {
    match corner {
        Corner::Point(point) => match edge_of_code(lattice, point, codes[point]) {
            None => place_of_point(lattice, point),
            Some((edge, _)) => place_of_cut(lattice, edge, cuts[edge.offset()]),
        },
        Corner::Cut(edge) => place_of_cut(lattice, edge, cuts[edge.offset()]),
    }
}

/// Mends a cut table; same contract as [`crate::mend::mend`].
pub fn mend(nx: u32, ny: u32, nz: u32, band: u32, samples: &[i16], cuts: &mut [u8]) -> Mended {
    let Some(lattice) = Lattice::new(nx, ny, nz) else {
        return Mended::refused(refusal::SIZE);
    };
    if band > 32767 {
        return Mended::refused(refusal::BAND);
    }
    let n = lattice.point_count();
    if samples.len() != n {
        return Mended::refused(refusal::SAMPLES);
    }
    if cuts.len() != 7 * n {
        return Mended::refused(refusal::CUTS);
    }
    let labels: Vec<i16> = samples.iter().map(|&s| label(band, s)).collect();
    let (mut filled, mut cleared) = (0, 0);
    for (offset, byte) in cuts.iter_mut().enumerate() {
        let must_be_cut = must_be_cut(&lattice, &labels, offset);
        if must_be_cut && *byte == 0 {
            let (start, direction) = (offset / 7, offset % 7);
            let end = lattice.end(start, direction).expect("an edge");
            *byte = missing_byte(samples[start], samples[end]);
            filled += 1;
        }
        if !must_be_cut && *byte != 0 {
            *byte = 0;
            cleared += 1;
        }
    }
    Mended {
        number: refusal::NONE,
        filled,
        cleared,
    }
}

/// What a missing byte becomes, from the samples at its edge's start and end:
/// "256 times the start's sample size divided by the sum of both sizes, rounded
/// half up and held within 1 to 255". The band decides where a byte is missing,
/// but not what it becomes: sizes are those of the samples.
///
/// Nothing is divided: a quotient rounded half up is the one whole number that
/// it lies at most one half below or less than one half above, and dividend and
/// divisor say that by products alone.
pub fn missing_byte(start: i16, end: i16) -> u8 {
    let size = |sample: i16| i64::from(sample).abs();
    let (dividend, divisor) = (256 * size(start), size(start) + size(end));
    let rounds_to = |whole: &i64| {
        let twice_above = 2 * (dividend - whole * divisor);
        -divisor <= twice_above && twice_above < divisor
    };
    let rounded = (0..=256).find(rounds_to);
    match rounded.expect("a quotient from 0 to 256") {
        0 => 1,
        256 => 255,
        within => within as u8,
    }
}

/// Writes the node table and rewrites the rows as node numbers; same contract as
/// [`crate::nodes::nodes`].
pub fn nodes(
    nx: u32,
    ny: u32,
    nz: u32,
    cuts: &[u8],
    state: &[u8],
    rows: &mut [u32],
    nodes: &mut [u32],
) -> Numbered {
    let Some(lattice) = Lattice::new(nx, ny, nz) else {
        return Numbered::refused(refusal::SIZE, 0);
    };
    let n = lattice.point_count();
    if cuts.len() != 7 * n {
        return Numbered::refused(refusal::CUTS, 0);
    }
    if state.len() != n {
        return Numbered::refused(refusal::STATE, 0);
    }
    if !rows.len().is_multiple_of(4) {
        return Numbered::refused(refusal::ROWS, 0);
    }
    number_nodes(|id| place(nx, ny, nz, cuts, state, id), rows, nodes)
}

/// The same for tables of the right lengths; what the place call answers to an
/// id is given.
fn number_nodes(
    place_of_id: impl Fn(u32) -> Placed,
    rows: &mut [u32],
    nodes: &mut [u32],
) -> Numbered {
    for (index, &id) in rows.iter().enumerate() {
        let number = place_of_id(id).number;
        if number != refusal::NONE {
            return Numbered::refused(number, index);
        }
    }
    let ids: BTreeSet<u32> = rows.iter().copied().collect();
    if nodes.len() < 4 * ids.len() {
        return Numbered::too_short(ids.len());
    }
    let ids: Vec<u32> = ids.into_iter().collect();
    for (number, &id) in ids.iter().enumerate() {
        let placed = place_of_id(id);
        let node = [id, placed.x, placed.y, placed.z];
        nodes[4 * number..4 * number + 4].copy_from_slice(&node);
    }
    for entry in rows {
        let number = ids.binary_search(entry).expect("an id in use");
        *entry = number as u32;
    }
    Numbered::written(ids.len())
}
