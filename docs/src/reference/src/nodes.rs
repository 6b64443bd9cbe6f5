//! The node table, written for speed.
//!
//! Follows request F-6 of document 02: each id in use gets a node, ascending,
//! with its place, and the rows become node numbers. An id's place is that of
//! document 01, "Calls and refusals", and of request F-8: a point with state
//! byte 15 has its own place, and the cuts beside it have none.
//!
//! Most of the time goes into two passes over the rows, so these do little. The
//! first sets a byte for each entry's id, in a buffer of 8N bytes. Then each id
//! in use is looked at once, however often the rows name it, in ascending order
//! and along the lines of points ([`crate::strides`]), and the nodes are put
//! together in a buffer of their own: no lent table is written before all checks
//! are done. Which entry is the first without a place is asked only if there is
//! one. The last pass rewrites the rows.
//!
//! By then the byte of an id is its rank: how many of the ids in use stand before
//! it among its 256. With the node number that the first of the 256 has, or would
//! have, that gives its own. A table of whole node numbers would save an addition
//! for each entry, but it is four times as large, has to be emptied first, and
//! took longer on the whole; with a bit for each id, the ones before it have to
//! be counted for each entry, and that took longer still.

use crate::bytes::all_zero;
use crate::cut::{violation, End};
use crate::lattice::{Lattice, DIRECTIONS};
use crate::refusal;
use crate::state::{is_move, ON_SKIN};
use crate::strides::{Grids, Line};

/// The answer of writing the node table.
#[derive(Clone, Copy, Debug, PartialEq, Eq)]
pub struct Numbered {
    /// 0, or the number of the refusal.
    pub number: u32,
    /// The nodes written; after refusal 10 those that a longer table would hold;
    /// otherwise 0.
    pub nodes: u64,
    /// After refusals 8 and 9 the index of the first entry of the row table
    /// whose id has no place; otherwise 0.
    pub place: u64,
}

impl Numbered {
    /// The answer of every refusal but 10.
    pub fn refused(number: u32, place: usize) -> Numbered {
        Numbered {
            number,
            nodes: 0,
            place: place as u64,
        }
    }

    /// The answer of refusal 10: this many nodes are needed.
    pub fn too_short(nodes: usize) -> Numbered {
        Numbered {
            number: refusal::TABLE,
            nodes: nodes as u64,
            place: 0,
        }
    }

    /// The answer without a refusal.
    pub fn written(nodes: usize) -> Numbered {
        Numbered {
            number: refusal::NONE,
            nodes: nodes as u64,
            place: 0,
        }
    }
}

/// A way to write the node table: [`nodes`] or [`crate::plain::nodes`].
pub type Numbering = fn(u32, u32, u32, &[u8], &[u8], &mut [u32], &mut [u32]) -> Numbered;

/// Writes each id in use once, ascending, with its three coordinates, as four
/// numbers a node, and rewrites the rows as node numbers from 0.
///
/// Refusals come in the order 1, 3, 4, 15, then 8 or 9 for the first entry of
/// the row table whose id has no place, then 10. They change neither table. The
/// entries past the last node stay.
pub fn nodes(
    nx: u32,
    ny: u32,
    nz: u32,
    cuts: &[u8],
    state: &[u8],
    rows: &mut [u32],
    nodes: &mut [u32],
) -> Numbered {
    let lattice = match check_lengths([nx, ny, nz], cuts, state, rows) {
        Ok(lattice) => lattice,
        Err(number) => return Numbered::refused(number, 0),
    };
    let n = lattice.point_count();
    let mut marks = vec![0; (8 * n).next_multiple_of(GROUP)];
    let marked = mark(rows, &mut marks[..8 * n]);
    let used = rank(&mut marks);
    let (table, bad) = Tables::new(&lattice, cuts, state).nodes_of(&used.ids);
    if marked < rows.len() || !bad.is_empty() {
        let first = first_bad(&rows[..marked], &bad, &mut marks);
        let is_point = (rows[first] as usize) < n;
        let number = [refusal::CORNER, refusal::CODE][usize::from(is_point)];
        return Numbered::refused(number, first);
    }
    if nodes.len() < 4 * table.len() {
        return Numbered::too_short(table.len());
    }
    nodes[..4 * table.len()].copy_from_slice(table.as_flattened());
    rewrite(rows, &used.firsts, &marks);
    Numbered::written(table.len())
}

/// Refusals 1, 3, 4 and 15.
fn check_lengths(
    [nx, ny, nz]: [u32; 3],
    cuts: &[u8],
    state: &[u8],
    rows: &[u32],
) -> Result<Lattice, u32> {
    let lattice = Lattice::new(nx, ny, nz).ok_or(refusal::SIZE)?;
    let n = lattice.point_count();
    if cuts.len() != 7 * n {
        return Err(refusal::CUTS);
    }
    if state.len() != n {
        return Err(refusal::STATE);
    }
    if !rows.len().is_multiple_of(4) {
        return Err(refusal::ROWS);
    }
    Ok(lattice)
}

/// How many ids share a first node number. An id has at most 255 others of its
/// group before it, so its rank fits a byte.
const GROUP: usize = 256;

/// A byte of 1 for each of eight.
const ONES: u64 = 0x0101_0101_0101_0101;

/// Marks the ids of the entries before the first that is 8N or more; answers
/// that one's index, or the length if there is none.
///
/// Not to be inlined, nor is [`rewrite`]: inside a larger function these loops run
/// short of registers and take half as long again.
#[inline(never)]
fn mark(rows: &[u32], marks: &mut [u8]) -> usize {
    let (whole, _) = rows.as_chunks::<4>();
    for (number, row) in whole.iter().enumerate() {
        for (n, &id) in row.iter().enumerate() {
            match marks.get_mut(id as usize) {
                Some(mark) => *mark = 1,
                None => return 4 * number + n,
            }
        }
    }
    rows.len()
}

/// The ids in use.
struct Used {
    /// Each once, ascending.
    ids: Vec<u32>,
    /// For each group how many there are before it.
    firsts: Vec<u32>,
}

/// Lists the marked ids and turns their marks into ranks: how many of the ids
/// before it in its group are marked.
fn rank(marks: &mut [u8]) -> Used {
    let mut ids = Vec::with_capacity(marks.len() / 8);
    let (groups, _) = marks.as_chunks_mut::<GROUP>();
    let mut firsts = Vec::with_capacity(groups.len());
    for (number, group) in groups.iter_mut().enumerate() {
        firsts.push(ids.len() as u32);
        if !all_zero(group) {
            rank_group((GROUP * number) as u32, group, &mut ids);
        }
    }
    Used { ids, firsts }
}

fn rank_group(from: u32, marks: &mut [u8; GROUP], ids: &mut Vec<u32>) {
    let first = ids.len();
    let (eights, _) = marks.as_chunks_mut();
    for (n, eight) in eights.iter_mut().enumerate() {
        let ones = u64::from_le_bytes(*eight);
        if ones != 0 {
            let before = (ids.len() - first) as u64 * ONES;
            // The product adds to each byte those before it.
            *eight = (before + (ones << 8).wrapping_mul(ONES)).to_le_bytes();
            list_eight(from + 8 * n as u32, ones, ids);
        }
    }
}

/// Lists the marked ones of eight ids.
fn list_eight(first: u32, mut ones: u64, ids: &mut Vec<u32>) {
    if ones == ONES {
        return ids.extend_from_slice(&[0, 1, 2, 3, 4, 5, 6, 7].map(|n| first + n));
    }
    while ones != 0 {
        ids.push(first + ones.trailing_zeros() / 8);
        ones &= ones - 1;
    }
}

/// The index of the first entry that is one of the bad ids, or the length if
/// there is none: then the entry behind these is the first bad one.
fn first_bad(marked: &[u32], bad: &[u32], marks: &mut [u8]) -> usize {
    marks.fill(0);
    for &id in bad {
        marks[id as usize] = 1;
    }
    let is_bad = |&id: &u32| marks[id as usize] == 1;
    marked.iter().position(is_bad).unwrap_or(marked.len())
}

/// Rewrites the rows as node numbers.
#[inline(never)]
fn rewrite(rows: &mut [u32], firsts: &[u32], ranks: &[u8]) {
    let (rows, _) = rows.as_chunks_mut::<4>();
    for row in rows {
        *row = row.map(|id| firsts[id as usize / GROUP] + u32::from(ranks[id as usize]));
    }
}

/// What places are read from.
struct Tables<'a> {
    grids: Grids,
    /// The largest doubled coordinates.
    largest: [u32; 3],
    cuts: &'a [u8],
    state: &'a [u8],
}

/// An id and its place.
type Node = [u32; 4];

/// A node whose point has moved.
struct Moved {
    /// The node's number.
    node: usize,
    /// The offset of the cut byte that its code names.
    offset: usize,
    /// The direction of that cut's edge, and which end the point is.
    direction: usize,
    end: End,
}

impl<'a> Tables<'a> {
    fn new(lattice: &Lattice, cuts: &'a [u8], state: &'a [u8]) -> Tables<'a> {
        Tables {
            grids: Grids::new(lattice),
            largest: lattice.cubes().map(|size| 2 * size as u32),
            cuts,
            state,
        }
    }

    /// The nodes of ascending ids, and which of the ids have no place; their nodes
    /// then hold anything.
    fn nodes_of(&self, ids: &[u32]) -> (Vec<Node>, Vec<u32>) {
        let n = self.state.len() as u32;
        let (points, cuts) = ids.split_at(ids.partition_point(|&id| id < n));
        let mut nodes = Vec::with_capacity(ids.len());
        let mut bad = Vec::new();
        let moved = self.add_points(points, &mut nodes, &mut bad);
        self.move_nodes(&moved, &mut nodes, &mut bad);
        self.add_cuts(cuts, &mut nodes, &mut bad);
        (nodes, bad)
    }

    /// Adds the nodes of points at the points' own places; answers those that
    /// have moved. A byte above 15 is not believable.
    fn add_points(&self, points: &[u32], nodes: &mut Vec<Node>, bad: &mut Vec<u32>) -> Vec<Moved> {
        let mut moved = Vec::new();
        self.walk(points, 0, 1, |line, points| {
            let at = line.first_coordinates();
            let [x, y, z] = fine(at);
            let steps = |point: u32| point - line.first as u32;
            let first = nodes.len();
            let node = |&point: &u32| [point, x + 512 * steps(point), y, z];
            nodes.extend(points.iter().map(node));
            for (n, &point) in points.iter().enumerate() {
                let code = self.state[point as usize];
                if is_move(code) {
                    let at = [at[0] + 2 * steps(point) as i32, at[1], at[2]];
                    match self.moved(first + n, point as usize, at, code) {
                        Some(node) => moved.push(node),
                        None => bad.push(point),
                    }
                } else if code > ON_SKIN {
                    bad.push(point);
                }
            }
        });
        moved
    }

    /// The node of a point that moved by this code, unless its edge does not
    /// exist.
    fn moved(&self, node: usize, point: usize, at: [i32; 3], code: u8) -> Option<Moved> {
        let (direction, sense, end) = match usize::from(code) {
            code @ 1..=7 => (code - 1, 1, End::Start),
            code @ 8..=14 => (code - 8, -1, End::Far),
            _ => return None,
        };
        let other = self.neighbour(at, direction, sense)?;
        let start = match end {
            End::Start => point,
            End::Far => other,
        };
        Some(Moved {
            node,
            offset: 7 * start + direction,
            direction,
            end,
        })
    }

    /// Puts nodes whose points have moved where their cuts are.
    ///
    /// The cut bytes are fetched first, as most of them are far away: in so short
    /// a loop the processor waits for many of them together.
    fn move_nodes(&self, moved: &[Moved], nodes: &mut [Node], bad: &mut Vec<u32>) {
        let bytes: Vec<u8> = moved.iter().map(|node| self.cuts[node.offset]).collect();
        for (moved, t) in moved.iter().zip(bytes) {
            let [point, x, y, z] = nodes[moved.node];
            if violation(t, moved.direction, moved.end).is_none() {
                bad.push(point);
            }
            let from_point = match moved.end {
                End::Start => i32::from(t),
                End::Far => i32::from(t) - 256,
            };
            let [x, y, z] = beside([x, y, z], moved.direction, from_point);
            nodes[moved.node] = [point, x, y, z];
        }
    }

    /// Adds the nodes of cuts.
    fn add_cuts(&self, cuts: &[u32], nodes: &mut Vec<Node>, bad: &mut Vec<u32>) {
        let n = self.state.len() as u32;
        self.walk(cuts, n, 7, |line, cuts| {
            let at = line.first_coordinates();
            for &id in cuts {
                let offset = (id - n) as usize;
                let (start, direction) = (offset / 7, offset % 7);
                let at = [at[0] + 2 * (start - line.first) as i32, at[1], at[2]];
                let t = self.cuts[offset];
                let end = self.neighbour(at, direction, 1);
                let stays = |point: usize| self.state[point] == 0;
                if t == 0 || !stays(start) || !end.is_some_and(stays) {
                    bad.push(id);
                }
                let [x, y, z] = beside(fine(at), direction, i32::from(t));
                nodes.push([id, x, y, z]);
            }
        });
    }

    /// Goes through the lines of points and hands on each with its ids, if there
    /// are any. The ids ascend; the first that could be one, and how many there
    /// can be for a point, are given.
    fn walk(
        &self,
        mut ids: &[u32],
        first: u32,
        per_point: usize,
        mut visit: impl FnMut(&Line, &[u32]),
    ) {
        for line in self.grids.lines() {
            let behind = first + (per_point * (line.first + line.count())) as u32;
            if ids.first().is_some_and(|&id| id < behind) {
                let most = ids.len().min(per_point * line.count());
                let count = ids[..most].partition_point(|&id| id < behind);
                let (here, later) = ids.split_at(count);
                visit(&line, here);
                ids = later;
            }
        }
    }

    /// The number of the point one step on in a direction, or one step back, if
    /// it is in the block.
    fn neighbour(&self, at: [i32; 3], direction: usize, sense: i32) -> Option<usize> {
        let step = DIRECTIONS[direction];
        // A coordinate below zero becomes a large number.
        let there = [0, 1, 2].map(|a| (at[a] + sense * step[a]) as u32);
        let is_inside = (0..3).all(|a| there[a] <= self.largest[a]);
        let [i, j, k] = there.map(|c| c as usize / 2);
        let grid = [&self.grids.corners, &self.grids.centres][there[0] as usize % 2];
        is_inside.then(|| grid.line_start(j, k) + i)
    }
}

/// The place of a point that did not move.
fn fine(at: [i32; 3]) -> [u32; 3] {
    at.map(|c| 256 * c as u32)
}

/// The place so many 256ths of a step on from another; any place if the step
/// leads out of the block.
fn beside(place: [u32; 3], direction: usize, t: i32) -> [u32; 3] {
    let step = DIRECTIONS[direction];
    [0, 1, 2].map(|a| place[a].wrapping_add_signed(t * step[a]))
}

#[cfg(test)]
mod tests {
    use super::*;
    use crate::random::Random;

    #[test]
    fn ranks_count_the_marked_before() {
        let mut random = Random::new(1);
        for percent in [0, 1, 10, 50, 90, 99, 100] {
            let mark = |_| u8::from(random.percent(percent));
            let marks: Vec<u8> = (0..20 * GROUP).map(mark).collect();
            let mut ranks = marks.clone();
            let Used { ids, firsts } = rank(&mut ranks);
            let is_marked = |id: &u32| marks[*id as usize] == 1;
            let marked: Vec<u32> = (0..marks.len() as u32).filter(is_marked).collect();
            assert_eq!(ids, marked);
            for (number, &id) in ids.iter().enumerate() {
                let group = id as usize / GROUP;
                assert_eq!(
                    number,
                    firsts[group] as usize + usize::from(ranks[id as usize])
                );
            }
        }
    }

    #[test]
    fn marking_stops_at_the_first_entry_that_is_no_id() {
        for (rows, marked, marks) in [
            ([0, 2, 2, 0], 4, [1, 0, 1]),
            ([0, 2, 3, 1], 2, [1, 0, 1]),
            ([u32::MAX, 0, 1, 2], 0, [0, 0, 0]),
        ] {
            let mut seen = [0; 3];
            assert_eq!(mark(&rows, &mut seen), marked);
            assert_eq!(seen, marks);
        }
    }
}
