//! The place call agrees with the places the rows are made from, and refuses
//! what document 01 refuses.

use reference::block::Block;
use reference::blockfile::fill_block;
use reference::cut::Place;
use reference::generate::any_block;
use reference::lattice::{Edge, Lattice};
use reference::place::{measures, place, Measures, Placed};
use reference::plain::{move_points, place_of, Corner};
use reference::random::Random;
use reference::shapes;

fn refused(number: u32) -> Placed {
    Placed {
        number,
        x: 0,
        y: 0,
        z: 0,
    }
}

fn found(place: Place) -> Placed {
    let [x, y, z] = place.map(|c| u32::try_from(c).unwrap());
    let number = 0;
    Placed { number, x, y, z }
}

fn corner_of(lattice: &Lattice, id: usize) -> Corner {
    let n = lattice.point_count();
    match id.checked_sub(n) {
        None => Corner::Point(id),
        Some(offset) => Corner::Cut(Edge {
            start: offset / 7,
            direction: offset % 7,
        }),
    }
}

/// Every id: found exactly if it is a point or a cut that is live at the end,
/// and then where the rows put it.
#[test]
fn agrees_with_filling_on_every_id() {
    let mut random = Random::new(31);
    for _ in 0..300 {
        let block = any_block(&mut random, 4);
        let [nx, ny, nz] = block.sizes;
        let lattice = block.lattice().unwrap();
        let tables = fill_block(&block, 0);
        let moved = move_points(&lattice, 0, &block.samples, &block.cuts);
        assert_eq!(tables.state, moved.codes);
        let n = lattice.point_count();
        let placed = |id: usize| place(nx, ny, nz, &block.cuts, &tables.state, id as u32);
        for id in 0..8 * n {
            let corner = corner_of(&lattice, id);
            let is_live = |edge: Edge| {
                let end = lattice.end(edge.start, edge.direction);
                let opposite = |end| moved.labels[edge.start] * moved.labels[end] < 0;
                end.is_some_and(opposite)
            };
            let expected = match corner {
                Corner::Cut(edge) if !is_live(edge) => refused(8),
                _ => found(place_of(&lattice, &block.cuts, &moved.codes, corner)),
            };
            assert_eq!(placed(id), expected, "id {id}");
        }
        for &id in &tables.rows {
            assert_eq!(placed(id as usize).number, 0);
        }
        assert_eq!(placed(8 * n), refused(8));
        assert_eq!(placed(u32::MAX as usize), refused(8));
    }
}

#[test]
fn refusals_of_sizes_and_tables() {
    let block = Block::given_case();
    let state = [0; 35];
    assert_eq!(place(2, 2, 0, &block.cuts, &state, 13), refused(1));
    assert_eq!(place(65, 2, 2, &[], &[], u32::MAX), refused(1));
    assert_eq!(place(2, 2, 2, &block.cuts[1..], &state, 13), refused(3));
    assert_eq!(place(2, 2, 2, &[], &[], 13), refused(3));
    assert_eq!(place(2, 2, 2, &block.cuts, &state[1..], 280), refused(4));
    assert_eq!(place(2, 2, 2, &block.cuts, &[0; 36], 13), refused(4));
}

#[test]
fn refusals_of_cuts() {
    let block = Block::given_case();
    let at = |cuts: &[u8], state: &[u8; 35], id: u32| place(2, 2, 2, cuts, state, id);
    let mut state = [0; 35];
    // The cut of byte 91, from point 13 to point 14.
    let id = 35 + 91;
    assert_eq!(at(&block.cuts, &state, id), found([768, 512, 512]));
    // No such id; no such edge; byte 0.
    assert_eq!(at(&block.cuts, &state, 280), refused(8));
    assert_eq!(at(&block.cuts, &state, 35 + 7 * 2), refused(8));
    assert_eq!(at(&block.cuts, &state, 35), refused(8));
    // A byte on an edge that does not exist names no corner either.
    let mut cuts = block.cuts.clone();
    cuts[7 * 2] = 128;
    assert_eq!(at(&cuts, &state, 35 + 7 * 2), refused(8));
    // Either end moved, lies on the skin unmoved, or has any other non-zero
    // state byte.
    for (point, code) in [(13, 1), (14, 8), (13, 15), (14, 15), (13, 200), (14, 16)] {
        state[point] = code;
        assert_eq!(at(&block.cuts, &state, id), refused(8));
        state[point] = 0;
    }
}

#[test]
fn refusals_of_codes() {
    let mut block = Block::given_case();
    let mut state = [0; 35];
    let mut at = |cuts: &[u8], code: u8, point: usize| {
        state[point] = code;
        let placed = place(2, 2, 2, cuts, &state, point as u32);
        state[point] = 0;
        placed
    };
    for code in 1..=14 {
        // All cuts halfway: none violates point 13.
        assert_eq!(at(&block.cuts, code, 13), refused(9));
    }
    // 15 is believable, and 9 begins above it.
    assert_eq!(at(&block.cuts, 15, 13), found([512, 512, 512]));
    for code in 16..=255 {
        assert_eq!(at(&block.cuts, code, 13), refused(9));
    }
    // Point 0 ends no edge; its edge in direction 0 has byte 0; point 2 is the
    // last of its line.
    assert_eq!(at(&block.cuts, 8, 0), refused(9));
    assert_eq!(at(&block.cuts, 1, 0), refused(9));
    assert_eq!(at(&block.cuts, 1, 2), refused(9));
    // At the limits, from both ends.
    block.cuts[91] = 63;
    assert_eq!(at(&block.cuts, 1, 13), found([638, 512, 512]));
    assert_eq!(at(&block.cuts, 8, 14), refused(9));
    block.cuts[91] = 64;
    assert_eq!(at(&block.cuts, 1, 13), refused(9));
    block.cuts[91] = 193;
    assert_eq!(at(&block.cuts, 1, 13), refused(9));
    assert_eq!(at(&block.cuts, 8, 14), found([898, 512, 512]));
    block.cuts[94] = 105;
    assert_eq!(at(&block.cuts, 4, 13), found([617, 617, 617]));
    block.cuts[94] = 151;
    assert_eq!(at(&block.cuts, 11, 34), found([663, 663, 663]));
    block.cuts[94] = 150;
    assert_eq!(at(&block.cuts, 11, 34), refused(9));
    // Byte 0 is 256 away from the far end, and no cut.
    block.cuts[94] = 0;
    assert_eq!(at(&block.cuts, 4, 13), refused(9));
    assert_eq!(at(&block.cuts, 11, 34), refused(9));
}

#[test]
fn measures_of_blocks() {
    let answer = |number, points, tetrahedra| Measures {
        number,
        points,
        tetrahedra,
    };
    assert_eq!(measures(1, 1, 1), answer(0, 9, 0));
    assert_eq!(measures(1, 1, 2), answer(0, 14, 4));
    assert_eq!(measures(64, 64, 64), answer(0, 536_769, 3_096_576));
    for sizes in [[0, 1, 1], [1, 65, 1], [1, 1, u32::MAX]] {
        let [nx, ny, nz] = sizes;
        assert_eq!(measures(nx, ny, nz), answer(1, 0, 0));
    }
}

/// The shapes for timing are valid blocks with the expected counts.
#[test]
fn shapes_for_timing() {
    let sphere = fill_block(&shapes::sphere(), 0).filled;
    assert_eq!((sphere.number, sphere.rows), (0, 1_218_864));
    let air = fill_block(&shapes::air(), 0).filled;
    assert_eq!((air.number, air.rows, air.moved), (0, 0, 0));
    let ribs = fill_block(&shapes::ribs(), 0).filled;
    assert_eq!(ribs.number, 0);
    assert!(ribs.rows > 1_000_000 && ribs.moved > 10_000);
}
