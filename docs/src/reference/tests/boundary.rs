//! Request F-7's claims about the faces in one row only, by brute force: on a
//! thousand random blocks that have rows, with and without a band, in every mix
//! of labels, and on shapes.

use reference::block::Block;
use reference::blockfile::{fill_block, Tables};
use reference::boundary::{check_boundary, check_edges, check_edges_plain};
use reference::boundary::{faces_in_one_row, faces_in_one_row_plain, Boundary, Row};
use reference::generate::{any_band, any_block, block, crowded_block, flickering_block};
use reference::generate::{for_band, wide_band, CUTTINGS, MIXES};
use reference::random::Random;
use reference::report::volumes;
use reference::shapes;

/// Up to this many rows the plain ways are taken as well.
const FEW_ROWS: usize = 150;

/// What was seen on some blocks.
#[derive(Debug, Default)]
struct Seen {
    blocks: usize,
    with_rows: usize,
    /// Blocks with rows and moved points.
    with_moved: usize,
    /// Blocks with rows and a band above 0.
    with_band: usize,
    /// Blocks with rows that the plain ways were taken on.
    plain: usize,
    /// Blocks in which several faces in one row only run from one id to another:
    /// the skin touches itself there.
    run_again: usize,
    rows: usize,
    faces: usize,
}

impl Seen {
    /// Both claims hold for the block made valid with the band, and the smaller
    /// the block the plainer this is seen.
    fn check(&mut self, block: &Block, band: u32) -> Boundary {
        let block = &for_band(block.clone(), band);
        let Tables {
            filled,
            state,
            rows,
        } = fill_block(block, band);
        assert_eq!(filled.number, 0);
        let rows: &[Row] = rows.as_chunks().0;
        let found = check_boundary(block, &state, rows);
        let found = found.unwrap_or_else(|fault| panic!("block {}: {fault}", self.blocks));
        assert_eq!(found.sum > 0, !rows.is_empty());
        if band == 0 {
            assert_eq!(volumes(block).unwrap().sum, found.sum);
        }
        if rows.len() <= FEW_ROWS {
            check_plainly(rows);
            self.plain += usize::from(!rows.is_empty());
        }
        self.blocks += 1;
        if !rows.is_empty() {
            self.with_rows += 1;
            self.with_moved += usize::from(filled.moved > 0);
            self.with_band += usize::from(band > 0);
            self.run_again += usize::from(found.run_again > 0);
        }
        self.rows += rows.len();
        self.faces += found.faces;
        found
    }
}

/// Both ways find the same faces and the same runs.
fn check_plainly(rows: &[Row]) {
    let faces = faces_in_one_row(rows);
    assert_eq!(faces, faces_in_one_row_plain(rows));
    assert_eq!(check_edges(&faces), check_edges_plain(&faces));
}

/// A band of 0, any band or a wide one.
fn some_band(random: &mut Random, block: &Block) -> u32 {
    match random.below(4) {
        0 => any_band(random, block),
        1 => wide_band(random, block),
        _ => 0,
    }
}

#[test]
fn both_claims_on_a_thousand_blocks() {
    let mut random = Random::new(74);
    let mut seen = Seen::default();
    for n in 0..1600 {
        let largest = if n % 2 == 0 { 8 } else { 5 };
        let block = match n % 3 {
            0 => any_block(&mut random, largest),
            1 => crowded_block(&mut random, largest),
            _ => flickering_block(&mut random, largest),
        };
        let band = some_band(&mut random, &block);
        seen.check(&block, band);
    }
    assert_eq!(seen.blocks, 1600);
    assert!(seen.with_rows >= 1000, "{seen:?}");
    assert!(seen.with_moved > 700, "{seen:?}");
    assert!(seen.with_band > 400, "{seen:?}");
    assert!(seen.plain > 500, "{seen:?}");
    assert!(seen.run_again > 300, "{seen:?}");
}

#[test]
fn both_claims_in_every_mix() {
    let mut random = Random::new(75);
    for mix in MIXES {
        for cutting in CUTTINGS {
            let mut seen = Seen::default();
            for sizes in [[8, 8, 8], [8, 5, 3], [3, 7, 4], [2, 2, 2]] {
                for _ in 0..6 {
                    let block = block(&mut random, sizes, mix, cutting);
                    seen.check(&block, 0);
                }
            }
            assert!(seen.with_rows > 0, "{mix:?} {cutting:?}: {seen:?}");
        }
    }
}

#[test]
fn both_claims_on_shapes() {
    let mut seen = Seen::default();
    let given = seen.check(&Block::given_case(), 0);
    assert_eq!((given.sum, given.faces), (201_326_592, 24));
    assert_eq!(seen.check(&Block::given_case(), 5).faces, 0);
    let mount = shapes::mount();
    let whole = seen.check(&mount, 0);
    assert!(seen.rows > 10_000 && whole.faces > 1_000, "{seen:?}");
    seen.check(&mount, shapes::tenth_band(&mount));
    assert_eq!(seen.with_moved, 2, "{seen:?}");
}
