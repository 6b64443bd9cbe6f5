//! Demand 3, by brute force, on thousands of random valid blocks at band 0;
//! `tests/band.rs` has bands.

use reference::blockfile::fill_block;
use reference::check::check_mesh;
use reference::generate::{any_block, block, crowded_block, Cutting, CUTTINGS, MIXES};
use reference::random::Random;

#[test]
fn closed_and_positive_on_random_blocks() {
    let mut random = Random::new(11);
    let mut with_rows = 0;
    for n in 0..3000 {
        let block = any_block(&mut random, 6);
        let tables = fill_block(&block, 0);
        assert_eq!(tables.filled.number, 0);
        let faces = check_mesh(&block, 0, &tables.state, &tables.rows);
        let faces = faces.unwrap_or_else(|fault| panic!("block {n}: {fault}"));
        assert_eq!(2 * faces.inner + faces.skin, tables.rows.len());
        with_rows += usize::from(!tables.rows.is_empty());
    }
    assert!(with_rows > 1500, "{with_rows}");
}

#[test]
fn closed_and_positive_on_crowded_blocks() {
    let mut random = Random::new(13);
    let mut with_rows = 0;
    for n in 0..2000 {
        let block = crowded_block(&mut random, 6);
        let tables = fill_block(&block, 0);
        let faces = check_mesh(&block, 0, &tables.state, &tables.rows);
        faces.unwrap_or_else(|fault| panic!("block {n}: {fault}"));
        with_rows += usize::from(!tables.rows.is_empty());
    }
    assert!(with_rows > 1000, "{with_rows}");
}

#[test]
fn closed_and_positive_in_every_mix() {
    let mut random = Random::new(12);
    for mix in MIXES {
        for cutting in CUTTINGS.into_iter().chain([Cutting::Close]) {
            for _ in 0..10 {
                let block = block(&mut random, [6, 6, 6], mix, cutting);
                let tables = fill_block(&block, 0);
                let faces = check_mesh(&block, 0, &tables.state, &tables.rows);
                faces.unwrap_or_else(|fault| panic!("{mix:?} {cutting:?}: {fault}"));
            }
        }
    }
}
