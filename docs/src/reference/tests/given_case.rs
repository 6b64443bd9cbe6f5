//! The given case of document 01 and the cases made from it, P1 to P12.

use reference::block::Block;
use reference::blockfile::{bench_output, fill_block, write};
use reference::cut::six_volume;
use reference::fill::{fill, Filled};
use reference::place::{measures, place, Measures, Placed};
use reference::plain;

fn with_byte(offset: usize, byte: u8) -> Block {
    let mut block = Block::given_case();
    block.cuts[offset] = byte;
    block
}

fn answer(number: u32, rows: u64, moved: u64, place: u64) -> Filled {
    Filled {
        number,
        rows,
        moved,
        place,
    }
}

/// Fills with both fillings, which must agree, and answers the tables.
fn filled(block: &Block) -> (Filled, Vec<u8>, Vec<u32>) {
    let tables = fill_block(block, 0);
    let [nx, ny, nz] = block.sizes;
    let mut state = vec![0; 35];
    let mut rows = vec![0; 4 * 3 * 48];
    let (samples, cuts) = (&block.samples, &block.cuts);
    let plain = plain::fill(nx, ny, nz, 0, samples, cuts, &mut state, &mut rows);
    rows.truncate(4 * plain.rows as usize);
    assert_eq!(
        (plain, &state, &rows),
        (tables.filled, &tables.state, &tables.rows)
    );
    (plain, state, rows)
}

fn place_of(block: &Block, state: &[u8], id: u32) -> [u32; 3] {
    let [nx, ny, nz] = block.sizes;
    let Placed { number, x, y, z } = place(nx, ny, nz, &block.cuts, state, id);
    assert_eq!(number, 0);
    [x, y, z]
}

/// The one point that moves, its code and where it moves to.
fn check_move(block: &Block, rows: Option<u64>, point: usize, code: u8, to: [u32; 3]) {
    let (answer, state, _) = filled(block);
    assert_eq!((answer.number, answer.moved, answer.place), (0, 1, 0));
    assert!(rows.is_none_or(|rows| rows == answer.rows));
    for (n, &byte) in state.iter().enumerate() {
        assert_eq!(byte, if n == point { code } else { 0 });
    }
    assert_eq!(place_of(block, &state, point as u32), to);
}

fn check_nothing_moves(block: &Block) {
    let (answer, state, _) = filled(block);
    assert_eq!((answer.number, answer.moved), (0, 0));
    assert_eq!(state, vec![0; 35]);
}

fn check_refused(block: &Block, number: u32, place: u64) {
    let mut state = vec![77; 35];
    let mut rows = vec![99; 96];
    let (samples, cuts) = (&block.samples, &block.cuts);
    let filled = fill(2, 2, 2, 0, samples, cuts, &mut state, &mut rows);
    assert_eq!(filled, answer(number, 0, 0, place));
    assert_eq!((state, rows), (vec![77; 35], vec![99; 96]));
    let output = bench_output(&write(block).unwrap());
    assert_eq!(output, format!("refused {number} {place}\n"));
}

#[test]
fn whole_output() {
    let file = write(&Block::given_case()).unwrap();
    let expected = "points 35\nlattice 48\nmoved 0\nemitted 24\n";
    assert_eq!(bench_output(&file), expected);
    let counts = Measures {
        number: 0,
        points: 35,
        tetrahedra: 48,
    };
    assert_eq!(measures(2, 2, 2), counts);
}

#[test]
fn p1_first_row() {
    let block = Block::given_case();
    let (filled, state, rows) = filled(&block);
    assert_eq!(filled, answer(0, 24, 0, 0));
    assert_eq!(rows[..4], [13, 65, 235, 227]);
    let places = [0, 1, 2, 3].map(|n| place_of(&block, &state, rows[n]).map(i64::from));
    assert_eq!(six_volume(places), 8_388_608);
}

#[test]
fn p2_to_p5_long_edge() {
    check_move(&with_byte(91, 63), Some(0), 13, 1, [638, 512, 512]);
    check_nothing_moves(&with_byte(91, 64));
    check_move(&with_byte(91, 193), Some(24), 14, 8, [898, 512, 512]);
    check_nothing_moves(&with_byte(91, 192));
}

#[test]
fn p6_to_p9_short_edge() {
    check_move(&with_byte(94, 105), None, 13, 4, [617, 617, 617]);
    check_nothing_moves(&with_byte(94, 106));
    check_move(&with_byte(94, 151), None, 34, 11, [663, 663, 663]);
    check_nothing_moves(&with_byte(94, 150));
}

#[test]
fn p10_to_p12_refusals() {
    check_refused(&with_byte(91, 0), 6, 91);
    check_refused(&with_byte(0, 7), 7, 0);
    let mut block = Block::given_case();
    block.samples[27] = 1;
    check_refused(&block, 5, 27);
}

#[test]
fn row_tables_of_95_and_96_numbers() {
    let block = Block::given_case();
    let (_, expected_state, expected) = filled(&block);
    for (length, number) in [(95, 10), (96, 0), (97, 0)] {
        let mut state = vec![77; 35];
        let mut rows = vec![99; length];
        let (samples, cuts) = (&block.samples, &block.cuts);
        let filled = fill(2, 2, 2, 0, samples, cuts, &mut state, &mut rows);
        assert_eq!(filled, answer(number, 24, 0, 0));
        assert_eq!(state, expected_state);
        let mut after = vec![99; length];
        if number == 0 {
            after[..96].copy_from_slice(&expected);
        }
        assert_eq!(rows, after);
    }
}
