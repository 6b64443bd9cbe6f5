//! One table mended with both mendings, for `tests/mend.rs` and
//! `tests/band_first.rs`.

use reference::block::Block;
use reference::fill::fill;
use reference::mend::{mend, Mended, Mending};
use reference::plain;

/// Mends a table of the block's samples.
pub fn run(mending: Mending, block: &Block, band: u32, cuts: &mut [u8]) -> Mended {
    let [nx, ny, nz] = block.sizes;
    mending(nx, ny, nz, band, &block.samples, cuts)
}

/// Mends the block's table with both mendings; it comes back with the answer.
pub fn mend_both(block: &Block, band: u32) -> (Mended, Vec<u8>) {
    let [mut fast, mut slow] = [block.cuts.clone(), block.cuts.clone()];
    let answer = run(mend, block, band, &mut fast);
    assert_eq!(answer, run(plain::mend, block, band, &mut slow));
    assert!(fast == slow, "tables differ");
    (answer, fast)
}

/// The answer of a mending that is not refused.
pub fn answer(filled: u64, cleared: u64) -> Mended {
    Mended {
        number: 0,
        filled,
        cleared,
    }
}

/// What filling answers to the block with this cut table.
pub fn fill_number(block: &Block, band: u32, cuts: &[u8]) -> u32 {
    let [nx, ny, nz] = block.sizes;
    let mut state = vec![0; block.samples.len()];
    fill(nx, ny, nz, band, &block.samples, cuts, &mut state, &mut []).number
}
