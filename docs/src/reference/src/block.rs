//! A block as it is handed in: sizes, samples and cut table
//! (document 01, "The block"), and the given case.

use crate::lattice::Lattice;

/// The three inputs of filling that a scanner delivers. The tables may have
/// wrong lengths or contents: filling decides.
#[derive(Clone, Debug, PartialEq, Eq)]
pub struct Block {
    /// nx, ny, nz.
    pub sizes: [u32; 3],
    /// One sample per point.
    pub samples: Vec<i16>,
    /// Seven bytes per point.
    pub cuts: Vec<u8>,
}

impl Block {
    /// The lattice of the block's sizes, if they are allowed.
    pub fn lattice(&self) -> Option<Lattice> {
        let [nx, ny, nz] = self.sizes;
        Lattice::new(nx, ny, nz)
    }

    /// The given case of document 01, "The bench program": one plus point in
    /// the middle of 2 by 2 by 2 cubes, all cuts halfway.
    pub fn given_case() -> Block {
        let mut samples = vec![-5; 35];
        samples[13] = 5;
        let mut cuts = vec![0; 7 * 35];
        let runs = [
            (30, 1),
            (71, 1),
            (84, 1),
            (91, 7),
            (192, 1),
            (200, 1),
            (208, 1),
            (216, 1),
        ];
        for (offset, length) in runs {
            cuts[offset..offset + length].fill(128);
        }
        Block {
            sizes: [2, 2, 2],
            samples,
            cuts,
        }
    }

    /// The given case with other samples and bytes.
    pub fn given_with(samples: &[(usize, i16)], bytes: &[(usize, u8)]) -> Block {
        let mut block = Block::given_case();
        for &(point, sample) in samples {
            block.samples[point] = sample;
        }
        for &(offset, byte) in bytes {
            block.cuts[offset] = byte;
        }
        block
    }
}
