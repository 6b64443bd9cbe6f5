//! Block files and the bench program's output.
//!
//! Follows document 01, "The bench program". Refusals of reading come in the
//! order 11 (under three bytes), 1, 12, 11.

use crate::block::Block;
use crate::fill::{fill, Filled};
use crate::lattice::{Lattice, LARGEST_SIZE};
use crate::place::measures;
use crate::refusal;

/// The largest size the bench program takes.
pub const BENCH_SIZE: u32 = 5;

/// Reads a block file, or answers the refusal's number. Sizes from
/// `largest` + 1 to 64 are refused with 12, so with 64 none are.
pub fn read(file: &[u8], largest: u32) -> Result<Block, u32> {
    let [nx, ny, nz, rest @ ..] = file else {
        return Err(refusal::FILE);
    };
    let sizes = [nx, ny, nz].map(|&size| u32::from(size));
    let lattice = Lattice::new(sizes[0], sizes[1], sizes[2]).ok_or(refusal::SIZE)?;
    if sizes.iter().any(|&size| size > largest.min(LARGEST_SIZE)) {
        return Err(refusal::BENCH);
    }
    let (samples, cuts) = read_tables(rest, lattice.point_count()).ok_or(refusal::FILE)?;
    Ok(Block {
        sizes,
        samples,
        cuts,
    })
}

/// The samples and the cut table, or none if the file is malformed.
fn read_tables(file: &[u8], n: usize) -> Option<(Vec<i16>, Vec<u8>)> {
    let mut reader = Reader { rest: file };
    let samples = (0..n)
        .map(|_| Some(i16::from_le_bytes(reader.take()?)))
        .collect::<Option<Vec<i16>>>()?;
    let runs = read_runs(&mut reader, 7 * n)?;
    let mut cuts = vec![0; 7 * n];
    for (offset, length) in runs {
        let bytes = reader.take_slice(length)?;
        if bytes.contains(&0) {
            return None;
        }
        cuts[offset..offset + length].copy_from_slice(bytes);
    }
    reader.rest.is_empty().then_some((samples, cuts))
}

/// The runs as offset and length, none of them empty, touching another or
/// reaching past the cut table.
fn read_runs(reader: &mut Reader, table: usize) -> Option<Vec<(usize, usize)>> {
    let count = u16::from_le_bytes(reader.take()?);
    let mut runs = Vec::new();
    let mut behind = None;
    for _ in 0..count {
        let offset = u32::from_le_bytes(reader.take()?) as usize;
        let length = usize::from(u16::from_le_bytes(reader.take()?));
        let touches = behind.is_some_and(|behind| offset <= behind);
        if length == 0 || touches || offset + length > table {
            return None;
        }
        behind = Some(offset + length);
        runs.push((offset, length));
    }
    Some(runs)
}

/// What is left of a file.
struct Reader<'a> {
    rest: &'a [u8],
}

impl<'a> Reader<'a> {
    fn take<const COUNT: usize>(&mut self) -> Option<[u8; COUNT]> {
        let (taken, rest) = self.rest.split_first_chunk()?;
        self.rest = rest;
        Some(*taken)
    }

    fn take_slice(&mut self, count: usize) -> Option<&'a [u8]> {
        let (taken, rest) = self.rest.split_at_checked(count)?;
        self.rest = rest;
        Some(taken)
    }
}

/// The file of a block, with as few runs as can be. None if a size does not
/// fit a byte, or a run's length or the run count does not fit two.
pub fn write(block: &Block) -> Option<Vec<u8>> {
    let mut file = Vec::new();
    for size in block.sizes {
        file.push(u8::try_from(size).ok()?);
    }
    for sample in &block.samples {
        file.extend(sample.to_le_bytes());
    }
    let runs = runs_of(&block.cuts);
    file.extend(u16::try_from(runs.len()).ok()?.to_le_bytes());
    for &(offset, length) in &runs {
        file.extend(u32::try_from(offset).ok()?.to_le_bytes());
        file.extend(u16::try_from(length).ok()?.to_le_bytes());
    }
    for (offset, length) in runs {
        file.extend(&block.cuts[offset..offset + length]);
    }
    Some(file)
}

/// The longest runs of non-zero bytes, as offset and length.
fn runs_of(cuts: &[u8]) -> Vec<(usize, usize)> {
    let mut runs: Vec<(usize, usize)> = Vec::new();
    for (offset, &byte) in cuts.iter().enumerate() {
        if byte == 0 {
            continue;
        }
        match runs.last_mut() {
            Some((start, length)) if *start + *length == offset => *length += 1,
            _ => runs.push((offset, 1)),
        }
    }
    runs
}

/// A filled block with its tables.
#[derive(Clone, Debug, PartialEq, Eq)]
pub struct Tables {
    /// The answer of filling.
    pub filled: Filled,
    /// The state table, all zero after a refusal of 1 to 7 or 14.
    pub state: Vec<u8>,
    /// The ids of the rows, four a row.
    pub rows: Vec<u32>,
}

/// Fills a block into fresh tables, the row table long enough for any block
/// of its sizes.
pub fn fill_block(block: &Block, band: u32) -> Tables {
    let [nx, ny, nz] = block.sizes;
    let measures = measures(nx, ny, nz);
    let mut state = vec![0; measures.points as usize];
    // No tetrahedron has more than three rows.
    let mut rows = vec![0; 4 * 3 * measures.tetrahedra as usize];
    let (samples, cuts) = (&block.samples, &block.cuts);
    let filled = fill(nx, ny, nz, band, samples, cuts, &mut state, &mut rows);
    rows.truncate(4 * filled.rows as usize);
    Tables {
        filled,
        state,
        rows,
    }
}

/// The bench program's whole output for a block file. It uses band 0.
pub fn bench_output(file: &[u8]) -> String {
    output(file, BENCH_SIZE)
}

/// The same with another limit to the sizes.
pub fn output(file: &[u8], largest: u32) -> String {
    let block = match read(file, largest) {
        Ok(block) => block,
        Err(number) => return format!("refused {number} 0\n"),
    };
    let filled = fill_block(&block, 0).filled;
    if filled.number != refusal::NONE {
        return format!("refused {} {}\n", filled.number, filled.place);
    }
    let [nx, ny, nz] = block.sizes;
    let measures = measures(nx, ny, nz);
    format!(
        "points {}\nlattice {}\nmoved {}\nemitted {}\n",
        measures.points, measures.tetrahedra, filled.moved, filled.rows
    )
}
