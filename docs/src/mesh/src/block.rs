//! Reading, mending and filling a block file and numbering its nodes, through the library.

use crate::{Mesh, Point};
use yakuemi::{Mending, Refusal};

/// A block that was read from a file.
pub struct Block {
    /// nx, ny, nz.
    pub sizes: [u32; 3],
    /// One sample a lattice point.
    pub samples: Vec<i16>,
    /// Seven bytes a lattice point.
    pub cuts: Vec<u8>,
}

/// The lattice points of the largest block, 64 by 64 by 64 cubes.
const MOST_POINTS: usize = 536_769;

/// Reads a block file of any size from 1 to 64, which ends where the bytes end.
pub fn read(file: &[u8]) -> Result<Block, Refusal> {
    let (mut samples, mut cuts) = (vec![0; MOST_POINTS], vec![0; 7 * MOST_POINTS]);
    let reading = yakuemi::read(file, &mut samples, &mut cuts)?;
    if reading.end != file.len() as u64 {
        return Err(Refusal::File);
    }
    let points = yakuemi::measures(reading.sizes)?.points as usize;
    samples.truncate(points);
    cuts.truncate(7 * points);
    Ok(Block { sizes: reading.sizes, samples, cuts })
}

/// Mends the cut table of a block with a noise band: fills in what is missing and clears what is stray.
pub fn mend(block: &mut Block, band: u32) -> Result<Mending, Refusal> {
    yakuemi::mend(block.sizes, band, &block.samples, &mut block.cuts)
}

/// The state table and the rows of a filled block.
pub struct Filled {
    /// How each lattice point moved.
    pub state: Vec<u8>,
    /// The ids of the rows, four a row.
    pub rows: Vec<u32>,
}

/// Fills a block with a noise band: asks how many rows it has, then lends a table of just that length.
pub fn fill(block: &Block, band: u32) -> Result<Filled, Refusal> {
    let mut state = vec![0; block.samples.len()];
    let mut rows = Vec::new();
    if let Err(refusal) = yakuemi::fill(block.sizes, band, &block.samples, &block.cuts, &mut state, &mut rows) {
        let Refusal::Table { rows: count, .. } = refusal else {
            return Err(refusal);
        };
        rows = vec![0; 4 * count as usize];
        yakuemi::fill(block.sizes, band, &block.samples, &block.cuts, &mut state, &mut rows)?;
    }
    Ok(Filled { state, rows })
}

/// The rows of a filled block with node numbers for ids, and its node table.
pub struct Numbered {
    /// The nodes of the rows, numbered from 0, four a row.
    pub rows: Vec<u32>,
    /// The id and the place of each node, four numbers a node.
    pub nodes: Vec<u32>,
}

/// Numbers the nodes of a filled block: asks how many it has, then lends a table of just that length.
pub fn number(block: &Block, filled: &Filled) -> Result<Numbered, Refusal> {
    let (mut rows, mut nodes) = (filled.rows.clone(), Vec::new());
    if let Err(refusal) = yakuemi::nodes(block.sizes, &block.cuts, &filled.state, &mut rows, &mut nodes) {
        let Refusal::NodeTable { nodes: count } = refusal else {
            return Err(refusal);
        };
        nodes = vec![0; 4 * count as usize];
        yakuemi::nodes(block.sizes, &block.cuts, &filled.state, &mut rows, &mut nodes)?;
    }
    Ok(Numbered { rows, nodes })
}

/// The mesh of a filled block at a unit: its nodes are the ids that the rows name, ascending.
pub fn mesh(block: &Block, filled: &Filled, unit: f64) -> Result<Mesh, Refusal> {
    let place = |id: u32| yakuemi::place_mm(block.sizes, &block.cuts, &filled.state, id, unit);
    // the first point of a filled block always has a place, so a unit is refused also where there is no row
    place(0)?;
    let Numbered { rows, nodes } = number(block, filled)?;
    let ((rows, _), (nodes, _)) = (rows.as_chunks::<4>(), nodes.as_chunks::<4>());
    let nodes = nodes.iter().map(|&[id, ..]| place(id)).collect::<Result<Vec<Point>, Refusal>>()?;
    let elements = rows.iter().map(|row| row.map(|node| node as usize)).collect();
    Ok(Mesh { nodes, elements })
}

/// The mesh of a block with a noise band, at a unit.
pub fn mesh_of(block: &Block, band: u32, unit: f64) -> Result<Mesh, Refusal> {
    mesh(block, &fill(block, band)?, unit)
}

/// The same, of a block file.
pub fn mesh_of_file(file: &[u8], band: u32, unit: f64) -> Result<Mesh, Refusal> {
    mesh_of(&read(file)?, band, unit)
}
