//! Tests that hold the proved library against the separate software: see `tests/`.
use reference::block::Block;
use reference::damage::{Call, NodesCall, NodesOutcome};
use reference::fill::Filled;
use reference::generate::{any_band, for_band_with_noise};
use reference::lattice::Lattice;
use reference::mend::Mended;
use reference::metric::{place_mm, place_mm_plain};
use reference::nodes::{Numbered, Numbering};
use reference::place::place;
use reference::random::Random;
use reference::state::ON_SKIN;

pub mod mutations;

/// The library's filling with the separate software's types, so that both take the same calls.
#[allow(clippy::too_many_arguments)]
pub fn fill(
    nx: u32,
    ny: u32,
    nz: u32,
    band: u32,
    samples: &[i16],
    cuts: &[u8],
    state: &mut [u8],
    rows: &mut [u32],
) -> Filled {
    let f = yakuemi::raw::fill([nx, ny, nz], band, samples, cuts, state, rows);
    Filled {
        number: f.number,
        rows: f.rows,
        moved: f.moved,
        place: f.place,
    }
}

/// The library's mending with the separate software's types.
pub fn mend(nx: u32, ny: u32, nz: u32, band: u32, samples: &[i16], cuts: &mut [u8]) -> Mended {
    let m = yakuemi::raw::mend([nx, ny, nz], band, samples, cuts);
    Mended {
        number: m.number,
        filled: m.filled,
        cleared: m.cleared,
    }
}

/// The library's node table with the separate software's types.
pub fn nodes(nx: u32, ny: u32, nz: u32, cuts: &[u8], state: &[u8], rows: &mut [u32], nodes: &mut [u32]) -> Numbered {
    let n = yakuemi::raw::nodes([nx, ny, nz], cuts, state, rows, nodes);
    Numbered {
        number: n.number,
        nodes: n.nodes,
        place: n.place,
    }
}

/// The two ends of the edge that a cut byte belongs to, if it exists.
pub fn ends(lattice: &Lattice, offset: usize) -> Option<[usize; 2]> {
    let start = offset / 7;
    Some([start, lattice.end(start, offset % 7)?])
}

/// Band 0 for half of the blocks, any band for the others.
pub fn zero_or_any_band(random: &mut Random, block: &Block) -> u32 {
    if random.percent(50) {
        0
    } else {
        any_band(random, block)
    }
}

/// A call that is not refused, with a row table of just the right length, half of the time without a band. With one the block is made
/// valid with it, and has noise in it.
pub fn good_call(random: &mut Random, block: Block) -> Call {
    let band = zero_or_any_band(random, &block);
    Call::good(for_band_with_noise(random, block, band), band, 0)
}

/// A call with an exact row table, and its T and M: they are asked for, with no room at all.
pub fn exact_call(block: Block, band: u32, random: &mut Random) -> (Call, Filled) {
    let state_length = block.samples.len();
    let mut call = Call { block, band, state_length, row_length: 0 };
    let asked = same_filling(&call, random.bits());
    call.row_length = 4 * asked.rows as usize;
    (call, asked)
}

/// Noise in the cut and the state table of a block: bytes at the limits and beside them; codes, the mark of a point on the skin, which is
/// believable anywhere, and bytes that are not believable.
pub fn disturb(random: &mut Random, cuts: &mut [u8], state: &mut [u8]) {
    for _ in 0..random.below(60) {
        cuts[random.below(cuts.len())] = random.pick(&[0, 1, 63, 64, 105, 106, 150, 151, 192, 193, 255]);
    }
    for _ in 0..random.below(30) {
        state[random.below(state.len())] = random.pick(&[1, 2, 4, 7, 8, 9, 11, 14, ON_SKIN, 16, 255]);
    }
}

/// Makes a call of both fillings over the same noise: answer, state table and row table are the same. Gives the answer.
pub fn same_filling(call: &Call, seed: u64) -> Filled {
    let ours = call.run(fill, &mut Random::new(seed));
    let theirs = call.run(reference::fill::fill, &mut Random::new(seed));
    assert_eq!(ours.filled, theirs.filled, "seed {seed}");
    assert!(ours.state == theirs.state, "state tables differ, seed {seed}");
    assert!(ours.rows == theirs.rows, "row tables differ, seed {seed}");
    ours.filled
}

/// Mends a block's cut table by both, with a band: answer and table are the same. Leaves the mended table in the block and gives the answer.
pub fn same_mending(block: &mut Block, band: u32) -> Mended {
    let Block { sizes: [nx, ny, nz], ref samples, ref mut cuts } = *block;
    let mut theirs = cuts.clone();
    let ours = mend(nx, ny, nz, band, samples, cuts);
    assert_eq!(ours, reference::mend::mend(nx, ny, nz, band, samples, &mut theirs), "{nx} by {ny} by {nz}, band {band}");
    let differs = cuts.iter().zip(&theirs).position(|(ours, theirs)| ours != theirs);
    assert_eq!(differs, None, "the byte that differs, {nx} by {ny} by {nz}, band {band}");
    ours
}

/// Makes a call for the node table by the library and by the separate software, with row tables of up to a million entries by both its
/// versions, with longer ones by the fast one: answer, row table and node table are the same. Gives them.
pub fn same_numbering(call: &NodesCall) -> NodesOutcome {
    let ours = call.run(nodes);
    let versions: [Numbering; 2] = [reference::nodes::nodes, reference::plain::nodes];
    let asked = if call.rows.len() > 1_000_000 { &versions[..1] } else { &versions };
    for theirs in asked.iter().map(|&version| call.run(version)) {
        let differs = |a: &[u32], b: &[u32]| a.iter().zip(b).position(|(a, b)| a != b);
        assert_eq!(ours.numbered, theirs.numbered, "{:?}, {} entries", call.sizes, call.rows.len());
        assert_eq!(differs(&ours.rows, &theirs.rows), None, "the entry of the row table that differs, {:?}", call.sizes);
        assert_eq!(differs(&ours.nodes, &theirs.nodes), None, "the number of the node table that differs, {:?}", call.sizes);
    }
    ours
}

/// An exact row table, a longer one, and one that is too short by one, for a call that has an exact one.
pub fn three_tables(call: &mut Call, random: &mut Random) {
    let exact = call.row_length;
    assert_eq!(same_filling(call, random.bits()).number, 0);
    call.row_length = exact + random.pick(&[1, 3, 4, 17]);
    assert_eq!(same_filling(call, random.bits()).number, 0);
    if exact > 0 {
        call.row_length = exact - 1;
        assert_eq!(same_filling(call, random.bits()).number, 10);
    }
}

/// Asks both for the place of an id: number and place are the same. Gives the number.
pub fn same_place(sizes: [u32; 3], cuts: &[u8], state: &[u8], id: u32) -> u32 {
    let ours = yakuemi::raw::place(sizes, cuts, state, id);
    let theirs = place(sizes[0], sizes[1], sizes[2], cuts, state, id);
    assert_eq!((ours.number, ours.x, ours.y, ours.z), (theirs.number, theirs.x, theirs.y, theirs.z), "id {id}");
    ours.number
}

/// Asks the library and the separate software, with floats and by whole numbers, for the place of an id in millimetres, at the unit with
/// these bits: number and bits are the same. Gives the number and the bits.
pub fn same_place_mm(sizes: [u32; 3], cuts: &[u8], state: &[u8], id: u32, unit: u64) -> (u32, [u64; 3]) {
    let ([nx, ny, nz], number) = (sizes, f64::from_bits(unit));
    let ours = yakuemi::raw::place_mm(sizes, cuts, state, id, number);
    let theirs = place_mm(nx, ny, nz, cuts, state, id, number);
    let ours = (ours.number, [ours.point.x, ours.point.y, ours.point.z].map(f64::to_bits));
    let theirs = (theirs.number, [theirs.point.x, theirs.point.y, theirs.point.z].map(f64::to_bits));
    assert_eq!(ours, theirs, "id {id}, unit {unit:#018x}");
    assert_eq!(ours, place_mm_plain(nx, ny, nz, cuts, state, id, unit), "id {id}, unit {unit:#018x}");
    ours
}
