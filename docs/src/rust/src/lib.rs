//! Safe Rust calls over the static library: slices in, an enum out.
//!
//! A point of rubber in the middle of 2 by 2 by 2 cubes, with the skin halfway along its fourteen edges:
//!
//! ```
//! use yakuemi::{fill, is_move, measures, mend, nodes, place, place_mm, Mending, Refusal, ON_SKIN};
//!
//! let sizes = [2, 2, 2];
//! let n = measures(sizes)?.points as usize;
//! let mut samples = vec![-5; n];
//! samples[13] = 5;
//! let mut cuts = vec![0; 7 * n];
//! for offset in [30, 71, 84, 91, 92, 93, 94, 95, 96, 97, 192, 200, 208, 216] {
//!     cuts[offset] = 128;
//! }
//! let mut state = vec![0; n];
//!
//! // with no noise band and no room at all; the answer says how many rows there are
//! let asked = fill(sizes, 0, &samples, &cuts, &mut state, &mut []);
//! assert_eq!(asked, Err(Refusal::Table { rows: 24, moved: 0 }));
//!
//! let mut rows = vec![0; 4 * 24];
//! let filling = fill(sizes, 0, &samples, &cuts, &mut state, &mut rows)?;
//! assert_eq!((filling.rows, filling.moved), (24, 0));
//! assert_eq!(rows[..4], [13, 65, 235, 227]);
//! assert_eq!(place(sizes, &cuts, &state, 65)?, [512, 512, 256]);
//!
//! // in millimetres, for cubes with a side of 2 mm; a unit of zero is refused
//! assert_eq!(place_mm(sizes, &cuts, &state, 65, 2.0 / 512.0)?, [2.0, 2.0, 1.0]);
//! assert_eq!(place_mm(sizes, &cuts, &state, 65, 0.0), Err(Refusal::Unit));
//!
//! // the ids in use become node numbers from 0; with no room at all the answer says how many there are
//! assert_eq!(nodes(sizes, &cuts, &state, &mut rows, &mut []), Err(Refusal::NodeTable { nodes: 15 }));
//! let mut table = vec![0; 4 * 15];
//! assert_eq!(nodes(sizes, &cuts, &state, &mut rows, &mut table)?, 15);
//! assert_eq!(rows[..4], [0, 1, 12, 11]);
//! assert_eq!(table[..8], [13, 512, 512, 512, 65, 512, 512, 256]);
//! rows.iter_mut().for_each(|corner| *corner = table[4 * *corner as usize]);
//! assert_eq!(rows[..4], [13, 65, 235, 227]);
//!
//! // rows that are not whole; a number that is no id; a point whose state byte no filling writes
//! assert_eq!(nodes(sizes, &cuts, &state, &mut rows[..95], &mut table), Err(Refusal::Rows));
//! assert_eq!(nodes(sizes, &cuts, &state, &mut [13, 65, 280, 227], &mut table), Err(Refusal::CornerAt(2)));
//! state[13] = 16;
//! let refusal = nodes(sizes, &cuts, &state, &mut [0, 13, 280, 227], &mut table).unwrap_err();
//! assert_eq!(refusal, Refusal::CodeAt(1));
//! assert_eq!(refusal.to_string(), "refused 9 1");
//!
//! // in a band of 5 all these samples count as zero: no edge crosses the skin any more, and every cut byte is stray
//! assert_eq!(fill(sizes, 5, &samples, &cuts, &mut state, &mut rows), Err(Refusal::Stray(30)));
//! // mending with that band clears them: nothing is left to fill, and every point lies on the skin unmoved
//! let mut cleared = cuts.clone();
//! assert_eq!(mend(sizes, 5, &samples, &mut cleared)?, Mending { filled: 0, cleared: 14 });
//! let filling = fill(sizes, 5, &samples, &cleared, &mut state, &mut rows)?;
//! assert_eq!((filling.rows, filling.moved), (0, 0));
//! assert!(state.iter().all(|&byte| byte == ON_SKIN && !is_move(byte)));
//! assert_eq!(place(sizes, &cuts, &state, 13)?, [512, 512, 512]);
//! assert_eq!(place(sizes, &cuts, &state, 126), Err(Refusal::Corner));
//! assert_eq!(fill(sizes, 32_768, &samples, &cuts, &mut state, &mut rows), Err(Refusal::Band));
//!
//! cuts[91] = 0;
//! let refusal = fill(sizes, 0, &samples, &cuts, &mut state, &mut rows).unwrap_err();
//! assert_eq!(refusal, Refusal::Gap(91));
//! assert_eq!(refusal.to_string(), "refused 6 91");
//!
//! // an old export: that byte is missing, and one stands where no edge crosses the skin
//! cuts[0] = 7;
//! assert_eq!(mend(sizes, 0, &samples, &mut cuts)?, Mending { filled: 1, cleared: 1 });
//! assert_eq!((cuts[91], cuts[0]), (128, 0));
//! fill(sizes, 0, &samples, &cuts, &mut state, &mut rows)?;
//! # Ok::<(), Refusal>(())
//! ```
//!
//! The library has no preconditions, so nothing is tested here. Rust's borrow rules already keep
//! the lent tables apart. Nothing checks these declarations against the library's source but the
//! tests that compare its answers with separate software.

/// The answers as the library gives them.
pub mod raw {
    /// The answer of `yakuemi_measures`.
    #[repr(C)]
    #[derive(Clone, Copy, Debug, PartialEq, Eq)]
    pub struct Measures {
        pub number: u32,
        pub points: u64,
        pub tetrahedra: u64,
    }

    /// The answer of `yakuemi_fill`.
    #[repr(C)]
    #[derive(Clone, Copy, Debug, PartialEq, Eq)]
    pub struct Filled {
        pub number: u32,
        pub rows: u64,
        pub moved: u64,
        pub place: u64,
    }

    /// The answer of `yakuemi_mend`.
    #[repr(C)]
    #[derive(Clone, Copy, Debug, PartialEq, Eq)]
    pub struct Mended {
        pub number: u32,
        pub filled: u64,
        pub cleared: u64,
    }

    /// The answer of `yakuemi_place`.
    #[repr(C)]
    #[derive(Clone, Copy, Debug, PartialEq, Eq)]
    pub struct Placed {
        pub number: u32,
        pub x: u32,
        pub y: u32,
        pub z: u32,
    }

    /// The answer of `yakuemi_nodes`.
    #[repr(C)]
    #[derive(Clone, Copy, Debug, PartialEq, Eq)]
    pub struct Numbered {
        pub number: u32,
        pub nodes: u64,
        pub place: u64,
    }

    /// A point in millimetres.
    #[repr(C)]
    #[derive(Clone, Copy, Debug, PartialEq)]
    pub struct Metric {
        pub x: f64,
        pub y: f64,
        pub z: f64,
    }

    /// The answer of `yakuemi_place_mm`.
    #[repr(C)]
    #[derive(Clone, Copy, Debug, PartialEq)]
    pub struct PlacedMm {
        pub number: u32,
        pub point: Metric,
    }

    /// The answer of `yakuemi_read`.
    #[repr(C)]
    #[derive(Clone, Copy, Debug, PartialEq, Eq)]
    pub struct ReadFile {
        pub number: u32,
        pub nx: u32,
        pub ny: u32,
        pub nz: u32,
        pub end: u64,
    }

    mod c {
        use super::{Filled, Measures, Mended, Numbered, Placed, PlacedMm, ReadFile};

        extern "C" {
            pub fn yakuemi_measures(nx: u32, ny: u32, nz: u32) -> Measures;
            #[allow(clippy::too_many_arguments)]
            pub fn yakuemi_fill(
                nx: u32,
                ny: u32,
                nz: u32,
                band: u32,
                samples: *const i16,
                samples_len: usize,
                cuts: *const u8,
                cuts_len: usize,
                state: *mut u8,
                state_len: usize,
                rows: *mut u32,
                rows_len: usize,
            ) -> Filled;
            #[allow(clippy::too_many_arguments)]
            pub fn yakuemi_mend(
                nx: u32,
                ny: u32,
                nz: u32,
                band: u32,
                samples: *const i16,
                samples_len: usize,
                cuts: *mut u8,
                cuts_len: usize,
            ) -> Mended;
            #[allow(clippy::too_many_arguments)]
            pub fn yakuemi_place(
                nx: u32,
                ny: u32,
                nz: u32,
                cuts: *const u8,
                cuts_len: usize,
                state: *const u8,
                state_len: usize,
                id: u32,
            ) -> Placed;
            #[allow(clippy::too_many_arguments)]
            pub fn yakuemi_place_mm(
                nx: u32,
                ny: u32,
                nz: u32,
                cuts: *const u8,
                cuts_len: usize,
                state: *const u8,
                state_len: usize,
                id: u32,
                unit: f64,
            ) -> PlacedMm;
            #[allow(clippy::too_many_arguments)]
            pub fn yakuemi_nodes(
                nx: u32,
                ny: u32,
                nz: u32,
                cuts: *const u8,
                cuts_len: usize,
                state: *const u8,
                state_len: usize,
                rows: *mut u32,
                rows_len: usize,
                nodes: *mut u32,
                nodes_len: usize,
            ) -> Numbered;
            pub fn yakuemi_read(
                bytes: *const u8,
                bytes_len: usize,
                samples: *mut i16,
                samples_len: usize,
                cuts: *mut u8,
                cuts_len: usize,
            ) -> ReadFile;
        }
    }

    /// Measures of a block.
    pub fn measures(nx: u32, ny: u32, nz: u32) -> Measures {
        unsafe { c::yakuemi_measures(nx, ny, nz) }
    }

    /// Filling a block, into tables that the caller lends.
    pub fn fill(sizes: [u32; 3], band: u32, samples: &[i16], cuts: &[u8], state: &mut [u8], rows: &mut [u32]) -> Filled {
        let [nx, ny, nz] = sizes;
        unsafe {
            c::yakuemi_fill(
                nx,
                ny,
                nz,
                band,
                samples.as_ptr(),
                samples.len(),
                cuts.as_ptr(),
                cuts.len(),
                state.as_mut_ptr(),
                state.len(),
                rows.as_mut_ptr(),
                rows.len(),
            )
        }
    }

    /// Mending a cut table that the caller lends.
    pub fn mend(sizes: [u32; 3], band: u32, samples: &[i16], cuts: &mut [u8]) -> Mended {
        let [nx, ny, nz] = sizes;
        unsafe { c::yakuemi_mend(nx, ny, nz, band, samples.as_ptr(), samples.len(), cuts.as_mut_ptr(), cuts.len()) }
    }

    /// The place of an id.
    pub fn place(sizes: [u32; 3], cuts: &[u8], state: &[u8], id: u32) -> Placed {
        let [nx, ny, nz] = sizes;
        unsafe { c::yakuemi_place(nx, ny, nz, cuts.as_ptr(), cuts.len(), state.as_ptr(), state.len(), id) }
    }

    /// The place of an id in millimetres.
    pub fn place_mm(sizes: [u32; 3], cuts: &[u8], state: &[u8], id: u32, unit: f64) -> PlacedMm {
        let [nx, ny, nz] = sizes;
        unsafe { c::yakuemi_place_mm(nx, ny, nz, cuts.as_ptr(), cuts.len(), state.as_ptr(), state.len(), id, unit) }
    }

    /// Numbering the nodes of rows, in tables that the caller lends.
    pub fn nodes(sizes: [u32; 3], cuts: &[u8], state: &[u8], rows: &mut [u32], nodes: &mut [u32]) -> Numbered {
        let [nx, ny, nz] = sizes;
        unsafe {
            c::yakuemi_nodes(
                nx,
                ny,
                nz,
                cuts.as_ptr(),
                cuts.len(),
                state.as_ptr(),
                state.len(),
                rows.as_mut_ptr(),
                rows.len(),
                nodes.as_mut_ptr(),
                nodes.len(),
            )
        }
    }

    /// Reading a block file, into tables that the caller lends.
    pub fn read(bytes: &[u8], samples: &mut [i16], cuts: &mut [u8]) -> ReadFile {
        unsafe {
            c::yakuemi_read(
                bytes.as_ptr(),
                bytes.len(),
                samples.as_mut_ptr(),
                samples.len(),
                cuts.as_mut_ptr(),
                cuts.len(),
            )
        }
    }
}

/// Why a call was refused, with the numbers of documents 01 and 02.
#[derive(Clone, Copy, Debug, PartialEq, Eq)]
pub enum Refusal {
    /// 1: a size outside 1 to 64.
    Size,
    /// 2: not N samples.
    Samples,
    /// 3: the cut table has not 7N bytes.
    Cuts,
    /// 4: the state table has not N bytes.
    State,
    /// 5: this rim point's sample is above the band (the lowest such point).
    Rim(u64),
    /// 6: this byte of the cut table is zero and must not be.
    Gap(u64),
    /// 7: this byte of the cut table is not zero and must be.
    Stray(u64),
    /// 8: the id names no corner.
    Corner,
    /// 8, of [`nodes`]: this entry of the row table names no corner (the first entry without a place).
    CornerAt(u64),
    /// 9: the point's state byte is not believable.
    Code,
    /// 9, of [`nodes`]: the state byte of the point at this entry of the row table is not believable (the first entry without a place).
    CodeAt(u64),
    /// 10: the row table holds fewer than 4T numbers. The state table is filled.
    Table { rows: u64, moved: u64 },
    /// 10, of [`nodes`]: the node table holds fewer than four numbers for each of so many nodes. Neither table is changed.
    NodeTable { nodes: u64 },
    /// 11: a malformed block file.
    File,
    /// 12: a lent table is too short for the block of the file.
    Room,
    /// 13: the unit is not a number from 1/1048576 to 16.
    Unit,
    /// 14: the band is above 32767.
    Band,
    /// 15: the row table's length is not a multiple of four.
    Rows,
    /// A number that the called function does not give.
    Other(u32),
}

impl Refusal {
    /// The number of documents 01 and 02.
    pub fn number(self) -> u32 {
        match self {
            Refusal::Size => 1,
            Refusal::Samples => 2,
            Refusal::Cuts => 3,
            Refusal::State => 4,
            Refusal::Rim(_) => 5,
            Refusal::Gap(_) => 6,
            Refusal::Stray(_) => 7,
            Refusal::Corner | Refusal::CornerAt(_) => 8,
            Refusal::Code | Refusal::CodeAt(_) => 9,
            Refusal::Table { .. } | Refusal::NodeTable { .. } => 10,
            Refusal::File => 11,
            Refusal::Room => 12,
            Refusal::Unit => 13,
            Refusal::Band => 14,
            Refusal::Rows => 15,
            Refusal::Other(number) => number,
        }
    }

    /// The point, the byte or the entry at fault, 0 where there is none to name.
    pub fn place(self) -> u64 {
        match self {
            Refusal::Rim(place) | Refusal::Gap(place) | Refusal::Stray(place) => place,
            Refusal::CornerAt(place) | Refusal::CodeAt(place) => place,
            _ => 0,
        }
    }
}

/// As the bench program prints it: `refused 6 91`.
impl std::fmt::Display for Refusal {
    fn fmt(&self, f: &mut std::fmt::Formatter) -> std::fmt::Result {
        write!(f, "refused {} {}", self.number(), self.place())
    }
}

impl std::error::Error for Refusal {}

/// The measures of a block.
#[derive(Clone, Copy, Debug, PartialEq, Eq)]
pub struct Measures {
    /// N, the count of lattice points.
    pub points: u64,
    /// The count of lattice tetrahedra.
    pub tetrahedra: u64,
}

/// The state byte of a point that lies on the skin unmoved: its sample is in the band, or is zero.
pub const ON_SKIN: u8 = 15;

/// This state byte is a move, 1 to 14: its point moved onto a cut. After a filling a point lies on the skin exactly if its byte is not 0.
pub fn is_move(byte: u8) -> bool {
    (1..ON_SKIN).contains(&byte)
}

/// A filling: rows written and points moved.
#[derive(Clone, Copy, Debug, PartialEq, Eq)]
pub struct Filling {
    /// T, the rows written: the first 4T entries of the row table.
    pub rows: u64,
    /// M, the points moved: the bytes of the state table that are moves ([`is_move`]).
    pub moved: u64,
}

/// A mending: the bytes of the cut table that changed.
#[derive(Clone, Copy, Debug, PartialEq, Eq)]
pub struct Mending {
    /// The missing bytes that were filled in.
    pub filled: u64,
    /// The stray bytes that became 0.
    pub cleared: u64,
}

/// A block file that was read.
#[derive(Clone, Copy, Debug, PartialEq, Eq)]
pub struct BlockRead {
    /// The sizes of its block.
    pub sizes: [u32; 3],
    /// Where in the bytes the file ends.
    pub end: u64,
}

/// N and the count of lattice tetrahedra.
pub fn measures(sizes: [u32; 3]) -> Result<Measures, Refusal> {
    let m = raw::measures(sizes[0], sizes[1], sizes[2]);
    match m.number {
        0 => Ok(Measures { points: m.points, tetrahedra: m.tetrahedra }),
        1 => Err(Refusal::Size),
        n => Err(Refusal::Other(n)),
    }
}

/// Fills a block: N samples, 7N cut bytes, N state bytes, and a row table of any length. Points that sit too near the skin move, each onto the
/// nearest cut.
///
/// The band is 0 to 32767. A sample whose size is at most the band counts as zero: its point lies on the skin and does not move, its state
/// byte is [`ON_SKIN`], it may be a rim point, and a cut byte beside it must be 0: [`mend`] with the same band sees to that. Take the largest
/// size of the scanner's flicker, or 0 for none; with more, rubber whose samples are in the band is left out.
pub fn fill(
    sizes: [u32; 3],
    band: u32,
    samples: &[i16],
    cuts: &[u8],
    state: &mut [u8],
    rows: &mut [u32],
) -> Result<Filling, Refusal> {
    let f = raw::fill(sizes, band, samples, cuts, state, rows);
    match f.number {
        0 => Ok(Filling { rows: f.rows, moved: f.moved }),
        1 => Err(Refusal::Size),
        2 => Err(Refusal::Samples),
        3 => Err(Refusal::Cuts),
        4 => Err(Refusal::State),
        5 => Err(Refusal::Rim(f.place)),
        6 => Err(Refusal::Gap(f.place)),
        7 => Err(Refusal::Stray(f.place)),
        10 => Err(Refusal::Table { rows: f.rows, moved: f.moved }),
        14 => Err(Refusal::Band),
        n => Err(Refusal::Other(n)),
    }
}

/// Mends the cut table of an old export, N samples and 7N cut bytes, so that [`fill`] with the same band refuses it with neither 6 nor 7.
///
/// A missing byte becomes 256 times the size of the sample at the edge's start, divided by the sum of both ends' sizes, rounded half up and
/// held within 1 to 255: within 1/2 of the quotient, or within less than 1 where it was held, which is proved. That is a straight-line
/// guess, and a scanner's own cut is better. A stray byte becomes 0, good bytes stay, and a refusal changes nothing. A byte beside a
/// sample in the band is stray, and what is cleared is gone: mend a copy if a smaller band may follow.
pub fn mend(sizes: [u32; 3], band: u32, samples: &[i16], cuts: &mut [u8]) -> Result<Mending, Refusal> {
    let m = raw::mend(sizes, band, samples, cuts);
    match m.number {
        0 => Ok(Mending { filled: m.filled, cleared: m.cleared }),
        1 => Err(Refusal::Size),
        2 => Err(Refusal::Samples),
        3 => Err(Refusal::Cuts),
        14 => Err(Refusal::Band),
        n => Err(Refusal::Other(n)),
    }
}

/// The place of an id of a filled block, in 512ths of a cube's side. A point that lies on the skin unmoved is in its own place, and a cut
/// beside it has none.
pub fn place(sizes: [u32; 3], cuts: &[u8], state: &[u8], id: u32) -> Result<[u32; 3], Refusal> {
    let p = raw::place(sizes, cuts, state, id);
    match p.number {
        0 => Ok([p.x, p.y, p.z]),
        n => Err(place_refusal(n)),
    }
}

/// The place of an id of a filled block in millimetres: each number of [`place`] times the unit, the millimetres per 512th of a cube's
/// side, from 1/1048576 to 16. Cubes with a side of s millimetres have the unit `s / 512.0`. Where the unit is a power of two the
/// products are exact, elsewhere each is rounded once, to within one part in 2^53: both are proved.
pub fn place_mm(sizes: [u32; 3], cuts: &[u8], state: &[u8], id: u32, unit: f64) -> Result<[f64; 3], Refusal> {
    let p = raw::place_mm(sizes, cuts, state, id, unit);
    match p.number {
        0 => Ok([p.point.x, p.point.y, p.point.z]),
        13 => Err(Refusal::Unit),
        n => Err(place_refusal(n)),
    }
}

/// The refusals that the place of an id has in steps and in millimetres alike.
fn place_refusal(number: u32) -> Refusal {
    match number {
        1 => Refusal::Size,
        3 => Refusal::Cuts,
        4 => Refusal::State,
        8 => Refusal::Corner,
        9 => Refusal::Code,
        n => Refusal::Other(n),
    }
}

/// Numbers the nodes of rows, for programs that refuse ids with holes: each id in the row table is a node once, and nodes have numbers from
/// 0 on by ascending id. Answers how many there are.
///
/// Node k has four numbers in the node table: `nodes[4 * k]` is its id, and the three after it are its [`place`]. Each entry of the row table
/// becomes its id's node number, so `nodes[4 * rows[i] as usize]` is the id again. Entries of the node table past the last node stay.
///
/// The row table is just the rows, four entries each: every entry is taken for an id, so a second call on rewritten rows would take node
/// numbers for ids. Any rows are taken, not only those that [`fill`] wrote. With an empty node table nothing is written and
/// [`Refusal::NodeTable`] says how many nodes there are, unless there are none. Four times the row table's length, or 32N if that is less,
/// always suffices. A refusal changes neither table. The call takes about 122 KiB of stack.
pub fn nodes(sizes: [u32; 3], cuts: &[u8], state: &[u8], rows: &mut [u32], nodes: &mut [u32]) -> Result<u64, Refusal> {
    let n = raw::nodes(sizes, cuts, state, rows, nodes);
    match n.number {
        0 => Ok(n.nodes),
        1 => Err(Refusal::Size),
        3 => Err(Refusal::Cuts),
        4 => Err(Refusal::State),
        8 => Err(Refusal::CornerAt(n.place)),
        9 => Err(Refusal::CodeAt(n.place)),
        10 => Err(Refusal::NodeTable { nodes: n.nodes }),
        15 => Err(Refusal::Rows),
        number => Err(Refusal::Other(number)),
    }
}

/// Reads a block file from the start of the bytes into the first N samples and the first 7N cut bytes of the lent tables.
pub fn read(bytes: &[u8], samples: &mut [i16], cuts: &mut [u8]) -> Result<BlockRead, Refusal> {
    let r = raw::read(bytes, samples, cuts);
    match r.number {
        0 => Ok(BlockRead { sizes: [r.nx, r.ny, r.nz], end: r.end }),
        1 => Err(Refusal::Size),
        11 => Err(Refusal::File),
        12 => Err(Refusal::Room),
        n => Err(Refusal::Other(n)),
    }
}
