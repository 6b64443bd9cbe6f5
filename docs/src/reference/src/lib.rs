//! An independent reference implementation of document 01, "Stuffing a
//! scanned block with tetrahedra" (uniform isosurface stuffing), and of
//! requests F-1 to F-9 of document 02, "Customer requests after the base".
//!
//! It was written from these documents, the paper that document 01 cites and
//! IEEE 754 alone, to be compared with another implementation: in its answers
//! and in its time.
//!
//! | Module | Meaning |
//! |---|---|
//! | [`lattice`] | points, numbers, directions, rim (plain arithmetic) |
//! | [`cut`] | cut bytes, violation with its squared distance, codes, places of cuts |
//! | [`state`] | state bytes: which are a move, and which is the mark of a point on the skin |
//! | [`refusal`] | the refusals' numbers |
//! | [`fill`] | filling a block with a band, written for speed |
//! | [`strides`], [`mark`], [`bytes`], [`warp`], [`stencil`], [`emit`] | the steps of the fast filling |
//! | [`mend`], [`bits`] | mending a cut table with a band, written for speed |
//! | [`nodes`] | the node table and the rows as node numbers, written for speed |
//! | [`plain`] | filling a block and mending a cut table with a band, and the node table, sentence by sentence: the oracle |
//! | [`place`] | measures of a block and the place of an id |
//! | [`metric`] | the place of an id in millimetres, with floats and without |
//! | [`block`], [`blockfile`] | a block, its file, the bench program's output |
//! | [`report`] | the volume report's output for files one after another |
//! | [`check`] | brute-force check of the finished mesh (demand 3) |
//! | [`boundary`] | brute-force check of the faces in one row only: their volume, their edges |
//! | [`random`], [`generate`], [`damage`], [`shapes`] | inputs for tests and timing: blocks, bands, calls |
//!
//! The fast filling and the plain one share the counts of points, the seven
//! directions, the test of violation and the number 15, which the given cases of
//! document 01 and those of `tests/marks.rs` pin down; for the rest each has its
//! own code, the labels too, which a band can make zero since request F-3 and
//! which the rim and the cut bytes are tested by since request F-9, and which
//! points have 15 since request F-8. [`plain`] also keeps the choice that points
//! made before request F-2, the state byte that unmoved points had before request
//! F-8 and the filling that tested raw samples before request F-9, for
//! comparison. The two mendings share the counts of points and the seven
//! directions only, and the two numberings of nodes the counts of points, the
//! seven directions, the test of violation and the number 15.

#![forbid(unsafe_code)]
#![warn(missing_docs)]

pub mod bits;
pub mod block;
pub mod blockfile;
pub mod boundary;
pub mod bytes;
pub mod check;
pub mod cut;
pub mod damage;
pub mod emit;
pub mod fill;
pub mod generate;
pub mod lattice;
pub mod mark;
pub mod mend;
pub mod metric;
pub mod nodes;
pub mod place;
pub mod plain;
pub mod random;
pub mod refusal;
pub mod report;
pub mod shapes;
pub mod state;
pub mod stencil;
pub mod strides;
pub mod warp;
