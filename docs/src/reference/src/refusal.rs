//! The numbers of the refusals: 1 to 12 from document 01, "Calls and
//! refusals"; 13, 14 and 15 from document 02, requests F-1, F-3 and F-6.

/// No refusal: the call was carried out.
pub const NONE: u32 = 0;
/// A size outside 1 to 64.
pub const SIZE: u32 = 1;
/// Not N samples.
pub const SAMPLES: u32 = 2;
/// Cut table not 7N bytes.
pub const CUTS: u32 = 3;
/// State table not N bytes.
pub const STATE: u32 = 4;
/// A rim point's label is plus: its sample is above the band.
pub const RIM: u32 = 5;
/// A cut byte is zero that must not be.
pub const GAP: u32 = 6;
/// A cut byte is non-zero that must be zero.
pub const STRAY: u32 = 7;
/// The id names no corner.
pub const CORNER: u32 = 8;
/// The point's state byte is not believable.
pub const CODE: u32 = 9;
/// The row table holds fewer than 4T numbers, or the node table fewer than four
/// numbers a node.
pub const TABLE: u32 = 10;
/// Malformed block file.
pub const FILE: u32 = 11;
/// A size of 6 to 64 in the bench program.
pub const BENCH: u32 = 12;
/// The unit is not a number from 1/1,048,576 to 16.
pub const UNIT: u32 = 13;
/// The band is above 32767.
pub const BAND: u32 = 14;
/// The row table's length is not a multiple of four.
pub const ROWS: u32 = 15;
