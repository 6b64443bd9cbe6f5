//! The shapes for timing: a sphere, plain air and a part with thin ribs. And a
//! part to look at: an engine mount.
//!
//! A sample is the signed distance to the skin in 512ths of a cube (the grid
//! of places), rounded to the nearest whole number. A cut byte is the linear
//! interpolation between its edge's two samples, rounded half up and held
//! within 1 to 255. The count of rows depends a little on these choices: with
//! coarser samples, or cut bytes rounded down, some points move that would
//! not have moved, and the other way round. With samples as fine as these or
//! finer the sphere of radius 28.8 in 64 cubes has 1,218,864 rows.

use crate::block::Block;
use crate::fill::LARGEST_BAND;
use crate::generate::cuts_where_needed;
use crate::lattice::Lattice;

/// The size of the blocks for timing.
pub const SIZE: u32 = 64;

/// A sphere of radius 28.8 cubes in the middle of the block.
pub fn sphere() -> Block {
    let middle = f64::from(SIZE) / 2.0;
    from_distance([SIZE; 3], |at| {
        let square = |n: usize| (at[n] - middle).powi(2);
        28.8 - (square(0) + square(1) + square(2)).sqrt()
    })
}

/// Nothing but air: every sample -1, no cuts.
pub fn air() -> Block {
    let lattice = Lattice::new(SIZE, SIZE, SIZE).expect("an allowed size");
    let n = lattice.point_count();
    Block {
        sizes: [SIZE; 3],
        samples: vec![-1; n],
        cuts: vec![0; 7 * n],
    }
}

/// A part of leaning ribs, one to two cubes thin, on a thin plate.
pub fn ribs() -> Block {
    from_distance([SIZE; 3], |[x, y, z]| {
        let upright = rib(x + 0.13 * y + 0.07 * z, 4.6);
        let crossing = rib(y - 0.11 * x + 0.05 * z, 9.3);
        let plate = 1.0 - (z - 8.4).abs();
        let edge = |c: f64| (c - 2.5).min(f64::from(SIZE) - 2.5 - c);
        let inside = edge(x).min(edge(y)).min(edge(z));
        upright.max(crossing).max(plate).min(inside)
    })
}

/// The same block with an empty cut table, for mending (document 02, request
/// F-4).
pub fn emptied(mut block: Block) -> Block {
    block.cuts.fill(0);
    block
}

/// How deep a place lies in the nearest of many parallel ribs; their
/// thickness goes round from 1 to 2 cubes.
fn rib(across: f64, spacing: f64) -> f64 {
    let nearest = (across / spacing).round();
    let thickness = 1.0 + nearest.rem_euclid(5.0) / 4.0;
    thickness / 2.0 - (across - nearest * spacing).abs()
}

/// An engine mount: a ring and a hub, higher than the ring and with a hole for
/// the bolt, held in it by three legs, all joined by fillets.
pub fn mount() -> Block {
    let [middle, height] = [16.0, 20.0];
    from_distance([32, 32, 20], |[x, y, z]| {
        let [x, y, z] = [x - middle, y - middle, z - height / 2.0];
        let radius = x.hypot(y);
        let ring = rounded_min(1.4 - (radius - 13.0).abs(), 6.0 - z.abs());
        let hub = rounded_min(1.9 - (radius - 5.3).abs(), 8.3 - z.abs());
        let leg = |turn: f64| {
            let (sine, cosine) = (std::f64::consts::TAU * turn / 3.0 + 0.67).sin_cos();
            let along = x * cosine + y * sine;
            let across = 1.7 - (y * cosine - x * sine).abs();
            across.min((along - 5.0).min(12.5 - along))
        };
        let legs = rounded_min(leg(0.0).max(leg(1.0)).max(leg(2.0)), 4.6 - z.abs());
        rounded_max(rounded_max(ring, legs), hub)
    })
}

/// How far the fillets and rounded edges of the mount reach, in cubes.
const FILLET: f64 = 1.2;

/// The smaller of two distances, with the edge where they meet rounded off.
fn rounded_min(a: f64, b: f64) -> f64 {
    let near = (FILLET - (a - b).abs()).max(0.0) / FILLET;
    a.min(b) - near * near * FILLET / 4.0
}

/// The larger of two distances, with a fillet where they meet.
fn rounded_max(a: f64, b: f64) -> f64 {
    -rounded_min(-a, -b)
}

/// All rubber but the rim, in 6 by 6 by 6 cubes, with all cuts halfway and no
/// sample of zero: no point moves.
pub fn solid() -> Block {
    let lattice = Lattice::new(6, 6, 6).expect("allowed sizes");
    let sample = |point| if lattice.is_rim(point) { -5 } else { 5 };
    let samples: Vec<i16> = (0..lattice.point_count()).map(sample).collect();
    let cuts = cuts_where_needed(&lattice, 0, &samples, |_, _| 128);
    Block {
        sizes: [6; 3],
        samples,
        cuts,
    }
}

/// A block from a distance, in cubes, that is above zero inside the part. The
/// rim must lie outside it.
fn from_distance(sizes: [u32; 3], distance: impl Fn([f64; 3]) -> f64) -> Block {
    let [nx, ny, nz] = sizes;
    let lattice = Lattice::new(nx, ny, nz).expect("allowed sizes");
    let samples: Vec<i16> = (0..lattice.point_count())
        .map(|point| {
            let at = lattice.coordinates(point).map(|c| f64::from(c) / 2.0);
            let steps = (512.0 * distance(at)).round();
            steps.clamp(-32768.0, 32767.0) as i16
        })
        .collect();
    let cuts = cuts_where_needed(&lattice, 0, &samples, interpolate);
    Block {
        sizes,
        samples,
        cuts,
    }
}

/// The least band (document 02, request F-3) that takes in at least a tenth of
/// the block's points, or the largest one if none does.
pub fn tenth_band(block: &Block) -> u32 {
    let sizes = block.samples.iter().map(|s| u32::from(s.unsigned_abs()));
    let mut sizes: Vec<u32> = sizes.collect();
    sizes.sort();
    let tenth = sizes.len().div_ceil(10);
    let largest_taken_in = sizes[..tenth].last().copied();
    largest_taken_in.unwrap_or(0).min(LARGEST_BAND)
}

/// The cut byte between two samples of opposite sign.
fn interpolate(start: i16, end: i16) -> u8 {
    let (a, b) = (i32::from(start).abs(), i32::from(end).abs());
    let half_up = (512 * a + a + b) / (2 * (a + b));
    half_up.clamp(1, 255) as u8
}

#[cfg(test)]
mod tests {
    use super::*;

    #[test]
    fn interpolation_rounds_half_up_and_stays_a_cut() {
        assert_eq!(interpolate(5, -5), 128);
        assert_eq!(interpolate(-1, 511), 1);
        assert_eq!(interpolate(-3, 509), 2);
        assert_eq!(interpolate(1, -32768), 1);
        assert_eq!(interpolate(-32768, 1), 255);
    }
}
