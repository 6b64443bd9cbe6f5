//! Random valid blocks (document 01, "The block"), in several mixes of labels
//! and with cut bytes often at the limits of violation; random bands (document
//! 02, request F-3), and blocks made valid with a band (request F-9). And blocks
//! with a worn cut table (request F-4), which need mending, and the sizes of
//! samples at which mending is hardest.

use crate::block::Block;
use crate::fill::LARGEST_BAND;
use crate::lattice::{Edge, Lattice};
use crate::plain::label;
use crate::random::Random;

/// How the labels of a block are mixed.
#[derive(Clone, Copy, Debug, PartialEq, Eq)]
pub enum Mix {
    /// Nearly everything off the rim is plus.
    Dense,
    /// Few points are plus.
    Sparse,
    /// Plus and minus alike, some zeros.
    Even,
    /// Mostly zeros.
    Zeros,
    /// Plates one or two cubes thin, square to one axis.
    Ribs,
    /// A ball anywhere in the block.
    Ball,
    /// One grid plus, the other minus: as many cuts as there can be.
    Checker,
}

/// All mixes.
pub const MIXES: [Mix; 7] = [
    Mix::Dense,
    Mix::Sparse,
    Mix::Even,
    Mix::Zeros,
    Mix::Ribs,
    Mix::Ball,
    Mix::Checker,
];

/// How the cut bytes are drawn.
#[derive(Clone, Copy, Debug, PartialEq, Eq)]
pub enum Cutting {
    /// Mostly between the limits, so that few points move.
    Calm,
    /// Only at the limits and the ends.
    Limits,
    /// Anything, often at the limits.
    Wild,
    /// Few different ones, two in three of them near an end: many cuts violate
    /// one point, and often two are as near or almost. For [`crowded_block`].
    Close,
}

/// The ways to draw cut bytes for [`any_block`].
pub const CUTTINGS: [Cutting; 3] = [Cutting::Calm, Cutting::Limits, Cutting::Wild];

/// The bytes next to a limit of violation, and the outermost ones.
pub const LIMIT_BYTES: [u8; 10] = [1, 63, 64, 105, 106, 150, 151, 192, 193, 255];

/// Distances from an end, in 256ths, for [`Cutting::Close`]. On a long edge 13
/// is just farther than 15 on a short one (676 and 675), 45 and 58 just nearer
/// than 52 and 67 (8,100 and 8,112; 13,456 and 13,467), and 60 is farther than
/// 66 (14,400 and 13,068).
pub const CLOSE: [u8; 8] = [13, 15, 45, 52, 58, 67, 60, 66];

/// A random valid block with sizes from 1 to `largest`.
pub fn any_block(random: &mut Random, largest: u32) -> Block {
    let sizes = [0; 3].map(|_| any_size(random, largest));
    let mix = random.pick(&MIXES);
    let cutting = random.pick(&CUTTINGS);
    block(random, sizes, mix, cutting)
}

/// A random valid block with sizes from 2 to `largest` in which many cuts
/// violate one point.
pub fn crowded_block(random: &mut Random, largest: u32) -> Block {
    let sizes = [0; 3].map(|_| any_size(random, largest).max(2));
    let mix = random.pick(&MIXES);
    block(random, sizes, mix, Cutting::Close)
}

/// A random valid block with sizes from 2 to `largest` whose samples are of
/// very different sizes, many of them small or close to each other, and cuts
/// of all kinds between any two of them.
pub fn flickering_block(random: &mut Random, largest: u32) -> Block {
    let sizes = [0; 3].map(|_| any_size(random, largest).max(2));
    let mix = random.pick(&MIXES);
    let cutting = random.pick(&[CUTTINGS.as_slice(), &[Cutting::Close]].concat());
    let level = any_scale(random);
    let sample = |random: &mut Random, label| flickering_sample(random, label, level);
    block_of(random, sizes, mix, cutting, sample)
}

/// A random band for a valid block, often one at which a sample changes sides.
pub fn any_band(random: &mut Random, block: &Block) -> u32 {
    let size = i64::from(random.pick(&block.samples).unsigned_abs());
    let largest = i64::from(LARGEST_BAND);
    let band = match random.below(11) {
        0 => 0,
        1 => 1,
        2 => random.between(2, 9),
        3 | 4 => size,
        5 => size - 1,
        6 => size + 1,
        7 => largest - 1,
        8 => largest,
        9 => any_scale(random),
        _ => random.between(0, largest),
    };
    band.clamp(0, largest) as u32
}

/// A band that takes in 30 to 90 % of the block's points with a sample other
/// than zero, and some more if several are of the same size; the points left
/// over are rubber and air.
pub fn wide_band(random: &mut Random, block: &Block) -> u32 {
    let sizes = block.samples.iter().map(|s| u32::from(s.unsigned_abs()));
    let mut sizes: Vec<u32> = sizes.filter(|&size| size != 0).collect();
    sizes.sort();
    let percent = random.between(30, 90) as usize;
    let taken_in = (sizes.len() * percent).div_ceil(100);
    let largest_taken_in = sizes[..taken_in].last().copied();
    largest_taken_in.unwrap_or(0).min(LARGEST_BAND)
}

/// The block without the bytes that are stray by the labels of this band: those
/// beside points in the band, if it was valid at band 0, and then it is valid
/// with this band.
pub fn for_band(mut block: Block, band: u32) -> Block {
    let lattice = block.lattice().expect("allowed sizes");
    let needed = cuts_where_needed(&lattice, band, &block.samples, |_, _| 1);
    for (byte, needed) in block.cuts.iter_mut().zip(needed) {
        *byte *= needed;
    }
    block
}

/// The same with other noise: all, some or none of the samples in the band are
/// drawn anew, and have either sign, on the rim too. The labels stay.
pub fn for_band_with_noise(random: &mut Random, mut block: Block, band: u32) -> Block {
    let percent = random.pick(&[0, 30, 100]);
    for sample in &mut block.samples {
        if label(band, *sample) == 0 && random.percent(percent) {
            *sample = sample_in_band(random, band);
        }
    }
    for_band(block, band)
}

/// A sample in the band, often a small one or one of the band's own size.
fn sample_in_band(random: &mut Random, band: u32) -> i16 {
    let band = i64::from(band);
    let size = match random.below(4) {
        0 => random.between(0, 3).min(band),
        1 => band,
        _ => random.between(0, band),
    };
    random.pick(&[size, -size]) as i16
}

/// A random block with sizes from 1 to 5 and a cut table that mostly wants
/// mending: bytes are missing and stray anywhere, also where there is no edge,
/// and good bytes are of any value. One block in three has no rubber on its
/// rim, and filling accepts it once it is mended.
pub fn worn_block(random: &mut Random) -> Block {
    let sizes = [0; 3].map(|_| any_size(random, 5));
    worn_block_of(random, sizes)
}

/// The same with these sizes, which must be allowed ones.
pub fn worn_block_of(random: &mut Random, sizes: [u32; 3]) -> Block {
    let lattice = Lattice::new(sizes[0], sizes[1], sizes[2]).expect("allowed sizes");
    let samples = worn_samples(random, &lattice);
    let mut cuts = cuts_where_needed(&lattice, 0, &samples, |_, _| any_cut(random));
    wear(random, &mut cuts);
    Block {
        sizes,
        samples,
        cuts,
    }
}

fn worn_samples(random: &mut Random, lattice: &Lattice) -> Vec<i16> {
    let mix = random.pick(&MIXES);
    let shape = Shape::new(random, lattice);
    let sizing = Sizing::new(random);
    let has_rim_of_air = random.below(3) == 0;
    let sample = |point| {
        let mut label = random_label(random, lattice, mix, &shape, point);
        if has_rim_of_air && lattice.is_rim(point) && label > 0 {
            label = -1;
        }
        sizing.sample(random, label)
    };
    (0..lattice.point_count()).map(sample).collect()
}

/// A cut byte of any value, often an outermost one.
fn any_cut(random: &mut Random) -> u8 {
    match random.below(8) {
        0 => 1,
        1 => 255,
        _ => random.between(1, 255) as u8,
    }
}

/// Takes bytes away from a good cut table and puts others anywhere, or empties
/// it, or leaves it as it is, or makes every byte any other.
fn wear(random: &mut Random, cuts: &mut [u8]) {
    match random.below(10) {
        0 => return cuts.fill(0),
        1 => return,
        2 => return cuts.fill_with(|| random.bits() as u8),
        _ => {}
    }
    let missing = random.pick(&[0, 1, 10, 50, 100]);
    let stray = random.pick(&[0, 1, 10, 50, 100]);
    for byte in cuts {
        if *byte != 0 && random.percent(missing) {
            *byte = 0;
        } else if *byte == 0 && random.percent(stray) {
            *byte = any_cut(random);
        }
    }
}

/// How the sizes of the samples of one worn block are drawn.
enum Sizing {
    /// Mostly one size for plus and one for minus, with quotients that end in
    /// exactly one half.
    Halves { plus: i64, minus: i64 },
    /// Of any order of magnitude.
    AnyScale,
    /// 1 and the largest.
    Ends,
    /// The lowest sample, and sizes that show what its size is.
    Lowest,
    /// Only these, [`extreme_sizes`].
    Extreme(Vec<u16>),
}

impl Sizing {
    fn new(random: &mut Random) -> Sizing {
        match random.below(6) {
            0 => Sizing::halves(random),
            1 => Sizing::AnyScale,
            2 => Sizing::Ends,
            3 => Sizing::Lowest,
            _ => Sizing::Extreme(extreme_sizes().to_vec()),
        }
    }

    /// Two sizes that are odd 512ths of their sum.
    fn halves(random: &mut Random) -> Sizing {
        let part = random.between(1, 127);
        let least = (512 - 32768 / part).max(1);
        let most = (32767 / part).min(511);
        let between = random.between(least, most);
        let mut odd = random.pick(&[least, between, most]) | 1;
        if odd > most {
            odd -= 2;
        }
        Sizing::Halves {
            plus: odd * part,
            minus: (512 - odd) * part,
        }
    }

    /// A sample of this sign. The largest size is 32,768 for minus and one less
    /// for plus.
    fn sample(&self, random: &mut Random, label: i32) -> i16 {
        let size = match self {
            Sizing::Halves { .. } if random.percent(10) => any_scale(random),
            Sizing::Halves { plus, .. } if label > 0 => *plus,
            Sizing::Halves { minus, .. } => *minus,
            Sizing::AnyScale => any_scale(random),
            Sizing::Ends => random.pick(&[1, 32768]),
            Sizing::Lowest if label > 0 => random.pick(&BESIDE_LOWEST),
            Sizing::Lowest => 32768,
            Sizing::Extreme(sizes) => i64::from(random.pick(sizes)),
        };
        let sample = i64::from(label) * size;
        sample.clamp(-32768, 32767) as i16
    }
}

/// Some of the 60 sizes that show whether the size of -32768 was taken for
/// 32,767: their quotients with it, from either end, are so close to one half
/// that it matters.
pub const BESIDE_LOWEST: [i64; 10] = [
    3312, 4105, 7465, 9922, 13450, 16145, 20833, 25284, 30068, 32008,
];

/// Pairs of sizes whose quotients end in one half, as a part and an odd number:
/// the sum has 512 such parts, and the one size this many of them.
const HALVES: [(i64, i64); 18] = [
    (1, 3),
    (1, 127),
    (1, 253),
    (2, 5),
    (3, 101),
    (5, 255),
    (7, 77),
    (11, 199),
    (31, 15),
    (48, 9),
    (63, 19),
    (64, 3),
    (65, 9),
    (80, 111),
    (97, 255),
    (100, 201),
    (126, 253),
    (127, 255),
];

/// 200 different sizes of samples, from 1 to 32,768, with which mending is
/// hardest: both ends, powers of two and their neighbours, pairs whose
/// quotients must just be held within 1 to 255 or just not, pairs whose
/// quotients end in one half, [`BESIDE_LOWEST`], and others of all orders of
/// magnitude.
pub fn extreme_sizes() -> [u16; 200] {
    let mut wanted: Vec<i64> = vec![1, 32768];
    for power in (1..=15).map(|n| 1 << n) {
        wanted.extend([power, power - 1, power + 1]);
    }
    // Quotients are held from 511 times the other size on.
    for less in [1, 2, 3, 4, 5, 7, 9, 15, 16, 17, 31, 32, 33, 62, 63, 64] {
        wanted.extend([less, 511 * less, 511 * less - 1, 511 * less + 1]);
    }
    for (part, odd) in HALVES {
        wanted.extend([part * odd, part * (512 - odd)]);
    }
    wanted.extend(BESIDE_LOWEST);
    let mut random = Random::new(200);
    wanted.extend((0..1000).map(|_| any_scale(&mut random)));
    let mut sizes = Vec::new();
    for size in wanted {
        let allowed = (1..=32768).contains(&size);
        if allowed && sizes.len() < 200 && !sizes.contains(&(size as u16)) {
            sizes.push(size as u16);
        }
    }
    sizes.try_into().expect("200 sizes")
}

/// A random size; the larger of two, as small blocks are all rim.
fn any_size(random: &mut Random, largest: u32) -> u32 {
    let draw = |random: &mut Random| random.between(1, i64::from(largest)) as u32;
    draw(random).max(draw(random))
}

/// A random valid block of these sizes, which must be allowed ones.
pub fn block(random: &mut Random, sizes: [u32; 3], mix: Mix, cutting: Cutting) -> Block {
    block_of(random, sizes, mix, cutting, random_sample)
}

/// The same; `sample` gives each sample from its label, above zero only if the
/// label is.
fn block_of(
    random: &mut Random,
    sizes: [u32; 3],
    mix: Mix,
    cutting: Cutting,
    sample: impl Fn(&mut Random, i32) -> i16,
) -> Block {
    let lattice = Lattice::new(sizes[0], sizes[1], sizes[2]).expect("allowed sizes");
    let samples = random_samples(random, &lattice, mix, sample);
    let cuts = cuts_where_needed(&lattice, 0, &samples, |_, _| random_cut(random, cutting));
    Block {
        sizes,
        samples,
        cuts,
    }
}

/// A cut table with bytes exactly where they must be with this band; `byte`
/// gives each from the samples at the edge's start and end.
pub fn cuts_where_needed(
    lattice: &Lattice,
    band: u32,
    samples: &[i16],
    mut byte: impl FnMut(i16, i16) -> u8,
) -> Vec<u8> {
    let mut cuts = vec![0; 7 * samples.len()];
    for start in 0..samples.len() {
        for direction in 0..7 {
            let Some(end) = lattice.end(start, direction) else {
                continue;
            };
            let (a, b) = (samples[start], samples[end]);
            if label(band, a) * label(band, b) < 0 {
                cuts[Edge { start, direction }.offset()] = byte(a, b);
            }
        }
    }
    cuts
}

fn random_cut(random: &mut Random, cutting: Cutting) -> u8 {
    let at_limit = match cutting {
        Cutting::Calm => 5,
        Cutting::Limits => 100,
        Cutting::Wild => 50,
        Cutting::Close => 0,
    };
    if random.percent(at_limit) {
        return random.pick(&LIMIT_BYTES);
    }
    match cutting {
        Cutting::Calm => random.between(106, 150) as u8,
        Cutting::Close => {
            let near = random.pick(&CLOSE);
            let from_far_end = near.wrapping_neg();
            random.pick(&[near, from_far_end, 128])
        }
        _ => random.between(1, 255) as u8,
    }
}

fn random_samples(
    random: &mut Random,
    lattice: &Lattice,
    mix: Mix,
    sample: impl Fn(&mut Random, i32) -> i16,
) -> Vec<i16> {
    let shape = Shape::new(random, lattice);
    (0..lattice.point_count())
        .map(|point| {
            let mut label = random_label(random, lattice, mix, &shape, point);
            if lattice.is_rim(point) && label > 0 {
                label = random.pick(&[-1, -1, 0]);
            }
            sample(random, label)
        })
        .collect()
}

/// A sample with this sign, often an extreme one.
fn random_sample(random: &mut Random, label: i32) -> i16 {
    match label {
        1 => match random.below(4) {
            0 => 1,
            1 => 32767,
            _ => random.between(1, 32767) as i16,
        },
        -1 => match random.below(4) {
            0 => -1,
            1 => -32768,
            _ => random.between(-32768, -1) as i16,
        },
        _ => 0,
    }
}

/// A sample with this sign, or zero, of any size: at most 3, at most one from
/// the block's level, an extreme one, or any other.
fn flickering_sample(random: &mut Random, label: i32, level: i64) -> i16 {
    let size = match random.below(8) {
        0 | 1 => random.between(0, 3),
        2 | 3 => level + random.between(-1, 1),
        4 => random.between(32766, 32768),
        5 => random.between(1, 32768),
        _ => any_scale(random),
    };
    let sample = i64::from(label) * size;
    sample.clamp(-32768, 32767) as i16
}

/// A number from 1 to 32768, of any order of magnitude.
fn any_scale(random: &mut Random) -> i64 {
    let scale = 1 << random.between(0, 15);
    random.between(1, scale)
}

/// What ribs and balls look like in one block.
struct Shape {
    axis: usize,
    phase: i32,
    period: i32,
    thick: i32,
    centre: [i32; 3],
    radius: i32,
}

impl Shape {
    fn new(random: &mut Random, lattice: &Lattice) -> Shape {
        let wide = lattice.cubes().map(|n| 2 * n as i64);
        Shape {
            axis: random.below(3),
            phase: random.between(0, 5) as i32,
            period: random.between(5, 8) as i32,
            thick: random.between(1, 4) as i32,
            centre: wide.map(|w| random.between(0, w) as i32),
            radius: random.between(1, wide[0].max(wide[1]).max(wide[2])) as i32,
        }
    }

    /// The sign of the ball's squared radius less the squared distance.
    fn in_ball(&self, at: [i32; 3]) -> i32 {
        let square = |n: usize| (at[n] - self.centre[n]).pow(2);
        (self.radius.pow(2) - square(0) - square(1) - square(2)).signum()
    }

    fn in_rib(&self, at: [i32; 3]) -> bool {
        (at[self.axis] + self.phase) % self.period < self.thick
    }
}

/// A label as 1, -1 or 0; the rim is seen to by the caller.
fn random_label(
    random: &mut Random,
    lattice: &Lattice,
    mix: Mix,
    shape: &Shape,
    point: usize,
) -> i32 {
    let at = lattice.coordinates(point);
    let (plus, zero) = match mix {
        Mix::Dense => (90, 3),
        Mix::Sparse => (10, 10),
        Mix::Even => (45, 10),
        Mix::Zeros => (25, 60),
        Mix::Ribs if shape.in_rib(at) => (95, 2),
        Mix::Ribs => (2, 3),
        Mix::Ball => return shape.in_ball(at),
        Mix::Checker if point < lattice.corner_count() => (97, 1),
        Mix::Checker => (2, 1),
    };
    match random.below(100) {
        n if n < plus => 1,
        n if n < plus + zero => 0,
        _ => -1,
    }
}
