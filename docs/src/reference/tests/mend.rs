//! Requests F-4 and F-9: mending a cut table, with a band. The fast mending
//! against the plain one, and both against this file's own words: which bytes
//! must be non-zero from the coordinates of document 01 and the labels, and how
//! far a byte filled in may lie from the exact quotient, by whole numbers alone.

mod both_mendings;

use both_mendings::{answer, fill_number, mend_both, run};
use reference::block::Block;
use reference::damage::{mend_call, BAD_BANDS, MEND_DAMAGES};
use reference::generate::{any_band, extreme_sizes, for_band, wide_band};
use reference::generate::{worn_block, worn_block_of, BESIDE_LOWEST};
use reference::mend::{mend, Mended};
use reference::plain;
use reference::random::Random;
use reference::shapes;
use std::collections::HashMap;

/// The doubled coordinates of all points of a block, in ascending number.
fn coordinates(sizes: [u32; 3]) -> Vec<[i32; 3]> {
    let [x, y, z] = sizes.map(|size| 2 * size as i32);
    let mut list = Vec::new();
    for first in [0, 1] {
        for z in (first..=z - first).step_by(2) {
            for y in (first..=y - first).step_by(2) {
                list.extend((first..=x - first).step_by(2).map(|x| [x, y, z]));
            }
        }
    }
    list
}

/// Where an edge's byte stands and which points the edge joins.
struct Edge {
    offset: usize,
    start: usize,
    end: usize,
}

/// All edges of a block, in ascending offset.
fn edges(sizes: [u32; 3]) -> Vec<Edge> {
    let directions = [
        [2, 0, 0],
        [0, 2, 0],
        [0, 0, 2],
        [1, 1, 1],
        [-1, 1, 1],
        [1, -1, 1],
        [-1, -1, 1],
    ];
    let coordinates = coordinates(sizes);
    let numbers = coordinates.iter().enumerate().map(|(n, &at)| (at, n));
    let numbers: HashMap<[i32; 3], usize> = numbers.collect();
    let mut list = Vec::new();
    for (start, at) in coordinates.iter().enumerate() {
        for (d, step) in directions.iter().enumerate() {
            let there = [at[0] + step[0], at[1] + step[1], at[2] + step[2]];
            if let Some(&end) = numbers.get(&there) {
                let offset = 7 * start + d;
                list.push(Edge { offset, start, end });
            }
        }
    }
    list
}

/// For each offset the sizes of the start's and the end's sample if its byte
/// must be non-zero, whether there is an edge at all, and whether it is one with
/// samples of opposite signs of which one is in the band.
struct Rule {
    sizes: Vec<Option<(i64, i64)>>,
    is_edge: Vec<bool>,
    is_beside_band: Vec<bool>,
}

fn rule(block: &Block, band: u32) -> Rule {
    let mut sizes = vec![None; block.cuts.len()];
    let mut is_edge = vec![false; block.cuts.len()];
    let mut is_beside_band = vec![false; block.cuts.len()];
    for edge in edges(block.sizes) {
        let (a, b) = (block.samples[edge.start], block.samples[edge.end]);
        let (a, b) = (i64::from(a), i64::from(b));
        is_edge[edge.offset] = true;
        if a * b < 0 {
            let (a, b) = (a.abs(), b.abs());
            if a.min(b) > i64::from(band) {
                sizes[edge.offset] = Some((a, b));
            } else {
                is_beside_band[edge.offset] = true;
            }
        }
    }
    Rule {
        sizes,
        is_edge,
        is_beside_band,
    }
}

/// How a byte was filled in.
#[derive(Clone, Copy, Debug, PartialEq, Eq)]
enum Rounding {
    /// To the nearest whole number.
    Nearest,
    /// Up from exactly one half.
    HalfUp,
    /// Held to 1, which the quotient rounded is below.
    HeldTo1,
    /// Held to 255, which the quotient rounded is above.
    HeldTo255,
}

/// Checks a byte filled in between samples of these sizes: within half a step
/// of the exact quotient, or under one step where it was held.
///
/// The quotient is 256a / (a + b). Counted in parts, 2(a + b) of them a step,
/// it is 512a.
fn check_filled(a: i64, b: i64, byte: u8) -> Rounding {
    let byte = i64::from(byte);
    let (step, quotient) = (2 * (a + b), 512 * a);
    let above = step * byte - quotient;
    if 2 * quotient < step {
        assert_eq!(byte, 1, "{a} {b}");
        assert!(0 < above && above < step, "{a} {b}");
        Rounding::HeldTo1
    } else if 2 * quotient >= 511 * step {
        assert_eq!(byte, 255, "{a} {b}");
        assert!(-step < above && above < 0, "{a} {b}");
        Rounding::HeldTo255
    } else {
        assert!((1..=255).contains(&byte), "{a} {b} {byte}");
        assert!(-step < 2 * above && 2 * above <= step, "{a} {b} {byte}");
        if 2 * above == step {
            Rounding::HalfUp
        } else {
            Rounding::Nearest
        }
    }
}

/// What was seen on some blocks.
#[derive(Debug, Default)]
struct Seen {
    blocks: usize,
    with_band: usize,
    filled: u64,
    cleared: u64,
    good: u64,
    /// Bytes cleared where there is no edge.
    off_edges: u64,
    /// Bytes cleared, and left at zero, on edges with an end in the band whose
    /// samples are of opposite signs.
    cleared_beside_band: u64,
    zero_beside_band: u64,
    /// Bytes filled in on long edges and on short ones.
    long: u64,
    short: u64,
    /// How bytes were filled in.
    halves: u64,
    held_to_1: u64,
    held_to_255: u64,
    equal_sizes: u64,
    /// Bytes filled in beside a sample -32768, and those that would be others
    /// if its size were 32,767.
    beside_lowest: u64,
    by_its_size: u64,
    /// Tables without a byte to change, and empty ones with some.
    faultless: usize,
    empty: usize,
    /// Blocks that filling refuses with 5 whatever the table, and those that it
    /// refuses with 6 and 7 before mending and accepts after it.
    with_rim: usize,
    accepted_after_6: usize,
    accepted_after_7: usize,
}

impl Seen {
    fn check(&mut self, block: &Block, band: u32) {
        let (mended, cuts) = mend_both(block, band);
        let (filled, cleared) = self.check_bytes(block, band, &cuts);
        assert_eq!(mended, answer(filled, cleared));
        self.blocks += 1;
        self.with_band += usize::from(band > 0);
        self.filled += filled;
        self.cleared += cleared;
        self.faultless += usize::from(filled + cleared == 0);
        let was_empty = block.cuts.iter().all(|&byte| byte == 0);
        self.empty += usize::from(was_empty && filled > 0);
        let again = Block {
            cuts,
            ..block.clone()
        };
        let (second, same) = mend_both(&again, band);
        assert_eq!(second, answer(0, 0));
        assert!(same == again.cuts);
        self.check_filling(block, &again, band, mended);
    }

    /// Checks every byte; answers the counts of gaps and stray bytes before.
    fn check_bytes(&mut self, block: &Block, band: u32, after: &[u8]) -> (u64, u64) {
        let rule = rule(block, band);
        let (mut filled, mut cleared) = (0, 0);
        for (offset, (&old, &new)) in block.cuts.iter().zip(after).enumerate() {
            match rule.sizes[offset] {
                Some((a, b)) if old == 0 => {
                    filled += 1;
                    self.count_filled(offset, a, b, new);
                }
                Some(_) => {
                    assert_eq!(old, new);
                    self.good += 1;
                }
                None => {
                    assert_eq!(new, 0);
                    cleared += u64::from(old != 0);
                    self.off_edges += u64::from(old != 0 && !rule.is_edge[offset]);
                    let beside = rule.is_beside_band[offset];
                    self.cleared_beside_band += u64::from(beside && old != 0);
                    self.zero_beside_band += u64::from(beside && old == 0);
                }
            }
        }
        (filled, cleared)
    }

    fn count_filled(&mut self, offset: usize, a: i64, b: i64, byte: u8) {
        match check_filled(a, b, byte) {
            Rounding::Nearest => {}
            Rounding::HalfUp => self.halves += 1,
            Rounding::HeldTo1 => self.held_to_1 += 1,
            Rounding::HeldTo255 => self.held_to_255 += 1,
        }
        if offset % 7 < 3 {
            self.long += 1;
        } else {
            self.short += 1;
        }
        if a == b {
            assert_eq!(byte, 128);
            self.equal_sizes += 1;
        }
        if a == 32768 || b == 32768 {
            self.beside_lowest += 1;
            self.by_its_size += u64::from(shows_lowest(a, b));
        }
    }

    /// Filling with the same band refuses no byte of the mended table, and of
    /// the old one exactly if there was something to mend.
    fn check_filling(&mut self, old: &Block, new: &Block, band: u32, mended: Mended) {
        let before = fill_number(old, band, &old.cuts);
        let after = fill_number(new, band, &new.cuts);
        assert!([0, 5, 10].contains(&after), "{after}");
        assert_eq!(after == 5, before == 5);
        match before {
            5 => self.with_rim += 1,
            6 => self.accepted_after_6 += 1,
            7 => self.accepted_after_7 += 1,
            _ => assert_eq!(mended, answer(0, 0)),
        }
        assert!(before != 6 || mended.filled > 0);
        assert!(before != 7 || mended.cleared > 0);
    }
}

/// The quotient rounded, in this file's own words, and held.
fn byte_between(a: i64, b: i64) -> i64 {
    let rounded = (512 * a + a + b).div_euclid(2 * (a + b));
    rounded.clamp(1, 255)
}

/// Whether the byte would be another one if the size 32,768 were 32,767.
fn shows_lowest(a: i64, b: i64) -> bool {
    byte_between(a, b) != byte_between(a.min(32767), b.min(32767))
}

/// Every second block is mended with a band. With `--nocapture` the counts are
/// seen.
fn seen_on(seed: u64, blocks: usize, block: impl Fn(usize, &mut Random) -> Block) -> Seen {
    let mut random = Random::new(seed);
    let mut seen = Seen::default();
    for n in 0..blocks {
        let block = block(n, &mut random);
        let band = match n % 4 {
            1 => any_band(&mut random, &block).max(1),
            3 => wide_band(&mut random, &block).max(1),
            _ => 0,
        };
        seen.check(&block, band);
    }
    println!("{seen:?}");
    assert_eq!((seen.blocks, seen.with_band), (blocks, blocks / 2));
    seen
}

#[test]
fn on_worn_blocks() {
    let seen = seen_on(71, 12_000, |_, random| worn_block(random));
    assert!(seen.filled > 400_000 && seen.good > 800_000, "{seen:?}");
    assert!(seen.cleared > 4_000_000, "{seen:?}");
    assert!(seen.off_edges > 1_200_000, "{seen:?}");
    assert!(seen.cleared_beside_band > 400_000, "{seen:?}");
    assert!(seen.zero_beside_band > 200_000, "{seen:?}");
    assert!(seen.long > 120_000 && seen.short > 250_000, "{seen:?}");
    assert!(seen.halves > 40_000, "{seen:?}");
    assert!(seen.held_to_1 > 25_000, "{seen:?}");
    assert!(seen.held_to_255 > 30_000, "{seen:?}");
    assert!(seen.equal_sizes > 15_000, "{seen:?}");
    assert!(seen.beside_lowest > 100_000, "{seen:?}");
    assert!(seen.by_its_size > 60_000, "{seen:?}");
    assert!(seen.faultless > 1_200 && seen.empty > 1_000, "{seen:?}");
    assert!(seen.with_rim > 6_000, "{seen:?}");
    assert!(seen.accepted_after_6 > 500, "{seen:?}");
    assert!(seen.accepted_after_7 > 3_500, "{seen:?}");
}

#[test]
fn on_every_size_up_to_three() {
    let seen = seen_on(72, 27 * 40, |n, random| {
        let sizes = [n % 3 + 1, n / 3 % 3 + 1, n / 9 % 3 + 1];
        worn_block_of(random, sizes.map(|size| size as u32))
    });
    assert!(seen.filled > 4_000 && seen.cleared > 70_000, "{seen:?}");
}

#[test]
fn on_long_blocks() {
    let all = [
        [64, 1, 1],
        [1, 64, 1],
        [1, 1, 64],
        [64, 4, 3],
        [3, 64, 4],
        [4, 3, 64],
        [63, 3, 3],
        [33, 7, 5],
        [17, 16, 6],
    ];
    let seen = seen_on(73, 20 * all.len(), |n, random| {
        worn_block_of(random, all[n % all.len()])
    });
    assert!(seen.filled > 50_000 && seen.cleared > 500_000, "{seen:?}");
    assert!(seen.cleared_beside_band > 80_000, "{seen:?}");
}

/// The block of the given case with an empty cut table, one sample in its
/// middle, at point 13, and another one everywhere else.
fn star(middle: i16, around: i16) -> Block {
    let mut samples = vec![around; 35];
    samples[13] = middle;
    Block {
        sizes: [2, 2, 2],
        samples,
        cuts: vec![0; 7 * 35],
    }
}

/// The offsets of the edges that start in the middle, one for each direction,
/// and of those that end there.
const FROM_MIDDLE: [usize; 7] = [91, 92, 93, 94, 95, 96, 97];
const TO_MIDDLE: [usize; 7] = [84, 71, 30, 192, 200, 208, 216];

/// Mends the star of two samples of opposite sign; answers the byte of the
/// edges from its middle, and that of the edges to it, and how they came about.
fn mend_star(middle: i16, around: i16) -> ([u8; 2], [Rounding; 2]) {
    let block = star(middle, around);
    let (mended, mut cuts) = mend_both(&block, 0);
    assert_eq!(mended, answer(14, 0));
    let bytes = [cuts[91], cuts[84]];
    for (offsets, byte) in [FROM_MIDDLE, TO_MIDDLE].into_iter().zip(bytes) {
        for offset in offsets {
            assert_eq!(cuts[offset], byte, "{middle} {around}");
            cuts[offset] = 0;
        }
    }
    assert!(cuts == block.cuts);
    let [a, b] = [middle, around].map(|sample| i64::from(sample).abs());
    let roundings = [check_filled(a, b, bytes[0]), check_filled(b, a, bytes[1])];
    (bytes, roundings)
}

/// Samples for stars, of these sizes in the middle and around it, the one above
/// zero or the other; 32,768 is the size of a sample below zero only.
fn signed(middle: u16, around: u16) -> Vec<(i16, i16)> {
    let [a, b] = [middle, around].map(i32::from);
    let allowed = [(a, -b), (-a, b)].into_iter();
    let allowed = allowed.filter(|&(a, b)| a <= 32767 && b <= 32767);
    allowed.map(|(a, b)| (a as i16, b as i16)).collect()
}

/// Either way round and with either sign, on all fourteen edges of a point.
#[test]
fn on_every_pair_of_extreme_sizes() {
    let mut stars = 0;
    let mut bytes = [0; 256];
    let mut roundings = [0; 4];
    for a in extreme_sizes() {
        for b in extreme_sizes() {
            for (middle, around) in signed(a, b) {
                let ([byte, _], [rounding, _]) = mend_star(middle, around);
                assert!(a != b || byte == 128);
                stars += 1;
                bytes[usize::from(byte)] += 1;
                roundings[rounding as usize] += 1;
            }
        }
    }
    println!("{roundings:?} {bytes:?}");
    assert_eq!(stars, 2 * 199 * 200);
    assert_eq!(bytes[0], 0);
    assert!(bytes[1..].iter().all(|&count| count > 30), "{bytes:?}");
    assert!(roundings[1..].iter().all(|&n| n > 120), "{roundings:?}");
}

/// Both ends, powers of two with their neighbours, and partners of 1.
#[test]
fn the_extreme_sizes() {
    let mut sizes = extreme_sizes();
    sizes.sort();
    assert_eq!((sizes[0], sizes[199]), (1, 32768));
    assert!(sizes.windows(2).all(|pair| pair[0] < pair[1]));
    for power in (1..=15).map(|n| 1u16 << n) {
        assert!(sizes.contains(&power) && sizes.contains(&(power - 1)));
        assert!(sizes.contains(&(power + 1)) || power == 32768);
    }
    assert!([510, 511, 512, 513].iter().all(|size| sizes.contains(size)));
    let size_of = |size: i64| size as u16;
    assert!(BESIDE_LOWEST
        .map(size_of)
        .iter()
        .all(|size| sizes.contains(size)));
}

/// All there are: both sizes are odd 512ths of the sum.
#[test]
fn every_quotient_that_ends_in_one_half() {
    let mut halves = 0;
    for part in 1..=127 {
        for odd in (1..512i32).step_by(2) {
            let sizes = [odd * part, (512 - odd) * part];
            if sizes.iter().any(|&size| size > 32767) {
                continue;
            }
            let [a, b] = sizes.map(|size| size as u16);
            for (middle, around) in signed(a, b) {
                let ([byte, _], [rounding, _]) = mend_star(middle, around);
                if odd < 511 {
                    let up = (odd + 1) / 2;
                    assert_eq!((i32::from(byte), rounding), (up, Rounding::HalfUp));
                } else {
                    assert_eq!((byte, rounding), (255, Rounding::HeldTo255));
                }
                halves += 1;
            }
        }
    }
    assert_eq!(halves, 45_164);
}

/// A size of 511 times the other is the limit on either side.
#[test]
fn the_limits_of_holding() {
    use Rounding::{HalfUp, HeldTo1, HeldTo255, Nearest};
    for less in 1..=64 {
        for (more, [from_less, from_more]) in [
            (511 * less - 1, [Nearest, Nearest]),
            (511 * less, [HalfUp, HeldTo255]),
            (511 * less + 1, [HeldTo1, HeldTo255]),
        ] {
            for (middle, around) in signed(less, more) {
                let expected = ([1, 255], [from_less, from_more]);
                assert_eq!(mend_star(middle, around), expected);
            }
            for (middle, around) in signed(more, less) {
                let expected = ([255, 1], [from_more, from_less]);
                assert_eq!(mend_star(middle, around), expected);
            }
        }
    }
}

/// The size of -32768 is 32,768; against 60 sizes that makes a difference.
#[test]
fn every_size_beside_the_lowest_sample() {
    let mut differ = Vec::new();
    for size in 1..=32767 {
        let stars = [signed(size, 32768), signed(32768, size)].concat();
        assert_eq!(stars.len(), 2);
        for (middle, around) in stars {
            mend_star(middle, around);
        }
        let size = i64::from(size);
        if shows_lowest(size, 32768) {
            assert!(shows_lowest(32768, size));
            differ.push(size);
        }
    }
    assert_eq!(differ.len(), 60);
    assert!(BESIDE_LOWEST.iter().all(|size| differ.contains(size)));
}

#[test]
fn by_hand() {
    for (middle, around, expected) in [
        (5, -5, [128, 128]),
        (1, -1, [128, 128]),
        (-32767, 32767, [128, 128]),
        // 256 / 4 and 3 * 256 / 4.
        (1, -3, [64, 192]),
        // 85.33 and 170.67.
        (100, -200, [85, 171]),
        // 0.5 and 255.5; 1.5 and 254.5.
        (1, -511, [1, 255]),
        (3, -509, [2, 255]),
        (-509, 3, [255, 2]),
        // 127.5 and 128.5.
        (255, -257, [128, 129]),
        (-257, 255, [129, 128]),
        // 0.499 and 255.501; 0.501 and 255.499.
        (1, -512, [1, 255]),
        (1, -510, [1, 255]),
        // 0.0078 and 255.9922.
        (1, -32768, [1, 255]),
        (-32768, 1, [255, 1]),
        (32767, -32768, [128, 128]),
        // 129.5006 and 126.4994, by the size of -32768.
        (32008, -32768, [126, 130]),
        (-32768, 32008, [130, 126]),
    ] {
        assert_eq!(mend_star(middle, around).0, expected, "{middle} {around}");
    }
}

#[test]
fn the_given_case() {
    let good = Block::given_case();
    assert_eq!(mend_both(&good, 0), (answer(0, 0), good.cuts.clone()));
    let empty = shapes::emptied(good.clone());
    assert_eq!(mend_both(&empty, 0), (answer(14, 0), good.cuts.clone()));
    // One byte missing, two too many, one of them where there is no edge; the
    // good byte 92 is not what it would be filled in as.
    let mut worn = good.clone();
    let [missing, edge, no_edge] = [91, 244, 98];
    let is_edge = rule(&good, 0).is_edge;
    assert!(is_edge[edge] && !is_edge[no_edge]);
    (worn.cuts[missing], worn.cuts[edge], worn.cuts[no_edge]) = (0, 255, 1);
    worn.cuts[92] = 200;
    let mut mended = good.cuts.clone();
    mended[92] = 200;
    assert_eq!(fill_number(&worn, 0, &worn.cuts), 6);
    assert_eq!(mend_both(&worn, 0), (answer(1, 2), mended));
    // A sample of zero beside rubber: the cut between them is stray.
    let mut zero = good.clone();
    zero.samples[14] = 0;
    let mut mended = good.cuts.clone();
    mended[91] = 0;
    assert_eq!(mend_both(&zero, 0), (answer(0, 1), mended.clone()));
    zero.cuts.fill(0);
    assert_eq!(mend_both(&zero, 0), (answer(13, 0), mended));
    // Without rubber every byte is stray, and without air.
    for sample in [-5, 0, 5] {
        worn.samples.fill(sample);
        worn.cuts.fill(7);
        assert_eq!(mend_both(&worn, 0), (answer(0, 245), vec![0; 245]));
    }
    // Two samples of the same sign, and one that is zero, have no cut.
    for (middle, around) in [(0, -5), (0, 5), (5, 0), (-5, 0), (5, 6), (-5, -6)] {
        let block = star(middle, around);
        assert_eq!(mend_both(&block, 0), (answer(0, 0), block.cuts));
    }
}

/// "The mending tool takes the band too and follows the same labels": the band
/// decides where a byte is missing or stray. What a missing one becomes is a
/// matter of the samples' sizes, of which the band takes nothing away.
#[test]
fn bands_by_hand() {
    for (middle, around, bands, bytes) in [
        // 256 * 7 / 16 and 256 * 9 / 16.
        (7, -9, [0, 6, 7], [112, 144]),
        (-7, 9, [0, 6, 7], [112, 144]),
        (9, -7, [0, 6, 7], [144, 112]),
        (3, -5, [1, 2, 3], [96, 160]),
        (5, -5, [3, 4, 5], [128, 128]),
        // -32768 is outside every band, and 32767 is not.
        (-32768, 32767, [0, 32766, 32767], [128, 128]),
        (-32767, 32767, [0, 32766, 32767], [128, 128]),
        (32008, -32768, [0, 32007, 32008], [126, 130]),
        (-1, 32767, [0, 0, 1], [1, 255]),
    ] {
        let empty = star(middle, around);
        let mut full = empty.clone();
        full.cuts.fill(9);
        let [outside, last_outside, inside] = bands;
        for band in [outside, last_outside] {
            let (mended, cuts) = mend_both(&empty, band);
            assert_eq!(mended, answer(14, 0), "{middle} {around} {band}");
            assert_eq!([cuts[91], cuts[84]], bytes, "{middle} {around} {band}");
            assert_eq!(mend_both(&full, band).0, answer(0, 245 - 14));
        }
        for band in [inside, inside + 1, 32767] {
            let band = band.min(32767);
            assert_eq!(mend_both(&empty, band), (answer(0, 0), vec![0; 245]));
            assert_eq!(mend_both(&full, band), (answer(0, 245), vec![0; 245]));
        }
    }
    // Point 14 alone is in the band: its edge from point 13 has byte 91, and
    // filling refuses that byte at band 2 if it stands, at band 1 if it does not.
    let mut block = Block::given_case();
    block.samples[14] = -2;
    let mut without = block.clone();
    without.cuts[91] = 0;
    assert_eq!(mend_both(&block, 1), (answer(0, 0), block.cuts.clone()));
    assert_eq!(mend_both(&block, 2), (answer(0, 1), without.cuts.clone()));
    assert_eq!(mend_both(&without, 2), (answer(0, 0), without.cuts.clone()));
    // 256 * 5 / 7 is 182.86.
    let mut filled = without.cuts.clone();
    filled[91] = 183;
    assert_eq!(mend_both(&without, 1), (answer(1, 0), filled));
    assert_eq!(fill_number(&block, 2, &block.cuts), 7);
    assert_eq!(fill_number(&block, 1, &without.cuts), 6);
    assert_eq!(fill_number(&block, 2, &without.cuts), 10);
}

/// Rubber on the rim is no matter: there is no 5 here, and its edges are mended
/// like others.
#[test]
fn there_is_no_test_of_the_rim() {
    let mut block = star(-5, -5);
    block.samples[26] = 5;
    let (mended, cuts) = mend_both(&block, 0);
    // The last corner ends three long edges and one short one.
    assert_eq!(mended, answer(4, 0));
    assert_eq!(fill_number(&block, 0, &cuts), 5);
    let filled: Vec<usize> = (0..cuts.len()).filter(|&o| cuts[o] != 0).collect();
    assert_eq!(filled, [7 * 17 + 2, 7 * 23 + 1, 7 * 25, 7 * 34 + 3]);
}

/// A block of these sizes with random samples of either sign, mended with a band.
fn whole(sizes: [u32; 3], band: u32, random: &mut Random) -> Block {
    let points = coordinates(sizes).len();
    let mut block = Block {
        sizes,
        samples: (0..points).map(|_| random.bits() as i16).collect(),
        cuts: vec![0; 7 * points],
    };
    block.cuts = mend_both(&block, band).1;
    block
}

/// A byte at every offset in turn, in tables that are good otherwise: of blocks
/// with cuts everywhere, of such with half of their points in the band, and of
/// plain air.
#[test]
fn one_wrong_byte_anywhere() {
    let mut random = Random::new(74);
    let mut seen = [0; 2];
    for sizes in [[1, 1, 1], [3, 2, 4], [2, 1, 17], [64, 1, 2]] {
        let mut air = whole(sizes, 0, &mut random);
        air.samples.fill(-1);
        air.cuts.fill(0);
        let [all, half] = [0, 16_384].map(|band| (whole(sizes, band, &mut random), band));
        for (block, band) in [all, half, (air, 0)] {
            let mut cuts = block.cuts.clone();
            for offset in 0..cuts.len() {
                let good = block.cuts[offset];
                let (wrong, expected) = match good {
                    0 => (random.between(1, 255) as u8, answer(0, 1)),
                    _ => (0, answer(1, 0)),
                };
                for mending in [mend, plain::mend] {
                    cuts[offset] = wrong;
                    assert_eq!(run(mending, &block, band, &mut cuts), expected, "{offset}");
                    assert_eq!(cuts[offset], good);
                }
                seen[usize::from(good == 0)] += 1;
            }
            assert!(cuts == block.cuts);
        }
    }
    assert!(seen[0] > 1_200 && seen[1] > 7_000, "{seen:?}");
}

/// The shapes for timing, whose cut bytes are interpolated in their own way,
/// without and with a band that takes in some of the cuts' ends.
#[test]
fn on_the_largest_blocks() {
    let shapes = [shapes::sphere(), shapes::ribs(), shapes::air()];
    let cases = shapes.into_iter().flat_map(|good| {
        let banded = for_band(good.clone(), 60);
        [(good, 0), (banded, 60)]
    });
    for (good, band) in cases {
        let cuts = good.cuts.iter().filter(|&&byte| byte != 0).count() as u64;
        let mut table = shapes::emptied(good.clone()).cuts;
        assert_eq!(run(mend, &good, band, &mut table), answer(cuts, 0));
        assert!(table == good.cuts);
        assert_eq!(run(mend, &good, band, &mut table), answer(0, 0));
        assert!(table == good.cuts);
        table.fill(255);
        let strays = table.len() as u64 - cuts;
        assert_eq!(run(mend, &good, band, &mut table), answer(0, strays));
        let is_right = |(&new, &old): (&u8, &u8)| new == if old == 0 { 0 } else { 255 };
        assert!(table.iter().zip(&good.cuts).all(is_right));
    }
    let mut random = Random::new(75);
    let block = whole([64, 64, 64], 9_000, &mut random);
    let worn = worn_block_of(&mut random, [64, 64, 64]);
    for (samples, band) in [(block.samples, 20_000), (worn.samples, 0)] {
        let (sizes, cuts) = ([64; 3], worn.cuts.clone());
        let block = Block {
            sizes,
            samples,
            cuts,
        };
        mend_both(&block, band);
    }
}

/// Makes a call with both mendings that must be refused.
fn check_refused(sizes: [u32; 3], band: u32, samples: &[i16], cuts: &[u8], number: u32) {
    let [nx, ny, nz] = sizes;
    for mending in [mend, plain::mend] {
        let mut table = cuts.to_vec();
        let mended = mending(nx, ny, nz, band, samples, &mut table);
        assert_eq!(mended, Mended::refused(number), "{sizes:?} {band}");
        assert_eq!((mended.filled, mended.cleared), (0, 0));
        assert!(table == cuts, "{sizes:?} {band}");
    }
}

/// The first refusal, in this file's own words, its index in their order, and
/// how many more there are.
fn reasons(sizes: [u32; 3], band: u32, samples: usize, cuts: usize) -> (u32, usize, usize) {
    let [nx, ny, nz] = sizes.map(u128::from);
    let n = (nx + 1) * (ny + 1) * (nz + 1) + nx * ny * nz;
    let wrong = [
        sizes.iter().any(|&size| size == 0 || size > 64),
        !(0..32768).contains(&band),
        samples as u128 != n,
        cuts as u128 != 7 * n,
    ];
    let first = wrong.iter().position(|&is| is).expect("a reason");
    let count = wrong.iter().filter(|&&is| is).count();
    ([1, 14, 2, 3][first], first, count - 1)
}

#[test]
fn on_calls_to_be_refused() {
    let mut random = Random::new(76);
    let mut seen = [[0; 4]; 4];
    for _ in 0..8000 {
        let (sizes, band, samples, cuts) = mend_call(&mut random);
        let (number, index, more) = reasons(sizes, band, samples.len(), cuts.len());
        check_refused(sizes, band, &samples, &cuts, number);
        seen[index][more] += 1;
    }
    let enough = [
        [200, 800, 1000, 800],
        [400, 800, 400, 0],
        [400, 400, 0, 0],
        [400, 0, 0, 0],
    ];
    println!("{seen:?}");
    for (seen, enough) in seen.iter().flatten().zip(enough.iter().flatten()) {
        assert!(seen >= enough, "{seen}");
    }
    assert_eq!(MEND_DAMAGES.map(|damage| damage.refusal()), [1, 14, 2, 3]);
}

/// 1, 14, 2, 3, one after the other and all at once.
#[test]
fn order_of_checks() {
    let Block { sizes, samples, .. } = Block::given_case();
    let cuts = vec![3; 245];
    for (short, long) in [(34, 36), (0, 245)] {
        for length in [short, long] {
            let samples = vec![5; length];
            for band in [0, 5, 32767] {
                check_refused(sizes, band, &samples, &cuts, 2);
                check_refused(sizes, band, &samples, &cuts[..244], 2);
                check_refused(sizes, band, &samples, &[], 2);
                check_refused([2, 65, 2], band, &samples, &cuts[..244], 1);
            }
        }
    }
    for length in [0, 35, 238, 244, 246, 252] {
        let cuts = vec![3; length];
        check_refused(sizes, 0, &samples, &cuts, 3);
        check_refused(sizes, 32767, &samples, &cuts, 3);
        check_refused([0, 2, 2], 0, &samples, &cuts, 1);
    }
    // The band alone, and before and after each of the others.
    for band in BAD_BANDS {
        check_refused(sizes, band, &samples, &cuts, 14);
        check_refused(sizes, band, &samples[..34], &cuts, 14);
        check_refused(sizes, band, &samples, &cuts[..244], 14);
        check_refused(sizes, band, &[], &[], 14);
        check_refused([2, 2, 0], band, &samples, &cuts, 1);
        check_refused([65, 2, 2], band, &samples[..34], &cuts, 1);
        check_refused([2, 65, 2], band, &[], &[], 1);
    }
    for size in [0, 65, 66, 1 << 16, u32::MAX] {
        for axis in 0..3 {
            let mut sizes = sizes;
            sizes[axis] = size;
            check_refused(sizes, 0, &samples, &cuts, 1);
            check_refused(sizes, 0, &[], &[], 1);
        }
    }
    // As long as both tables would have to be.
    for (sizes, n) in [([0, 1, 1], 4), ([65, 1, 1], 329), ([1, 1, 65], 329)] {
        check_refused(sizes, 0, &vec![5; n], &vec![3; 7 * n], 1);
        check_refused(sizes, 32768, &vec![5; n], &vec![3; 7 * n], 1);
    }
}
