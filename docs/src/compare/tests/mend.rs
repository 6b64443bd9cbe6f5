//! Mending a cut table (requests F-4 and F-9): answer and whole table, bit for bit, on worn tables, half of them with bands, on every pair
//! of the sizes that are hardest to mend with, on whole parts and where it is refused. Every byte is held against the requests' words too,
//! what was met is counted, and filling with the same band takes what was mended.
use compare::{ends, same_filling, same_mending, zero_or_any_band};
use reference::block::Block;
use reference::damage::{Call, BAD_BANDS};
use reference::generate::{block, cuts_where_needed, extreme_sizes, for_band, worn_block, Cutting, MIXES};
use reference::lattice::Lattice;
use reference::mend::Mended;
use reference::random::Random;
use reference::shapes::{air, emptied, mount, ribs, sphere};
use std::collections::HashSet;

/// The answer of a mending that is not refused.
fn counts(filled: u64, cleared: u64) -> Mended {
    Mended { number: 0, filled, cleared }
}

/// What was met in worn tables.
#[derive(Debug, Default)]
struct Met {
    /// Missing bytes.
    filled: u64,
    /// Stray bytes.
    cleared: u64,
    /// Missing bytes that would be 0, and 256, if they were not held.
    held: [usize; 2],
    /// Missing bytes whose quotients end in exactly one half.
    halves: usize,
    /// Missing bytes beside a sample of -32768: at the edge's start, and at its far end.
    lowest: [usize; 2],
    /// Missing bytes that are the table's last.
    last: usize,
    /// Good bytes more than a step off what they would become if they were missing.
    kept: usize,
    /// Stray bytes where no edge is.
    nowhere: usize,
    /// Bytes on edges whose samples are of opposite signs and one of them in the band: zero, and stray.
    beside: [usize; 2],
    /// Blocks with rubber on the rim.
    rim: usize,
}

impl Met {
    /// Mends a block by both, holds each byte against the request's words, and mends once more, which changes nothing.
    fn mend(&mut self, old: &Block, band: u32) -> Block {
        let mut new = old.clone();
        let answer = same_mending(&mut new, band);
        assert_eq!(answer, self.count(old, band, &new.cuts));
        let mut again = new.clone();
        assert_eq!(same_mending(&mut again, band), counts(0, 0));
        assert!(again == new);
        new
    }

    /// The counts of offsets where the old table breaks the rule; what stands there is mended, and no other byte has changed.
    fn count(&mut self, old: &Block, band: u32, mended: &[u8]) -> Mended {
        let lattice = old.lattice().unwrap();
        let is_outside = |a: i64, b: i64| a.abs().min(b.abs()) > i64::from(band);
        let (mut filled, mut cleared) = (0, 0);
        for (offset, (&byte, &new)) in old.cuts.iter().zip(mended).enumerate() {
            let samples = ends(&lattice, offset).map(|ends| ends.map(|point| i64::from(old.samples[point])));
            match (samples, byte) {
                (Some([a, b]), 0) if a * b < 0 && is_outside(a, b) => {
                    filled += 1;
                    self.count_missing([a, b], new);
                    self.last += usize::from(offset + 1 == mended.len());
                }
                (Some([a, b]), _) if a * b < 0 && is_outside(a, b) => {
                    assert_eq!(new, byte, "byte {offset}");
                    let (off, step) = off_and_step([a, b], byte);
                    self.kept += usize::from(off > step);
                }
                _ => {
                    assert_eq!(new, 0, "byte {offset}");
                    cleared += u64::from(byte != 0);
                    self.nowhere += usize::from(byte != 0 && samples.is_none());
                    self.beside[usize::from(byte != 0)] += usize::from(samples.is_some_and(|[a, b]| a * b < 0));
                }
            }
        }
        let is_rubber = |point: &usize| old.samples[*point] > 0;
        self.rim += usize::from((0..old.samples.len()).filter(is_rubber).any(|point| lattice.is_rim(point)));
        self.filled += filled;
        self.cleared += cleared;
        counts(filled, cleared)
    }

    /// A byte that was filled in is within half a step of the quotient, or under one where it was held.
    fn count_missing(&mut self, samples: [i64; 2], byte: u8) {
        let (off, step) = off_and_step(samples, byte);
        let twice = 512 * samples[0].abs();
        let held = [twice < step, twice >= 511 * step];
        assert!(2 * off <= step || held.contains(&true) && off < step, "{byte} between {samples:?}");
        for end in 0..2 {
            self.held[end] += usize::from(held[end]);
            self.lowest[end] += usize::from(samples[end] == -32768);
        }
        self.halves += usize::from((twice + step) % (2 * step) == 0);
    }
}

/// How far a cut byte is off the quotient of two samples, and a step, both times the sum of their sizes.
fn off_and_step(samples: [i64; 2], byte: u8) -> (i64, i64) {
    let [start, end] = samples.map(i64::abs);
    let sum = start + end;
    ((256 * start - i64::from(byte) * sum).abs(), sum)
}

/// Fills a block by both, with its band and with one that is none, and with tables of any lengths, and counts the answers.
fn fill_somehow(random: &mut Random, block: &Block, band: u32, seen: &mut [usize; 15]) {
    let points = block.samples.len();
    let mut call = Call { block: block.clone(), band, state_length: points, row_length: 0 };
    for band in [band, band, random.pick(&BAD_BANDS)] {
        call.band = band;
        call.state_length = random.pick(&[points, points, points, points, points - 1, points + 1, 0]);
        call.row_length = random.pick(&[0, 1, 4, 400, 14_400]);
        seen[same_filling(&call, random.bits()).number as usize] += 1;
    }
}

/// 12,000 blocks with bytes missing and stray anywhere, half of them with bands. Filling refuses many with 6 or 7, and none once it is
/// mended, with the same band and whatever tables.
#[test]
fn worn_blocks() {
    let mut random = Random::new(121);
    let mut met = Met::default();
    let (mut before, mut after) = ([0; 15], [0; 15]);
    for _ in 0..12_000 {
        let old = worn_block(&mut random);
        let band = zero_or_any_band(&mut random, &old);
        let new = met.mend(&old, band);
        fill_somehow(&mut random, &old, band, &mut before);
        fill_somehow(&mut random, &new, band, &mut after);
    }
    assert!(met.filled > 400_000 && met.cleared > 4_000_000 && met.kept > 900_000, "{met:?}");
    assert!(met.held.iter().all(|&held| held > 25_000) && met.halves > 50_000, "{met:?}");
    assert!(met.lowest.iter().all(|&lowest| lowest > 50_000) && met.last > 400, "{met:?}");
    assert!(met.beside.iter().all(|&beside| beside > 150_000), "{met:?}");
    assert!(met.nowhere > 900_000 && met.rim > 5_000, "{met:?}");
    assert!(before[6] > 700 && before[7] > 2_500, "{before:?}");
    assert_eq!([after[6], after[7]], [0, 0]);
    assert!([0, 4, 5, 10, 14].iter().all(|&number| after[number] > 900), "{after:?}");
}

/// One byte too few or too many, at every offset.
#[test]
fn every_byte() {
    let mut random = Random::new(122);
    let mut changed = [0; 2];
    for _ in 0..60 {
        let mut good = worn_block(&mut random);
        let band = zero_or_any_band(&mut random, &good);
        good.cuts = cuts_where_needed(&good.lattice().unwrap(), band, &good.samples, |_, _| random.between(1, 255) as u8);
        for offset in 0..good.cuts.len() {
            let mut worn = good.clone();
            let byte = good.cuts[offset];
            worn.cuts[offset] = if byte == 0 { random.pick(&[1, 128, 255]) } else { 0 };
            let is_missing = u64::from(byte != 0);
            assert_eq!(same_mending(&mut worn, band), counts(is_missing, 1 - is_missing), "byte {offset}");
            assert!((worn.cuts[offset] != 0) == (byte != 0));
            worn.cuts[offset] = byte;
            assert!(worn == good, "byte {offset}");
            changed[usize::from(byte == 0)] += 1;
        }
    }
    assert!(changed[0] > 6_000 && changed[1] > 40_000, "{changed:?}");
}

/// The request's rule with numbers: samples at the start and at the end of an edge, and its byte.
#[test]
fn in_numbers() {
    let cases = [
        (5, -5, 128),
        (-1, 2, 85),
        (2, -1, 171),
        (1, -510, 1),
        (1, -511, 1), // 0.5
        (1, -512, 1), // held
        (-3, 509, 2), // 1.5
        (-4, 508, 2),
        (509, -3, 255), // 254.5
        (510, -2, 255),
        (511, -1, 255), // 255.5, held
        (1, -32768, 1),
        (-32768, 1, 255),
        (-32768, 32767, 128),
        (32767, -32768, 128),
        (-32768, 4105, 228), // 227.50001; it would be 227 with a size of 32767
        (4105, -32768, 28), // 28.49999; it would be 29
    ];
    for (start, end, byte) in cases {
        let mut block = emptied(Block::given_case());
        block.samples.fill(0);
        (block.samples[13], block.samples[14]) = (start, end);
        // with the largest band in which neither is, the byte is the same, and with the next it is none
        let inside = u32::from(start.unsigned_abs().min(end.unsigned_abs()));
        for (band, byte) in [(0, byte), (inside - 1, byte), (inside, 0)] {
            block.cuts[91] = 0;
            assert_eq!(same_mending(&mut block, band), counts(u64::from(byte != 0), 0));
            assert_eq!(block.cuts[91], byte, "{start} {end}, band {band}");
        }
    }
}

/// An empty table and samples one after the other along the lines of a direction: each two that follow each other are the ends of an edge.
fn laid_along(direction: usize, samples: &[i16]) -> Block {
    let lattice = Lattice::new(36, 36, 36).unwrap();
    let points = lattice.point_count();
    let mut block = Block { sizes: [36; 3], samples: vec![0; points], cuts: vec![0; 7 * points] };
    let mut next = 0;
    for first in (0..points).filter(|&point| lattice.start(point, direction).is_none()) {
        // a line begins with the sample that the line before ended with
        next = usize::max(next, 1) - 1;
        let line = std::iter::successors(Some(first), |&point| lattice.end(point, direction));
        for point in line {
            block.samples[point] = samples[next % samples.len()];
            next += 1;
        }
    }
    assert!(next >= samples.len());
    block
}

/// Mends such blocks for all seven directions; along each so many ordered pairs of samples with opposite signs are met.
fn pairs_along_edges(samples: &[i16], pairs: usize) -> Met {
    let mut met = Met::default();
    for direction in 0..7 {
        let block = laid_along(direction, samples);
        let lattice = block.lattice().unwrap();
        let along = (0..block.samples.len()).filter_map(|point| ends(&lattice, 7 * point + direction));
        let along = along.map(|ends| ends.map(|point| block.samples[point]));
        let found: HashSet<[i16; 2]> = along.filter(|[a, b]| a.signum() * b.signum() < 0).collect();
        assert_eq!(found.len(), pairs, "direction {direction}");
        met.mend(&block, 0);
    }
    met
}

/// Every pair of the 200 sizes that are hardest to mend with, in both orders, plus first and minus first; there is no plus of size 32768.
#[test]
fn every_pair_of_extreme_sizes() {
    let sizes = extreme_sizes().map(i32::from);
    let minus = sizes.map(|size| -size as i16);
    let plus = sizes.iter().filter_map(|&size| i16::try_from(size).ok());
    // each plus between all minuses, so that they follow each other both ways
    let samples: Vec<i16> = plus.flat_map(|plus| minus.into_iter().flat_map(move |minus| [plus, minus]).chain([plus])).collect();
    let met = pairs_along_edges(&samples, 2 * 199 * 200);
    assert!(met.held.iter().all(|&held| held > 80_000) && met.halves > 3_000, "{met:?}");
}

/// -32768, whose size 16 bits do not hold with a sign, against every sample above zero.
#[test]
fn every_partner_of_the_lowest() {
    let samples: Vec<i16> = (1..=i16::MAX).flat_map(|plus| [-32768, plus]).chain([-32768]).collect();
    let met = pairs_along_edges(&samples, 2 * 32767);
    assert!(met.lowest.iter().all(|&lowest| lowest > 1_000_000), "{met:?}");
}

/// The block with rubber and air exchanged: rubber on the rim.
fn inside_out(mut block: Block) -> Block {
    for sample in &mut block.samples {
        *sample = sample.saturating_neg();
    }
    block
}

/// The block with noise for this share of its cut bytes, half of it zeros.
fn noisy(random: &mut Random, mut block: Block, percent: usize) -> Block {
    for byte in &mut block.cuts {
        if random.percent(percent) {
            *byte = if random.percent(50) { 0 } else { random.bits() as u8 };
        }
    }
    block
}

/// A good table, an empty one and noise, for the block and for the block inside out, without a band or with one.
fn worn_in_many_ways(random: &mut Random, met: &mut Met, good: Block) {
    let band = zero_or_any_band(random, &good);
    let good = for_band(good, band);
    let mended = met.mend(&good, band);
    assert!(mended == good);
    for good in [inside_out(good.clone()), good] {
        let [slightly, half, wholly] = [1, 50, 100].map(|percent| noisy(random, good.clone(), percent));
        for worn in [emptied(good), slightly, half, wholly] {
            met.mend(&worn, band);
        }
    }
}

#[test]
fn every_mix_at_every_small_size() {
    let mut random = Random::new(123);
    let mut met = Met::default();
    for n in 0..64 {
        let sizes = [n % 4 + 1, n / 4 % 4 + 1, n / 16 + 1];
        for mix in MIXES {
            let good = block(&mut random, sizes, mix, Cutting::Wild);
            worn_in_many_ways(&mut random, &mut met, good);
        }
    }
    assert!(met.filled > 15_000 && met.cleared > 200_000 && met.nowhere > 80_000, "{met:?}");
}

#[test]
fn long_blocks() {
    let mut random = Random::new(124);
    let mut met = Met::default();
    for sizes in [[64, 3, 4], [3, 64, 4], [4, 3, 64], [64, 1, 1], [1, 64, 1], [1, 1, 64], [33, 8, 5], [20, 20, 20]] {
        for mix in MIXES {
            let good = block(&mut random, sizes, mix, Cutting::Wild);
            worn_in_many_ways(&mut random, &mut met, good);
        }
    }
    assert!(met.filled > 400_000 && met.cleared > 1_300_000 && met.nowhere > 200_000, "{met:?}");
    assert!(met.beside.iter().all(|&beside| beside > 100_000), "{met:?}");
}

/// Parts of up to 64 by 64 by 64 cubes: long runs of rubber and of air. Their own cuts lie on the straight lines between their samples, so
/// an emptied table comes out as it was.
#[test]
fn whole_parts() {
    let mut random = Random::new(125);
    let mut met = Met::default();
    for (part, band) in [(sphere(), 0), (ribs(), 0), (ribs(), 60), (mount(), 0), (mount(), 100), (air(), 0)] {
        let part = for_band(part, band);
        let cuts = part.cuts.iter().filter(|&&byte| byte != 0).count() as u64;
        let mut block = emptied(part.clone());
        assert_eq!(same_mending(&mut block, band), counts(cuts, 0));
        assert!(block == part);
        assert_eq!(same_mending(&mut block, band), counts(0, 0));
        assert!(block == part);
        for percent in [1, 100] {
            let worn = noisy(&mut random, part.clone(), percent);
            let mended = met.mend(&worn, band);
            let call = Call { state_length: mended.samples.len(), block: mended, band, row_length: 0 };
            let number = same_filling(&call, random.bits()).number;
            assert_eq!(number, if cuts == 0 { 0 } else { 10 });
        }
    }
    assert!(met.filled > 300_000 && met.cleared > 4_000_000 && met.kept > 300_000, "{met:?}");
}

/// Makes a table one entry too long or too short, of another table's length, or empty.
fn spoil<T: Clone>(random: &mut Random, table: &mut Vec<T>, more: T, other: usize) {
    let length = random.pick(&[table.len() - 1, table.len() + 1, other, 0]);
    table.resize(length, more);
}

/// 1, 14, 2 and 3 in this order, also several at once; and 2 where the sizes are allowed but not the tables'. Nothing is changed.
#[test]
fn refusals() {
    let mut random = Random::new(126);
    let mut untouched = 0;
    for n in 0..8000 {
        let mut block = worn_block(&mut random);
        let points = block.samples.len();
        let wrong: u32 = n % 16;
        let mut band = zero_or_any_band(&mut random, &block);
        if wrong & 1 != 0 {
            block.sizes[random.below(3)] = random.pick(&[0, 65, 66, 255, 256, 1 << 16, u32::MAX]);
        }
        if wrong & 2 != 0 {
            band = random.pick(&BAD_BANDS);
        }
        if wrong & 4 != 0 {
            spoil(&mut random, &mut block.samples, 5, 7 * points);
        }
        if wrong & 8 != 0 {
            spoil(&mut random, &mut block.cuts, 7, points);
        }
        if wrong == 0 {
            block.sizes[random.below(3)] += random.pick(&[1, 20]);
        }
        let number = if wrong == 0 { 2 } else { [1, 14, 2, 3][wrong.trailing_zeros() as usize] };
        let mut after = block.clone();
        assert_eq!(same_mending(&mut after, band), Mended { number, filled: 0, cleared: 0 });
        assert!(after == block, "refusal {number}");
        untouched += block.cuts.len();
    }
    assert!(untouched > 5_000_000, "{untouched}");
}
