//! The band before the rim (request F-9): the tests of the rim and of the cut bytes and mending read labels. Answer, state table, row table
//! and mended cut table, bit for bit, on 12,000 blocks with bands, valid and damaged. What comes out is held against the answers before the
//! request, and what was met of the four kinds of change that it names is counted; and against the same block at band 0 with zeros for its
//! samples in the band.
use compare::{ends, same_filling, same_mending};
use reference::block::Block;
use reference::check::check_mesh;
use reference::damage::{banded_call, mend_call, Call};
use reference::fill::Filled;
use reference::lattice::Lattice;
use reference::mend::Mended;
use reference::plain::fill_by_raw_samples;
use reference::random::Random;
use reference::shapes::emptied;

/// A sample in the band, in this file's own words.
fn is_in_band(band: u32, sample: i16) -> bool {
    i64::from(sample).pow(2) <= i64::from(band).pow(2)
}

/// The call at band 0, with zeros for the samples that are in its band.
fn without_noise(call: &Call) -> Call {
    let mut quiet = Call { band: 0, ..call.clone() };
    for sample in quiet.block.samples.iter_mut().filter(|sample| is_in_band(call.band, **sample)) {
        *sample = 0;
    }
    quiet
}

/// What was met.
#[derive(Debug, Default)]
struct Met {
    /// The answers, by their numbers, and those before the request.
    numbers: [usize; 15],
    before: [usize; 15],
    /// Refused with 5 before, for a point in the band, and now not; and now for another point.
    rim: [usize; 2],
    /// Refused with 6 before, at a byte beside the band.
    gap: usize,
    /// Refused with 7, at a byte beside the band that was good before.
    stray: usize,
    /// Other answers or tables than before, and the same.
    changed: [usize; 2],
    /// Rim points in the band above zero, and of these samples of 3 with band 5.
    on_rim: usize,
    three: usize,
    /// Bytes on edges whose samples are of opposite signs and one of them in the band: zero, and not.
    beside: [usize; 2],
    /// Accepted blocks whose rows were checked for demand 3.
    meshes: usize,
    /// Bytes filled in and cleared by mending, and calls of it that were refused.
    mended: [u64; 2],
    refused: usize,
}

impl Met {
    /// Fills by both and, to compare, without the noise and as before the request.
    fn fill(&mut self, call: &Call, random: &mut Random) -> Filled {
        let seed = random.bits();
        let answer = same_filling(call, seed);
        let ours = call.run(compare::fill, &mut Random::new(seed));
        let before = call.run(fill_by_raw_samples, &mut Random::new(seed));
        self.numbers[answer.number as usize] += 1;
        self.before[before.filled.number as usize] += 1;
        self.changed[usize::from(ours == before)] += 1;
        // at band 0 nothing changes
        let at_0 = Call { band: 0, ..call.clone() };
        assert!(at_0.run(compare::fill, &mut Random::new(seed)) == at_0.run(fill_by_raw_samples, &mut Random::new(seed)));
        if [1, 2, 3, 4, 14].contains(&answer.number) {
            assert!(ours == before);
            return answer;
        }
        assert!(without_noise(call).run(compare::fill, &mut Random::new(seed)) == ours);
        let is_touched = self.count(call, before.filled, answer);
        assert!(is_touched || ours == before);
        if answer.number == 0 && self.numbers[0] % 2 == 0 {
            check_mesh(&call.block, call.band, &ours.state, &ours.rows[..4 * answer.rows as usize]).unwrap();
            self.meshes += 1;
        }
        answer
    }

    /// Counts the four kinds; says whether there is a rim point or an edge of which the request speaks at all.
    fn count(&mut self, call: &Call, before: Filled, now: Filled) -> bool {
        let (Block { samples, cuts, .. }, lattice) = (&call.block, call.block.lattice().unwrap());
        let in_band = |point: usize| is_in_band(call.band, samples[point]);
        let is_beside = |offset: usize| {
            let is_crossed = |[a, b]: [usize; 2]| samples[a].signum() * samples[b].signum() < 0 && (in_band(a) || in_band(b));
            ends(&lattice, offset).is_some_and(is_crossed)
        };
        let [then, place] = [before.place, now.place].map(|place| place as usize);
        let kinds = [
            before.number == 5 && in_band(then) && now.number != 5,
            before.number == 5 && in_band(then) && now.number == 5,
            before.number == 6 && is_beside(then),
            now.number == 7 && is_beside(place),
        ];
        assert!(before == now || kinds.contains(&true), "{before:?} became {now:?}");
        assert!(!kinds[1] || place > then && !in_band(place), "{before:?} became {now:?}");
        assert!(!kinds[2] || (now.number, place) != (6, then), "{before:?} stays");
        self.rim[0] += usize::from(kinds[0]);
        self.rim[1] += usize::from(kinds[1]);
        self.gap += usize::from(kinds[2]);
        self.stray += usize::from(kinds[3]);
        let is_rim = |point: &usize| samples[*point] > 0 && in_band(*point) && lattice.is_rim(*point);
        let rim: Vec<usize> = (0..samples.len()).filter(is_rim).collect();
        self.on_rim += rim.len();
        self.three += rim.iter().filter(|&&point| samples[point] == 3 && call.band == 5).count();
        let mut edges = 0;
        for offset in (0..cuts.len()).filter(|&offset| is_beside(offset)) {
            self.beside[usize::from(cuts[offset] != 0)] += 1;
            edges += 1;
        }
        !rim.is_empty() || edges > 0
    }

    /// Mends by both. Mending without the noise leaves the same bytes, filling with the same band has nothing against them, and mending once
    /// more changes nothing.
    fn mend(&mut self, call: &Call, filled: Filled, random: &mut Random) {
        let mut after = call.clone();
        let answer = same_mending(&mut after.block, call.band);
        self.mended[0] += answer.filled;
        self.mended[1] += answer.cleared;
        if answer.number != 0 {
            assert!(answer == Mended::refused(answer.number) && after.block == call.block);
            assert_eq!(answer.number, filled.number);
            self.refused += 1;
            return;
        }
        let mut quiet = without_noise(call);
        assert_eq!(same_mending(&mut quiet.block, 0), answer);
        assert!(quiet.block.cuts == after.block.cuts);
        let number = same_filling(&after, random.bits()).number;
        assert!(number == filled.number || [6, 7].contains(&filled.number) && [0, 10].contains(&number), "{number}");
        assert_eq!(same_mending(&mut after.block, call.band), Mended { number: 0, filled: 0, cleared: 0 });
    }
}

#[test]
fn blocks_with_bands() {
    let mut random = Random::new(181);
    let mut met = Met::default();
    for _ in 0..12_000 {
        let call = banded_call(&mut random);
        let filled = met.fill(&call, &mut random);
        met.mend(&call, filled, &mut random);
    }
    println!("{met:?}");
    let seen = [0, 1, 2, 3, 4, 5, 6, 7, 10, 14].map(|number| met.numbers[number].min(met.before[number]));
    assert!(seen.iter().all(|&seen| seen > 50), "{met:?}");
    assert!(met.rim[0] > 3_000 && met.rim[1] > 300 && met.gap > 1_500 && met.stray > 1_500, "{met:?}");
    assert!(met.changed[0] > 6_000 && met.changed[1] > 3_000, "{met:?}");
    assert!(met.on_rim > 60_000 && met.three > 200 && met.beside[0] > 500_000 && met.beside[1] > 80_000, "{met:?}");
    assert!(met.meshes > 1_500 && met.mended[0] > 10_000 && met.mended[1] > 120_000 && met.refused > 2_000, "{met:?}");
}

/// Mending with a size, a band or a length that is refused, one or several in all fifteen ways: 1, 14, 2, 3. Nothing is changed.
#[test]
fn mending_refused_for_every_set_of_reasons() {
    let mut random = Random::new(182);
    let mut seen = [0; 16];
    for _ in 0..8_000 {
        let (sizes, band, samples, cuts) = mend_call(&mut random);
        let points = |[nx, ny, nz]: [u128; 3]| (nx + 1) * (ny + 1) * (nz + 1) + nx * ny * nz;
        let n = points(sizes.map(u128::from));
        let is_size = |size: &u32| (1..=64).contains(size);
        let wrong = [!sizes.iter().all(is_size), band > 32_767, samples.len() as u128 != n, cuts.len() as u128 != 7 * n];
        let number = [1, 14, 2, 3][wrong.iter().position(|&is| is).unwrap()];
        let block = Block { sizes, samples, cuts };
        let mut after = block.clone();
        assert_eq!(same_mending(&mut after, band), Mended { number, filled: 0, cleared: 0 });
        assert!(after == block, "refusal {number}");
        seen[wrong.iter().rev().fold(0, |set, &is| 2 * set + usize::from(is))] += 1;
    }
    assert!(seen[1..].iter().all(|&seen| seen > 60), "{seen:?}");
}

/// Samples at both ends of some bands and beside them.
const SAMPLES: [i16; 13] = [-32768, -32767, -32766, -6, -5, -1, 0, 1, 4, 5, 6, 32766, 32767];

/// Every two of these samples at the ends of each of the middle's fourteen edges in the given case, all others at zero, with and without a
/// byte: 5, 6 and 7 by the labels, and what mending makes of it.
#[test]
fn every_two_samples_at_the_ends_of_an_edge() {
    let lattice = Lattice::new(2, 2, 2).unwrap();
    let mut seen = [0; 8];
    for offset in (0..245).filter(|&offset| ends(&lattice, offset).is_some_and(|ends| ends.contains(&13))) {
        let [start, end] = ends(&lattice, offset).unwrap();
        for (a, b) in SAMPLES.iter().flat_map(|&a| SAMPLES.map(|b| (a, b))) {
            for (band, byte) in [0, 1, 5, 32_766, 32_767].into_iter().flat_map(|band| [(band, 0), (band, 9)]) {
                let mut block = emptied(Block::given_case());
                block.samples.fill(0);
                (block.samples[start], block.samples[end], block.cuts[offset]) = (a, b, byte);
                let [x, y] = [a, b].map(|sample| if is_in_band(band, sample) { 0 } else { sample.signum() });
                let (rim, label) = if start == 13 { (end, y) } else { (start, x) };
                let expected = match (x * y < 0, byte) {
                    _ if label > 0 => (5, rim),
                    (true, 0) => (6, offset),
                    (false, 9) => (7, offset),
                    _ => (0, 0),
                };
                let call = Call { block, band, state_length: 35, row_length: 400 };
                let Filled { number, place, .. } = same_filling(&call, 1);
                assert_eq!((number, place as usize), expected, "{a} {b}, band {band}, byte {byte}");
                seen[number as usize] += 1;
                let mut block = call.block;
                let [filled, cleared] = [x * y < 0 && byte == 0, x * y >= 0 && byte != 0].map(u64::from);
                assert_eq!(same_mending(&mut block, band), Mended { number: 0, filled, cleared });
                assert_eq!(block.cuts[offset] != 0, x * y < 0);
            }
        }
    }
    assert!([0, 5, 6, 7].iter().all(|&number| seen[number] > 500), "{seen:?}");
}

/// The request with numbers: the given case with samples of 50 and -50. Point 27 is on the rim, and its edge to point 13 has byte 192; those
/// from 13 to 14 and from 12 to 13 have bytes 91 and 84.
#[test]
fn given_case_in_numbers() {
    let check = |samples: &[(usize, i16)], bytes: &[(usize, u8)], band: u32, before: (u32, u64), now: (u32, u64)| {
        let mut block = Block::given_with(&[], bytes);
        block.samples.iter_mut().for_each(|sample| *sample *= 10);
        samples.iter().for_each(|&(point, sample)| block.samples[point] = sample);
        let call = Call { block, band, state_length: 35, row_length: 96 };
        let answer = |filled: Filled| (filled.number, filled.place);
        assert_eq!(answer(call.run(fill_by_raw_samples, &mut Random::new(1)).filled), before, "band {band}");
        assert_eq!(answer(same_filling(&call, 1)), now, "band {band}");
    };
    // a rim sample of 3 with band 5
    check(&[(27, 3)], &[(192, 0)], 2, (5, 27), (5, 27));
    check(&[(27, 3)], &[(192, 0)], 5, (5, 27), (0, 0));
    check(&[(27, 3)], &[], 5, (5, 27), (7, 192));
    check(&[(27, 3)], &[(192, 0), (91, 0)], 5, (5, 27), (6, 91));
    // the lowest one outside the band
    check(&[(26, 3), (27, 9)], &[(192, 0)], 5, (5, 26), (5, 27));
    check(&[(26, 3), (27, 9)], &[(192, 0)], 9, (5, 26), (0, 0));
    // bytes beside the band
    for (point, offset) in [(14, 91), (12, 84)] {
        let place = offset as u64;
        check(&[(point, -2)], &[(offset, 0)], 1, (6, place), (6, place));
        check(&[(point, -2)], &[(offset, 0)], 2, (6, place), (0, 0));
        check(&[(point, -2)], &[], 1, (0, 0), (0, 0));
        check(&[(point, -2)], &[], 2, (0, 0), (7, place));
    }
    check(&[(12, -2)], &[(91, 0)], 2, (6, 91), (7, 84));
    check(&[(12, -2)], &[(84, 0), (91, 0)], 2, (6, 84), (6, 91));
}
