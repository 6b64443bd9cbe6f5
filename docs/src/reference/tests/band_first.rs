//! Request F-9: "The band shall come first: rim and cut-byte tests read labels."
//! On 12,000 blocks with bands, valid and damaged, both fillings agree and both
//! mendings too; all answers are those of the block without its noise at band 0;
//! and beside the filling before the request the four kinds of answer change
//! that it names, and no others. And by hand on the given case.

mod both_fillings;
mod both_mendings;

use both_fillings::{check_valid, run_both};
use both_mendings::{answer, fill_number, mend_both};
use reference::block::Block;
use reference::check::check_mesh;
use reference::damage::{banded_call, Call, Outcome};
use reference::fill::{fill, Filled};
use reference::lattice::Lattice;
use reference::mend::Mended;
use reference::plain::fill_by_raw_samples;
use reference::random::Random;
use reference::shapes::emptied;
use reference::state::ON_SKIN;

/// Whether a sample's size is at most the band, in this file's own words.
fn in_band(band: u32, sample: i16) -> bool {
    u32::from(sample.unsigned_abs()) <= band
}

/// The block with zeros for all samples in the band, and the same cut table.
fn without_noise(block: &Block, band: u32) -> Block {
    let quiet = |&sample: &i16| if in_band(band, sample) { 0 } else { sample };
    Block {
        samples: block.samples.iter().map(quiet).collect(),
        ..block.clone()
    }
}

/// A refusal with 5, 6 or 7, and its place.
type Fault = (u32, usize);

/// All faults of a block that filling can name, in the order in which it looks
/// for them: rim points, then bytes.
struct Faults {
    before: Vec<Fault>,
    now: Vec<Fault>,
    /// For each byte whose edge has samples of opposite signs, whether an end of
    /// it is in the band.
    opposite: Vec<Option<bool>>,
}

impl Faults {
    fn of(block: &Block, band: u32) -> Faults {
        let lattice = block.lattice().unwrap();
        let opposite = |offset: usize| {
            let end = lattice.end(offset / 7, offset % 7)?;
            let ends = [offset / 7, end].map(|point| block.samples[point]);
            let is_opposite = ends[0].signum() * ends[1].signum() < 0;
            is_opposite.then_some(ends.iter().any(|&sample| in_band(band, sample)))
        };
        let opposite: Vec<Option<bool>> = (0..block.cuts.len()).map(opposite).collect();
        let before = Faults::before(&lattice, block, &opposite);
        Faults {
            now: Faults::now(block, band, &opposite, &before),
            before,
            opposite,
        }
    }

    /// By raw samples, as document 01 says.
    fn before(lattice: &Lattice, block: &Block, opposite: &[Option<bool>]) -> Vec<Fault> {
        let is_wrong = |&point: &usize| block.samples[point] > 0 && lattice.is_rim(point);
        let rim = (0..block.samples.len()).filter(is_wrong);
        let wrong_byte = |offset: usize| match (opposite[offset], block.cuts[offset]) {
            (Some(_), 0) => Some((6, offset)),
            (None, 1..) => Some((7, offset)),
            _ => None,
        };
        let bytes = (0..opposite.len()).filter_map(wrong_byte);
        rim.map(|point| (5, point)).chain(bytes).collect()
    }

    /// What the request's sentences make of those: in-band samples are no 5, "a
    /// zero byte on an edge with an in-band end is no longer a 6", and "a
    /// non-zero byte there is now a 7".
    fn now(block: &Block, band: u32, opposite: &[Option<bool>], before: &[Fault]) -> Vec<Fault> {
        let stays = |&(number, place): &Fault| match number {
            5 => !in_band(band, block.samples[place]),
            6 => opposite[place] == Some(false),
            _ => true,
        };
        let mut now: Vec<Fault> = before.iter().copied().filter(stays).collect();
        let is_new = |&offset: &usize| opposite[offset] == Some(true) && block.cuts[offset] != 0;
        let new = (0..opposite.len()).filter(is_new);
        now.extend(new.map(|offset| (7, offset)));
        now.sort_by_key(|&(number, place)| (number != 5, place));
        now
    }

    /// How many there are now of one kind.
    fn count(&self, number: u32) -> u64 {
        self.now.iter().filter(|fault| fault.0 == number).count() as u64
    }
}

/// The answer names the first fault, or there is none.
fn check_first(filled: Filled, faults: &[Fault]) {
    match faults.first() {
        Some(&(number, place)) => assert_eq!(filled, Filled::refused(number, place)),
        None => assert!([0, 10].contains(&filled.number), "{filled:?}"),
    }
}

/// What was seen on some calls.
#[derive(Debug, Default)]
struct Seen {
    /// Calls with each answer now, and before the request.
    now: [usize; 15],
    before: [usize; 15],
    /// Rim samples above zero in the band, and of these those of 3 with band 5.
    rim: usize,
    rim_3_with_band_5: usize,
    /// Edges with an in-band end and samples of opposite signs: those whose bytes
    /// are zero, and the others.
    zero_bytes: usize,
    other_bytes: usize,
    /// The first kind, a 5 only for in-band samples, by what is answered now: 0 or
    /// 10, 5, 6, 7.
    goes_on: [usize; 4],
    /// The second, a 5 that names another point.
    other_point: usize,
    /// The third, a 6 at a byte that is none now, by what is answered now.
    no_gap: [usize; 4],
    /// The fourth, a 7 at a byte that was none, by what was answered before.
    new_stray: [usize; 4],
    /// Calls that the request does not speak of, and those whose answers or
    /// tables differ.
    untouched: usize,
    changed: usize,
    /// Accepted blocks that had no answer but a refusal before, and meshes looked
    /// at.
    newly_accepted: usize,
    meshes: usize,
    /// Bytes filled in and cleared by mending, tables with nothing to mend, and
    /// calls of it that are refused.
    filled: u64,
    cleared: u64,
    faultless: usize,
    mending_refused: usize,
}

impl Seen {
    fn check(&mut self, call: &Call, random: &mut Random) {
        let seed = random.bits();
        let now = run_both(call, seed);
        let before = call.run(fill_by_raw_samples, &mut Random::new(seed));
        self.now[now.filled.number as usize] += 1;
        self.before[before.filled.number as usize] += 1;
        let at_0 = Call {
            band: 0,
            ..call.clone()
        };
        let at_0_before = at_0.run(fill_by_raw_samples, &mut Random::new(seed));
        assert!(at_0.run(fill, &mut Random::new(seed)) == at_0_before);
        if [1, 2, 3, 4, 14].contains(&before.filled.number) {
            assert!(now == before);
            self.check_mending_only(call);
            return;
        }
        let quiet = Call {
            block: without_noise(&call.block, call.band),
            ..at_0
        };
        assert!(quiet.run(fill, &mut Random::new(seed)) == now);
        let faults = Faults::of(&call.block, call.band);
        check_first(before.filled, &faults.before);
        check_first(now.filled, &faults.now);
        self.count_kinds(call, &faults, &before, &now);
        self.check_accepted(call, &now);
        self.check_mending(call, &quiet.block, &faults);
    }

    /// Sorts what changed into the four kinds, of which a change must be one.
    fn count_kinds(&mut self, call: &Call, faults: &Faults, before: &Outcome, now: &Outcome) {
        let Block { samples, cuts, .. } = &call.block;
        let (old, new) = (before.filled, now.filled);
        let is_in_band = |point: usize| in_band(call.band, samples[point]);
        let is_beside = |offset: usize| faults.opposite[offset] == Some(true);
        let [old_place, new_place] = [old.place, new.place].map(|place| place as usize);
        let index = |number: u32| match number {
            5..=7 => number as usize - 4,
            _ => 0,
        };
        let mut is_named = false;
        if old.number == 5 && is_in_band(old_place) {
            is_named = true;
            if new.number == 5 {
                assert!(new_place > old_place && !is_in_band(new_place));
                self.other_point += 1;
            } else {
                self.goes_on[index(new.number)] += 1;
            }
        }
        if old.number == 6 && is_beside(old_place) {
            is_named = true;
            assert_ne!((new.number, new_place), (6, old_place));
            self.no_gap[index(new.number)] += 1;
        }
        if new.number == 7 && is_beside(new_place) {
            is_named = true;
            assert_ne!((old.number, old_place), (7, new_place));
            self.new_stray[index(old.number)] += 1;
        }
        assert_eq!(before != now, is_named);
        self.changed += usize::from(is_named);
        self.newly_accepted += usize::from(is_named && [0, 10].contains(&new.number));
        let in_band_on_rim = faults.before.iter().filter(|fault| fault.0 == 5);
        let in_band_on_rim = in_band_on_rim.filter(|fault| is_in_band(fault.1));
        let rim: Vec<usize> = in_band_on_rim.map(|fault| fault.1).collect();
        self.rim += rim.len();
        let of_3 = rim.iter().filter(|&&point| samples[point] == 3).count();
        self.rim_3_with_band_5 += if call.band == 5 { of_3 } else { 0 };
        let beside = (0..cuts.len()).filter(|&offset| is_beside(offset));
        let beside: Vec<usize> = beside.collect();
        let zero = beside.iter().filter(|&&offset| cuts[offset] == 0).count();
        self.zero_bytes += zero;
        self.other_bytes += beside.len() - zero;
        if rim.is_empty() && beside.is_empty() {
            assert!(before == now);
            self.untouched += 1;
        }
    }

    /// Demand 3 for every second accepted block.
    fn check_accepted(&mut self, call: &Call, now: &Outcome) {
        if now.filled.number != 0 || self.now[0] % 2 == 0 {
            return;
        }
        let rows = &now.rows[..4 * now.filled.rows as usize];
        check_mesh(&call.block, call.band, &now.state, rows).unwrap();
        self.meshes += 1;
    }

    /// Mending of tables of which filling refuses the lengths, the sizes or the
    /// band.
    fn check_mending_only(&mut self, call: &Call) {
        let (mended, cuts) = mend_both(&call.block, call.band);
        if mended.number != 0 {
            assert_eq!(mended, Mended::refused(mended.number));
            assert!(cuts == call.block.cuts);
            self.mending_refused += 1;
        }
    }

    /// The counts are those of the faults, the bytes those of the block without
    /// its noise; filling with the same band then has nothing against them, and
    /// mending neither.
    fn check_mending(&mut self, call: &Call, quiet: &Block, faults: &Faults) {
        let (block, band) = (&call.block, call.band);
        let (mended, cuts) = mend_both(block, band);
        assert_eq!(mended, answer(faults.count(6), faults.count(7)));
        assert!(mend_both(quiet, 0) == (mended, cuts.clone()));
        let number = fill_number(block, band, &cuts);
        let is_5 = faults.count(5) > 0;
        assert!(number == if is_5 { 5 } else { 0 } || number == 10 && !is_5);
        let again = Block {
            cuts,
            ..block.clone()
        };
        assert!(mend_both(&again, band) == (answer(0, 0), again.cuts));
        self.filled += mended.filled;
        self.cleared += mended.cleared;
        self.faultless += usize::from(mended == answer(0, 0));
    }
}

/// With `--nocapture` the counts are seen.
#[test]
fn on_12_000_blocks() {
    let mut random = Random::new(101);
    let mut seen = Seen::default();
    for _ in 0..12_000 {
        let call = banded_call(&mut random);
        seen.check(&call, &mut random);
    }
    println!("{seen:?}");
    let Seen {
        now,
        before,
        goes_on,
        no_gap,
        new_stray,
        ..
    } = seen;
    for number in [0, 1, 2, 3, 4, 5, 6, 7, 10, 14] {
        let [now, before] = [now, before].map(|seen| seen[number]);
        assert!(now > 50 && before > 50, "{seen:?}");
    }
    assert!(
        seen.rim > 50_000 && seen.rim_3_with_band_5 > 200,
        "{seen:?}"
    );
    assert!(seen.zero_bytes > 400_000, "{seen:?}");
    assert!(seen.other_bytes > 80_000, "{seen:?}");
    // Each of the four kinds, and what comes before or after it.
    assert!([0, 2, 3].iter().all(|&n| goes_on[n] > 80), "{seen:?}");
    assert!(seen.other_point > 200, "{seen:?}");
    assert!([0, 2, 3].iter().all(|&n| no_gap[n] > 80), "{seen:?}");
    assert!(new_stray.iter().all(|&n| n > 40), "{seen:?}");
    assert!(seen.untouched > 800 && seen.changed > 5_000, "{seen:?}");
    assert!(
        seen.newly_accepted > 2_000 && seen.meshes > 1_500,
        "{seen:?}"
    );
    assert!(seen.filled > 10_000 && seen.cleared > 100_000, "{seen:?}");
    assert!(
        seen.faultless > 3_000 && seen.mending_refused > 2_000,
        "{seen:?}"
    );
}

/// Samples at both ends of some bands and beside them.
const SAMPLES: [i16; 13] = [
    -32768, -32767, -32766, -6, -5, -1, 0, 1, 4, 5, 6, 32766, 32767,
];

/// Every two of these samples at the ends of an edge from or to the middle of the
/// given case, all others at zero, with and without a byte.
#[test]
fn every_two_samples_at_the_ends_of_an_edge() {
    let lattice = Lattice::new(2, 2, 2).unwrap();
    let mut seen = [0; 8];
    for (start, direction) in [(13, 0), (12, 0), (13, 6), (27, 3)] {
        let (end, offset) = (
            lattice.end(start, direction).unwrap(),
            7 * start + direction,
        );
        for (a, b) in SAMPLES.iter().flat_map(|&a| SAMPLES.map(|b| (a, b))) {
            for (band, byte) in [0, 1, 5, 32766, 32767]
                .into_iter()
                .flat_map(|n| [(n, 0), (n, 9)])
            {
                let mut block = emptied(Block::given_with(&[], &[]));
                block.samples.fill(0);
                (block.samples[start], block.samples[end]) = (a, b);
                block.cuts[offset] = byte;
                let is_plus = |sample: i16| i64::from(sample) > i64::from(band);
                let is_minus = |sample: i16| i64::from(sample) < -i64::from(band);
                let is_cut = is_plus(a) && is_minus(b) || is_minus(a) && is_plus(b);
                // Of the two ends the one that is not point 13 is on the rim.
                let (rim, sample) = if start == 13 { (end, b) } else { (start, a) };
                let expected = match (is_cut, byte) {
                    _ if is_plus(sample) => (5, rim),
                    (true, 0) => (6, offset),
                    (false, 9) => (7, offset),
                    _ => (0, 0),
                };
                let Filled { number, place, .. } =
                    run_both(&Call::good(block.clone(), band, 0), 1).filled;
                assert_eq!((number, place as usize), expected, "{a} {b} {band} {byte}");
                seen[number as usize] += 1;
                let [gap, stray] = [is_cut && byte == 0, !is_cut && byte != 0].map(u64::from);
                let (mended, cuts) = mend_both(&block, band);
                assert_eq!(mended, answer(gap, stray), "{a} {b} {band} {byte}");
                assert_eq!(cuts[offset] != 0, is_cut);
            }
        }
    }
    assert!([0, 5, 6, 7].iter().all(|&n| seen[n] > 200), "{seen:?}");
}

/// The given case with samples of 50 and -50 instead of 5 and -5, and then with
/// other samples and bytes.
fn given_with(samples: &[(usize, i16)], bytes: &[(usize, u8)]) -> Block {
    let mut block = Block::given_with(&[], bytes);
    for sample in &mut block.samples {
        *sample *= 10;
    }
    for &(point, sample) in samples {
        block.samples[point] = sample;
    }
    block
}

/// The number and the place that filling answers, and those that it answered
/// before the request.
fn check(block: &Block, band: u32, before: (u32, u64), now: (u32, u64)) -> Outcome {
    let call = Call::good(block.clone(), band, 96);
    let outcome = run_both(&call, 2);
    let old = call.run(fill_by_raw_samples, &mut Random::new(2)).filled;
    let new = outcome.filled;
    assert_eq!(
        [(old.number, old.place), (new.number, new.place)],
        [before, now]
    );
    outcome
}

/// "A rim sample of 3 with band 5 is zero by the band and rubber by the rim test."
/// Point 27 is the first centre; its edge to point 13 has byte 192.
#[test]
fn a_rim_sample_of_3_with_band_5() {
    let block = given_with(&[(27, 3)], &[(192, 0)]);
    for band in [0, 1, 2] {
        check(&block, band, (5, 27), (5, 27));
    }
    for band in [3, 4, 5, 49] {
        let Outcome {
            filled,
            state,
            rows,
        } = check(&block, band, (5, 27), (0, 0));
        assert_eq!((filled.rows, filled.moved), (24, 0));
        assert_eq!(rows[..4], [13, 65, 235, 27]);
        let marked: Vec<usize> = (0..35).filter(|&point| state[point] == ON_SKIN).collect();
        assert_eq!(marked, [27]);
        check_valid(&mut Call::good(block.clone(), band, 0), &mut Random::new(3));
    }
    // On to the later tests: the byte towards it, any other, and 10.
    check(&given_with(&[(27, 3)], &[]), 5, (5, 27), (7, 192));
    check(
        &given_with(&[(27, 3)], &[(192, 0), (91, 0)]),
        5,
        (5, 27),
        (6, 91),
    );
    check(
        &given_with(&[(27, 3)], &[(192, 0), (0, 1)]),
        5,
        (5, 27),
        (7, 0),
    );
    let mut call = Call::good(block, 5, 0);
    call.row_length = 95;
    let filled = run_both(&call, 4).filled;
    assert_eq!((filled.number, filled.rows, filled.place), (10, 24, 0));
}

/// "A 5 whose lowest point is in the band now names the lowest one outside it, if
/// there is one."
#[test]
fn the_lowest_rim_point_outside_the_band() {
    let block = given_with(&[(0, 3), (26, 9), (27, 4), (34, 8)], &[]);
    check(&block, 2, (5, 0), (5, 0));
    for band in [3, 4, 5, 7, 8] {
        check(&block, band, (5, 0), (5, 26));
    }
    // Then bytes 94 and 192, towards points 34 and 27, are stray.
    check(&block, 9, (5, 0), (7, 94));
    // The lowest is outside the band and stays, whatever comes after it.
    let block = given_with(&[(0, 9), (26, 3), (34, 32767)], &[]);
    check(&block, 5, (5, 0), (5, 0));
    check(&block, 9, (5, 0), (5, 34));
    check(&block, 32766, (5, 0), (5, 34));
}

/// "A zero byte on an edge with an in-band end is no longer a 6", be that end the
/// edge's start or not. The edges from 13 to 14 and from 12 to 13 have bytes 91
/// and 84.
#[test]
fn a_zero_byte_beside_the_band() {
    for (point, offset) in [(14, 91), (12, 84), (34, 94), (27, 192)] {
        let place = offset as u64;
        let block = given_with(&[(point, -2)], &[(offset, 0)]);
        for band in [0, 1] {
            check(&block, band, (6, place), (6, place));
        }
        for band in [2, 3, 49] {
            let Outcome { filled, state, .. } = check(&block, band, (6, place), (0, 0));
            assert_eq!((filled.rows, state[point]), (24, ON_SKIN));
        }
    }
    // A 6 behind it.
    let block = given_with(&[(12, -2)], &[(84, 0), (91, 0)]);
    check(&block, 1, (6, 84), (6, 84));
    check(&block, 2, (6, 84), (6, 91));
    // Both ends.
    let block = emptied(given_with(&[], &[]));
    check(&block, 49, (6, 30), (6, 30));
    let Outcome { filled, state, .. } = check(&block, 50, (6, 30), (0, 0));
    assert_eq!((filled.rows, state), (0, vec![ON_SKIN; 35]));
}

/// "A non-zero byte there is now a 7."
#[test]
fn another_byte_beside_the_band() {
    for (point, offset) in [(14, 91), (12, 84), (34, 94), (27, 192)] {
        for byte in [1, 63, 128, 255] {
            let place = offset as u64;
            let block = given_with(&[(point, -2)], &[(offset, byte)]);
            for band in [0, 1] {
                check(&block, band, (0, 0), (0, 0));
            }
            for band in [2, 3, 49] {
                check(&block, band, (0, 0), (7, place));
            }
        }
    }
    check(&given_with(&[], &[]), 49, (0, 0), (0, 0));
    check(&given_with(&[], &[]), 50, (0, 0), (7, 30));
    // Before a 6 or a 7 of old, and behind one.
    let samples = [(12, -2)];
    check(&given_with(&samples, &[(91, 0)]), 2, (6, 91), (7, 84));
    check(&given_with(&samples, &[(98, 1)]), 2, (7, 98), (7, 84));
    check(&given_with(&samples, &[(71, 0)]), 2, (6, 71), (6, 71));
    check(&given_with(&samples, &[(0, 1)]), 2, (7, 0), (7, 0));
}

/// A raw zero needs no byte and bears none, whatever the band.
#[test]
fn a_raw_zero_as_before() {
    for band in [0, 2, 49] {
        check(&given_with(&[(14, 0)], &[]), band, (7, 91), (7, 91));
        check(&given_with(&[(14, 0)], &[(91, 0)]), band, (0, 0), (0, 0));
    }
}

/// -32768 is outside every band; 32767 and -32767 are in the largest.
#[test]
fn the_outermost_samples() {
    let mut block = given_with(&[], &[]);
    block.samples.fill(-32768);
    block.samples[13] = 32767;
    check(&block, 32766, (0, 0), (0, 0));
    check(&block, 32767, (0, 0), (7, 30));
    check(&emptied(block.clone()), 32766, (6, 30), (6, 30));
    check(&emptied(block.clone()), 32767, (6, 30), (0, 0));
    block.samples[27] = 32767;
    block.cuts[192] = 0;
    check(&block, 32766, (5, 27), (5, 27));
    check(&block, 32767, (5, 27), (7, 30));
    block.samples[27] = -32767;
    check(&block, 32766, (6, 192), (6, 192));
    check(&block, 32767, (6, 192), (7, 30));
}
