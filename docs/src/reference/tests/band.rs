//! Request F-3: "A sample whose size is at most the band has label zero." By
//! brute force on thousands of random blocks that are valid with bands, beside
//! the filling before the request at band 0, and by hand on the given case. What
//! must be refused, which request F-9 changed, is in `tests/band_first.rs`.

mod both_fillings;

use both_fillings::{check_valid, run_both};
use reference::block::Block;
use reference::blockfile::{bench_output, fill_block, write};
use reference::bytes::{read_labels, MINUS, PLUS, ZERO};
use reference::check::check_mesh;
use reference::cut::{edge_of_code, violation};
use reference::damage::{Call, Outcome, BAD_BANDS};
use reference::fill::Filled;
use reference::generate::{any_band, any_block, crowded_block, flickering_block, wide_band};
use reference::generate::{block, cuts_where_needed, for_band, for_band_with_noise};
use reference::generate::{Cutting, CUTTINGS, MIXES};
use reference::lattice::Lattice;
use reference::place::{place, Placed};
use reference::plain::{ids_of_rows, label, marked, nearest, Moved, Violation};
use reference::random::Random;
use reference::shapes;
use reference::state::{is_move, ON_SKIN};
use std::collections::{HashMap, HashSet};

/// Whether a sample's size is at most the band, in this file's own words.
fn in_band(band: u32, sample: i16) -> bool {
    let (band, sample) = (i64::from(band), i64::from(sample));
    -band <= sample && sample <= band
}

/// The block without its noise: in-band samples are zero.
fn without_noise(block: &Block, band: u32) -> Block {
    let mut quiet = block.clone();
    for sample in &mut quiet.samples {
        if in_band(band, *sample) {
            *sample = 0;
        }
    }
    quiet
}

/// What was seen on some blocks. In-band points are counted only if their
/// samples are not zero, so that it is the band that makes their labels zero.
#[derive(Debug, Default)]
struct Seen {
    blocks: usize,
    points: usize,
    rows: usize,
    moved: usize,
    in_band: usize,
    in_band_on_rim: usize,
    /// Those on the rim that are above zero.
    above_zero_on_rim: usize,
    /// Samples whose size is the band, one less and one more.
    at_band: usize,
    one_below: usize,
    one_above: usize,
    /// Samples -32768 and 32767 at band 32767.
    lowest_at_largest_band: usize,
    highest_at_largest_band: usize,
    /// Edges with an in-band end whose samples are of opposite signs.
    uncut: usize,
    /// Blocks with other moves, or another T, than at band 0 before the noise.
    other_moves: usize,
    other_rows: usize,
    /// Blocks with rows at band 0 before the noise and none at this band.
    emptied: usize,
    /// In-band points that are corners of faces in one row only.
    in_band_on_skin: usize,
}

impl Seen {
    /// With a block that is valid at band 0, made valid with this band: both
    /// fillings agree, the result is that of the block without its noise,
    /// in-band points and no others have state byte 15, and demand 3 holds.
    fn check(&mut self, raw: Block, band: u32, random: &mut Random) {
        let block = for_band_with_noise(random, raw.clone(), band);
        let mut call = Call::good(block, band, 0);
        let outcome = check_valid(&mut call, random);
        let block = call.block;
        let quiet = fill_block(&without_noise(&block, band), 0);
        assert_eq!(outcome.filled, quiet.filled);
        assert_eq!((&outcome.state, &outcome.rows), (&quiet.state, &quiet.rows));
        for (&sample, &code) in block.samples.iter().zip(&outcome.state) {
            assert_eq!(code == ON_SKIN, in_band(band, sample));
        }
        let faces = check_mesh(&block, band, &outcome.state, &outcome.rows);
        let faces = faces.unwrap_or_else(|fault| panic!("block {}: {fault}", self.blocks));
        assert_eq!(2 * faces.inner + faces.skin, outcome.rows.len());
        self.blocks += 1;
        self.rows += outcome.filled.rows as usize;
        self.moved += outcome.filled.moved as usize;
        self.count_points(&block, band);
        self.count_edges(&block, band);
        self.compare_with_band_0(&raw, &outcome);
        self.in_band_on_skin += points_on_open_faces(&outcome.rows, block.samples.len())
            .iter()
            .filter(|&&point| block.samples[point] != 0 && in_band(band, block.samples[point]))
            .count();
    }

    fn count_points(&mut self, block: &Block, band: u32) {
        let lattice = block.lattice().unwrap();
        self.points += block.samples.len();
        for (point, &sample) in block.samples.iter().enumerate() {
            if sample == 0 {
                continue;
            }
            let size = i64::from(sample).abs();
            let more = size - i64::from(band);
            self.in_band += usize::from(more <= 0);
            let on_rim = more <= 0 && lattice.is_rim(point);
            self.in_band_on_rim += usize::from(on_rim);
            self.above_zero_on_rim += usize::from(on_rim && sample > 0);
            self.at_band += usize::from(more == 0);
            self.one_below += usize::from(more == -1);
            self.one_above += usize::from(more == 1);
            if band == 32767 {
                self.lowest_at_largest_band += usize::from(sample == -32768);
                self.highest_at_largest_band += usize::from(sample == 32767);
            }
        }
    }

    /// No cut byte has an in-band end, whatever the samples' signs.
    fn count_edges(&mut self, block: &Block, band: u32) {
        let lattice = block.lattice().unwrap();
        for (offset, &byte) in block.cuts.iter().enumerate() {
            let Some(end) = lattice.end(offset / 7, offset % 7) else {
                continue;
            };
            let ends = [offset / 7, end].map(|point| block.samples[point]);
            if ends.iter().any(|&sample| in_band(band, sample)) {
                assert_eq!(byte, 0, "byte {offset}");
                self.uncut += usize::from(ends[0].signum() * ends[1].signum() < 0);
            }
        }
    }

    fn compare_with_band_0(&mut self, raw: &Block, outcome: &Outcome) {
        let at_0 = fill_block(raw, 0);
        let (rows_at_0, rows) = (at_0.filled.rows, outcome.filled.rows);
        self.other_moves += usize::from(moves_of(&at_0.state) != moves_of(&outcome.state));
        self.other_rows += usize::from(rows_at_0 != rows);
        self.emptied += usize::from(rows_at_0 > 0 && rows == 0);
    }
}

/// The state bytes that are a move, and 0 for the others.
fn moves_of(state: &[u8]) -> Vec<u8> {
    let move_or_0 = |&code: &u8| if is_move(code) { code } else { 0 };
    state.iter().map(move_or_0).collect()
}

/// The points that are corners of a face in exactly one row.
fn points_on_open_faces(rows: &[u32], point_count: usize) -> HashSet<usize> {
    let mut count: HashMap<[u32; 3], usize> = HashMap::new();
    for row in rows.chunks(4) {
        for left_out in 0..4 {
            let mut face = [1, 2, 3].map(|n| row[(left_out + n) % 4]);
            face.sort();
            *count.entry(face).or_default() += 1;
        }
    }
    let open = count.iter().filter(|(_, &rows)| rows == 1);
    let corners = open.flat_map(|(face, _)| face.map(|id| id as usize));
    corners.filter(|&id| id < point_count).collect()
}

type BlockMaker = fn(&mut Random, u32) -> Block;
type BandMaker = fn(&mut Random, &Block) -> u32;

/// With `--nocapture` the counts are seen.
fn seen_on(seed: u64, blocks: usize, block: BlockMaker, band: BandMaker) -> Seen {
    let mut random = Random::new(seed);
    let mut seen = Seen::default();
    for n in 0..blocks {
        let largest = if n % 4 == 0 { 5 } else { 4 };
        let block = block(&mut random, largest);
        let band = band(&mut random, &block);
        seen.check(block, band, &mut random);
    }
    println!("{seen:?}");
    assert_eq!(seen.blocks, blocks);
    seen
}

#[test]
fn wide_bands_on_flickering_blocks() {
    let seen = seen_on(61, 4000, flickering_block, wide_band);
    assert!(seen.in_band > 150_000 && seen.uncut > 100_000, "{seen:?}");
    assert!(seen.at_band > 10_000 && seen.one_below > 8_000, "{seen:?}");
    assert!(seen.one_above > 6_000 && seen.moved > 5_000, "{seen:?}");
    assert!(seen.above_zero_on_rim > 40_000, "{seen:?}");
    assert!(
        seen.other_moves > 2_500 && seen.other_rows > 1_500,
        "{seen:?}"
    );
    assert!(
        seen.emptied > 300 && seen.in_band_on_skin > 20_000,
        "{seen:?}"
    );
}

#[test]
fn wide_bands_on_crowded_blocks() {
    let seen = seen_on(62, 2000, crowded_block, wide_band);
    assert!(seen.lowest_at_largest_band > 8_000, "{seen:?}");
    assert!(seen.highest_at_largest_band > 600, "{seen:?}");
    assert!(
        seen.above_zero_on_rim > 800 && seen.emptied > 150,
        "{seen:?}"
    );
}

#[test]
fn any_bands_on_flickering_blocks() {
    let seen = seen_on(63, 3000, flickering_block, any_band);
    assert!(
        seen.in_band_on_rim > 80_000 && seen.rows > 80_000,
        "{seen:?}"
    );
    assert!(
        seen.other_rows > 800 && seen.in_band_on_skin > 6_000,
        "{seen:?}"
    );
}

#[test]
fn any_bands_on_all_blocks() {
    let seen = seen_on(64, 3000, any_block, any_band);
    assert!(seen.in_band > 80_000 && seen.rows > 80_000, "{seen:?}");
    assert!(seen.other_rows > 800 && seen.emptied > 200, "{seen:?}");
}

/// Samples that are distances to the skin: the band takes in a layer.
#[test]
fn bands_on_the_mount() {
    let mut random = Random::new(65);
    let mount = shapes::mount();
    let mut seen = Seen::default();
    for band in [100, shapes::tenth_band(&mount)] {
        seen.check(mount.clone(), band, &mut random);
    }
    assert!(
        seen.moved > 1_000 && seen.in_band_on_skin > 5_000,
        "{seen:?}"
    );
}

/// Moving points as it was before the request: a point's label is its sample's
/// sign. The rest is as in the plain filling, the marks of request F-8 too.
fn moved_before(block: &Block) -> Moved {
    let lattice = block.lattice().unwrap();
    let mut labels: Vec<i16> = block.samples.iter().map(|s| s.signum()).collect();
    let mut codes: Vec<u8> = labels.iter().map(|&label| marked(label)).collect();
    for point in 0..labels.len() {
        let mut violations = Vec::new();
        for code in 1..=14 {
            let Some((edge, end)) = edge_of_code(&lattice, point, code) else {
                continue;
            };
            let far = lattice.end(edge.start, edge.direction).unwrap();
            let live = labels[edge.start] != 0 && labels[far] != 0;
            let distance = violation(block.cuts[edge.offset()], edge.direction, end);
            if let (true, Some(distance)) = (live, distance) {
                violations.push(Violation { code, distance });
            }
        }
        if let Some(chosen) = nearest(&violations) {
            codes[point] = chosen.code;
            labels[point] = 0;
        }
    }
    Moved { codes, labels }
}

/// "Band 0 changes no answer."
fn check_band_0(block: Block, random: &mut Random) {
    let before = moved_before(&block);
    let rows = ids_of_rows(&block.lattice().unwrap(), &block.cuts, &before);
    let outcome = check_valid(&mut Call::good(block, 0, 0), random);
    assert_eq!(outcome.state, before.codes);
    assert_eq!(outcome.rows, rows);
}

#[test]
fn band_0_is_the_filling_before() {
    let mut random = Random::new(67);
    for _ in 0..400 {
        check_band_0(any_block(&mut random, 5), &mut random);
        check_band_0(crowded_block(&mut random, 5), &mut random);
        check_band_0(flickering_block(&mut random, 5), &mut random);
    }
    for mix in MIXES {
        for cutting in CUTTINGS.into_iter().chain([Cutting::Close]) {
            check_band_0(block(&mut random, [5, 4, 6], mix, cutting), &mut random);
        }
    }
    check_band_0(shapes::mount(), &mut random);
    check_band_0(Block::given_case(), &mut random);
}

/// Both fillings' labels of all samples at one band.
fn check_labels(band: u32, expected: impl Fn(i16) -> i16) {
    let samples: Vec<i16> = (i16::MIN..=i16::MAX).collect();
    let labels = read_labels(band as i16, &samples);
    assert_eq!(labels.len(), 65_536);
    for (&sample, fast) in samples.iter().zip(labels) {
        let fast = match fast {
            PLUS => 1,
            MINUS => -1,
            ZERO => 0,
            other => panic!("label {other}"),
        };
        let plain = label(band, sample);
        let expected = expected(sample);
        assert_eq!((fast, plain), (expected, expected), "{band} {sample}");
    }
}

#[test]
fn labels_of_all_samples() {
    check_labels(0, |sample| sample.signum());
    for band in [0, 1, 2, 3, 4, 127, 128, 255, 256, 16384, 32766, 32767] {
        check_labels(band, |sample| match sample {
            _ if in_band(band, sample) => 0,
            0.. => 1,
            _ => -1,
        });
    }
    // The size of -32768 is 32,768.
    check_labels(32767, |sample| if sample == -32768 { -1 } else { 0 });
    let lowest = |sample| match sample {
        -32768 | -32767 => -1,
        32767 => 1,
        _ => 0,
    };
    check_labels(32766, lowest);
}

/// Both fillings of a small block, which is made valid with the band, with no row
/// behind the last.
fn outcome(block: &Block, band: u32) -> Outcome {
    run_both(&Call::good(for_band(block.clone(), band), band, 0), 1)
}

fn check_refused(call: &Call, number: u32, place: usize) {
    let outcome = run_both(call, 2);
    assert_eq!(outcome.filled, Filled::refused(number, place));
}

/// T, M and the state byte of one point.
fn counts(block: &Block, band: u32, point: usize) -> (u64, u64, u8) {
    let Outcome { filled, state, .. } = outcome(block, band);
    assert_eq!(filled.number, 0);
    (filled.rows, filled.moved, state[point])
}

#[test]
fn the_given_case() {
    let block = Block::given_case();
    let at_0 = outcome(&block, 0);
    assert_eq!((at_0.filled.rows, at_0.filled.moved), (24, 0));
    assert_eq!(outcome(&block, 4), at_0);
    for band in [5, 6, 32767] {
        let Outcome { filled, state, .. } = outcome(&block, band);
        assert_eq!((filled.number, filled.rows, filled.moved), (0, 0, 0));
        assert_eq!(state, [ON_SKIN; 35]);
    }
    let mut call = Call::good(block, 0, 0);
    for band in BAD_BANDS {
        call.band = band;
        check_refused(&call, 14, 0);
    }
}

/// 4 by 2 by 2 cubes with rubber at the three corners inside, side by side, and
/// little of it in the middle; the skin is halfway along all edges but some.
fn rod(bytes: &[(usize, u8)]) -> Block {
    let lattice = Lattice::new(4, 2, 2).unwrap();
    let mut samples = vec![-5; lattice.point_count()];
    (samples[21], samples[22], samples[23]) = (5, 3, 5);
    let mut cuts = cuts_where_needed(&lattice, 0, &samples, |_, _| 128);
    for &(offset, byte) in bytes {
        cuts[offset] = byte;
    }
    let sizes = [4, 2, 2];
    Block {
        sizes,
        samples,
        cuts,
    }
}

/// With its middle in the band the rod is two bodies of 24 rows, as the given
/// case is one, and they share that point alone.
#[test]
fn a_point_in_the_band_splits_a_rod() {
    let whole = outcome(&rod(&[]), 2);
    assert_eq!((whole.filled.rows, whole.filled.moved), (80, 0));
    assert_eq!(whole.rows[..4], [21, 105, 387, 379]);
    let split = outcome(&rod(&[]), 3);
    assert_eq!((split.filled.rows, split.filled.moved), (48, 0));
    assert_eq!(split.rows[..4], [21, 105, 387, 379]);
    let ids_beside = |end: u32| -> HashSet<u32> {
        let rows = split.rows.chunks(4).filter(|row| row.contains(&end));
        rows.flatten().copied().collect()
    };
    let (left, right) = (ids_beside(21), ids_beside(23));
    assert_eq!(left.intersection(&right).collect::<Vec<_>>(), [&22]);
    assert_eq!(outcome(&rod(&[]), 5).filled.rows, 0);
    for (byte, band, rows, moved) in [
        (63, 2, 48, 1),
        (63, 3, 48, 0),
        (193, 2, 80, 1),
        (193, 3, 48, 0),
    ] {
        let filled = outcome(&rod(&[(155, byte)]), band).filled;
        assert_eq!((filled.rows, filled.moved), (rows, moved), "{byte} {band}");
    }
}

type Fault = fn(&mut Call);

/// 1, 14, 2 and so on; 14 writes nothing, as `run_both` sees.
#[test]
fn order_of_checks() {
    let good = Call::good(Block::given_case(), 32768, 96);
    check_refused(&good, 14, 0);
    for size in [0, 65] {
        let mut call = good.clone();
        call.block.sizes[1] = size;
        check_refused(&call, 1, 0);
    }
    // One later fault after the other, the latest first.
    let mut call = good;
    let faults: [(u32, usize, Fault); 8] = [
        (10, 0, |call| call.row_length = 95),
        (7, 98, |call| call.block.cuts[98] = 1),
        (6, 91, |call| call.block.cuts[91] = 0),
        (5, 27, |call| call.block.samples[27] = 5),
        (4, 0, |call| call.state_length = 34),
        (3, 0, |call| call.block.cuts.truncate(244)),
        (2, 0, |call| call.block.samples.truncate(34)),
        (1, 0, |call| call.block.sizes[2] = 65),
    ];
    for (number, place, make) in faults {
        make(&mut call);
        call.band = 32768;
        check_refused(&call, if number == 1 { 1 } else { 14 }, 0);
        call.band = 4;
        if number == 10 {
            let Filled { number, rows, .. } = run_both(&call, 3).filled;
            assert_eq!((number, rows), (10, 24));
        } else {
            check_refused(&call, number, place);
        }
    }
}

#[test]
fn the_outermost_samples_at_the_largest_band() {
    let mut block = Block::given_with(&[], &[(91, 193)]);
    block.samples.fill(-32768);
    block.samples[13] = 32767;
    assert_eq!(counts(&block, 32766, 14), (24, 1, 8));
    // Point 13 is zero, so byte 91 is none and does not move point 14.
    assert_eq!(counts(&block, 32767, 14), (0, 0, 0));
    // -32767 is zero and -32768 is not, but there is no plus either way.
    block.samples[13] = -32767;
    block.cuts.fill(0);
    assert_eq!(counts(&block, 32767, 13), (0, 0, ON_SKIN));
    assert_eq!(counts(&block, 32767, 14), (0, 0, 0));
}

/// "The face rule now counts an in-band point as lying on the skin."
#[test]
fn the_face_rule() {
    let block = Block::given_with(&[(14, -2)], &[]);
    let Outcome { state, rows, .. } = outcome(&block, 2);
    assert!(points_on_open_faces(&rows, 35).contains(&14));
    for band in [2, 3, 4] {
        let faces = check_mesh(&block, band, &state, &rows).unwrap();
        assert_eq!((faces.inner, faces.skin), (36, 24));
    }
    for band in [0, 1] {
        let fault = check_mesh(&block, band, &state, &rows).unwrap_err();
        assert!(fault.contains("off the skin"), "{fault}");
    }
}

/// The place call takes no band, but reads the state table: since request F-8
/// the cut between a plus and an in-band point, which no row holds, is refused,
/// even by a cut table that has its byte.
#[test]
fn the_place_of_a_cut_beside_the_band() {
    let block = Block::given_with(&[(14, -2)], &[]);
    let Outcome { state, rows, .. } = outcome(&block, 2);
    let id = 35 + 91;
    assert!(!rows.contains(&id) && rows.contains(&14));
    let Placed { number, x, y, z } = place(2, 2, 2, &block.cuts, &state, id);
    assert_eq!((number, [x, y, z]), (8, [0; 3]));
    let Placed { number, x, y, z } = place(2, 2, 2, &block.cuts, &state, 14);
    assert_eq!((number, [x, y, z]), (0, [1024, 512, 512]));
}

/// "The programs use it", band 0: samples of size 1 count.
#[test]
fn the_bench_program_uses_band_0() {
    let mut block = Block::given_case();
    for sample in &mut block.samples {
        *sample = sample.signum();
    }
    let expected = "points 35\nlattice 48\nmoved 0\nemitted 24\n";
    assert_eq!(bench_output(&write(&block).unwrap()), expected);
}

#[test]
fn the_least_band_for_a_tenth() {
    let check = |block: &Block, expected: Option<u32>| {
        let band = shapes::tenth_band(block);
        assert!(expected.is_none_or(|expected| expected == band), "{band}");
        let taken_in = |band| block.samples.iter().filter(|&&s| in_band(band, s)).count();
        assert!(10 * taken_in(band) >= block.samples.len());
        assert!(band == 0 || 10 * taken_in(band - 1) < block.samples.len());
    };
    check(&Block::given_case(), Some(5));
    check(&shapes::air(), Some(1));
    check(&shapes::sphere(), Some(655));
    check(&shapes::ribs(), None);
    check(&shapes::mount(), None);
    // Four points of 35, and three.
    let zeros = |count: usize| -> Vec<(usize, i16)> { (0..count).map(|p| (p, 0)).collect() };
    check(&Block::given_with(&zeros(4), &[]), Some(0));
    check(&Block::given_with(&zeros(3), &[]), Some(5));
    let sphere = fill_block(&for_band(shapes::sphere(), 655), 655).filled;
    assert_eq!((sphere.rows, sphere.moved), (1_094_664, 0));
}
