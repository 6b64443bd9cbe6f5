//! Request F-8: "Mark points that lie on the skin unmoved." By brute force on
//! thousands of random valid blocks, half of them with bands, beside the state
//! table before the request, and by hand on the given case. Since request F-9 no
//! byte of a valid block stands beside a marked point, but the place call takes
//! any cut table, and is asked with such bytes too.

mod both_fillings;

use both_fillings::{check_valid, run_both};
use reference::block::Block;
use reference::blockfile::{bench_output, fill_block, write};
use reference::check::check_mesh;
use reference::cut::six_volume;
use reference::damage::{Call, NodesCall, NodesOutcome, Outcome};
use reference::fill::Filled;
use reference::generate::{any_band, any_block, crowded_block, flickering_block, wide_band};
use reference::generate::{block, for_band, for_band_with_noise, CUTTINGS, MIXES};
use reference::lattice::Lattice;
use reference::metric::{place_mm, place_mm_plain};
use reference::nodes::{nodes, Numbered};
use reference::place::place;
use reference::plain;
use reference::plain::{ids_of_rows, move_points_by, nearest, unmarked, Moved};
use reference::random::Random;
use reference::report::report;
use reference::shapes;
use std::collections::HashSet;

/// Whether a point's label is zero from the start, in this file's own words: its
/// sample is in the band, which at band 0 means that it is zero.
fn is_zero(band: u32, sample: i16) -> bool {
    i64::from(sample).pow(2) <= i64::from(band).pow(2)
}

/// Moving points as before the request: bytes 0 to 14.
fn before(block: &Block, band: u32) -> Moved {
    let lattice = block.lattice().unwrap();
    let (samples, cuts) = (&block.samples, &block.cuts);
    move_points_by(nearest, unmarked, &lattice, band, samples, cuts)
}

/// The number and the place of an id.
fn place_in(block: &Block, state: &[u8], id: usize) -> (u32, [u32; 3]) {
    let [nx, ny, nz] = block.sizes;
    let placed = place(nx, ny, nz, &block.cuts, state, id as u32);
    (placed.number, [placed.x, placed.y, placed.z])
}

/// What was seen on some blocks.
#[derive(Debug, Default)]
struct Seen {
    blocks: usize,
    with_band: usize,
    points: usize,
    moved: usize,
    rows: usize,
    /// Points marked: all, those whose samples are not zero, those on the rim,
    /// and those on the rim whose samples are zero.
    marked: usize,
    by_band: usize,
    on_rim: usize,
    zero_on_rim: usize,
    /// Blocks with points marked, moved and at rest.
    of_all_kinds: usize,
    /// Blocks without a marked point, and with no other.
    none_marked: usize,
    all_marked: usize,
    /// Marked points that are corners of rows.
    corners: usize,
    /// Bytes with a marked end that stood before the block was made valid with
    /// the band; of these those whose other end is marked too, moved, or at rest.
    beside: usize,
    between_marked: usize,
    beside_moved: usize,
    beside_rest: usize,
    /// Cuts that have a place.
    cuts: usize,
    /// Calls refused with 10 though a point is marked.
    too_short: usize,
    /// Faces in one row only.
    skin: usize,
}

impl Seen {
    /// With a block that is valid at band 0, made valid with this band: both
    /// fillings agree; rows, T and M are those of before; the state byte is 15
    /// exactly where the label is zero from the start and else the byte of
    /// before, after 10 too; and demand 3 holds.
    fn check(&mut self, raw: Block, band: u32, random: &mut Random) {
        let block = for_band_with_noise(random, raw.clone(), band);
        let lattice = block.lattice().unwrap();
        let before = before(&block, band);
        let rows = ids_of_rows(&lattice, &block.cuts, &before);
        let moved = before.codes.iter().filter(|&&code| code != 0).count();
        let is_marked = |point: usize| is_zero(band, block.samples[point]);
        let byte = |point: usize| match before.codes[point] {
            0 if is_marked(point) => 15,
            code => code,
        };
        let state: Vec<u8> = (0..before.codes.len()).map(byte).collect();
        let mut call = Call::good(block.clone(), band, 0);
        let Outcome { filled, .. } = check_valid(&mut call, random);
        let answer = |number| Filled {
            number,
            rows: rows.len() as u64 / 4,
            moved: moved as u64,
            place: 0,
        };
        assert_eq!(filled, answer(0), "block {}", self.blocks);
        for (length, number) in [(rows.len(), 0), (rows.len().saturating_sub(1), 10), (0, 10)] {
            call.row_length = length;
            let outcome = run_both(&call, random.bits());
            assert_eq!(outcome.state, state, "block {}", self.blocks);
            if rows.is_empty() || number == 0 {
                assert_eq!((outcome.filled, &outcome.rows), (answer(0), &rows));
            } else {
                assert_eq!(outcome.filled, answer(10));
                self.too_short += usize::from(state.contains(&15));
            }
        }
        let faces = check_mesh(&block, band, &state, &rows);
        let faces = faces.unwrap_or_else(|fault| panic!("block {}: {fault}", self.blocks));
        self.skin += faces.skin;
        self.blocks += 1;
        self.with_band += usize::from(band > 0);
        self.moved += moved;
        self.rows += rows.len() / 4;
        let corners: HashSet<u32> = rows.into_iter().collect();
        let is_corner = |point: &usize| corners.contains(&(*point as u32));
        self.corners += (0..state.len())
            .filter(|&point| is_marked(point))
            .filter(is_corner)
            .count();
        self.check_points(&lattice, &block, &state);
        self.check_cuts(&lattice, &raw, &state);
    }

    /// Every point has a place; a marked one its own.
    fn check_points(&mut self, lattice: &Lattice, block: &Block, state: &[u8]) {
        let marked_before = self.marked;
        for (point, &code) in state.iter().enumerate() {
            let (number, at) = place_in(block, state, point);
            let own = lattice.coordinates(point).map(|c| 256 * c as u32);
            assert_eq!(number, 0, "point {point}");
            assert_eq!(at == own, code == 0 || code == 15, "point {point}");
            if code == 15 {
                let (is_rim, sample) = (lattice.is_rim(point), block.samples[point]);
                self.marked += 1;
                self.by_band += usize::from(sample != 0);
                self.on_rim += usize::from(is_rim);
                self.zero_on_rim += usize::from(is_rim && sample == 0);
            }
        }
        let marked = self.marked - marked_before;
        let moves = state.iter().any(|code| (1..=14).contains(code));
        self.points += state.len();
        self.none_marked += usize::from(marked == 0);
        self.all_marked += usize::from(marked == state.len());
        self.of_all_kinds += usize::from(marked > 0 && moves && state.contains(&0));
    }

    /// "A cut with an end coded 15 is refused by 8", as one beside a moved point
    /// is; all others have a place.
    fn check_cuts(&mut self, lattice: &Lattice, raw: &Block, state: &[u8]) {
        for (offset, &byte) in raw.cuts.iter().enumerate() {
            if byte == 0 {
                continue;
            }
            let end = lattice.end(offset / 7, offset % 7).unwrap();
            let mut codes = [state[offset / 7], state[end]];
            codes.sort();
            let (number, at) = place_in(raw, state, state.len() + offset);
            if codes == [0, 0] {
                assert_eq!(number, 0, "byte {offset}");
                self.cuts += 1;
            } else {
                assert_eq!((number, at), (8, [0; 3]), "byte {offset}");
            }
            if codes[1] == 15 {
                self.beside += 1;
                self.between_marked += usize::from(codes[0] == 15);
                self.beside_rest += usize::from(codes[0] == 0);
                self.beside_moved += usize::from((1..=14).contains(&codes[0]));
            }
        }
    }
}

/// A band above 0.
fn some_band(random: &mut Random, block: &Block) -> u32 {
    let make = random.pick(&[any_band, wide_band]);
    make(random, block).max(1)
}

/// 4,000 blocks, every second one with a band. With `--nocapture` the counts are
/// seen.
fn seen_on(seed: u64, blocks: fn(&mut Random, u32) -> Block) -> Seen {
    let mut random = Random::new(seed);
    let mut seen = Seen::default();
    for n in 0..4000 {
        let largest = if n % 8 < 2 { 5 } else { 4 };
        let block = blocks(&mut random, largest);
        let band = match n % 2 {
            0 => 0,
            _ => some_band(&mut random, &block),
        };
        seen.check(block, band, &mut random);
    }
    println!("{seen:?}");
    assert_eq!((seen.blocks, seen.with_band), (4000, 2000));
    assert!(seen.marked > 150_000 && seen.by_band > 70_000, "{seen:?}");
    assert!(seen.on_rim > 120_000, "{seen:?}");
    assert!(seen.zero_on_rim > 50_000, "{seen:?}");
    assert!(seen.moved > 15_000 && seen.rows > 80_000, "{seen:?}");
    assert!(seen.of_all_kinds > 1_500, "{seen:?}");
    assert!(seen.corners > 15_000 && seen.skin > 50_000, "{seen:?}");
    assert!(seen.beside > 60_000 && seen.cuts > 5_000, "{seen:?}");
    assert!(seen.beside_rest > 20_000, "{seen:?}");
    assert!(seen.beside_moved > 7_000, "{seen:?}");
    assert!(seen.between_marked > 25_000, "{seen:?}");
    assert!(seen.too_short > 2_500, "{seen:?}");
    seen
}

#[test]
fn on_blocks_of_every_kind() {
    let seen = seen_on(91, any_block);
    assert!(seen.none_marked > 8, "{seen:?}");
}

#[test]
fn on_crowded_blocks() {
    seen_on(92, crowded_block);
}

#[test]
fn on_flickering_blocks() {
    let seen = seen_on(93, flickering_block);
    assert!(seen.all_marked > 5, "{seen:?}");
}

/// Long lines of points, and a part whose samples are distances.
#[test]
fn on_larger_blocks() {
    let mut random = Random::new(94);
    let mut seen = Seen::default();
    for sizes in [[64, 4, 3], [3, 64, 4], [4, 3, 64], [33, 7, 5]] {
        for mix in MIXES {
            let cutting = random.pick(&CUTTINGS);
            let block = block(&mut random, sizes, mix, cutting);
            let band = some_band(&mut random, &block);
            seen.check(block.clone(), 0, &mut random);
            seen.check(block, band, &mut random);
        }
    }
    let mount = shapes::mount();
    for band in [0, 100, shapes::tenth_band(&mount)] {
        seen.check(mount.clone(), band, &mut random);
    }
    println!("{seen:?}");
    assert!(seen.marked > 20_000 && seen.corners > 5_000, "{seen:?}");
    assert!(
        seen.zero_on_rim > 3_000 && seen.by_band > 15_000,
        "{seen:?}"
    );
    assert!(seen.moved > 10_000 && seen.beside_rest > 5_000, "{seen:?}");
}

/// Refusals write nothing, so no mark either: `run_both` sees that the lent
/// tables are as before. A zero beside a cut byte is refused with 7.
#[test]
fn refusals_mark_nothing() {
    // The given case's lowest cut byte is 30; without its plus point all of
    // them are stray.
    let block = Block::given_with(&[(13, 0)], &[]);
    for band in [0, 5] {
        let outcome = run_both(&Call::good(block.clone(), band, 96), 1);
        assert_eq!(outcome.filled, Filled::refused(7, 30));
    }
    let rim = Block::given_with(&[(26, 0), (27, 1)], &[]);
    let outcome = run_both(&Call::good(rim, 0, 96), 2);
    assert_eq!(outcome.filled, Filled::refused(5, 27));
}

/// The given case with sample 13 at 0, and so without cuts.
fn without_rubber() -> Block {
    let mut block = Block::given_with(&[(13, 0)], &[]);
    block.cuts.fill(0);
    block
}

/// The given case with a rim sample of 0: point 27 is the first centre, at
/// 1, 1, 1. Its edge to point 13 has direction 3 and byte 7*27+3, now 0.
fn with_rim_zero() -> Block {
    Block::given_with(&[(27, 0)], &[(192, 0)])
}

/// Both fillings of the block made valid with the band answer this T and M, and
/// these points have these state bytes, all others 0; before the request, points
/// coded 15 had 0 as well.
fn check_filled(block: &Block, band: u32, counts: [u64; 2], bytes: &[(usize, u8)]) -> Outcome {
    let block = &for_band(block.clone(), band);
    let outcome = run_both(&Call::good(block.clone(), band, 0), 3);
    let [rows, moved] = counts;
    let place = 0;
    let answer = |number| Filled {
        number,
        rows,
        moved,
        place,
    };
    assert_eq!(outcome.filled, answer(0));
    let mut state = vec![0; block.samples.len()];
    for &(point, byte) in bytes {
        state[point] = byte;
    }
    assert_eq!(outcome.state, state);
    let without = |&byte: &u8| if byte == 15 { 0 } else { byte };
    let state_before: Vec<u8> = state.iter().map(without).collect();
    assert_eq!(before(block, band).codes, state_before);
    // A row table that is too short by one number.
    if rows > 0 {
        let mut call = Call::good(block.clone(), band, 0);
        call.row_length -= 1;
        let short = run_both(&call, 4);
        assert_eq!((short.filled, short.state), (answer(10), state));
    }
    outcome
}

/// No plus, so no rows; point 13 alone has label zero.
#[test]
fn the_given_case_with_sample_13_at_0() {
    let block = without_rubber();
    let Outcome { state, .. } = check_filled(&block, 0, [0, 0], &[(13, 15)]);
    // Point 13 is 1+3(1+3): X, Y, Z are 2, 2, 2.
    assert_eq!(place_in(&block, &state, 13), (0, [512; 3]));
    // At band 4 it is the only one in the band as well, at 5 all are.
    check_filled(&block, 4, [0, 0], &[(13, 15)]);
    let all: Vec<(usize, u8)> = (0..35).map(|point| (point, 15)).collect();
    check_filled(&block, 5, [0, 0], &all);
    let output = bench_output(&write(&block).unwrap());
    assert_eq!(output, "points 35\nlattice 48\nmoved 0\nemitted 0\n");
}

/// "Sample in the band": 5 and -5 are at band 5, and not at band 4. No cut has a
/// place then, even by the cut table that has all fourteen.
#[test]
fn the_given_case_with_band_5() {
    let block = Block::given_case();
    check_filled(&block, 4, [24, 0], &[]);
    let all: Vec<(usize, u8)> = (0..35).map(|point| (point, 15)).collect();
    for band in [5, 6, 32767] {
        let Outcome { state, .. } = check_filled(&block, band, [0, 0], &all);
        let corner = |point: usize| place_in(&block, &state, point);
        assert_eq!([corner(0), corner(13)], [(0, [0; 3]), (0, [512; 3])]);
        assert_eq!([corner(26), corner(34)], [(0, [1024; 3]), (0, [768; 3])]);
        for id in 35..280 {
            assert_eq!(place_in(&block, &state, id), (8, [0; 3]));
        }
    }
    // Byte 91 violates point 13, which moves unless it is in the band.
    check_filled(&Block::given_with(&[], &[(91, 63)]), 5, [0, 0], &all);
    check_filled(&Block::given_with(&[], &[(91, 63)]), 4, [0, 1], &[(13, 1)]);
}

/// The first row is that of P1, with point 27 instead of the cut beside it, id
/// 35+192: +--0 is p1 p1m1 p1m2 z1. From 512, 512, 512 the others are away by
/// 0, 0, -256; 128, -128, -128; -256, -256, -256. So the six-volume is -256
/// times 128*(-256) - (-128)*(-256), that is 16,777,216 and twice that of P1.
#[test]
fn the_given_case_with_a_rim_sample_of_0() {
    let block = with_rim_zero();
    let Outcome { state, rows, .. } = check_filled(&block, 0, [24, 0], &[(27, 15)]);
    assert_eq!(rows[..4], [13, 65, 235, 27]);
    let places = [13, 65, 235, 27].map(|id| place_in(&block, &state, id).1.map(i64::from));
    assert_eq!(six_volume(places), 16_777_216);
    assert_eq!(place_in(&block, &state, 27), (0, [256; 3]));
    let faces = check_mesh(&block, 0, &state, &rows).unwrap();
    assert_eq!((faces.inner, faces.skin), (36, 24));
    // Of the 24 rows, 6 have the edge from 13 to 27 and are twice as large.
    let sum = (18 + 2 * 6) * 8_388_608;
    let line = format!("1 24 0 {sum} 8388608\n24 {sum}\n");
    assert_eq!(report(&write(&block).unwrap()), line.into_bytes());
    // A corner on the rim: point 14 at 4, 2, 2, with byte 91 towards it.
    let corner = Block::given_with(&[(14, 0)], &[(91, 0)]);
    let Outcome { state, .. } = check_filled(&corner, 0, [24, 0], &[(14, 15)]);
    assert_eq!(place_in(&corner, &state, 14), (0, [1024, 512, 512]));
    // Point 0, a corner of the block, has no cut either way.
    let first = Block::given_with(&[(0, 0)], &[]);
    let Outcome { state, .. } = check_filled(&first, 0, [24, 0], &[(0, 15)]);
    assert_eq!(place_in(&first, &state, 0), (0, [0; 3]));
    // The whole rim but for the middle's neighbours 14 and 34.
    let rim: Vec<usize> = (0..34)
        .filter(|&point| ![13, 14].contains(&point))
        .collect();
    let samples: Vec<(usize, i16)> = rim.iter().map(|&point| (point, 0)).collect();
    let mut block = Block::given_with(&samples, &[]);
    for offset in (0..245).filter(|offset| ![91, 94].contains(offset)) {
        block.cuts[offset] = 0;
    }
    let marks: Vec<(usize, u8)> = rim.iter().map(|&point| (point, 15)).collect();
    check_filled(&block, 0, [24, 0], &marks);
}

/// "M now counts codes 1 to 14": P2, P4, P6 and P8 with a rim sample of 0. In P6
/// and P8 the edge from 13 to 34 has byte 94.
#[test]
fn moved_and_marked_points_side_by_side() {
    for (offset, byte, rows, point, code, place) in [
        (91, 63, 0, 13, 1, [638, 512, 512]),
        (91, 193, 24, 14, 8, [898, 512, 512]),
        (94, 105, 0, 13, 4, [617, 617, 617]),
        (94, 151, 24, 34, 11, [663, 663, 663]),
    ] {
        let mut block = with_rim_zero();
        block.cuts[offset] = byte;
        let bytes = [(point, code), (27, 15)];
        let Outcome { state, .. } = check_filled(&block, 0, [rows, 1], &bytes);
        assert_eq!(place_in(&block, &state, point), (0, place));
        assert_eq!(place_in(&block, &state, 27), (0, [256; 3]));
        let output = bench_output(&write(&block).unwrap());
        assert!(output.ends_with(&format!("moved 1\nemitted {rows}\n")));
    }
}

/// The cut from 13 to 14 is byte 91, id 126, at 768, 512, 512. With sample 14 at
/// -2 band 2 takes its place away, even by a cut table that has its byte.
#[test]
fn a_cut_beside_a_marked_point() {
    let block = Block::given_with(&[(14, -2)], &[]);
    let Outcome { state, rows, .. } = check_filled(&block, 1, [24, 0], &[]);
    assert_eq!(place_in(&block, &state, 126), (0, [768, 512, 512]));
    assert!(rows.contains(&126) && !rows.contains(&14));
    let Outcome { state, rows, .. } = check_filled(&block, 2, [24, 0], &[(14, 15)]);
    assert_eq!(place_in(&block, &state, 126), (8, [0; 3]));
    assert_eq!(place_in(&block, &state, 14), (0, [1024, 512, 512]));
    assert!(!rows.contains(&126) && rows.contains(&14));
    // The other thirteen cuts are at rest as before.
    for offset in [30, 71, 84, 92, 93, 94, 95, 96, 97, 192, 200, 208, 216] {
        assert_eq!(place_in(&block, &state, 35 + offset).0, 0, "{offset}");
    }
}

/// Every byte at every point of the given case. No cut violates a point there,
/// so of the codes none is believable, not even where its edge exists; 15 is,
/// also where there is no cut; and 9 begins above it.
#[test]
fn every_state_byte_at_every_point() {
    let block = Block::given_case();
    let lattice = block.lattice().unwrap();
    let mut state = vec![0; 35];
    for point in 0..35 {
        let own = lattice.coordinates(point).map(|c| 256 * c as u32);
        for code in 0..=255 {
            state[point] = code;
            let expected = match code {
                0 | 15 => (0, own),
                _ => (9, [0; 3]),
            };
            assert_eq!(place_in(&block, &state, point), expected, "{point} {code}");
        }
        state[point] = 0;
    }
    // A block of one cube without cuts: no code has a cut anywhere.
    let air = Block {
        sizes: [1; 3],
        samples: vec![-1; 9],
        cuts: vec![0; 63],
    };
    assert_eq!(place_in(&air, &[15; 9], 7), (0, [512; 3]));
    assert_eq!(place_in(&air, &[15; 9], 8), (0, [256; 3]));
    assert_eq!(place_in(&air, &[16; 9], 8), (9, [0; 3]));
    assert_eq!(place_in(&air, &[15; 9], 9), (8, [0; 3]));
    assert_eq!(place_in(&air, &[15; 9], 72), (8, [0; 3]));
}

/// Every byte at both ends of a cut: a place only if both are 0.
#[test]
fn every_state_byte_beside_a_cut() {
    let block = Block::given_case();
    let mut state = vec![0; 35];
    for (start, end) in (0..=255).flat_map(|a| [(a, 0), (0, a), (a, 15), (15, a), (a, a)]) {
        (state[13], state[14]) = (start, end);
        let expected = match (start, end) {
            (0, 0) => (0, [768, 512, 512]),
            _ => (8, [0; 3]),
        };
        assert_eq!(place_in(&block, &state, 126), expected, "{start} {end}");
    }
}

/// The node table with both versions, which must agree.
fn numbered(block: &Block, state: &[u8], rows: &[u32], room: usize) -> NodesOutcome {
    let call = NodesCall {
        sizes: block.sizes,
        cuts: block.cuts.clone(),
        state: state.to_vec(),
        rows: rows.to_vec(),
        nodes: vec![99; room],
    };
    let outcome = call.run(nodes);
    assert_eq!(outcome, call.run(plain::nodes));
    if outcome.numbered.number != 0 {
        assert_eq!((&outcome.rows, &outcome.nodes), (&call.rows, &call.nodes));
    }
    outcome
}

/// The ids in use are those of the given case with 27 instead of 227, so the
/// first row's 13, 65, 235, 27 are nodes 0, 2, 12, 1.
#[test]
fn a_node_table_with_marked_points() {
    let block = with_rim_zero();
    let tables = fill_block(&block, 0);
    let NodesOutcome {
        numbered: answer,
        rows,
        nodes,
    } = numbered(&block, &tables.state, &tables.rows, 60);
    assert_eq!(answer, Numbered::written(15));
    assert_eq!(rows[..4], [0, 2, 12, 1]);
    let first = [13, 512, 512, 512, 27, 256, 256, 256, 65, 512, 512, 256];
    assert_eq!(nodes[..12], first);
    // The middle of the given case, marked by hand: it stays where it is, and
    // its fourteen cuts are refused by 8, 65 and 126 among them.
    let block = Block::given_case();
    let mut state = vec![0; 35];
    state[13] = 15;
    let ask = |state: &[u8], rows: [u32; 4]| numbered(&block, state, &rows, 16).numbered;
    for (rows, number, place) in [
        ([26, 13, 65, 126], 8, 2),
        ([26, 65, 13, 126], 8, 1),
        ([126, 0, 0, 13], 8, 0),
    ] {
        assert_eq!(ask(&state, rows), Numbered::refused(number, place));
    }
    let outcome = numbered(&block, &state, &[26, 0, 0, 13], 12);
    assert_eq!(outcome.numbered, Numbered::written(3));
    let middle = [0, 0, 0, 0, 13, 512, 512, 512, 26, 1024, 1024, 1024];
    assert_eq!(
        (outcome.nodes, outcome.rows),
        (middle.to_vec(), vec![2, 0, 0, 1])
    );
    // 15 where no cut is, and 16 there.
    state.fill(15);
    assert_eq!(ask(&state, [34, 0, 13, 26]), Numbered::written(4));
    state[13] = 16;
    assert_eq!(ask(&state, [34, 0, 13, 26]), Numbered::refused(9, 2));
    assert_eq!(ask(&state, [34, 0, 126, 13]), Numbered::refused(8, 2));
}

/// Number and bits in both ways, which must agree.
fn in_mm(block: &Block, state: &[u8], id: u32, unit: f64) -> (u32, [f64; 3]) {
    let [nx, ny, nz] = block.sizes;
    let placed = place_mm(nx, ny, nz, &block.cuts, state, id, unit);
    let point = [placed.point.x, placed.point.y, placed.point.z];
    let plain = place_mm_plain(nx, ny, nz, &block.cuts, state, id, unit.to_bits());
    assert_eq!((placed.number, point.map(f64::to_bits)), plain);
    (placed.number, point)
}

/// 512 steps are one cube's side, so at a unit of 1/512 point 27 is half a cube
/// from the corner each way and point 14 at 2, 1, 1.
#[test]
fn millimetres_of_marked_points() {
    let block = Block::given_with(&[(14, -2), (27, -2)], &[]);
    let Outcome { mut state, .. } = check_filled(&block, 2, [24, 0], &[(14, 15), (27, 15)]);
    let cube = 1.0 / 512.0;
    assert_eq!(in_mm(&block, &state, 27, cube), (0, [0.5; 3]));
    assert_eq!(in_mm(&block, &state, 14, cube), (0, [2.0, 1.0, 1.0]));
    assert_eq!(in_mm(&block, &state, 14, 0.1), (0, [102.4, 51.2, 51.2]));
    // The cuts beside them; and 13 after the place call's own refusals.
    for id in [35 + 91, 35 + 192] {
        assert_eq!(in_mm(&block, &state, id, cube), (8, [0.0; 3]));
        assert_eq!(in_mm(&block, &state, id, 17.0), (8, [0.0; 3]));
    }
    assert_eq!(in_mm(&block, &state, 27, 17.0), (13, [0.0; 3]));
    state[27] = 16;
    assert_eq!(in_mm(&block, &state, 27, cube), (9, [0.0; 3]));
    assert_eq!(in_mm(&block, &state, 27, 17.0), (9, [0.0; 3]));
    // 15 where there is no cut.
    state[0] = 15;
    state[26] = 15;
    assert_eq!(in_mm(&block, &state, 0, cube), (0, [0.0; 3]));
    assert_eq!(in_mm(&block, &state, 26, cube), (0, [2.0; 3]));
}

/// The skin is as before and not read off the state table: points coded 15 that
/// are rubber do not close a hole. In 6 by 6 by 6 cubes, all rubber but the rim,
/// the row of centres 5, 5, 5 and 7, 5, 5 and corners 6, 4, 4 and 6, 6, 4 is
/// deep inside, with no cut beside it.
#[test]
fn the_skin_is_not_read_off_the_state_table() {
    let block = shapes::solid();
    let lattice = block.lattice().unwrap();
    let mut tables = fill_block(&block, 0);
    assert!(check_mesh(&block, 0, &tables.state, &tables.rows).is_ok());
    let inside = [[5, 5, 5], [7, 5, 5], [6, 4, 4], [6, 6, 4]];
    let inside = inside.map(|at| lattice.number(at).unwrap());
    for point in inside {
        tables.state[point] = 15;
    }
    assert!(check_mesh(&block, 0, &tables.state, &tables.rows).is_ok());
    let is_row = |row: &&[u32]| inside.iter().all(|&p| row.contains(&(p as u32)));
    assert_eq!(tables.rows.chunks(4).filter(is_row).count(), 1);
    let others = tables.rows.chunks(4).filter(|row| !is_row(row));
    let others: Vec<u32> = others.flatten().copied().collect();
    let fault = check_mesh(&block, 0, &tables.state, &others).unwrap_err();
    assert!(fault.contains("off the skin"), "{fault}");
}
