//! Request F-2: a point moves to the nearest of the live cuts that violate it
//! at its turn. By brute force on thousands of random valid blocks, beside
//! document 01's choice of the first code, and by hand on the given case.
//!
//! Here the violating cuts are found anew, with this file's own limits and
//! labels, and distances are taken between places.

use reference::block::Block;
use reference::blockfile::fill_block;
use reference::cut::{edge_of_code, place_of_cut, place_of_point};
use reference::generate::{any_block, crowded_block, flickering_block, for_band, wide_band};
use reference::lattice::Lattice;
use reference::place::{place, Placed};
use reference::plain::{first, ids_of_rows, marked, move_points, move_points_by};
use reference::random::Random;
use reference::state::ON_SKIN;

/// A cut that violates a point: the code, whether it is live, and the squared
/// distance between the two places.
#[derive(Clone, Copy, Debug)]
struct Violator {
    code: u8,
    live: bool,
    distance: i64,
}

/// All cuts that violate a point, in code order; `labels` are those at the
/// point's turn.
fn violators(lattice: &Lattice, cuts: &[u8], labels: &[i16], point: usize) -> Vec<Violator> {
    let mut list = Vec::new();
    for code in 1..=14 {
        let Some((edge, _)) = edge_of_code(lattice, point, code) else {
            continue;
        };
        let byte = cuts[7 * edge.start + edge.direction];
        if byte == 0 {
            continue;
        }
        let start_or_end = [u32::from(byte), 256 - u32::from(byte)];
        let t = start_or_end[usize::from(code > 7)];
        let limit = if edge.direction <= 2 { 63 } else { 105 };
        if t > limit {
            continue;
        }
        let end = lattice.end(edge.start, edge.direction).unwrap();
        let (from, to) = (
            place_of_point(lattice, point),
            place_of_cut(lattice, edge, byte),
        );
        list.push(Violator {
            code,
            live: labels[edge.start] != 0 && labels[end] != 0,
            distance: (0..3).map(|a| (to[a] - from[a]).pow(2)).sum(),
        });
    }
    list
}

/// A point's label at the outset: its sample's sign, or zero in the band.
fn label(sample: i16, band: u32) -> i16 {
    let outside = u32::from(sample.unsigned_abs()) > band;
    sample.signum() * i16::from(outside)
}

/// What was seen on some blocks.
#[derive(Debug, Default)]
struct Seen {
    blocks: usize,
    points: usize,
    moved: usize,
    /// Points that two or more live cuts violate at their turn.
    several: usize,
    /// State bytes that differ between the two choices.
    differ: usize,
    /// Points to which two or more live violating cuts are nearest.
    ties: usize,
    /// Points that are moved past a nearer violating cut that is not live.
    dead_nearer: usize,
    /// Points with a live violating cut of a lesser t than the nearest's.
    least_t_is_farther: usize,
    rows: usize,
}

impl Seen {
    /// Walks the points of a block in ascending number, with labels of its
    /// own, and holds the state tables of both choices against it.
    fn check(&mut self, block: &Block, band: u32) {
        let lattice = block.lattice().unwrap();
        let (samples, cuts) = (&block.samples, &block.cuts);
        let old = move_points_by(first, marked, &lattice, band, samples, cuts);
        let new = move_points(&lattice, band, samples, cuts);
        let mut labels: Vec<i16> = samples.iter().map(|&s| label(s, band)).collect();
        for point in 0..samples.len() {
            let all = match labels[point] {
                0 => vec![],
                _ => violators(&lattice, cuts, &labels, point),
            };
            let live: Vec<Violator> = all.iter().copied().filter(|v| v.live).collect();
            let (before, chosen) = (old.codes[point], new.codes[point]);
            if live.is_empty() {
                let is_zero_at_the_outset = label(samples[point], band) == 0;
                let stays = if is_zero_at_the_outset { ON_SKIN } else { 0 };
                assert_eq!((before, chosen), (stays, stays), "point {point}");
                continue;
            }
            assert_eq!(before, live[0].code, "point {point}");
            self.check_choice(chosen, &all, &live);
            self.differ += usize::from(before != chosen);
            assert!(before == chosen || live.len() >= 2);
            labels[point] = 0;
        }
        assert_eq!((&old.labels, &new.labels), (&labels, &labels));
        self.check_tables(block, band, &lattice, &new.codes);
        let ids = ids_of_rows(&lattice, cuts, &new);
        assert_eq!(ids_of_rows(&lattice, cuts, &old), ids);
        self.blocks += 1;
        self.points += samples.len();
        self.rows += ids.len() / 4;
    }

    /// The chosen cut is live and violates, no such cut is nearer, and none as
    /// near has a lower code.
    fn check_choice(&mut self, code: u8, all: &[Violator], live: &[Violator]) {
        let chosen = live.iter().find(|v| v.code == code);
        let chosen = *chosen.expect("a live violating cut");
        let mut as_near = 0;
        for other in live {
            assert!(other.distance >= chosen.distance, "{chosen:?} {other:?}");
            if other.distance == chosen.distance {
                assert!(other.code >= chosen.code, "{chosen:?} {other:?}");
                as_near += 1;
            }
        }
        self.moved += 1;
        self.several += usize::from(live.len() >= 2);
        self.ties += usize::from(as_near >= 2);
        let nearer = |v: &Violator| v.distance < chosen.distance;
        self.dead_nearer += usize::from(all.iter().any(|v| !v.live && nearer(v)));
        let squared_t = |v: &Violator| match v.code {
            1..=3 | 8..=10 => v.distance / 4,
            _ => v.distance / 3,
        };
        let lesser = |v: &Violator| squared_t(v) < squared_t(&chosen);
        self.least_t_is_farther += usize::from(live.iter().any(lesser));
    }

    /// The fast filling writes these codes, and the place call believes them.
    fn check_tables(&self, block: &Block, band: u32, lattice: &Lattice, codes: &[u8]) {
        let tables = fill_block(block, band);
        assert_eq!(tables.filled.number, 0);
        assert_eq!(tables.state, codes);
        let [nx, ny, nz] = block.sizes;
        for (point, &code) in codes.iter().enumerate() {
            let expected = match edge_of_code(lattice, point, code) {
                None => place_of_point(lattice, point),
                Some((edge, _)) => {
                    place_of_cut(lattice, edge, block.cuts[7 * edge.start + edge.direction])
                }
            };
            let Placed { number, x, y, z } =
                place(nx, ny, nz, &block.cuts, &tables.state, point as u32);
            assert_eq!((number, [x, y, z].map(i64::from)), (0, expected));
        }
    }
}

/// Half of the blocks are of every kind, half have many cuts close to points.
/// With `--nocapture` the counts are seen.
#[test]
fn on_random_blocks() {
    for (seed, blocks) in [
        (51, any_block as fn(&mut Random, u32) -> Block),
        (52, crowded_block),
    ] {
        let mut random = Random::new(seed);
        let mut seen = Seen::default();
        for _ in 0..6000 {
            seen.check(&blocks(&mut random, 5), 0);
        }
        println!("{seen:?}");
        assert_eq!(seen.blocks, 6000);
        assert!(seen.moved > 60_000 && seen.rows > 100_000, "{seen:?}");
        assert!(seen.several > 30_000 && seen.differ > 15_000, "{seen:?}");
        assert!(seen.ties > 5_000 && seen.dead_nearer > 3_000, "{seen:?}");
        assert!(seen.least_t_is_farther > 800, "{seen:?}");
    }
}

/// The same with bands (request F-3).
#[test]
fn on_random_blocks_with_bands() {
    let mut random = Random::new(53);
    let mut seen = Seen::default();
    for _ in 0..2000 {
        let block = flickering_block(&mut random, 5);
        let band = wide_band(&mut random, &block);
        seen.check(&for_band(block, band), band);
    }
    println!("{seen:?}");
    assert!(seen.moved > 5_000 && seen.rows > 80_000, "{seen:?}");
    assert!(seen.several > 1_500 && seen.differ > 600, "{seen:?}");
    assert!(seen.ties > 200 && seen.dead_nearer > 100, "{seen:?}");
}

/// The byte of each code at point 13 of the given case.
const BYTES: [usize; 14] = [91, 92, 93, 94, 95, 96, 97, 84, 71, 30, 192, 200, 208, 216];

/// The given case with some cuts t 256ths of their edges from point 13.
fn with_cuts(cuts: &[(u8, u8)]) -> Block {
    let mut block = Block::given_case();
    for &(code, t) in cuts {
        let byte = if code <= 7 { t } else { 255 - (t - 1) };
        block.cuts[BYTES[usize::from(code) - 1]] = byte;
    }
    block
}

/// Point 13 moves along one code by the first choice and along another to the
/// nearest; no other point moves.
fn check_codes(cuts: &[(u8, u8)], before: u8, now: u8) -> [u32; 3] {
    let block = with_cuts(cuts);
    let lattice = block.lattice().unwrap();
    let only_13 = |code: u8| -> Vec<u8> { (0..35).map(|p| u8::from(p == 13) * code).collect() };
    let old = move_points_by(first, marked, &lattice, 0, &block.samples, &block.cuts);
    assert_eq!(old.codes, only_13(before), "{cuts:?}");
    let new = move_points(&lattice, 0, &block.samples, &block.cuts);
    assert_eq!(new.codes, only_13(now), "{cuts:?}");
    let tables = fill_block(&block, 0);
    assert_eq!(tables.state, new.codes, "{cuts:?}");
    assert_eq!((tables.filled.rows, tables.filled.moved), (0, 1));
    let Placed { number, x, y, z } = place(2, 2, 2, &block.cuts, &tables.state, 13);
    assert_eq!(number, 0);
    [x, y, z]
}

#[test]
fn one_violating_cut() {
    for code in 1..=14 {
        let limit = if (code - 1) % 7 < 3 { 63 } else { 105 };
        for t in [1, 60, limit] {
            check_codes(&[(code, t)], code, code);
        }
    }
    assert_eq!(check_codes(&[(3, 63)], 3, 3), [512, 512, 638]);
    assert_eq!(check_codes(&[(13, 105)], 13, 13), [407, 617, 407]);
    // The nearer cut does not violate: 16,384 and 33,075.
    assert_eq!(check_codes(&[(1, 64), (4, 105)], 4, 4), [617, 617, 617]);
}

/// 14,400 on the long edge and 13,068 on the short one: the shorter t is the
/// farther cut.
#[test]
fn the_shorter_t_may_be_farther() {
    let check = |long, short, before, place| {
        let at = check_codes(&[(long, 60), (short, 66)], before, short);
        assert_eq!(at, place);
    };
    // The long edge has the lower code ..
    check(1, 4, 1, [578, 578, 578]);
    check(3, 7, 3, [446, 446, 578]);
    check(2, 11, 2, [446, 446, 446]);
    check(8, 14, 8, [578, 578, 446]);
    // .. and the short one.
    check(8, 4, 4, [578, 578, 578]);
    check(10, 5, 5, [446, 578, 578]);
}

#[test]
fn the_nearer_of_a_long_and_a_short_cut() {
    // 12,996 and 13,068.
    let long = [398, 512, 512];
    assert_eq!(check_codes(&[(4, 66), (8, 57)], 4, 8), long);
    check_codes(&[(1, 57), (4, 66)], 1, 1);
    // 676 and 675; 8,100 and 8,112.
    check_codes(&[(1, 13), (4, 15)], 1, 4);
    check_codes(&[(4, 52), (8, 45)], 4, 8);
    // 15,876 and 15,552 or 15,987; then 33,075.
    check_codes(&[(1, 63), (4, 72)], 1, 4);
    check_codes(&[(4, 73), (8, 63)], 4, 8);
    check_codes(&[(7, 105), (10, 63)], 7, 10);
}

#[test]
fn a_tie_goes_to_the_lower_code() {
    for (lower, higher, t) in [(1, 2, 40), (2, 8, 40), (3, 10, 63), (8, 9, 1)] {
        check_codes(&[(lower, t), (higher, t)], lower, lower);
        check_codes(&[(4, t + 20), (lower, t), (higher, t)], lower.min(4), lower);
    }
    for (lower, higher, t) in [(4, 5, 40), (5, 14, 105), (7, 11, 1), (11, 14, 62)] {
        check_codes(&[(lower, t), (higher, t)], lower, lower);
    }
    // Two as near behind a farther one with a lower code.
    let at = check_codes(&[(1, 50), (2, 40), (9, 40)], 1, 2);
    assert_eq!(at, [512, 592, 512]);
    let at = check_codes(&[(4, 60), (7, 50), (13, 50)], 4, 7);
    assert_eq!(at, [462, 462, 562]);
}

#[test]
fn all_fourteen_violate() {
    let all = |long: u8, short: u8| -> Vec<(u8, u8)> {
        let t = |code: u8| if (code - 1) % 7 < 3 { long } else { short };
        (1..=14).map(|code| (code, t(code))).collect()
    };
    // 10,000 and 7,500; 6,400 and 7,500.
    check_codes(&all(50, 50), 1, 4);
    check_codes(&all(40, 50), 1, 1);
    // 10,000 and 10,800, and one cut of 9,604.
    let one_nearer = [all(50, 60), vec![(10, 49)]].concat();
    assert_eq!(check_codes(&one_nearer, 1, 10), [512, 512, 414]);
}

/// No check is added: the place call believes the code of any cut that
/// violates, not only that of the nearest.
#[test]
fn a_farther_cut_is_still_believable() {
    let block = with_cuts(&[(1, 60), (4, 66)]);
    let mut state = fill_block(&block, 0).state;
    assert_eq!(state[13], 4);
    state[13] = 1;
    let Placed { number, x, y, z } = place(2, 2, 2, &block.cuts, &state, 13);
    assert_eq!((number, [x, y, z]), (0, [632, 512, 512]));
    state[13] = 2;
    assert_eq!(place(2, 2, 2, &block.cuts, &state, 13).number, 9);
}
