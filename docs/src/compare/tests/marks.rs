//! Points that lie on the skin unmoved (request F-8): their labels are zero from the start and their state bytes 15. Answer, state table
//! and row table, bit for bit, on valid blocks, half of them with bands, and on whole parts; and the places of all ids, in steps, in
//! millimetres and in node tables, over the state tables that filling leaves and over others, with 15 and 16 anywhere. What comes out is
//! held against the request's words and against the state table before it, and what was met is counted.
use compare::{ends, exact_call, same_filling, same_numbering, same_place, same_place_mm, three_tables};
use reference::block::Block;
use reference::check::check_mesh;
use reference::damage::{Call, NodesCall, Outcome};
use reference::fill::Filled;
use reference::generate::{any_band, any_block, block, crowded_block, flickering_block, wide_band, Cutting, Mix};
use reference::generate::{for_band, for_band_with_noise};
use reference::lattice::Lattice;
use reference::nodes::Numbered;
use reference::plain::{ids_of_rows, move_points_by, nearest, unmarked};
use reference::random::Random;
use reference::shapes::{mount, ribs, sphere, tenth_band};
use std::collections::HashSet;

/// A sample in the band, in this file's own words; at band 0, a sample of zero.
fn is_zero(band: u32, sample: i16) -> bool {
    sample.unsigned_abs() as u32 <= band
}

/// Band 0 for every second block, and a band above it for the others.
fn band_of(n: usize, random: &mut Random, block: &Block) -> u32 {
    match n % 4 {
        1 => any_band(random, block).max(1),
        3 => wide_band(random, block).max(1),
        _ => 0,
    }
}

/// What was met.
#[derive(Debug, Default)]
struct Met {
    /// Blocks, and those with a band.
    blocks: usize,
    banded: usize,
    /// Marked points whose samples are zero, and whose samples are not.
    zero: usize,
    in_band: usize,
    /// Of these, points on the rim.
    rim: [usize; 2],
    /// Marked points that are corners of rows.
    corners: usize,
    /// Bytes with a marked end that stood before the block was made valid with the band: the other marked, moved or at rest.
    beside: [usize; 3],
    /// Moved points, rows, and calls refused with 10 though points are marked.
    moved: u64,
    rows: u64,
    short: usize,
}

impl Met {
    /// Makes a block that is valid at band 0 valid with the band, fills it by both, into no table, an exact one, a longer one and one too
    /// short by one number, and counts. Gives the block and what the library leaves.
    fn fill(&mut self, raw: &Block, band: u32, random: &mut Random) -> (Block, Outcome) {
        let block = for_band_with_noise(random, raw.clone(), band);
        let (mut call, asked) = exact_call(block, band, random);
        let outcome = call.run(compare::fill, random);
        assert_eq!(outcome.filled, Filled { number: 0, ..asked });
        let has_marks = self.count(&call, &raw.cuts, &outcome);
        // refused with 10: no room at all, and too short by one
        self.short += if asked.number == 10 && has_marks { 2 } else { 0 };
        three_tables(&mut call, random);
        (call.block, outcome)
    }

    /// The library's state bytes are 15 exactly where the label is zero from the start. Says whether some are.
    fn count(&mut self, call: &Call, cuts: &[u8], outcome: &Outcome) -> bool {
        let (samples, state) = (&call.block.samples, &outcome.state);
        let lattice = call.block.lattice().unwrap();
        let corners: HashSet<u32> = outcome.rows.iter().copied().collect();
        let mut moved = 0;
        for (point, &code) in state.iter().enumerate() {
            assert_eq!(code == 15, is_zero(call.band, samples[point]), "point {point}");
            assert!(code <= 15, "point {point}");
            moved += u64::from(code != 0 && code != 15);
            if code == 15 {
                let is_in_band = usize::from(samples[point] != 0);
                self.rim[is_in_band] += usize::from(lattice.is_rim(point));
                self.in_band += is_in_band;
                self.zero += 1 - is_in_band;
                self.corners += usize::from(corners.contains(&(point as u32)));
            }
        }
        assert_eq!(outcome.filled.moved, moved);
        for offset in (0..cuts.len()).filter(|&offset| cuts[offset] != 0) {
            let codes = ends(&lattice, offset).unwrap().map(|point| state[point]);
            match codes {
                [15, 15] => self.beside[0] += 1,
                [15, 0] | [0, 15] => self.beside[2] += 1,
                [15, _] | [_, 15] => self.beside[1] += 1,
                _ => {}
            }
        }
        self.blocks += 1;
        self.banded += usize::from(call.band > 0);
        self.moved += moved;
        self.rows += outcome.filled.rows;
        state.contains(&15)
    }
}

/// "Rows and faces do not change": the library's rows and codes beside those before the request, and demand 3 by counting.
fn check_beside_before(block: &Block, band: u32, outcome: &Outcome) {
    let lattice = block.lattice().unwrap();
    let before = move_points_by(nearest, unmarked, &lattice, band, &block.samples, &block.cuts);
    assert!(outcome.rows == ids_of_rows(&lattice, &block.cuts, &before));
    for (point, (&now, &then)) in outcome.state.iter().zip(&before.codes).enumerate() {
        assert!(now == then || (now, then) == (15, 0), "point {point}: {then} became {now}");
    }
    check_mesh(block, band, &outcome.state, &outcome.rows).unwrap();
}

/// Compares 4,000 blocks, half of them with bands.
fn marked_blocks(seed: u64, blocks: fn(&mut Random, u32) -> Block) {
    let mut random = Random::new(seed);
    let mut met = Met::default();
    for n in 0..4000 {
        let block = blocks(&mut random, 5);
        let band = band_of(n, &mut random, &block);
        let (block, outcome) = met.fill(&block, band, &mut random);
        check_beside_before(&block, band, &outcome);
    }
    println!("{met:?}");
    assert_eq!((met.blocks, met.banded), (4000, 2000));
    assert!(met.zero > 100_000 && met.in_band > 80_000 && met.rim.iter().all(|&rim| rim > 50_000), "{met:?}");
    assert!(met.corners > 20_000 && met.beside.iter().all(|&beside| beside > 10_000), "{met:?}");
    assert!(met.moved > 25_000 && met.rows > 100_000 && met.short > 3_000, "{met:?}");
}

#[test]
fn blocks_of_every_kind() {
    marked_blocks(161, any_block);
}

#[test]
fn crowded_blocks() {
    marked_blocks(162, crowded_block);
}

#[test]
fn flickering_blocks() {
    marked_blocks(163, flickering_block);
}

/// The library's place of an id, without its number.
fn place_of(block: &Block, state: &[u8], id: u32) -> [u32; 3] {
    let placed = yakuemi::raw::place(block.sizes, &block.cuts, state, id);
    [placed.x, placed.y, placed.z]
}

/// A point's own place.
fn own_place(lattice: &Lattice, point: usize) -> [u32; 3] {
    lattice.coordinates(point).map(|coordinate| 256 * coordinate as u32)
}

/// Blocks of sizes up to 5 that are valid at band 0, with the state tables and rows of their fillings with a band. So there are bytes beside
/// marked points, which only filling refuses.
fn filled_blocks(seed: u64, count: usize) -> impl Iterator<Item = (Block, Outcome, Random)> {
    let mut random = Random::new(seed);
    (0..count).map(move |n| {
        let block = [any_block, crowded_block, flickering_block][n % 3](&mut random, 5);
        let band = band_of(n, &mut random, &block);
        let (call, _) = exact_call(for_band(block.clone(), band), band, &mut random);
        let outcome = call.run(compare::fill, &mut random);
        (block, outcome, Random::new(random.bits()))
    })
}

/// Puts 15 and 16 anywhere into a state table, into a few places or into many.
fn sprinkle(random: &mut Random, state: &mut [u8]) {
    let chance = random.pick(&[2, 10, 40]);
    for code in state {
        if random.percent(chance) {
            *code = random.pick(&[15, 15, 15, 16]);
        }
    }
}

/// How often a marked point had its own place, a cut beside one was refused though its other end is at rest, and a byte of 16 was refused.
#[derive(Debug, Default)]
struct Places {
    own: usize,
    beside: usize,
    no_code: usize,
    /// Cuts that have a place.
    cuts: usize,
}

impl Places {
    /// The places of all ids by both; those that the request speaks of are as it says.
    fn check(&mut self, block: &Block, state: &[u8]) {
        let (lattice, points) = (block.lattice().unwrap(), state.len());
        for id in (0..8 * points as u32 + 3).chain([u32::MAX]) {
            let number = same_place(block.sizes, &block.cuts, state, id);
            let (point, offset) = (id as usize, (id as usize).wrapping_sub(points));
            if point < points {
                match state[point] {
                    0 | 15 => assert_eq!((number, place_of(block, state, id)), (0, own_place(&lattice, point)), "id {id}"),
                    16.. => assert_eq!(number, 9, "id {id}"),
                    _ => {}
                }
                self.own += usize::from(state[point] == 15);
                self.no_code += usize::from(state[point] == 16);
            } else if block.cuts.get(offset).is_some_and(|&byte| byte != 0) {
                let codes = ends(&lattice, offset).unwrap().map(|point| state[point]);
                assert_eq!(number, if codes == [0, 0] { 0 } else { 8 }, "id {id}");
                self.beside += usize::from(codes == [0, 15] || codes == [15, 0]);
                self.cuts += usize::from(number == 0);
            }
        }
    }
}

#[test]
fn every_id_of_filled_blocks() {
    let mut met = Places::default();
    for (block, outcome, _) in filled_blocks(164, 300) {
        met.check(&block, &outcome.state);
        for &id in &outcome.rows {
            assert_eq!(same_place(block.sizes, &block.cuts, &outcome.state, id), 0);
        }
    }
    println!("{met:?}");
    assert!(met.own > 15_000 && met.beside > 2_500 && met.cuts > 2_000 && met.no_code == 0, "{met:?}");
}

#[test]
fn every_id_with_15_and_16_anywhere() {
    let mut met = Places::default();
    for (block, mut outcome, mut random) in filled_blocks(165, 300) {
        sprinkle(&mut random, &mut outcome.state);
        met.check(&block, &outcome.state);
    }
    println!("{met:?}");
    assert!(met.own > 15_000 && met.beside > 3_000 && met.cuts > 2_000 && met.no_code > 1_500, "{met:?}");
}

/// Every point, and every cut with a byte, at a unit that is accepted, at one with all its digits and at one that is refused: 13 comes
/// after 8 and 9. At a unit of 1 a marked point has the numbers of its own place.
#[test]
fn millimetres() {
    let mut seen = [[0; 14]; 2];
    let mut own = 0;
    for (n, (block, mut outcome, mut random)) in filled_blocks(166, 300).enumerate() {
        let is_disturbed = n % 2 == 1;
        if is_disturbed {
            sprinkle(&mut random, &mut outcome.state);
        }
        let (state, lattice) = (&outcome.state, block.lattice().unwrap());
        let is_named = |id: &usize| *id < state.len() || block.cuts[id - state.len()] != 0;
        for id in (0..8 * state.len()).filter(is_named) {
            let answer = |unit: f64| same_place_mm(block.sizes, &block.cuts, state, id as u32, unit.to_bits());
            for unit in [1.0, random.between(1, 15_000) as f64 / 999.0, 16.1] {
                seen[usize::from(is_disturbed)][answer(unit).0 as usize] += 1;
            }
            if state.get(id) == Some(&15) {
                let place = own_place(&lattice, id).map(|whole| f64::from(whole).to_bits());
                assert_eq!(answer(1.0), (0, place), "id {id}");
                own += 1;
            }
        }
    }
    println!("{seen:?} {own}");
    assert!(own > 10_000 && seen.iter().all(|seen| seen[0] > 20_000 && seen[8] > 10_000 && seen[13] > 10_000), "{seen:?} {own}");
    assert!(seen[0][9] == 0 && seen[1][9] > 1_000, "{seen:?}");
}

/// Whether all ids of a row have places, by the library.
fn has_places(call: &NodesCall, row: &[u32]) -> bool {
    row.iter().all(|&id| yakuemi::raw::place(call.sizes, &call.cuts, &call.state, id).number == 0)
}

/// A call for the node table of a filled block: with its own rows, or with 40 rows of ids that have places, mostly cuts. Every second time
/// 15 and 16 are put into its state table then, and half of these times the rows that lost a place are left out.
fn numbering(n: usize, block: Block, outcome: Outcome, random: &mut Random) -> NodesCall {
    let Outcome { state, rows, .. } = outcome;
    let mut call = NodesCall { sizes: block.sizes, cuts: block.cuts, state, rows, nodes: Vec::new() };
    if n / 2 % 2 == 1 {
        let placed: Vec<u32> = (0..8 * call.state.len() as u32).filter(|&id| has_places(&call, &[id])).collect();
        let cuts = &placed[placed.partition_point(|&id| (id as usize) < call.state.len())..];
        let mostly_cuts = |_| if cuts.is_empty() || random.percent(10) { random.pick(&placed) } else { random.pick(cuts) };
        call.rows = (0..160).map(mostly_cuts).collect();
    }
    if n % 2 == 1 {
        sprinkle(random, &mut call.state);
    }
    if n / 4 % 2 == 1 {
        call.rows = call.rows.chunks(4).filter(|row| has_places(&call, row)).flatten().copied().collect();
    }
    call
}

/// Over state tables as filling leaves them, and with 15 and 16 anywhere: the first entry without a place is named, and marked points are
/// nodes at their own places.
#[test]
fn node_tables() {
    let (mut seen, mut own, mut beside) = ([[0; 11]; 2], [0; 2], 0);
    for (n, (block, outcome, mut random)) in filled_blocks(167, 4000).enumerate() {
        let lattice = block.lattice().unwrap();
        let mut call = numbering(n, block, outcome, &mut random);
        let needed = call.ids_in_use().len();
        let first = call.rows.iter().position(|&id| !has_places(&call, &[id]));
        for room in [4 * needed, (4 * needed).saturating_sub(1)] {
            call.nodes = (0..room).map(|_| random.bits() as u32).collect();
            let outcome = same_numbering(&call);
            let Numbered { number, nodes, place } = outcome.numbered;
            seen[n % 2][number as usize] += 1;
            match first {
                None => assert_eq!((number, nodes, place), (if room < 4 * needed { 10 } else { 0 }, needed as u64, 0)),
                Some(first) => assert_eq!((number == 8 || number == 9, nodes, place), (true, 0, first as u64)),
            }
            if number == 8 {
                let offset = call.rows[place as usize] as usize - call.state.len();
                let codes = ends(&lattice, offset).unwrap().map(|point| call.state[point]);
                beside += usize::from(codes == [0, 15] || codes == [15, 0]);
            }
            let written = if number == 0 { &outcome.nodes[..] } else { &[] };
            for node in written.chunks(4).filter(|node| call.state.get(node[0] as usize) == Some(&15)) {
                assert_eq!(node[1..], own_place(&lattice, node[0] as usize));
                own[n % 2] += 1;
            }
        }
    }
    println!("{seen:?} {own:?} {beside}");
    assert!(own.iter().all(|&own| own > 15_000) && beside > 150, "{own:?} {beside}");
    assert!(seen.iter().all(|seen| seen[0] > 1_500 && seen[10] > 700), "{seen:?}");
    assert!(seen[0][8] + seen[0][9] == 0 && seen[1][8] > 250 && seen[1][9] > 400, "{seen:?}");
}

/// Parts of up to 64 by 64 by 64 cubes: layers of points in the band along the skin, and few or no marks at band 0.
#[test]
fn whole_parts() {
    let mut random = Random::new(168);
    let mut met = Met::default();
    for part in [sphere(), ribs(), mount()] {
        for band in [0, 3, tenth_band(&part)] {
            let (_, outcome) = met.fill(&part, band, &mut random);
            assert!(outcome.filled.rows > 0);
        }
    }
    println!("{met:?}");
    assert!(met.zero > 20_000 && met.in_band > 80_000 && met.corners > 80_000 && met.short > 10, "{met:?}");
    assert!(met.beside.iter().all(|&beside| beside > 10_000) && met.moved > 200_000, "{met:?}");
}

/// Blocks of 64 by 64 by 64 cubes with marks all over, also on the rim; the place of every point, and the node table.
#[test]
fn largest_blocks() {
    let mut random = Random::new(169);
    let mut met = Met::default();
    for (mix, band) in [(Mix::Zeros, 0), (Mix::Even, 0), (Mix::Even, 9_000), (Mix::Dense, 20_000)] {
        let given = block(&mut random, [64; 3], mix, Cutting::Wild);
        let (block, outcome) = met.fill(&given, band, &mut random);
        let (lattice, Outcome { state, rows, .. }) = (block.lattice().unwrap(), outcome);
        for point in 0..state.len() as u32 {
            assert_eq!(same_place(block.sizes, &block.cuts, &state, point), 0);
            if state[point as usize] == 15 {
                assert_eq!(place_of(&block, &state, point), own_place(&lattice, point as usize), "point {point}");
            }
        }
        let mut call = NodesCall { sizes: block.sizes, cuts: block.cuts, state, rows, nodes: Vec::new() };
        let needed = call.ids_in_use().len();
        call.nodes = vec![0; 4 * needed];
        assert_eq!(same_numbering(&call).numbered, Numbered { number: 0, nodes: needed as u64, place: 0 });
    }
    println!("{met:?}");
    assert!(met.zero > 300_000 && met.in_band > 300_000 && met.rim.iter().all(|&rim| rim > 20_000), "{met:?}");
    assert!(met.corners > 300_000 && met.beside.iter().all(|&beside| beside > 20_000) && met.short == 8, "{met:?}");
}

/// The request with numbers: the given case with the first centre, point 27 on the rim, at zero or in the band. The first row of document
/// 01's case ended in the cut beside it, id 35+192; now that is the point.
#[test]
fn given_case_in_numbers() {
    let mut random = Random::new(170);
    let mut met = Met::default();
    for (sample, byte, band) in [(0, 0, 0), (-2, 128, 2), (-1, 63, 4)] {
        let mut given = Block::given_case();
        (given.samples[27], given.cuts[192]) = (sample, byte);
        let (block, Outcome { filled, state, rows }) = met.fill(&given, band, &mut random);
        assert_eq!((filled.rows, filled.moved, &rows[..4]), (24, 0, &[13, 65, 235, 27][..]));
        assert!((0..35).all(|point| state[point] == if point == 27 { 15 } else { 0 }));
        assert_eq!(place_of(&block, &state, 27), [256; 3]);
        for cuts in [given.cuts, block.cuts] {
            for (id, number) in [(27, 0), (35 + 192, 8), (35 + 91, 0)] {
                assert_eq!(same_place(block.sizes, &cuts, &state, id), number, "id {id}");
            }
        }
    }
    // everything in the band: all points are marked and no cut has a place
    let block = Block::given_case();
    let (_, Outcome { filled, state, .. }) = met.fill(&block, 5, &mut random);
    assert_eq!((filled.rows, filled.moved, &state[..]), (0, 0, &[15; 35][..]));
    for id in 0..280 {
        assert_eq!(same_place(block.sizes, &block.cuts, &state, id), if id < 35 { 0 } else { 8 }, "id {id}");
    }
    // every byte at a point where no cut is, and where some are but none violates
    let mut state = vec![0; 35];
    for (point, code) in (0..=255).flat_map(|code| [(0, code), (13, code), (26, code)]) {
        state[point] = code;
        let number = same_place(block.sizes, &block.cuts, &state, point as u32);
        assert_eq!(number, if [0, 15].contains(&code) { 0 } else { 9 }, "code {code}");
        assert_eq!(same_place(block.sizes, &block.cuts, &state, 126), if state[13] == 0 { 0 } else { 8 }, "code {code}");
        state[point] = 0;
    }
}

/// Refusals but 10 write nothing, so no mark either.
#[test]
fn refusals_mark_nothing() {
    let mut given = Block::given_case();
    (given.samples[26], given.cuts[0]) = (0, 7);
    for band in [0, 5, 32_768] {
        let call = Call { block: given.clone(), band, state_length: 35, row_length: 96 };
        let seed = 171;
        let Filled { number, place, .. } = same_filling(&call, seed);
        assert_eq!((number, place), if band > 32_767 { (14, 0) } else { (7, 0) });
        let after = call.run(compare::fill, &mut Random::new(seed));
        assert!((after.state, after.rows) == call.noise(&mut Random::new(seed)));
    }
}
