//! Filling with a band (request F-3): answer, state table and row table, bit for bit, on valid and damaged blocks and on whole parts. How
//! many points are in the band though their samples are not zero is counted, and how many edges beside them bear no cut for that. What
//! changed when the band came before the rim (request F-9) is in `band_first.rs`.
use compare::{ends, exact_call, same_filling, same_place, three_tables};
use reference::block::Block;
use reference::check::check_mesh;
use reference::damage::{Call, Damage, DAMAGES};
use reference::fill::Filled;
use reference::generate::{any_band, any_block, block, crowded_block, cuts_where_needed, flickering_block, wide_band, Cutting, MIXES};
use reference::generate::{for_band, for_band_with_noise};
use reference::lattice::Lattice;
use reference::plain::label;
use reference::random::Random;
use reference::shapes::{mount, ribs, sphere, tenth_band};
use reference::state::ON_SKIN;

/// Whether a point is on the skin by the band alone.
fn in_band(call: &Call, point: usize) -> bool {
    let sample = call.block.samples[point];
    sample != 0 && label(call.band, sample) == 0
}

/// How often a band made a difference.
#[derive(Debug, Default)]
struct Met {
    /// Points in the band whose samples are not zero.
    points: usize,
    /// Of these, points whose samples are just as large as the band.
    border: usize,
    /// Points with sample -32768, which are in no band, though 16 bits hold no size for them.
    lowest: usize,
    /// Points on the rim that are in the band and above zero.
    rim: usize,
    /// Edges with an end in the band whose samples are of opposite signs: none bears a cut.
    uncut: usize,
    /// Points that moved.
    moved: u64,
    /// Rows.
    rows: u64,
}

impl Met {
    fn count(&mut self, call: &Call, asked: Filled) {
        let Block { samples, cuts, .. } = &call.block;
        let lattice = call.block.lattice().unwrap();
        for (point, sample) in samples.iter().enumerate() {
            let size = u32::from(sample.unsigned_abs());
            self.points += usize::from(in_band(call, point));
            self.border += usize::from(in_band(call, point) && size == call.band);
            self.lowest += usize::from(size == 32768 && call.band > 0);
            self.rim += usize::from(*sample > 0 && in_band(call, point) && lattice.is_rim(point));
        }
        for offset in 0..cuts.len() {
            let Some(ends) = ends(&lattice, offset) else { continue };
            if ends.iter().any(|&point| in_band(call, point)) {
                assert_eq!(cuts[offset], 0, "byte {offset}");
                self.uncut += usize::from(samples[ends[0]].signum() * samples[ends[1]].signum() < 0);
            }
        }
        self.moved += asked.moved;
        self.rows += asked.rows;
    }
}

/// Compares 4,000 blocks with noise in the band, every second one with a wide band, and checks demand 3 by counting, of the library's own
/// rows.
fn banded_blocks(seed: u64, blocks: fn(&mut Random, u32) -> Block) {
    let mut random = Random::new(seed);
    let mut met = Met::default();
    for n in 0..4000 {
        let block = blocks(&mut random, 5);
        let band = [any_band, wide_band][n % 2](&mut random, &block);
        let block = for_band_with_noise(&mut random, block, band);
        let (mut call, asked) = exact_call(block, band, &mut random);
        met.count(&call, asked);
        let outcome = call.run(compare::fill, &mut random);
        check_mesh(&call.block, band, &outcome.state, &outcome.rows).unwrap();
        three_tables(&mut call, &mut random);
    }
    assert!(met.points > 200_000 && met.border > 10_000 && met.lowest > 10_000, "{met:?}");
    assert!(met.rim > 50_000 && met.uncut > 400_000, "{met:?}");
    assert!(met.moved > 15_000 && met.rows > 100_000, "{met:?}");
}

#[test]
fn blocks_of_every_kind() {
    banded_blocks(111, any_block);
}

/// Many cuts violate one point.
#[test]
fn crowded_blocks() {
    banded_blocks(112, crowded_block);
}

/// Samples of all orders of magnitude, and many that are almost the same.
#[test]
fn flickering_blocks() {
    banded_blocks(113, flickering_block);
}

#[test]
fn long_blocks() {
    let mut random = Random::new(114);
    for sizes in [[64, 3, 4], [3, 64, 4], [4, 3, 64], [33, 8, 5], [20, 20, 20]] {
        for mix in MIXES {
            for (n, cutting) in [Cutting::Wild, Cutting::Close].into_iter().enumerate() {
                let block = block(&mut random, sizes, mix, cutting);
                let band = [any_band, wide_band][n](&mut random, &block);
                let block = for_band_with_noise(&mut random, block, band);
                let (mut call, _) = exact_call(block, band, &mut random);
                three_tables(&mut call, &mut random);
            }
        }
    }
}

/// Parts of up to 64 by 64 by 64 cubes: long runs of rubber, of air and of points in the band.
#[test]
fn whole_parts() {
    let mut random = Random::new(115);
    for part in [sphere(), ribs(), mount()] {
        for band in [3, 200, tenth_band(&part)] {
            let (call, asked) = exact_call(for_band(part.clone(), band), band, &mut random);
            assert!(asked.rows > 0);
            assert_eq!(same_filling(&call, random.bits()), Filled { number: 0, ..asked });
        }
    }
}

/// The mount with the scanner's flicker: samples from -3 to 3 in plain air, two cubes from the rubber and more, on the rim up to the highest.
fn flickering_mount(random: &mut Random, highest: i64) -> Block {
    let Block { sizes, mut samples, cuts: clean } = mount();
    let lattice = Lattice::new(sizes[0], sizes[1], sizes[2]).unwrap();
    for (point, sample) in samples.iter_mut().enumerate().filter(|(_, sample)| **sample < -1024) {
        *sample = random.between(-3, if lattice.is_rim(point) { highest } else { 3 }) as i16;
    }
    let mut cuts = cuts_where_needed(&lattice, 0, &samples, |_, _| random.between(1, 255) as u8);
    for (cut, &kept) in cuts.iter_mut().zip(&clean).filter(|(_, &kept)| kept != 0) {
        *cut = kept;
    }
    Block { sizes, samples, cuts }
}

/// What the request is for: without a band the flicker is filled like rubber, and a band of 3 leaves the part alone. The flicker's points
/// are marked then, as request F-8 says, and those of the part have the state bytes they have without it. Since request F-9 the flicker
/// does no harm on the rim either.
#[test]
fn flicker_in_plain_air() {
    let mut random = Random::new(116);
    let block = flickering_mount(&mut random, 0);
    let [raw, two, three] = [0, 2, 3].map(|band| exact_call(for_band(block.clone(), band), band, &mut random).0);
    assert!(raw.row_length > two.row_length && two.row_length > three.row_length);
    let (clean, _) = exact_call(for_band(mount(), 3), 3, &mut random);
    let on_rim = flickering_mount(&mut random, 3);
    let [(at_2, refused), (at_3, asked)] = [2, 3].map(|band| exact_call(for_band(on_rim.clone(), band), band, &mut random));
    assert_eq!((refused.number, asked.number, at_2.row_length), (5, 10, 0));
    assert_eq!(same_filling(&at_3, 1).number, 0);
    assert!(at_3.run(compare::fill, &mut Random::new(1)).rows == clean.run(compare::fill, &mut Random::new(1)).rows);
    let [flickering, clean] = [three, clean].map(|call| call.run(compare::fill, &mut Random::new(1)));
    assert_eq!((flickering.filled.number, flickering.filled), (0, clean.filled));
    assert!(flickering.rows == clean.rows);
    let is_flicker = |point: usize| label(3, block.samples[point]) == 0;
    let marked = (0..block.samples.len()).filter(|&point| is_flicker(point) && flickering.state[point] == ON_SKIN).count();
    let same = (0..block.samples.len()).filter(|&point| !is_flicker(point) && flickering.state[point] == clean.state[point]).count();
    assert!(marked > 10_000 && same > 10_000 && marked + same == block.samples.len(), "{marked} {same}");
}

/// Refusals 5, 6 and 7 read labels: 5 names no rim point in the band, 6 no byte beside such a point, and 7 also bytes there.
#[test]
fn damaged_blocks() {
    let mut random = Random::new(117);
    let (mut seen, mut seen_in_band) = ([0; 15], [0; 15]);
    for n in 0..4500 {
        let block = [any_block, flickering_block][n % 2](&mut random, 5);
        let band = [any_band, wide_band][n / 2 % 2](&mut random, &block);
        let block = for_band_with_noise(&mut random, block, band);
        let (mut call, _) = exact_call(block, band, &mut random);
        let lattice = call.block.lattice().unwrap();
        // one damage for certain, others now and then: the order of refusals is compared too
        for (k, damage) in DAMAGES.into_iter().enumerate() {
            if k == n % DAMAGES.len() || random.percent(6) {
                call.damage(&mut random, &lattice, damage);
            }
        }
        let Filled { number, place, .. } = same_filling(&call, random.bits());
        let is_in_band = match number {
            5 => in_band(&call, place as usize),
            6 | 7 => ends(&lattice, place as usize).is_some_and(|ends| ends.iter().any(|&point| in_band(&call, point))),
            _ => false,
        };
        seen[number as usize] += 1;
        seen_in_band[number as usize] += usize::from(is_in_band);
    }
    for number in [1, 2, 3, 4, 5, 6, 7, 10, 14] {
        assert!(seen[number] > 50, "refusal {number} was seen {} times", seen[number]);
    }
    assert_eq!([seen_in_band[5], seen_in_band[6]], [0, 0]);
    assert!(seen_in_band[7] > 50, "refusal 7 was seen {} times in the band", seen_in_band[7]);
}

/// 14 comes after 1 and before all else that can be wrong, and writes nothing.
#[test]
fn fourteen_comes_after_one() {
    let mut random = Random::new(118);
    for n in 0..900 {
        let (mut call, _) = exact_call(any_block(&mut random, 4), 0, &mut random);
        let lattice = call.block.lattice().unwrap();
        let other = DAMAGES[n % DAMAGES.len()];
        for damage in [Damage::Band, other] {
            call.damage(&mut random, &lattice, damage);
        }
        let seed = random.bits();
        let number = if other == Damage::Size { 1 } else { 14 };
        assert_eq!(same_filling(&call, seed), Filled { number, rows: 0, moved: 0, place: 0 }, "{other:?}");
        let after = call.run(compare::fill, &mut Random::new(seed));
        assert!((after.state, after.rows) == call.noise(&mut Random::new(seed)), "{other:?}");
    }
}

/// The place of every id; and demand 3 by counting, of the library's own rows: a point in the band is on the skin. A cut beside one stands
/// in no row and, since request F-8, has no place: it is refused by 8, even by the cut table of band 0, which has its byte.
#[test]
fn every_id_of_banded_blocks() {
    let mut random = Random::new(119);
    let (mut placed, mut dead, mut skin) = (0, 0, 0);
    for n in 0..300 {
        let block = [any_block, crowded_block, flickering_block][n % 3](&mut random, 4);
        let band = wide_band(&mut random, &block);
        let (call, _) = exact_call(for_band(block.clone(), band), band, &mut random);
        let outcome = call.run(compare::fill, &mut random);
        let (lattice, points) = (block.lattice().unwrap(), block.samples.len() as u32);
        let is_dead = |id: u32| {
            let ends = id.checked_sub(points).and_then(|offset| ends(&lattice, offset as usize));
            ends.is_some_and(|ends| ends.iter().any(|&point| in_band(&call, point)))
        };
        for id in (0..8 * points + 3).chain([u32::MAX]) {
            let number = same_place(block.sizes, &block.cuts, &outcome.state, id);
            placed += usize::from(number == 0);
            let byte = id.checked_sub(points).and_then(|offset| block.cuts.get(offset as usize));
            if byte.is_some_and(|&byte| byte != 0) && is_dead(id) {
                assert_eq!(number, 8, "id {id}");
                dead += 1;
            }
        }
        for &id in &outcome.rows {
            assert_eq!(same_place(block.sizes, &block.cuts, &outcome.state, id), 0);
            assert!(!is_dead(id));
        }
        skin += check_mesh(&call.block, band, &outcome.state, &outcome.rows).unwrap().skin;
    }
    assert!(placed > 10_000 && dead > 5_000 && skin > 3_000, "{placed} {dead} {skin}");
}
