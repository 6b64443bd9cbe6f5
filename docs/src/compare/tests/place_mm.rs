//! Places in millimetres: the number and the bits of the point, for every id of filled blocks, for units of all bit patterns and for
//! damaged calls. Units are bit patterns here, so that each NaN and each zero is itself.
use reference::block::Block;
use reference::generate::{any_block, block, CUTTINGS, MIXES};
use reference::random::Random;
use std::num::FpCategory;

const SIGN: u64 = 1 << 63;
/// The exponent field of infinities and NaNs; alone, infinity.
const INFINITE: u64 = 2047 << 52;
/// The field below the exponent.
const DIGITS: u64 = (1 << 52) - 1;

/// The bits of a power of two.
fn power(exponent: i64) -> u64 {
    ((1023 + exponent) as u64) << 52
}

/// From 1/1,048,576 to 16. The bits of positive numbers ascend with their values; those of all else lie above them.
fn is_accepted(unit: u64) -> bool {
    (power(-20)..=power(4)).contains(&unit)
}

fn any_accepted(random: &mut Random) -> u64 {
    power(random.between(-20, 3)) | random.bits() & DIGITS
}

/// A bit pattern of a rare kind, or in or around the accepted range; some below zero.
fn any_shaped(random: &mut Random) -> u64 {
    let bits = random.bits();
    let sign = if random.percent(10) { SIGN } else { 0 };
    let size = match random.below(8) {
        0 => INFINITE | bits & DIGITS,
        1 => bits & DIGITS,
        2 => random.pick(&[0, 1, DIGITS, DIGITS + 1, INFINITE - 1, INFINITE]),
        3 => power(random.between(-24, 8)),
        4 => random.pick(&[power(-20), power(4)]) - 4 + bits % 9,
        _ => power(random.between(-22, 6)) | bits & DIGITS,
    };
    sign | size
}

/// What the call reads besides id and unit.
struct Tables {
    sizes: [u32; 3],
    cuts: Vec<u8>,
    state: Vec<u8>,
}

impl Tables {
    /// A block with the state table that filling it leaves, and the ids of its rows.
    fn filled(block: Block, random: &mut Random) -> (Tables, Vec<u32>) {
        let call = compare::good_call(random, block);
        let outcome = call.run(compare::fill, random);
        let Block { sizes, cuts, .. } = call.block;
        (Tables { sizes, cuts, state: outcome.state }, outcome.rows)
    }

    /// Noise in the cut and the state table of a block, and now and then wrong lengths and sizes, several of them together.
    fn damaged(random: &mut Random) -> Tables {
        let Block { mut sizes, samples, mut cuts } = any_block(random, 3);
        let n = samples.len();
        let mut state = vec![0; n];
        compare::disturb(random, &mut cuts, &mut state);
        if random.percent(10) {
            cuts.resize(random.pick(&[0, 7 * n - 1, 7 * n + 1]), 0);
        }
        if random.percent(10) {
            state.resize(random.pick(&[0, n - 1, n + 1]), 0);
        }
        if random.percent(10) {
            sizes[random.below(3)] = random.pick(&[0, 65, u32::MAX]);
        }
        Tables { sizes, cuts, state }
    }

    /// Makes the call of the library and those of the separate software, with floats and by whole numbers: number and bits are the same.
    /// The number is that of the place call, or 13 in place of 0. Answers it.
    fn same(&self, id: u32, unit: u64) -> u32 {
        let Tables { sizes, cuts, state } = self;
        let (number, _) = compare::same_place_mm(*sizes, cuts, state, id, unit);
        let in_steps = yakuemi::raw::place(*sizes, cuts, state, id).number;
        let refused = in_steps == 0 && !is_accepted(unit);
        assert_eq!(number, if refused { 13 } else { in_steps }, "id {id}, unit {unit:#018x}");
        number
    }
}

/// The ends, powers of two, units in use, random ones, and two that are refused.
fn twenty_units(random: &mut Random) -> Vec<u64> {
    let mut units = [-20, -19, -9, -8, -1, 0, 1, 3, 4].map(power).to_vec();
    units.extend([0.1, 1.0 / 3.0, 0.002, 15.9].map(f64::to_bits));
    units.extend([0; 5].map(|_| any_accepted(random)));
    units.extend([f64::NAN.to_bits(), power(-20) - 1]);
    assert_eq!(units.len(), 20);
    units
}

#[test]
fn every_id_of_filled_blocks() {
    let mut random = Random::new(83);
    let mut seen = [0; 14];
    for _ in 0..300 {
        let (tables, rows) = Tables::filled(any_block(&mut random, 4), &mut random);
        let units = twenty_units(&mut random);
        let ids = 8 * tables.state.len() as u32;
        for id in (0..ids + 3).chain([u32::MAX]) {
            for &unit in &units {
                seen[tables.same(id, unit) as usize] += 1;
            }
        }
        for &id in &rows {
            assert_eq!(tables.same(id, units[0]), 0);
        }
    }
    assert!(seen[0] > 18 * 10_000 && seen[8] > 20 * 10_000, "{seen:?}");
    // an id with a place has it at 18 of the units
    assert_eq!(seen[0], 9 * seen[13]);
}

fn kind(unit: u64) -> usize {
    match f64::from_bits(unit).classify() {
        FpCategory::Nan => 0,
        FpCategory::Infinite => 1,
        FpCategory::Zero => 2,
        FpCategory::Subnormal => 3,
        FpCategory::Normal if unit >= SIGN => 4,
        FpCategory::Normal if is_accepted(unit) => 5,
        FpCategory::Normal => 6,
    }
}

/// A small block, or one that has places up to 32,768.
fn small_or_long(random: &mut Random) -> Block {
    if random.percent(80) {
        return any_block(random, 4);
    }
    let sizes = random.pick(&[[64, 3, 4], [3, 64, 4], [4, 3, 64]]);
    let (mix, cutting) = (random.pick(&MIXES), random.pick(&CUTTINGS));
    block(random, sizes, mix, cutting)
}

/// 100,000 patterns drawn from all of them, and as many of rare kinds or near the range, at ids with and without a place.
#[test]
fn units_of_all_bit_patterns() {
    let mut random = Random::new(84);
    let mut seen = [[0; 2]; 7];
    for _ in 0..100 {
        let block = small_or_long(&mut random);
        let (tables, _) = Tables::filled(block, &mut random);
        let n = tables.state.len();
        for draw in 0..2000 {
            let unit = if draw % 2 == 0 { random.bits() } else { any_shaped(&mut random) };
            // every point of a filled block has a place, and most edges have none
            let ids = if random.percent(50) { n } else { 8 * n + 3 };
            let number = tables.same(random.below(ids) as u32, unit);
            let has_place = number == 0 || number == 13;
            seen[kind(unit)][usize::from(has_place)] += 1;
        }
    }
    assert_eq!(seen.as_flattened().iter().sum::<usize>(), 200_000);
    assert!(seen.as_flattened().iter().all(|&count| count > 500), "{seen:?}");
    assert!(seen[5][1] > 20_000, "{seen:?}");
}

/// The place call's own refusals come before 13: each of them with units of both kinds.
#[test]
fn damaged_calls() {
    let mut random = Random::new(85);
    let mut seen = [[0; 14]; 2];
    for _ in 0..1000 {
        let tables = Tables::damaged(&mut random);
        for id in 0..8 * tables.state.len() as u32 + 2 {
            let unit = if random.percent(50) { any_accepted(&mut random) } else { any_shaped(&mut random) };
            let number = tables.same(id, unit);
            seen[usize::from(is_accepted(unit))][number as usize] += 1;
        }
    }
    for number in [1, 3, 4, 8, 9] {
        assert!(seen.iter().all(|with_units| with_units[number] > 1_000), "answer {number}: {seen:?}");
    }
    assert!(seen[1][0] > 5_000 && seen[0][13] > 5_000, "{seen:?}");
}
