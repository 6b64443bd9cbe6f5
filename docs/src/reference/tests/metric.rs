//! Places in millimetres (document 02, request F-1): the way with floats and
//! the way with whole numbers agree bit for bit, and both do what the request
//! says. Units and answers are bit patterns throughout, so that signs of zeros
//! count.

mod metric_inputs;

use metric_inputs::*;
use reference::block::Block;
use reference::generate::any_block;
use reference::random::Random;
use reference::state::is_move;
use std::num::FpCategory;

#[test]
fn both_ways_agree_on_every_id() {
    let mut random = Random::new(13);
    let (mut found, mut refused, mut moved) = (0, 0, 0);
    for _ in 0..60 {
        let tables = Tables::filled(any_block(&mut random, 6));
        let units = twenty_units(&mut random);
        assert_eq!(units.len(), 20);
        for id in 0..=8 * tables.state.len() as u32 {
            let (number, _) = tables.place(id);
            found += usize::from(number == 0);
            refused += usize::from(number == 8);
            let code = tables.state.get(id as usize);
            moved += usize::from(code.is_some_and(|&code| is_move(code)));
            for &unit in &units {
                let (number_mm, point) = tables.mm(id, unit);
                assert_eq!(number_mm, number);
                assert!(number == 0 || point == ZEROS);
            }
        }
    }
    assert!(
        found > 5_000 && refused > 5_000 && moved > 500,
        "{found} {refused} {moved}"
    );
}

/// The bits of positive floats ascend with their values; those of infinity,
/// NaNs and everything with a sign lie above them.
fn is_accepted(unit: u64) -> bool {
    (power(-20)..=power(4)).contains(&unit)
}

#[test]
fn any_bit_pattern_of_a_unit() {
    let mut random = Random::new(131);
    let tables = noise(&mut random);
    let mut seen = [0; 7];
    for draw in 0..400_000 {
        let (id, _) = tables.any_id(&mut random);
        let unit = match draw % 2 {
            0 => random.bits(),
            _ => any_pattern(&mut random),
        };
        let (number, point) = tables.mm(id, unit);
        let accepted = is_accepted(unit);
        assert_eq!(number, if accepted { 0 } else { 13 }, "unit {unit:#018x}");
        assert!(accepted || point == ZEROS);
        let kind = match f64::from_bits(unit).classify() {
            FpCategory::Nan => 0,
            FpCategory::Infinite => 1,
            FpCategory::Zero => 2,
            FpCategory::Subnormal => 3,
            FpCategory::Normal if unit & SIGN != 0 => 4,
            FpCategory::Normal => 5 + usize::from(accepted),
        };
        seen[kind] += 1;
    }
    assert!(seen.iter().all(|&count| count > 5_000), "{seen:?}");
}

/// The value of a float, counted in halves of the unit's last digit: a whole
/// number for every float of at least half the unit.
fn in_half_digits(bits: u64, unit: u64) -> u128 {
    let (exponent, digits) = (bits >> 52, bits & DIGITS);
    u128::from(digits + (1 << 52)) << (1 + exponent - (unit >> 52))
}

/// "Nearest" as IEEE 754 has it: no neighbour is nearer to the exact product,
/// and if one is as near, the last digit is 0. Both kinds of tie must occur,
/// and products rounded up to a power of two.
#[test]
fn nearest_at_accepted_units() {
    let mut random = Random::new(1313);
    let tables = noise(&mut random);
    let (mut ties_up, mut ties_down, mut new_powers) = (0, 0, 0);
    for _ in 0..200_000 {
        let (id, place) = tables.any_id(&mut random);
        let unit = any_accepted(&mut random, place[0]);
        let (number, point) = tables.mm(id, unit);
        assert_eq!(number, 0);
        for (whole, bits) in place.into_iter().zip(point) {
            if whole == 0 {
                assert_eq!(bits, 0);
                continue;
            }
            let exact = u128::from(whole) * in_half_digits(unit, unit);
            let distance = |bits| in_half_digits(bits, unit).abs_diff(exact);
            let [below, here, above] = [bits - 1, bits, bits + 1].map(distance);
            let is_nearest = here <= below && here <= above;
            let is_tie = here == below || here == above;
            assert!(is_nearest, "{whole} times {unit:#018x}");
            assert!(!is_tie || bits % 2 == 0, "{whole} times {unit:#018x}");
            ties_up += usize::from(here == below);
            ties_down += usize::from(here == above);
            let is_above = in_half_digits(bits, unit) > exact;
            new_powers += usize::from(bits & DIGITS == 0 && is_above);
        }
    }
    let seen = [ties_up, ties_down, new_powers];
    assert!(seen.iter().all(|&count| count > 1_000), "{seen:?}");
}

#[test]
fn corners_of_the_given_case() {
    let tables = Tables::filled(Block::given_case());
    let corners = [
        (13, [512.0, 512.0, 512.0]),
        (65, [512.0, 512.0, 256.0]),
        (235, [640.0, 384.0, 384.0]),
        (227, [384.0, 384.0, 384.0]),
    ];
    for unit in [1.0, 1.0 / 512.0, 0.1] {
        for (id, place) in corners {
            let point = place.map(|whole: f64| (whole * unit).to_bits());
            assert_eq!(tables.mm(id, unit.to_bits()), (0, point), "id {id}");
        }
    }
    // The same, multiplied by hand. 3 times the digits of 0.1 is a tie; 5
    // times them is just above a power of two.
    let by_hand = |id, unit: f64, point: [f64; 3]| {
        let answer = tables.mm(id, unit.to_bits());
        assert_eq!(answer, (0, point.map(f64::to_bits)), "id {id}");
    };
    by_hand(235, 1.0, [640.0, 384.0, 384.0]);
    by_hand(65, 1.0 / 512.0, [1.0, 1.0, 0.5]);
    by_hand(235, 1.0 / 512.0, [1.25, 0.75, 0.75]);
    let tie = f64::from_bits(0x4043_3333_3333_3334);
    by_hand(65, 0.1, [51.2, 51.2, 25.6]);
    by_hand(235, 0.1, [64.0, tie, tie]);
    by_hand(227, 0.1, [tie; 3]);
}

/// 13 begins right outside both ends.
#[test]
fn units_that_are_refused() {
    let named = [0.0, -0.0, -1.0, f64::NAN, f64::INFINITY, f64::NEG_INFINITY];
    let tables = Tables::filled(Block::given_case());
    for unit in GOOD {
        let (number, point) = tables.mm(13, unit);
        assert!(number == 0 && point != ZEROS, "unit {unit:#018x}");
    }
    for unit in BAD.into_iter().chain(named.map(f64::to_bits)) {
        assert_eq!(tables.mm(13, unit), (13, ZEROS), "unit {unit:#018x}");
    }
}

/// The place call's refusals come before 13, and among themselves in its order.
#[test]
fn order_of_refusals() {
    let given = |change: fn(&mut Tables)| {
        let mut tables = Tables::filled(Block::given_case());
        change(&mut tables);
        tables
    };
    let cases = [
        (1, 13, given(|t| t.sizes[1] = 0)),
        (1, 280, given(|t| (t.sizes[2], t.cuts) = (65, vec![]))),
        (3, 13, given(|t| t.cuts.truncate(244))),
        (3, 280, given(|t| (t.cuts, t.state) = (vec![], vec![]))),
        (4, 13, given(|t| t.state.truncate(34))),
        (4, 280, given(|t| t.state.truncate(34))),
        (8, 280, given(|_| ())),
        (8, u32::MAX, given(|_| ())),
        (8, 35, given(|_| ())),
        (8, 35 + 91, given(|t| t.state[14] = 15)),
        (8, 35 + 91, given(|t| t.state[14] = 16)),
        (9, 13, given(|t| t.state[13] = 16)),
        (9, 13, given(|t| t.state[13] = 1)),
    ];
    for (number, id, tables) in &cases {
        for unit in GOOD.into_iter().chain(BAD) {
            assert_eq!(tables.mm(*id, unit), (*number, ZEROS), "unit {unit:#018x}");
        }
    }
}

/// A float of sign 0 as a fraction in lowest terms.
fn fraction(bits: u64) -> (u128, u128) {
    if bits == 0 {
        return (0, 1);
    }
    let (exponent, digits) = (bits >> 52, bits & DIGITS);
    // Normal, and the denominator a whole power of two that fits.
    assert!((1000..=1075).contains(&exponent), "bits {bits:#018x}");
    let (top, bottom) = (u128::from(digits + (1 << 52)), 1 << (1075 - exponent));
    let common = top.trailing_zeros().min(u128::trailing_zeros(bottom));
    (top >> common, bottom >> common)
}

/// Whether the answer's value is the whole number times the unit's value.
fn is_exact(whole: u32, unit: (u128, u128), answer: u64) -> bool {
    let (top, bottom) = fraction(answer);
    u128::from(whole) * unit.0 * bottom == top * unit.1
}

#[test]
fn exact_where_the_unit_is_a_power_of_two() {
    let powers = -20..=4;
    let units: Vec<u64> = powers.clone().map(power).collect();
    let as_fraction = |exponent: i32| match exponent {
        0.. => (1 << exponent, 1),
        _ => (1, 1 << -exponent),
    };
    for (exponent, &unit) in powers.zip(&units) {
        assert_eq!(f64::from_bits(unit), 2.0f64.powi(exponent as i32));
        assert_eq!(fraction(unit), as_fraction(exponent as i32));
    }
    assert_eq!(units.len(), 25);
    for_every_whole_number(&units, |whole, unit, answer| {
        let exponent = (unit >> 52) as i32 - 1023;
        assert!(
            is_exact(whole, as_fraction(exponent), answer),
            "{whole} times 2^{exponent}"
        );
    });
    // The question can be answered with no: 0.1 has too many digits.
    let tables = Tables::filled(Block::given_case());
    let tenth = 0.1f64.to_bits();
    let exact = [13, 227].map(|id| {
        let whole = tables.place(id).1[0];
        is_exact(whole, fraction(tenth), tables.mm(id, tenth).1[0])
    });
    assert_eq!(exact, [true, false]);
}

/// Finite, with sign 0, and no larger than the largest product.
fn is_in_reach(answer: u64) -> bool {
    let value = f64::from_bits(answer);
    value.is_finite() && answer & SIGN == 0 && value <= 524_288.0
}

#[test]
fn finite_at_every_accepted_unit() {
    let mut random = Random::new(13_131);
    let few: Vec<u64> = GOOD
        .into_iter()
        .chain((0..4).map(|_| any_accepted(&mut random, 3)))
        .collect();
    for_every_whole_number(&few, |whole, unit, answer| {
        assert!(is_in_reach(answer), "{whole} times {unit:#018x}");
        assert_eq!(answer == 0, whole == 0);
    });
    // Whole numbers 0, 1 and 32,768: a corner, a cut and the last corner.
    let tables = Tables::unmoved([64, 1, 1], |offset| u8::from(offset == 3));
    let ids = [0, 324 + 3, 64];
    assert_eq!(ids.map(|id| tables.place(id).1[0]), [0, 1, 32_768]);
    let many = (0..50_000).map(|_| any_accepted(&mut random, 32_767));
    for unit in many.chain(GOOD) {
        let answers = ids.map(|id| tables.mm(id, unit));
        assert_eq!(answers.map(|(number, _)| number), [0; 3]);
        let products = answers.map(|(_, point)| point[0]);
        assert!(products.into_iter().all(is_in_reach), "unit {unit:#018x}");
        // Nothing is lost in these three: the digits of the unit stay.
        assert_eq!(products, [0, unit, unit + (15 << 52)]);
    }
}
