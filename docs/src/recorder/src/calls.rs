//! The calls: accepted ones of many shapes, and one or more for each refusal.

use crate::BAND;
use reference::block::Block;
use reference::damage::{Call, Damage};
use reference::generate::{block, Cutting, Mix};
use reference::random::Random;

/// All calls with a title each.
pub fn all() -> Vec<(String, Call)> {
    let mut list: Vec<(String, Call)> = ACCEPTED.iter().map(accepted).collect();
    list.extend(REFUSED.iter().map(refused));
    list
}

/// Sizes, labels, cut bytes, seed.
type Shape = ([u32; 3], Mix, Cutting, u64);

/// The seeds were searched for blocks with rows and moved points at once, and
/// with many patterns and codes.
const ACCEPTED: [Shape; 17] = [
    ([1, 1, 1], Mix::Even, Cutting::Limits, 1),
    ([2, 1, 1], Mix::Zeros, Cutting::Limits, 2),
    ([1, 2, 2], Mix::Even, Cutting::Wild, 3),
    ([2, 2, 2], Mix::Dense, Cutting::Limits, 5),
    ([2, 2, 2], Mix::Dense, Cutting::Calm, 65),
    ([2, 2, 2], Mix::Dense, Cutting::Limits, 84),
    ([2, 2, 2], Mix::Sparse, Cutting::Limits, 190),
    ([2, 2, 2], Mix::Even, Cutting::Wild, 313),
    ([2, 2, 2], Mix::Checker, Cutting::Wild, 119),
    ([3, 2, 2], Mix::Ribs, Cutting::Limits, 311),
    ([2, 3, 2], Mix::Dense, Cutting::Limits, 248),
    ([2, 2, 3], Mix::Checker, Cutting::Wild, 295),
    ([3, 3, 2], Mix::Ball, Cutting::Calm, 340),
    ([2, 3, 3], Mix::Checker, Cutting::Wild, 71),
    ([3, 3, 3], Mix::Ball, Cutting::Limits, 350),
    ([3, 3, 3], Mix::Ball, Cutting::Calm, 1057),
    ([3, 4, 3], Mix::Even, Cutting::Calm, 550),
];

fn accepted(&(sizes, mix, cutting, seed): &Shape) -> (String, Call) {
    let block = block(&mut Random::new(seed), sizes, mix, cutting);
    let [nx, ny, nz] = sizes;
    let title = format!("{nx} by {ny} by {nz}, labels {mix:?}, cut bytes {cutting:?}");
    (title, Call::good(block, BAND, 3))
}

/// Damages done to the given case one after the other, and a seed.
const REFUSED: [(&[Damage], u64); 12] = [
    (&[Damage::Size], 1),
    (&[Damage::Samples], 2),
    (&[Damage::Cuts], 3),
    (&[Damage::State], 4),
    (&[Damage::Rim], 5),
    (&[Damage::Gap], 6),
    (&[Damage::Stray], 7),
    (&[Damage::Table], 8),
    (&[Damage::Samples, Damage::Cuts], 9),
    (&[Damage::Rim, Damage::Stray], 10),
    (&[Damage::Gap, Damage::Stray], 11),
    (&[Damage::Stray, Damage::Table], 12),
];

fn refused(&(damages, seed): &(&[Damage], u64)) -> (String, Call) {
    let block = Block::given_case();
    let lattice = block.lattice().expect("allowed sizes");
    let mut call = Call::good(block, BAND, 0);
    for &damage in damages {
        assert!(call.damage(&mut Random::new(seed), &lattice, damage));
    }
    let words: Vec<String> = damages.iter().map(|damage| format!("{damage:?}")).collect();
    (
        format!("the given case with a fault: {}", words.join(" and ")),
        call,
    )
}
