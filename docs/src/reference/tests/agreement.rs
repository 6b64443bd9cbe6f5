//! The fast filling equals the plain one: on valid blocks with row tables too
//! short, exact and too long, and on calls that must be refused. All lent
//! tables are full of noise beforehand, and entries that must stay are looked
//! at on their own. Valid blocks of random sizes are filled at band 0 here, and
//! with bands in `tests/band.rs`.

mod both_fillings;

use both_fillings::{check_valid, run_both};
use reference::block::Block;
use reference::damage::{Call, Damage, DAMAGES};
use reference::generate::{any_band, any_block, block, crowded_block, for_band_with_noise};
use reference::generate::{wide_band, Cutting, CUTTINGS, MIXES};
use reference::random::Random;

#[test]
fn on_random_valid_blocks() {
    let mut random = Random::new(1);
    for _ in 0..3000 {
        let mut call = Call::good(any_block(&mut random, 5), 0, 0);
        check_valid(&mut call, &mut random);
    }
}

#[test]
fn on_crowded_blocks() {
    let mut random = Random::new(8);
    for _ in 0..2000 {
        let mut call = Call::good(crowded_block(&mut random, 5), 0, 0);
        check_valid(&mut call, &mut random);
    }
    for sizes in [[64, 4, 3], [3, 64, 4], [4, 3, 64]] {
        for mix in MIXES {
            let block = block(&mut random, sizes, mix, Cutting::Close);
            check_valid(&mut Call::good(block, 0, 0), &mut random);
        }
    }
}

#[test]
fn on_every_size_up_to_three() {
    let mut random = Random::new(2);
    for n in 0..27 {
        let sizes = [n % 3 + 1, n / 3 % 3 + 1, n / 9 + 1];
        for mix in MIXES {
            for cutting in CUTTINGS {
                let block = block(&mut random, sizes, mix, cutting);
                check_without_and_with_band(block, &mut random);
            }
        }
    }
}

#[test]
fn on_long_blocks() {
    let mut random = Random::new(3);
    for sizes in [
        [64, 4, 3],
        [3, 64, 4],
        [4, 3, 64],
        [33, 7, 5],
        [63, 3, 3],
        [17, 16, 6],
    ] {
        for mix in MIXES {
            let cutting = random.pick(&CUTTINGS);
            let block = block(&mut random, sizes, mix, cutting);
            check_without_and_with_band(block, &mut random);
        }
    }
}

/// Fills a block that is valid at band 0, and the same with a wide band and noise
/// in it.
fn check_without_and_with_band(block: Block, random: &mut Random) {
    let band = wide_band(random, &block);
    let noisy = for_band_with_noise(random, block.clone(), band);
    check_valid(&mut Call::good(block, 0, 0), random);
    check_valid(&mut Call::good(noisy, band, 0), random);
}

/// A call with any block and any band that is not refused.
fn any_call(random: &mut Random, largest: u32) -> Call {
    let block = any_block(random, largest);
    let band = any_band(random, &block);
    Call::good(for_band_with_noise(random, block, band), band, 0)
}

#[test]
fn on_every_damage() {
    let mut random = Random::new(4);
    let mut done = [0; DAMAGES.len()];
    for n in 0..4000 {
        let mut call = any_call(&mut random, 5);
        let lattice = call.block.lattice().unwrap();
        let damage = DAMAGES[n % DAMAGES.len()];
        if call.damage(&mut random, &lattice, damage) {
            let outcome = run_both(&call, random.bits());
            assert_eq!(outcome.filled.number, damage.refusal(), "{damage:?}");
            done[n % DAMAGES.len()] += 1;
        }
    }
    assert!(done.iter().all(|&count| count > 200), "{done:?}");
}

#[test]
fn on_several_damages_at_once() {
    let mut random = Random::new(5);
    let mut seen = [0; 15];
    for _ in 0..4000 {
        let mut call = any_call(&mut random, 4);
        let lattice = call.block.lattice().unwrap();
        let first = random.below(DAMAGES.len());
        let mut done: Vec<Damage> = Vec::new();
        for &damage in &DAMAGES[first..] {
            let wanted = random.percent(60);
            if wanted && call.damage(&mut random, &lattice, damage) {
                done.push(damage);
            }
        }
        let number = run_both(&call, random.bits()).filled.number;
        seen[number as usize] += 1;
        match done[..] {
            [] => assert_eq!(number, 0),
            [Damage::Gap, Damage::Stray, ..] => assert!(number == 6 || number == 7),
            [first, ..] => assert_eq!(number, first.refusal(), "{done:?}"),
        }
    }
    for number in [0, 1, 2, 3, 4, 5, 6, 7, 10, 14] {
        assert!(seen[number] > 50, "{seen:?}");
    }
}

#[test]
fn lowest_of_many_wrong_bytes_and_rim_points() {
    let mut random = Random::new(6);
    for n in 0..1000 {
        let mut call = any_call(&mut random, 4);
        let lattice = call.block.lattice().unwrap();
        for _ in 0..1 + random.below(6) {
            let damage = match n % 2 {
                0 => random.pick(&[Damage::Gap, Damage::Stray]),
                _ => Damage::Rim,
            };
            call.damage(&mut random, &lattice, damage);
        }
        run_both(&call, random.bits());
    }
}

/// Where only the samples change, all kinds of wrong bytes arise.
#[test]
fn on_foreign_cut_tables() {
    let mut random = Random::new(7);
    for _ in 0..500 {
        let sizes = [0; 3].map(|_| random.between(2, 4) as u32);
        let mix = random.pick(&MIXES);
        let other = random.pick(&MIXES);
        let cutting = random.pick(&CUTTINGS);
        let mut call = Call::good(block(&mut random, sizes, mix, cutting), 0, 0);
        call.block.cuts = block(&mut random, sizes, other, cutting).cuts;
        call.band = any_band(&mut random, &call.block);
        run_both(&call, random.bits());
    }
}
