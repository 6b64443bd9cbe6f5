//! Filling: answer, state table and row table, bit for bit, on valid and damaged blocks, with row tables too short by one,
//! exact and too long. Lent tables are full of noise beforehand, so that entries which must stay are seen to stay. The random valid blocks
//! have band 0, of the others half; `band.rs` has more with bands.
use compare::{good_call, same_filling, three_tables};
use reference::block::Block;
use reference::damage::{Call, DAMAGES};
use reference::generate::{any_block, block, crowded_block, Cutting, CUTTINGS, MIXES};
use reference::plain::{first, marked, move_points_by, nearest, Choice};
use reference::random::Random;

/// How many points would have moved to another cut before request F-2.
fn moved_elsewhere(block: &Block) -> usize {
    let lattice = block.lattice().unwrap();
    let codes = |choice: Choice| move_points_by(choice, marked, &lattice, 0, &block.samples, &block.cuts).codes;
    codes(first).iter().zip(codes(nearest)).filter(|(&old, new)| old != *new).count()
}

/// Compares 6,000 blocks; so many points at least move to another cut than the first.
fn valid_blocks(seed: u64, blocks: fn(&mut Random, u32) -> Block, least: usize) {
    let mut random = Random::new(seed);
    let mut elsewhere = 0;
    for _ in 0..6000 {
        let mut call = Call::good(blocks(&mut random, 5), 0, 0);
        three_tables(&mut call, &mut random);
        elsewhere += moved_elsewhere(&call.block);
    }
    assert!(elsewhere > least, "{elsewhere} points move to another cut than the first");
}

#[test]
fn blocks_of_every_kind() {
    valid_blocks(71, any_block, 20_000);
}

/// Many cuts violate one point, often two of them as near or almost.
#[test]
fn crowded_blocks() {
    valid_blocks(75, crowded_block, 30_000);
}

#[test]
fn every_mix_at_every_small_size() {
    let mut random = Random::new(72);
    for n in 0..64 {
        let sizes = [n % 4 + 1, n / 4 % 4 + 1, n / 16 + 1];
        for mix in MIXES {
            for cutting in [random.pick(&CUTTINGS), Cutting::Close] {
                let block = block(&mut random, sizes, mix, cutting);
                three_tables(&mut good_call(&mut random, block), &mut random);
            }
        }
    }
}

#[test]
fn long_blocks() {
    let mut random = Random::new(73);
    for sizes in [[64, 3, 4], [3, 64, 4], [4, 3, 64], [33, 8, 5], [1, 1, 64], [64, 1, 1], [20, 20, 20]] {
        for mix in MIXES {
            for cutting in [random.pick(&CUTTINGS), Cutting::Close] {
                let block = block(&mut random, sizes, mix, cutting);
                three_tables(&mut good_call(&mut random, block), &mut random);
            }
        }
    }
}

#[test]
fn damaged_blocks() {
    let mut random = Random::new(74);
    let mut seen = [0; 20];
    for n in 0..4000 {
        let block = any_block(&mut random, 5);
        let mut call = good_call(&mut random, block);
        let lattice = call.block.lattice().unwrap();
        // one damage for certain, others now and then: the order of refusals is compared too
        for (k, damage) in DAMAGES.into_iter().enumerate() {
            if k == n % DAMAGES.len() || random.percent(6) {
                call.damage(&mut random, &lattice, damage);
            }
        }
        seen[same_filling(&call, random.bits()).number as usize] += 1;
    }
    for number in [1, 2, 3, 4, 5, 6, 7, 10, 14] {
        assert!(seen[number] > 50, "refusal {number} was seen {} times", seen[number]);
    }
}
