//! Request F-5: empty cut bytes are tested eight together. The joint test and
//! the test of whole ranges against a look at each byte; and stray bytes in
//! blocks without and with rubber, refused at their own offsets by the fast
//! filling and the plain one alike. The plain one still goes byte by byte.

mod both_fillings;

use both_fillings::{check_valid, run_both};
use reference::block::Block;
use reference::bytes::{all_zero, eight_zero};
use reference::damage::Call;
use reference::fill::{fill, Filled};
use reference::generate::{any_block, block, Cutting, MIXES};
use reference::random::Random;
use reference::refusal::{NONE, STRAY};
use reference::shapes;

/// Bytes that are not zero: the lowest bit, the highest, all.
const STRAYS: [u8; 3] = [1, 128, 255];

/// The byte that makes 256 with this one, which is not zero. A sum that wraps
/// hides the two.
fn to_256(byte: u8) -> u8 {
    byte.wrapping_neg()
}

#[test]
fn joint_test_sees_every_byte() {
    assert!(eight_zero(&[0; 8]));
    for place in 0..8 {
        for byte in 1..=255 {
            let mut eight = [0; 8];
            eight[place] = byte;
            assert!(!eight_zero(&eight), "{eight:?}");
            for other in place + 1..8 {
                let mut eight = eight;
                eight[other] = to_256(byte);
                assert!(!eight_zero(&eight), "{eight:?}");
            }
        }
    }
}

#[test]
fn joint_test_on_random_eights() {
    let mut random = Random::new(51);
    let mut passed = 0;
    for _ in 0..20_000 {
        let eight = [0; 8].map(|_| match random.below(5) {
            0 => random.bits() as u8,
            _ => 0,
        });
        let expected = eight.iter().all(|&byte| byte == 0);
        assert_eq!(eight_zero(&eight), expected, "{eight:?}");
        passed += usize::from(expected);
    }
    assert!((1000..19_000).contains(&passed), "{passed}");
}

/// All lengths up to ten eights, from eight starts in a row and so at every
/// alignment.
#[test]
fn ranges_of_every_length_and_alignment() {
    for start in 0..8 {
        for length in 0..=80 {
            let range = start..start + length;
            let mut bytes = [255; 8 + 80 + 8];
            bytes[range.clone()].fill(0);
            assert!(all_zero(&bytes[range.clone()]), "{range:?}");
            bytes.fill(0);
            assert!(all_zero(&bytes[range.clone()]), "{range:?}");
            for offset in range.clone() {
                for byte in STRAYS {
                    bytes[offset] = byte;
                    assert!(!all_zero(&bytes[range.clone()]), "{range:?} {offset}");
                }
                bytes[offset] = 0;
            }
        }
    }
}

/// Two bytes that a sum that wraps, a difference or an exclusive or would hide.
#[test]
fn ranges_with_two_bytes() {
    for length in [8, 16, 55, 80] {
        for lower in 0..length {
            for higher in lower + 1..length {
                for byte in STRAYS {
                    for other in [byte, to_256(byte)] {
                        let mut bytes = [0; 80];
                        bytes[lower] = byte;
                        bytes[higher] = other;
                        assert!(!all_zero(&bytes[..length]), "{lower} {higher}");
                    }
                }
            }
        }
    }
}

/// A block of air.
fn air(sizes: [u32; 3]) -> Block {
    let mut block = Block {
        sizes,
        samples: Vec::new(),
        cuts: Vec::new(),
    };
    let n = block.lattice().expect("allowed sizes").point_count();
    block.samples.resize(n, -1);
    block.cuts.resize(7 * n, 0);
    block
}

/// Makes the call with both fillings and with these bytes, where there is zero
/// now, ascending in offset: the first of them is refused.
fn check_strays(call: &mut Call, strays: &[(usize, u8)], random: &mut Random) {
    for &(offset, byte) in strays {
        assert_eq!(call.block.cuts[offset], 0);
        call.block.cuts[offset] = byte;
    }
    let refused = Filled::refused(STRAY, strays[0].0);
    assert_eq!(run_both(call, random.bits()).filled, refused, "{strays:?}");
    for &(offset, _) in strays {
        call.block.cuts[offset] = 0;
    }
}

#[test]
fn at_every_offset_of_air() {
    let mut random = Random::new(52);
    let mut call = Call::good(air([3, 3, 3]), 0, 0);
    check_valid(&mut call, &mut random);
    let length = call.block.cuts.len();
    for offset in 0..length {
        for byte in STRAYS {
            check_strays(&mut call, &[(offset, byte)], &mut random);
        }
        let apart = (1..=16).chain([random.between(17, 400) as usize]);
        for higher in apart.map(|apart| offset + apart) {
            if higher < length {
                let byte = random.pick(&STRAYS);
                let strays = [(offset, byte), (higher, to_256(byte))];
                check_strays(&mut call, &strays, &mut random);
            }
        }
    }
}

/// By the fast filling alone, since the plain one takes its time.
#[test]
fn in_the_largest_block_of_air() {
    let mut random = Random::new(53);
    let mut block = shapes::air();
    let noise = |_| random.bits() as u8;
    let old_state: Vec<u8> = block.samples.iter().map(noise).collect();
    let mut state = old_state.clone();
    let mut fill_with = |strays: &[(usize, u8)]| {
        let [nx, ny, nz] = block.sizes;
        strays.iter().for_each(|&(at, byte)| block.cuts[at] = byte);
        let (samples, cuts) = (&block.samples, &block.cuts);
        let filled = fill(nx, ny, nz, 0, samples, cuts, &mut state, &mut []);
        strays.iter().for_each(|&(at, _)| block.cuts[at] = 0);
        (filled, state == old_state)
    };
    let last = 7 * old_state.len() - 1;
    let mut random = Random::new(54);
    for turn in 0..500 {
        let offset = [0, last - 1].get(turn).copied();
        let offset = offset.unwrap_or_else(|| random.below(last));
        let higher = random.pick(&[offset + 1, last.min(offset + 8), last]);
        let byte = random.between(1, 255) as u8;
        let strays = [(offset, byte), (higher, to_256(byte))];
        let refused = (Filled::refused(STRAY, offset), true);
        assert_eq!(fill_with(&strays[..1]), refused, "{strays:?}");
        assert_eq!(fill_with(&strays), refused, "{strays:?}");
    }
    let refused = (Filled::refused(STRAY, last), true);
    assert_eq!(fill_with(&[(last, 1)]), refused);
    assert_eq!(fill_with(&[]).0.number, NONE);
}

/// Checks strays, one and two of them, at some of the offsets of a valid block
/// that are zero.
fn check_block(block: Block, count: usize, random: &mut Random) {
    let offsets = block.cuts.iter().enumerate();
    let zeros = offsets.filter_map(|(offset, &byte)| (byte == 0).then_some(offset));
    let zeros: Vec<usize> = zeros.collect();
    let mut call = Call::good(block, 0, 0);
    check_valid(&mut call, random);
    for _ in 0..count {
        let n = random.below(zeros.len() - 1);
        let higher = random.pick(&zeros[n + 1..(n + 17).min(zeros.len())]);
        let byte = random.pick(&STRAYS);
        let strays = [(zeros[n], byte), (higher, to_256(byte))];
        check_strays(&mut call, &strays[..1], random);
        check_strays(&mut call, &strays, random);
    }
}

#[test]
fn in_blocks_with_rubber() {
    let mut random = Random::new(55);
    let mut with_rubber = 0;
    while with_rubber < 300 {
        let block = any_block(&mut random, 5);
        if block.samples.iter().any(|&sample| sample > 0) {
            check_block(block, 20, &mut random);
            with_rubber += 1;
        }
    }
    for sizes in [[64, 4, 3], [33, 5, 4], [3, 4, 64]] {
        for mix in MIXES {
            let block = block(&mut random, sizes, mix, Cutting::Wild);
            check_block(block, 20, &mut random);
        }
    }
}
