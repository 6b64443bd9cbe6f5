//! Stray bytes (request F-5): empty bytes are tested eight together, and yet a byte that is not zero is reported at its own offset, and the
//! lower of two, whatever they are and wherever they stand in the table, in a line or in an eight. Mending clears the same bytes.
use compare::{good_call, same_filling, same_mending};
use reference::block::Block;
use reference::damage::{Call, Filling};
use reference::fill::Filled;
use reference::generate::{block, Cutting, Mix, CUTTINGS, MIXES};
use reference::lattice::Lattice;
use reference::mend::Mended;
use reference::random::Random;
use reference::refusal::STRAY;
use reference::shapes::air;
use std::ops::Range;

/// A block of air of these sizes; in the row table there is room that filling does not need.
fn air_of([nx, ny, nz]: [u32; 3]) -> Call {
    let points = Lattice::new(nx, ny, nz).unwrap().point_count();
    Call::good(Block { sizes: [nx, ny, nz], samples: vec![-1; points], cuts: vec![0; 7 * points] }, 0, 16)
}

/// Sets bytes, the lowest first, in a block that both fill: now both refuse the lowest. Mending clears these bytes and changes no other.
fn check(call: &mut Call, strays: &[(usize, u8)], random: &mut Random) {
    let good = call.block.cuts.clone();
    for &(offset, byte) in strays {
        assert_eq!(good[offset], 0);
        call.block.cuts[offset] = byte;
    }
    assert_eq!(same_filling(call, random.bits()), Filled::refused(STRAY, strays[0].0), "{strays:?}");
    assert_eq!(same_mending(&mut call.block, call.band), Mended { number: 0, filled: 0, cleared: strays.len() as u64 }, "{strays:?}");
    assert!(call.block.cuts == good, "{strays:?}");
}

fn every_offset_of_air(sizes: [u32; 3], bytes: usize) {
    let mut random = Random::new(131);
    let mut call = air_of(sizes);
    assert_eq!((same_filling(&call, random.bits()).number, call.block.cuts.len()), (0, bytes));
    for offset in 0..bytes {
        for byte in [1, 128, 255] {
            check(&mut call, &[(offset, byte)], &mut random);
        }
    }
}

#[test]
fn every_offset_of_a_block_of_air() {
    every_offset_of_air([3, 3, 3], 637);
}

/// Lines of 7 to 63 bytes: behind the last eight none to seven are left over.
#[test]
fn every_offset_of_rows_of_air() {
    for nx in 1..=8 {
        every_offset_of_air([nx, 1, 1], 7 * (5 * nx as usize + 4));
    }
}

/// Every empty byte of blocks with lines of 65 and 64 points, some of which meet the skin: parts of these are passed too. Mending goes on
/// behind the point that it mended, so its parts start anywhere.
#[test]
fn every_empty_offset_of_long_lines() {
    let mut random = Random::new(135);
    for mix in [Mix::Sparse, Mix::Ball, Mix::Ribs] {
        let mut call = Call::good(block(&mut random, [64, 2, 2], mix, Cutting::Wild), 0, 0);
        assert_eq!(same_filling(&call, random.bits()).number, 0);
        assert!(call.block.cuts.iter().filter(|&&byte| byte != 0).count() > 50, "{mix:?}");
        for offset in 0..call.block.cuts.len() {
            if call.block.cuts[offset] == 0 {
                check(&mut call, &[(offset, 1)], &mut random);
            }
        }
    }
}

/// Two bytes that make 256, and two that are equal: a sum that wraps, or an exclusive or, would hide them.
#[test]
fn two_bytes_of_air() {
    let mut random = Random::new(132);
    let mut call = air_of([3, 3, 3]);
    // the table's start, the ends of two lines of corners, of the last one, and of a line of centres, and the table's end
    for first in [0, 28 - 12, 56 - 12, 448 - 12, 469 - 12, 637 - 24] {
        for lower in first..first + 24 {
            for higher in lower + 1..first + 24 {
                for [byte, other] in [[1, 255], [255, 1], [85, 171], [128, 128], [1, 1], [85, 85], [255, 255]] {
                    check(&mut call, &[(lower, byte), (higher, other)], &mut random);
                }
            }
        }
    }
}

/// Both fillings report any byte of 64 by 64 by 64 cubes of air at its own offset, and write nothing.
fn check_largest(offsets: &[usize], random: &mut Random) {
    let Block { sizes: [nx, ny, nz], samples, mut cuts } = air();
    let noise: Vec<u8> = samples.iter().map(|_| random.bits() as u8).collect();
    let (mut state, mut rows) = (noise.clone(), [7; 16]);
    let fillings: [Filling; 2] = [compare::fill, reference::fill::fill];
    for &offset in offsets {
        cuts[offset] = random.between(1, 255) as u8;
        for filling in fillings {
            let filled = filling(nx, ny, nz, 0, &samples, &cuts, &mut state, &mut rows);
            assert_eq!(filled, Filled::refused(STRAY, offset));
            assert!(state == noise && rows == [7; 16], "byte {offset}");
        }
        cuts[offset] = 0;
    }
}

/// The first and the last 64 offsets and 10,000 random ones, in four quarters side by side.
#[test]
fn largest_block_of_air() {
    let mut random = Random::new(133);
    let bytes = air().cuts.len();
    let ends = (0..64).chain(bytes - 64..bytes);
    let offsets: Vec<usize> = ends.chain((0..10_000).map(|_| random.below(bytes))).collect();
    for residue in 0..8 {
        let count = offsets.iter().filter(|&offset| offset % 8 == residue).count();
        assert!(count > 1_000, "{count} offsets leave {residue}");
    }
    std::thread::scope(|scope| {
        for quarter in offsets.chunks(offsets.len() / 4) {
            let mut random = Random::new(random.bits());
            scope.spawn(move || check_largest(quarter, &mut random));
        }
    });
}

/// The bytes of the line along x that a byte belongs to.
fn line_of(lattice: &Lattice, offset: usize) -> Range<usize> {
    let [nx, ..] = lattice.cubes();
    let centres = 7 * lattice.corner_count();
    let (first, length) = if offset < centres { (0, 7 * (nx + 1)) } else { (centres, 7 * nx) };
    let start = offset - (offset - first) % length;
    start..start + length
}

/// Long lines and many lines. Counts the bytes in lines without cuts, at points without cuts in other lines, and beside a cut.
#[test]
fn blocks_with_rubber() {
    let mut random = Random::new(134);
    let mut met = [0; 3];
    for sizes in [[33, 8, 5], [64, 3, 4], [20, 20, 20], [7, 7, 7], [2, 3, 64], [1, 1, 64]] {
        for (mix, cutting) in MIXES.into_iter().flat_map(|mix| CUTTINGS.map(|cutting| (mix, cutting))) {
            let block = block(&mut random, sizes, mix, cutting);
            let lattice = block.lattice().unwrap();
            let empty: Vec<usize> = (0..block.cuts.len()).filter(|&offset| block.cuts[offset] == 0).collect();
            let mut call = good_call(&mut random, block);
            assert_eq!(same_filling(&call, random.bits()).number, 0);
            for _ in 0..20 {
                let offset = random.pick(&empty);
                let byte = random.between(1, 255) as u8;
                check(&mut call, &[(offset, byte)], &mut random);
                let has_cut = |bytes: Range<usize>| call.block.cuts[bytes].iter().any(|&byte| byte != 0);
                let seven = offset - offset % 7;
                met[usize::from(has_cut(line_of(&lattice, offset))) + usize::from(has_cut(seven..seven + 7))] += 1;
            }
        }
    }
    assert!(met.iter().all(|&met| met > 400), "{met:?}");
}
