//! Block files: round trip and every refusal of reading, in order.

use reference::block::Block;
use reference::blockfile::{bench_output, output, read, write};
use reference::generate::any_block;
use reference::random::Random;

/// A file of 1 by 1 by 1 cubes, all samples -1, with these runs.
fn file_with_runs(runs: &[(u32, u16)], bytes: &[u8]) -> Vec<u8> {
    let mut file = vec![1, 1, 1];
    file.extend([0xff; 18]);
    file.extend((runs.len() as u16).to_le_bytes());
    for (offset, length) in runs {
        file.extend(offset.to_le_bytes());
        file.extend(length.to_le_bytes());
    }
    file.extend(bytes);
    file
}

#[test]
fn round_trip() {
    let mut random = Random::new(41);
    for _ in 0..500 {
        let block = any_block(&mut random, 6);
        let file = write(&block).unwrap();
        assert_eq!(read(&file, 64), Ok(block.clone()));
        let small = block.sizes.iter().all(|&size| size <= 5);
        assert_eq!(read(&file, 5), if small { Ok(block) } else { Err(12) });
    }
}

#[test]
fn the_given_case_byte_by_byte() {
    let file = write(&Block::given_case()).unwrap();
    assert_eq!(file.len(), 3 + 70 + 2 + 8 * 6 + 14);
    assert_eq!(file[..3], [2, 2, 2]);
    assert_eq!(file[3 + 2 * 12..3 + 2 * 14], [0xfb, 0xff, 5, 0]);
    assert_eq!(file[73..75], [8, 0]);
    assert_eq!(file[75..81], [30, 0, 0, 0, 1, 0]);
    assert_eq!(file[93..99], [91, 0, 0, 0, 7, 0]);
    assert_eq!(file[123..], [128; 14]);
}

#[test]
fn every_shortened_or_lengthened_file_is_malformed() {
    let file = write(&Block::given_case()).unwrap();
    for length in 0..file.len() {
        assert_eq!(read(&file[..length], 5), Err(11), "{length} bytes");
    }
    let mut longer = file;
    longer.push(1);
    assert_eq!(read(&longer, 5), Err(11));
}

#[test]
fn sizes_come_before_the_rest() {
    assert_eq!(bench_output(&[]), "refused 11 0\n");
    assert_eq!(bench_output(&[0, 0]), "refused 11 0\n");
    assert_eq!(bench_output(&[0, 6, 6]), "refused 1 0\n");
    assert_eq!(bench_output(&[6, 1, 65]), "refused 1 0\n");
    assert_eq!(bench_output(&[1, 1, 255, 3]), "refused 1 0\n");
    assert_eq!(bench_output(&[6, 1, 1]), "refused 12 0\n");
    assert_eq!(bench_output(&[1, 64, 1, 9]), "refused 12 0\n");
    assert_eq!(bench_output(&[5, 5, 5]), "refused 11 0\n");
    assert_eq!(output(&[64, 1, 1], 64), "refused 11 0\n");
}

#[test]
fn malformed_runs() {
    let refused = |runs: &[(u32, u16)], bytes: &[u8]| read(&file_with_runs(runs, bytes), 5);
    // Length 0; past 7N = 63; a zero byte.
    assert_eq!(refused(&[(5, 0)], &[]), Err(11));
    assert_eq!(refused(&[(63, 1)], &[1]), Err(11));
    assert_eq!(refused(&[(62, 2)], &[1, 1]), Err(11));
    assert_eq!(refused(&[(u32::MAX, u16::MAX)], &[1; 65535]), Err(11));
    assert_eq!(refused(&[(5, 3)], &[1, 0, 1]), Err(11));
    // Overlapping, touching, descending.
    assert_eq!(refused(&[(5, 2), (6, 1)], &[1; 3]), Err(11));
    assert_eq!(refused(&[(5, 2), (7, 1)], &[1; 3]), Err(11));
    assert_eq!(refused(&[(5, 2), (3, 1)], &[1; 3]), Err(11));
    // At both ends of the table, and one byte apart.
    let block = refused(&[(0, 2), (3, 1), (62, 1)], &[9, 8, 7, 6]).unwrap();
    assert_eq!(block.cuts[..4], [9, 8, 0, 7]);
    assert_eq!(block.cuts[62], 6);
}

#[test]
fn filling_refuses_last() {
    assert_eq!(
        bench_output(&file_with_runs(&[(5, 1)], &[1])),
        "refused 7 5\n"
    );
    let empty = file_with_runs(&[], &[]);
    let expected = "points 9\nlattice 0\nmoved 0\nemitted 0\n";
    assert_eq!(bench_output(&empty), expected);
    let mut rim = empty;
    rim[3 + 2 * 4..3 + 2 * 5].copy_from_slice(&[0, 0x40]);
    assert_eq!(bench_output(&rim), "refused 5 4\n");
    // -32768 is a minus.
    rim[3 + 2 * 4..3 + 2 * 5].copy_from_slice(&[0, 0x80]);
    assert_eq!(bench_output(&rim), expected);
}

#[test]
fn blocks_that_no_file_can_hold() {
    let with_cuts = |cuts: Vec<u8>| Block {
        sizes: [64, 64, 64],
        samples: vec![],
        cuts,
    };
    assert!(write(&with_cuts(vec![1; 65_535])).is_some());
    assert!(write(&with_cuts(vec![1; 65_536])).is_none());
    assert!(write(&with_cuts([1, 0].repeat(65_535))).is_some());
    assert!(write(&with_cuts([1, 0].repeat(65_536))).is_none());
    let mut block = with_cuts(vec![]);
    block.sizes[1] = 256;
    assert!(write(&block).is_none());
}
