//! Block files: the reader beside the separate software's, and the bench program itself, on document 01's cases and on mutations of bytes
//! anywhere in valid files.
use compare::mutations::{mutated, MUTATIONS};
use compare::{same_filling, zero_or_any_band};
use reference::block::Block;
use reference::blockfile::{bench_output, read, write};
use reference::damage::Call;
use reference::place::measures;
use reference::random::Random;
use std::io::Write;
use std::path::PathBuf;
use std::process::{Command, Stdio};

/// The lattice points of 5 by 5 by 5 cubes.
const POINTS: usize = 341;
/// Four numbers for three rows of each of their 1200 lattice tetrahedra.
const ROWS: usize = 14_400;

/// What the separate software makes of a file, read into tables of these lengths: the number, and the block with its end.
fn expected(file: &[u8], end: usize, room: [usize; 2]) -> Result<Block, u32> {
    if let &[nx, ny, nz, ..] = file {
        let m = measures(nx.into(), ny.into(), nz.into());
        let points = m.points as usize;
        if m.number == 0 && (room[0] < points || room[1] < 7 * points) {
            return Err(12);
        }
    }
    read(&file[..end], 64)
}

/// Lengths of lent tables: mostly enough for the file's sizes, now and then just enough or too short by one.
fn any_room(random: &mut Random, file: &[u8]) -> [usize; 2] {
    let points = match *file {
        [nx, ny, nz, ..] => measures(nx.into(), ny.into(), nz.into()).points as usize,
        _ => 0,
    };
    match random.below(16) {
        0 => [points, 7 * points],
        1 => [points.saturating_sub(1), 7 * points],
        2 => [points, (7 * points).saturating_sub(1)],
        3 => [points + 3, 7 * points + 5],
        _ => [POINTS, 7 * POINTS],
    }
}

/// Reads a file into tables full of noise. Answer, end and both tables are as they must be; answers the number and the block.
fn same_reading(random: &mut Random, file: &[u8]) -> Result<Block, u32> {
    let room = any_room(random, file);
    let noise_samples: Vec<i16> = (0..room[0]).map(|_| random.bits() as i16).collect();
    let noise_cuts: Vec<u8> = (0..room[1]).map(|_| random.bits() as u8).collect();
    let (mut samples, mut cuts) = (noise_samples.clone(), noise_cuts.clone());
    let ours = yakuemi::raw::read(file, &mut samples, &mut cuts);
    let end = if ours.number == 0 { ours.end as usize } else { file.len() };
    let theirs = expected(file, end, room);
    match &theirs {
        Ok(block) => {
            assert_eq!((ours.number, [ours.nx, ours.ny, ours.nz]), (0, block.sizes));
            let n = block.samples.len();
            assert!(samples[..n] == block.samples && cuts[..7 * n] == block.cuts);
            assert!(samples[n..] == noise_samples[n..] && cuts[7 * n..] == noise_cuts[7 * n..]);
        }
        Err(number) => {
            assert_eq!((ours.number, [ours.nx, ours.ny, ours.nz], ours.end), (*number, [0; 3], 0));
            assert!(samples == noise_samples && cuts == noise_cuts);
        }
    }
    // what follows the file is for the caller to refuse
    if end < file.len() {
        assert_eq!(expected(file, file.len(), room), Err(11));
        return Err(11);
    }
    theirs
}

/// No file ends anywhere within bytes that were refused as malformed.
fn no_end_within(file: &[u8]) {
    assert!((0..=file.len()).all(|end| read(&file[..end], 64) == Err(11)));
}

#[test]
fn mutated_files_are_read_and_filled_alike() {
    let mut random = Random::new(101);
    let mut seen = [0; 13];
    for n in 0..24_000 {
        let file = mutated(&mut random, MUTATIONS[n % MUTATIONS.len()]);
        let number = match same_reading(&mut random, &file) {
            Ok(block) => {
                let band = zero_or_any_band(&mut random, &block);
                let state_length = block.samples.len();
                let row_length = random.pick(&[ROWS, ROWS, 4, 0]);
                same_filling(&Call { block, band, state_length, row_length }, random.bits()).number
            }
            Err(number) => number,
        };
        seen[number as usize] += 1;
        if number == 11 && n % 16 == 0 && file.len() < 2_000 && yakuemi_refuses(&file) {
            no_end_within(&file);
        }
    }
    for number in [0, 1, 5, 6, 7, 10, 11, 12] {
        assert!(seen[number] > 100, "answer {number} was seen {} times", seen[number]);
    }
    assert_eq!(seen.iter().sum::<usize>(), 24_000);
}

/// Whether the reader finds no file at the start of the bytes, with room for every size up to 5.
fn yakuemi_refuses(file: &[u8]) -> bool {
    yakuemi::raw::read(file, &mut [0; POINTS], &mut [0; 7 * POINTS]).number == 11
}

/// The bench program's whole output for a file on its standard input.
fn bench(file: &[u8]) -> String {
    let built = || PathBuf::from(env!("CARGO_MANIFEST_DIR")).join("../../../target/bin/bench");
    let program = std::env::var_os("YAKUEMI_BENCH").map_or_else(built, PathBuf::from);
    let mut command = Command::new(program);
    let mut run = command.stdin(Stdio::piped()).stdout(Stdio::piped()).spawn().expect("the bench program");
    // a program that has refused may leave the rest unread
    let _ = run.stdin.take().unwrap().write_all(file);
    let output = run.wait_with_output().unwrap();
    String::from_utf8(output.stdout).unwrap()
}

/// The given case with one change.
fn given(change: impl Fn(&mut Block)) -> Vec<u8> {
    let mut block = Block::given_case();
    change(&mut block);
    write(&block).unwrap()
}

#[test]
fn the_program_on_document_01s_cases() {
    let whole = given(|_| ());
    assert_eq!(bench(&whole), "points 35\nlattice 48\nmoved 0\nemitted 24\n");
    assert_eq!(bench(&given(|block| block.cuts[91] = 63)), "points 35\nlattice 48\nmoved 1\nemitted 0\n");
    assert_eq!(bench(&given(|block| block.cuts[91] = 193)), "points 35\nlattice 48\nmoved 1\nemitted 24\n");
    assert_eq!(bench(&given(|block| block.cuts[91] = 0)), "refused 6 91\n");
    assert_eq!(bench(&given(|block| block.cuts[0] = 7)), "refused 7 0\n");
    assert_eq!(bench(&given(|block| block.samples[27] = 1)), "refused 5 27\n");
    assert_eq!(bench(&whole[..whole.len() - 1]), "refused 11 0\n");
    assert_eq!(bench(&[&whole[..], &[1]].concat()), "refused 11 0\n");
    assert_eq!(bench(&[]), "refused 11 0\n");
    assert_eq!(bench(&[2, 2]), "refused 11 0\n");
    assert_eq!(bench(&given(|block| block.sizes[0] = 6)), "refused 12 0\n");
    assert_eq!(bench(&[64, 6, 5]), "refused 12 0\n");
    assert_eq!(bench(&given(|block| block.sizes[2] = 0)), "refused 1 0\n");
    assert_eq!(bench(&[6, 65, 0]), "refused 1 0\n");
}

/// The longest file of 5 by 5 by 5 cubes, every second cut byte in a run of its own: read whole, and refused if one byte follows.
#[test]
fn the_program_on_the_longest_file() {
    let cuts = [1, 0].repeat(7 * POINTS).into_iter().take(7 * POINTS).collect();
    let longest = write(&Block { sizes: [5; 3], samples: vec![-1; POINTS], cuts }).unwrap();
    assert_eq!(longest.len(), 9045);
    assert_eq!(bench(&longest), "refused 7 0\n");
    for further in [1, 2, 70_000] {
        assert_eq!(bench(&[&longest[..], &vec![1; further]].concat()), "refused 11 0\n");
    }
}

#[test]
fn the_program_on_mutated_files() {
    let mut random = Random::new(102);
    let mut seen = [0; 13];
    for n in 0..12_000 {
        let file = mutated(&mut random, MUTATIONS[n % MUTATIONS.len()]);
        let output = bench(&file);
        assert_eq!(output, bench_output(&file), "mutation {n}");
        let number = output.strip_prefix("refused ").and_then(|rest| rest.split(' ').next());
        seen[number.map_or(0, |number| number.parse().unwrap())] += 1;
    }
    for number in [0, 1, 5, 6, 7, 11, 12] {
        assert!(seen[number] > 50, "answer {number} was seen {} times", seen[number]);
    }
}
