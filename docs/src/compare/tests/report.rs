//! The volume report (request F-7): what the program prints beside what the separate software says it must, byte for byte, for files one
//! after another, for every way in which a report ends, and however the bytes arrive. What was met is counted.
use compare::mutations::{mutated, MUTATIONS};
use reference::block::Block;
use reference::blockfile::write;
use reference::damage::{Call, Damage};
use reference::generate::{any_block, block, crowded_block, cuts_where_needed, flickering_block, worn_block, CUTTINGS, MIXES};
use reference::lattice::Lattice;
use reference::random::Random;
use reference::report::{report, report_counted};
use std::fs::{remove_file, File};
use std::io::{BufRead, BufReader, Seek, Write};
use std::path::PathBuf;
use std::process::{Child, ChildStdin, Command, Stdio};
use std::sync::mpsc::{channel, Receiver, RecvTimeoutError};
use std::thread::{scope, sleep, spawn};
use std::time::Duration;

/// How long the program may be silent before it is taken to wait for bytes that it does not need.
const PATIENCE: Duration = Duration::from_secs(60);

/// The program at work; its lines are taken in as they come. Dropping this ends it.
struct Running {
    run: Child,
    lines: Receiver<Vec<u8>>,
}

impl Running {
    fn on(input: impl Into<Stdio>) -> Running {
        let built = || PathBuf::from(env!("CARGO_MANIFEST_DIR")).join("../../../target/bin/report");
        let program = std::env::var_os("YAKUEMI_REPORT").map_or_else(built, PathBuf::from);
        let run = Command::new(program).stdin(input).stdout(Stdio::piped()).spawn();
        let mut run = run.expect("the report program");
        let mut printed = BufReader::new(run.stdout.take().unwrap());
        let (send, lines) = channel();
        spawn(move || loop {
            let mut line = Vec::new();
            if printed.read_until(b'\n', &mut line).unwrap() == 0 || send.send(line).is_err() {
                break;
            }
        });
        Running { run, lines }
    }

    /// With a pipe for its standard input.
    fn on_pipe() -> (Running, ChildStdin) {
        let mut running = Running::on(Stdio::piped());
        let pipe = running.run.stdin.take().unwrap();
        (running, pipe)
    }

    /// The next line, or nothing if the output has ended.
    fn line(&self) -> Vec<u8> {
        match self.lines.recv_timeout(PATIENCE) {
            Ok(line) => line,
            Err(RecvTimeoutError::Disconnected) => Vec::new(),
            Err(RecvTimeoutError::Timeout) => panic!("the program waits"),
        }
    }

    /// All lines up to the end of the output. The papers name no exit code, but the program must have come to its end by itself.
    fn rest(&mut self) -> Vec<u8> {
        let mut all = Vec::new();
        loop {
            let line = self.line();
            if line.is_empty() {
                break;
            }
            all.extend(line);
        }
        let status = self.run.wait().unwrap();
        assert!(status.code().is_some(), "{status}");
        all
    }
}

impl Drop for Running {
    fn drop(&mut self) {
        let _ = self.run.kill();
        let _ = self.run.wait();
    }
}

/// All that the program prints when its standard input is a pipe and this writes into it.
fn printed(write: impl FnOnce(&mut ChildStdin) -> std::io::Result<()> + Send) -> Vec<u8> {
    scope(|scope| {
        let (mut running, mut pipe) = Running::on_pipe();
        // a program whose report has ended may leave the rest unread
        scope.spawn(move || drop(write(&mut pipe)));
        running.rest()
    })
}

/// The same bytes, or the first line in which they differ.
fn same(printed: &[u8], expected: &[u8], what: &str) {
    if printed != expected {
        let lines = |text: &[u8]| String::from_utf8_lossy(text).split_inclusive('\n').map(str::to_string).collect::<Vec<_>>();
        let (printed, expected) = (lines(printed), lines(expected));
        let first = printed.iter().zip(&expected).take_while(|(a, b)| a == b).count();
        panic!("{what}, line {}: printed {:?} instead of {:?}", first + 1, printed.get(first), expected.get(first));
    }
}

/// The program prints what it must for this input; answers it.
fn same_report(input: &[u8], what: &str) -> String {
    let expected = report(input);
    same(&printed(|pipe| pipe.write_all(input)), &expected, what);
    String::from_utf8(expected).unwrap()
}

/// The file of the given case with one change.
fn given(change: impl Fn(&mut Block)) -> Vec<u8> {
    let mut block = Block::given_case();
    change(&mut block);
    write(&block).unwrap()
}

/// A file of 1 by 1 by 1 cubes, all samples -1, with these runs; the cut table has 63 bytes.
fn with_runs(runs: &[(u32, u16)], bytes: &[u8]) -> Vec<u8> {
    let mut file = [&[1, 1, 1][..], &[255; 18], &(runs.len() as u16).to_le_bytes()].concat();
    for (offset, length) in runs {
        file.extend(offset.to_le_bytes());
        file.extend(length.to_le_bytes());
    }
    file.extend(bytes);
    file
}

/// The same with all bytes 1.
fn runs_of_ones(runs: &[(u32, u16)]) -> Vec<u8> {
    let count = runs.iter().map(|&(_, length)| usize::from(length)).sum();
    with_runs(runs, &vec![1; count])
}

/// A file that does not end the report, with sizes from 1 to 5: most are of valid blocks, and filling refuses the others.
fn any_file(random: &mut Random) -> Vec<u8> {
    let block = match random.below(10) {
        0..3 => any_block(random, 5),
        3..5 => crowded_block(random, 5),
        5 => flickering_block(random, 5),
        6 => {
            let (mix, cutting) = (random.pick(&MIXES), random.pick(&CUTTINGS));
            block(random, [5; 3], mix, cutting)
        }
        7 => worn_block(random),
        _ => damaged_block(random),
    };
    write(&block).expect("a small block fits a file")
}

/// A block with one thing wrong that filling refuses, if there is a byte for it.
fn damaged_block(random: &mut Random) -> Block {
    let block = any_block(random, 5);
    let lattice = block.lattice().unwrap();
    let mut call = Call { band: 0, state_length: block.samples.len(), row_length: 0, block };
    let damage = random.pick(&[Damage::Rim, Damage::Gap, Damage::Stray]);
    call.damage(random, &lattice, damage);
    call.block
}

/// What was met in reports.
#[derive(Debug, Default)]
struct Met {
    /// Lines of refused files, by the number.
    refused: [usize; 13],
    /// Refusals of filling with a place above 0.
    placed: usize,
    /// Accepted files without rows, and with.
    accepted: [usize; 2],
    /// Accepted files with moved points, and with rows besides.
    moved: [usize; 2],
    /// Files whose rows have different six-volumes.
    uneven: usize,
}

impl Met {
    fn count(&mut self, report: &str) {
        let lines: Vec<&str> = report.lines().collect();
        for line in &lines[..lines.len() - 1] {
            let fields: Vec<&str> = line.split(' ').collect();
            if fields[1] == "refused" {
                self.refused[fields[2].parse::<usize>().unwrap()] += 1;
                self.placed += usize::from(fields[3] != "0");
                continue;
            }
            let numbers: Vec<i128> = fields.iter().map(|field| field.parse().unwrap()).collect();
            let [_, rows, moved, sum, smallest] = numbers[..] else {
                panic!("{line}");
            };
            self.accepted[usize::from(rows > 0)] += 1;
            self.moved[0] += usize::from(moved > 0);
            self.moved[1] += usize::from(moved > 0 && rows > 0);
            self.uneven += usize::from(rows * smallest != sum);
        }
    }
}

#[test]
fn no_file_and_one_file() {
    assert_eq!(same_report(&[], "nothing"), "0 0\n");
    let whole = given(|_| ());
    assert_eq!(same_report(&whole, "the given case"), "1 24 0 201326592 8388608\n24 201326592\n");
    assert_eq!(same_report(&given(|block| block.cuts[91] = 63), "P2"), "1 0 1 0 0\n0 0\n");
    assert_eq!(same_report(&given(|block| block.cuts[91] = 0), "P10"), "1 refused 6 91\n0 0\n");
    assert_eq!(same_report(&given(|block| block.cuts[0] = 7), "P11"), "1 refused 7 0\n0 0\n");
    assert_eq!(same_report(&given(|block| block.samples[27] = 1), "P12"), "1 refused 5 27\n0 0\n");
    for change in [(91, 64), (91, 193), (91, 192), (94, 105), (94, 106), (94, 151), (94, 150)] {
        same_report(&given(|block| block.cuts[change.0] = change.1), "P3 to P9");
    }
    let two = [&given(|block| block.cuts[0] = 7)[..], &whole].concat();
    assert_eq!(same_report(&two, "two files"), "1 refused 7 0\n2 24 0 201326592 8388608\n24 201326592\n");
}

#[test]
fn two_thousand_files_in_one_stream() {
    let mut random = Random::new(701);
    let mut stream = Vec::new();
    let mut sizes = [[0; 6]; 3];
    for _ in 0..2_000 {
        let file = any_file(&mut random);
        (0..3).for_each(|axis| sizes[axis][usize::from(file[axis])] += 1);
        stream.extend(file);
    }
    let mut met = Met::default();
    met.count(&same_report(&stream, "2,000 files"));
    assert!([5, 6, 7].iter().all(|&number| met.refused[number] > 40), "{met:?}");
    assert!(met.placed > 200 && met.accepted.iter().all(|&count| count > 200), "{met:?}");
    assert!(met.moved.iter().all(|&count| count > 200) && met.uneven > 200, "{met:?}");
    assert_eq!(met.refused.iter().chain(&met.accepted).sum::<usize>(), 2_000);
    assert!(sizes.iter().all(|axis| axis[1..].iter().all(|&count| count > 40)), "{sizes:?}");
}

/// Every sample is any 16-bit number, or one of those at the ends and around zero; cut bytes are any, or such that few points move.
#[test]
fn samples_of_the_full_range() {
    let mut random = Random::new(702);
    let mut stream = Vec::new();
    for n in 0..600 {
        let sizes = [0; 3].map(|_| random.between(3, 5) as u32);
        let lattice = Lattice::new(sizes[0], sizes[1], sizes[2]).unwrap();
        let ends = [-32768, -32767, -1, 0, 1, 32766, 32767];
        let any = |random: &mut Random| if n % 2 == 0 { random.bits() as i16 } else { random.pick(&ends) };
        let mut samples: Vec<i16> = (0..lattice.point_count()).map(|_| any(&mut random)).collect();
        if n % 8 != 7 {
            // above zero on the rim would be refused with 5
            let plus_on_rim = |point: &usize| lattice.is_rim(*point) && samples[*point] > 0;
            let points: Vec<usize> = (0..samples.len()).filter(plus_on_rim).collect();
            points.into_iter().for_each(|point| samples[point] = -samples[point]);
        }
        let (low, high) = random.pick(&[(1, 255), (80, 175), (104, 151), (106, 150)]);
        let mut cuts = cuts_where_needed(&lattice, 0, &samples, |_, _| random.between(low, high) as u8);
        if n % 8 == 6 {
            let at = random.below(cuts.len());
            cuts[at] = if cuts[at] == 0 { random.between(1, 255) as u8 } else { 0 };
        }
        stream.extend(write(&Block { sizes, samples, cuts }).unwrap());
    }
    let mut met = Met::default();
    met.count(&same_report(&stream, "samples of the full range"));
    assert!(met.refused[5] > 50 && met.refused[6] + met.refused[7] > 50, "{met:?}");
    assert!(met.accepted[1] > 300 && met.moved[1] > 200, "{met:?}");
}

/// Files with as many runs as can be, whole cut tables in one run, and runs just within what is allowed: filling refuses the first of their
/// bytes, and the report goes on.
#[test]
fn files_that_are_hard_to_read_do_not_end_the_report() {
    let points = Lattice::new(5, 5, 5).unwrap().point_count();
    let every_second = |from: usize| (0..7 * points).map(|offset| u8::from(offset % 2 == from)).collect();
    let tables = [every_second(0), every_second(1), vec![255; 7 * points]];
    let largest = tables.map(|cuts| write(&Block { sizes: [5; 3], samples: vec![-1; points], cuts }).unwrap());
    assert_eq!(largest[0].len(), 9045);
    let small: [&[(u32, u16)]; 6] = [&[(0, 1)], &[(62, 1)], &[(0, 63)], &[(5, 2), (8, 1)], &[(1, 60), (62, 1)], &[(60, 3)]];
    let stream = [largest.concat(), small.map(runs_of_ones).concat(), given(|_| ())].concat();
    let places = [0, 1, 0, 0, 62, 0, 5, 1, 60];
    let lines: String = places.iter().enumerate().map(|(n, place)| format!("{} refused 7 {place}\n", n + 1)).collect();
    assert_eq!(same_report(&stream, "hard files"), lines + "10 24 0 201326592 8388608\n24 201326592\n");
}

/// Bytes that end the report, and what they are.
type End = (&'static str, Vec<u8>);

/// Files with a size that is refused: those refused with 1, and those refused with 12.
fn refused_sizes() -> [Vec<End>; 2] {
    let with_size = |axis: usize, size: u8| {
        let mut file = given(|_| ());
        file[axis] = size;
        file
    };
    let none = vec![
        ("size 0 in x", with_size(0, 0)),
        ("size 65 in y", with_size(1, 65)),
        ("size 128 in z", with_size(2, 128)),
        ("three bytes, size 0", vec![1, 0, 1]),
        ("three bytes, size 65", vec![1, 1, 65]),
        ("three bytes, size 255", vec![255, 1, 1]),
        ("size 0 before large ones", vec![0, 6, 64]),
        ("size 65 behind large ones", vec![6, 64, 65]),
    ];
    let large = vec![
        ("size 6 in x", with_size(0, 6)),
        ("size 6 in y", with_size(1, 6)),
        ("size 64 in z", with_size(2, 64)),
        ("three bytes, size 6", vec![6, 1, 1]),
        ("three bytes, size 64", vec![1, 1, 64]),
    ];
    [none, large]
}

/// Files that the end of the input cuts off: refused with 11.
fn cut_off() -> Vec<End> {
    let first = |length: usize| given(|_| ())[..length].to_vec();
    vec![
        ("one byte", vec![1]),
        ("one byte, size 0", vec![0]),
        ("two bytes", vec![1, 1]),
        ("two bytes, sizes 0 and 65", vec![0, 65]),
        ("two bytes, sizes 6", vec![6, 6]),
        ("sizes only", first(3)),
        ("half a sample", first(4)),
        ("one sample", first(5)),
        ("all samples but half a one", first(72)),
        ("no run count", first(73)),
        ("half a run count", first(74)),
        ("no run", first(75)),
        ("half an offset", first(77)),
        ("no length", first(79)),
        ("half a length", first(80)),
        ("all runs but half a length", first(122)),
        ("no bytes", first(123)),
        ("all but the last byte", first(136)),
    ]
}

/// Files that are all there, with runs that may not be or with zeros in them: refused with 11.
fn malformed() -> Vec<End> {
    vec![
        ("length 0", runs_of_ones(&[(5, 0)])),
        ("length 0 behind a run", runs_of_ones(&[(5, 1), (9, 0)])),
        ("length 0 at the end of the table", runs_of_ones(&[(63, 0)])),
        ("past the table", runs_of_ones(&[(63, 1)])),
        ("past the table with the last byte", runs_of_ones(&[(62, 2)])),
        ("the table and one more", runs_of_ones(&[(0, 64)])),
        ("length 256", runs_of_ones(&[(0, 256)])),
        ("the longest run", runs_of_ones(&[(0, 65_535)])),
        ("offset 256", runs_of_ones(&[(1 << 8, 1)])),
        ("offset 65,536", runs_of_ones(&[(1 << 16, 1)])),
        ("offset 16,777,216", runs_of_ones(&[(1 << 24, 1)])),
        ("offset 2,147,483,648", runs_of_ones(&[(1 << 31, 1)])),
        ("the last offset", runs_of_ones(&[(u32::MAX, 1)])),
        ("an end at 2 to the 32", runs_of_ones(&[(u32::MAX - 65_534, 65_535)])),
        ("an end beyond 2 to the 32", runs_of_ones(&[(u32::MAX, 5)])),
        ("touching", runs_of_ones(&[(5, 2), (7, 1)])),
        ("overlapping", runs_of_ones(&[(5, 2), (6, 1)])),
        ("the same twice", runs_of_ones(&[(5, 1), (5, 1)])),
        ("descending", runs_of_ones(&[(5, 2), (3, 1)])),
        ("descending later", runs_of_ones(&[(5, 2), (9, 1), (20, 1), (7, 1)])),
        ("a zero byte alone", with_runs(&[(5, 1)], &[0])),
        ("a zero byte first", with_runs(&[(5, 3)], &[0, 1, 1])),
        ("a zero byte last", with_runs(&[(5, 1), (9, 2)], &[1, 1, 0])),
        ("a zero byte and a rim sample above zero", [&[1, 1, 1, 1, 0], &with_runs(&[(5, 1)], &[0])[5..]].concat()),
    ]
}

/// After no file, one or three, and followed by nothing, by a byte, by a file, or by many bytes.
#[test]
fn every_end_of_a_report() {
    let one = given(|_| ());
    let three = [&one[..], &given(|block| block.cuts[0] = 7), &given(|block| block.cuts[91] = 193)].concat();
    let [none, large] = refused_sizes();
    for (ends, number) in [(none, 1), (large, 12), (cut_off(), 11), (malformed(), 11)] {
        for (what, end) in ends {
            for (count, before) in [(0, &[][..]), (1, &one), (3, &three)] {
                let input = [before, &end].concat();
                let ended = same_report(&input, what);
                let line = format!("{} refused {number} 0", count + 1);
                assert_eq!(ended.lines().nth(count), Some(&line[..]), "{what}");
                assert_eq!(ended.lines().count(), count + 2, "{what}");
                for further in [&[0][..], &[1], &one, &[1; 70_000], &[0; 70_000]] {
                    same_report(&[&input, further].concat(), what);
                }
            }
        }
    }
}

#[test]
fn a_stream_cut_at_every_byte_of_its_last_file() {
    let before = [given(|block| block.cuts[91] = 193), given(|block| block.cuts[0] = 7), given(|_| ())].concat();
    for last in [given(|_| ()), given(|block| block.samples[27] = 1)] {
        let stream = [&before[..], &last].concat();
        let mut met = Met::default();
        for end in before.len()..=stream.len() {
            met.count(&same_report(&stream[..end], &format!("{end} bytes")));
        }
        assert_eq!(met.refused[11], last.len() - 1);
    }
}

/// More runs than a cut table has room for: nothing follows, or some of them, or all, or all with their bytes and a file.
#[test]
fn a_run_count_that_no_file_can_hold() {
    let points = Lattice::new(5, 5, 5).unwrap().point_count();
    let head = |sizes: u8, points: usize| [&[sizes; 3][..], &vec![255; 2 * points]].concat();
    let before = given(|_| ());
    for (head, most) in [(head(1, 9), 32), (head(5, points), 1_194u16)] {
        for count in [most + 1, 2 * most, 9 * most, 32_768, 65_535] {
            let apart = (0..u32::from(count)).flat_map(|n| [&(2 * n).to_le_bytes()[..], &[1, 0]].concat()).collect();
            let same_run = [0, 0, 0, 0, 1, 0].repeat(count.into());
            for mut runs in [apart, same_run, vec![0; 6 * usize::from(count)], vec![255; 6 * usize::from(count)]] {
                runs.extend(vec![1; count.into()]);
                for length in [0, 5, 6, 7, 2_400, 6 * usize::from(count), runs.len()] {
                    let file = [&head[..], &count.to_le_bytes(), &runs[..length.min(runs.len())]].concat();
                    let what = format!("{count} runs, {length} bytes");
                    let ended = same_report(&[&before[..], &file, &before].concat(), &what);
                    assert!(ended.ends_with("\n2 refused 11 0\n24 201326592\n"), "{what}: {ended}");
                    same_report(&file, &what);
                }
            }
        }
    }
}

/// What follows the last file is read as a file, whatever it is.
#[test]
fn garbage_behind_the_last_file() {
    let mut random = Random::new(703);
    let mut met = Met::default();
    for n in 0..300 {
        let mut stream = any_file(&mut random);
        // half of the time it begins with sizes that are allowed
        stream.extend((0..3 * (n % 2)).map(|_| random.between(1, 5) as u8));
        let length = random.pick(&[1, 2, 3, 10, 60, 3_000, 20_000]);
        stream.extend((0..length).map(|_| random.bits() as u8));
        met.count(&same_report(&stream, &format!("garbage {n}")));
    }
    assert!(met.refused[1] > 50 && met.refused[11] > 50 && met.refused[12] > 0, "{met:?}");
}

#[test]
fn mutated_files_in_a_stream() {
    let mut random = Random::new(704);
    let mut met = Met::default();
    for n in 0..1_500 {
        let mut stream = Vec::new();
        (0..random.below(3)).for_each(|_| stream.extend(any_file(&mut random)));
        stream.extend(mutated(&mut random, MUTATIONS[n % MUTATIONS.len()]));
        (0..random.below(3)).for_each(|_| stream.extend(any_file(&mut random)));
        met.count(&same_report(&stream, &format!("mutation {n}")));
    }
    assert!([1, 5, 6, 7, 11, 12].iter().all(|&number| met.refused[number] > 40), "{met:?}");
}

/// Bytes come one by one or in small pieces, slowly or as fast as they can be written: the program's reads are short, and nothing changes.
#[test]
fn pieces_through_a_pipe() {
    let mut random = Random::new(705);
    let mut short = [given(|_| ()), given(|block| block.cuts[91] = 0), given(|block| block.cuts[91] = 193)].concat();
    short.extend(with_runs(&[(5, 1), (9, 2)], &[1, 1, 1]));
    let long: Vec<u8> = (0..20).flat_map(|_| any_file(&mut random)).collect();
    let pause = Duration::from_micros(100);
    for (stream, pause, pieces) in [(&short, pause, 1), (&short, pause, 7), (&long, Duration::ZERO, 1), (&long, Duration::ZERO, 7)] {
        for missing in [0, 1] {
            let stream = &stream[..stream.len() - missing];
            let write = |pipe: &mut ChildStdin| {
                let mut rest = stream;
                while !rest.is_empty() {
                    let (piece, later) = rest.split_at(rest.len().min(random.between(1, pieces) as usize));
                    pipe.write_all(piece)?;
                    pipe.flush()?;
                    sleep(pause);
                    rest = later;
                }
                Ok(())
            };
            same(&printed(write), &report(stream), "pieces");
        }
    }
}

#[test]
fn a_line_comes_with_its_file_while_the_pipe_stays_open() {
    let mut random = Random::new(706);
    let (mut running, mut pipe) = Running::on_pipe();
    let mut stream = Vec::new();
    let mut files = vec![given(|_| ()), given(|block| block.cuts[0] = 7), with_runs(&[], &[])];
    files.extend((0..40).map(|_| any_file(&mut random)));
    for (n, file) in files.iter().enumerate() {
        pipe.write_all(file).unwrap();
        stream.extend(file);
        let expected = report(&stream);
        let line = expected.split_inclusive(|&byte| byte == b'\n').nth(n).unwrap();
        same(&running.line(), line, &format!("file {}", n + 1));
    }
    drop(pipe);
    let expected = report(&stream);
    same(&running.rest(), expected.split_inclusive(|&byte| byte == b'\n').next_back().unwrap(), "the last line");
}

/// A refused size is known from three bytes, and that a file is malformed at the latest when all of it is there.
#[test]
fn a_report_that_has_ended_does_not_wait() {
    let one = given(|_| ());
    let sizes = refused_sizes().concat().into_iter().map(|(what, file)| (what, file[..3].to_vec()));
    for (what, end) in sizes.chain(malformed()) {
        let input = [&one[..], &end].concat();
        let (mut running, mut pipe) = Running::on_pipe();
        // a program may know before it has all
        let _ = pipe.write_all(&input);
        same(&running.rest(), &report(&input), what);
    }
}

/// Standard input is a regular file here; answers what is printed and where in the file the program has stopped reading.
fn printed_from_file(input: &[u8], name: &str) -> (Vec<u8>, u64) {
    let path = PathBuf::from(env!("CARGO_TARGET_TMPDIR")).join(format!("{name}.{}", std::process::id()));
    std::fs::write(&path, input).unwrap();
    let mut file = File::open(&path).unwrap();
    // both handles share one place in the file
    let lent = file.try_clone().unwrap();
    let printed = Running::on(lent).rest();
    remove_file(path).unwrap();
    (printed, file.stream_position().unwrap())
}

#[test]
fn a_regular_file_is_read_like_a_pipe() {
    let mut random = Random::new(707);
    let stream: Vec<u8> = (0..100).flat_map(|_| any_file(&mut random)).collect();
    for input in [&[][..], &stream] {
        let (printed, end) = printed_from_file(input, "files");
        same(&printed, &report(input), "a regular file");
        assert_eq!(end, input.len() as u64);
    }
}

/// The n-th of many files. Most are of 1 by 1 by 1: one sample is any number and refused with 5 if it is above zero, or one cut byte is
/// refused with 7. Every ten-thousandth is the given case, and so are all from the millionth on: the totals show which of them are in.
fn numbered_file(n: usize) -> Vec<u8> {
    let mut random = Random::new(n as u64);
    if n.is_multiple_of(10_000) || n > 1_000_000 {
        return given(|_| ());
    }
    if n.is_multiple_of(3) {
        return runs_of_ones(&[(random.below(63) as u32, 1)]);
    }
    let mut file = with_runs(&[], &[]);
    let sample = 3 + 2 * random.below(9);
    file[sample..sample + 2].copy_from_slice(&(random.bits() as i16).to_le_bytes());
    file
}

/// The program prints a million lines and the last one, has read its standard input to the end of the millionth file and no further, and
/// waits for nothing once it has that.
#[test]
fn a_million_files_and_three() {
    let million: Vec<u8> = (1..=1_000_000).flat_map(numbered_file).collect();
    let three: Vec<u8> = (1_000_001..=1_000_003).flat_map(numbered_file).collect();
    let input = [&million[..], &three].concat();
    let (expected, end) = report_counted(&input);
    assert_eq!(end, million.len());
    assert!(expected.ends_with(b"\n1000000 24 0 201326592 8388608\n2400 20132659200\n"));
    let mut met = Met::default();
    met.count(std::str::from_utf8(&expected).unwrap());
    assert!([met.refused[5], met.refused[7], met.accepted[0]].iter().all(|&count| count > 300_000), "{met:?}");

    let (printed, end) = printed_from_file(&input, "million");
    same(&printed, &expected, "a million files and three");
    assert_eq!(end, million.len() as u64, "where the program has stopped reading");

    let (mut running, mut pipe) = Running::on_pipe();
    // the pipe comes back so that it stays open until the program has ended
    let writer = spawn(move || pipe.write_all(&million).map(|_| pipe));
    same(&running.rest(), &expected, "a million files through a pipe that stays open");
    drop(writer.join().unwrap());
}
