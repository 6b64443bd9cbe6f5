//! The volume report for the week (document 02, request F-7): all that the
//! program prints for what it is given on standard input.
//!
//! The whole input is at hand here, so each file is cut out of it by its length
//! and then read as the bench program reads one, by [`crate::blockfile::read`].
//! No file is too long that way, and one that the input cuts off is too short.
//! As in the bench program, sizes end at 5 and the band is 0.

use crate::block::Block;
use crate::blockfile::{fill_block, read, BENCH_SIZE};
use crate::check::place_of_id;
use crate::cut::six_volume;
use crate::lattice::Lattice;
use crate::refusal;

/// "After 1,000,000 files the report ends with its last line and reads no
/// more." Refused ones count.
pub const MOST_FILES: usize = 1_000_000;

/// What the report says of an accepted block.
#[derive(Clone, Copy, Debug, PartialEq, Eq)]
pub struct Volumes {
    /// T, the rows.
    pub rows: u64,
    /// M, the moved points; those that lie on the skin unmoved are none.
    pub moved: u64,
    /// The sum of the rows' six-volumes.
    pub sum: i128,
    /// The smallest of them, "0 if there are no rows".
    pub smallest: i128,
}

/// All that the program prints for this input.
pub fn report(input: &[u8]) -> Vec<u8> {
    report_counted(input).0
}

/// The same, and how many bytes of the input the whole files of the report
/// take up, accepted ones and those that filling refuses. The bytes of a file
/// that ends the report are not counted, as nobody knows where it ends.
pub fn report_counted(input: &[u8]) -> (Vec<u8>, usize) {
    report_on(MOST_FILES, input)
}

/// The same with another limit to the count of files.
pub fn report_on(most_files: usize, input: &[u8]) -> (Vec<u8>, usize) {
    let mut text = String::new();
    let mut total_rows = 0;
    let mut total_sum = 0;
    let mut start = 0;
    for index in 1..=most_files {
        if start == input.len() {
            break;
        }
        let (block, length) = match first_file(&input[start..]) {
            Ok(file) => file,
            Err(number) => {
                text += &format!("{index} refused {number} 0\n");
                break;
            }
        };
        start += length;
        match volumes(&block) {
            Ok(Volumes {
                rows,
                moved,
                sum,
                smallest,
            }) => {
                text += &format!("{index} {rows} {moved} {sum} {smallest}\n");
                total_rows += i128::from(rows);
                total_sum += sum;
            }
            Err((number, place)) => text += &format!("{index} refused {number} {place}\n"),
        }
    }
    text += &format!("{total_rows} {total_sum}\n");
    (text.into_bytes(), start)
}

/// The block of the first file and how many bytes the file has, or the
/// refusal's number: 1, 11 or 12.
pub fn first_file(input: &[u8]) -> Result<(Block, usize), u32> {
    // Without a length all that is left is refused, for one reason or another.
    let length = length_of_first_file(input).unwrap_or(input.len());
    let block = read(&input[..length], BENCH_SIZE)?;
    Ok((block, length))
}

/// How many bytes the first file has, by its sizes, its run count and its runs'
/// lengths, whatever else is wrong with it. None if its sizes are refused or
/// the input ends before the file does.
fn length_of_first_file(input: &[u8]) -> Option<usize> {
    let two_bytes = |at: usize| {
        let low = *input.get(at)?;
        let high = *input.get(at + 1)?;
        Some(usize::from(low) + 256 * usize::from(high))
    };
    let &[nx, ny, nz, ..] = input else {
        return None;
    };
    let points = Lattice::new(nx.into(), ny.into(), nz.into())?.point_count();
    let run_count_at = 3 + 2 * points;
    let run_count = two_bytes(run_count_at)?;
    let runs_at = run_count_at + 2;
    let mut length = runs_at + 6 * run_count;
    for run in 0..run_count {
        length += two_bytes(runs_at + 6 * run + 4)?;
    }
    (length <= input.len()).then_some(length)
}

/// Fills a block and answers its line's numbers, or the refusal's number and
/// place.
pub fn volumes(block: &Block) -> Result<Volumes, (u32, u64)> {
    let tables = fill_block(block, 0);
    let filled = tables.filled;
    if filled.number != refusal::NONE {
        return Err((filled.number, filled.place));
    }
    let (rows, _) = tables.rows.as_chunks::<4>();
    let place = |id| place_of_id(block, &tables.state, id).expect("a corner of a row has a place");
    let six_volume = |row: &[u32; 4]| i128::from(six_volume(row.map(place)));
    let six_volumes: Vec<i128> = rows.iter().map(six_volume).collect();
    Ok(Volumes {
        rows: filled.rows,
        moved: filled.moved,
        sum: six_volumes.iter().sum(),
        smallest: six_volumes.iter().min().copied().unwrap_or(0),
    })
}

#[cfg(test)]
mod tests {
    use super::*;
    use crate::blockfile::write;
    use crate::generate::{any_block, worn_block};
    use crate::plain;
    use crate::random::Random;
    use crate::state::count_moves;

    fn text(input: &[u8]) -> String {
        String::from_utf8(report(input)).unwrap()
    }

    /// The file of the given case with one change.
    fn given(change: impl Fn(&mut Block)) -> Vec<u8> {
        let mut block = Block::given_case();
        change(&mut block);
        write(&block).unwrap()
    }

    #[test]
    fn nothing_is_a_report_of_no_files() {
        assert_eq!(report_counted(b""), (b"0 0\n".to_vec(), 0));
    }

    /// 24 rows of the six-volume that P1 names.
    #[test]
    fn the_given_case() {
        let line = "24 0 201326592 8388608\n";
        let one = given(|_| ());
        assert_eq!(text(&one), format!("1 {line}24 201326592\n"));
        let three = one.repeat(3);
        let lines = format!("1 {line}2 {line}3 {line}72 603979776\n");
        assert_eq!(report_counted(&three), (lines.into_bytes(), 3 * one.len()));
    }

    /// P2, P4, P10 to P12, then the given case. In P4 the skin is 193 instead of
    /// 128 256ths away along one edge, and 4 of the rows have that edge.
    #[test]
    fn document_01s_cases_one_after_another() {
        let files = [
            given(|block| block.cuts[91] = 63),
            given(|block| block.cuts[91] = 193),
            given(|block| block.cuts[91] = 0),
            given(|block| block.cuts[0] = 7),
            given(|block| block.samples[27] = 1),
            given(|_| ()),
        ];
        let longer = 8_388_608 * 193 / 128;
        let sum = 20 * 8_388_608 + 4 * longer;
        let lines = [
            "1 0 1 0 0".to_string(),
            format!("2 24 1 {sum} 8388608"),
            "3 refused 6 91".to_string(),
            "4 refused 7 0".to_string(),
            "5 refused 5 27".to_string(),
            "6 24 0 201326592 8388608".to_string(),
            format!("48 {}", sum + 201_326_592),
        ];
        assert_eq!(text(&files.concat()), lines.join("\n") + "\n");
    }

    #[test]
    fn what_cannot_be_passed_ends_the_report() {
        let one = given(|_| ());
        let line = "1 24 0 201326592 8388608\n";
        let cut_off = &one[..one.len() - 1];
        let zero_byte = [&one[..one.len() - 1], &[0]].concat();
        let ends: [(&[u8], u32); 9] = [
            (&[2], 11),
            (&[0, 0], 11),
            (&[0, 6, 1], 1),
            (&[64, 1, 65], 1),
            (&[6, 1, 1], 12),
            (&[1, 64, 5], 12),
            (&[5, 5, 5], 11),
            (cut_off, 11),
            (&zero_byte, 11),
        ];
        for (end, number) in ends {
            let printed = format!("{line}2 refused {number} 0\n24 201326592\n");
            let input = [&one, end].concat();
            assert_eq!(report_counted(&input), (printed.into_bytes(), one.len()));
            assert_eq!(text(end), format!("1 refused {number} 0\n0 0\n"));
        }
        let behind = [&zero_byte[..], &one].concat();
        assert_eq!(text(&behind), "1 refused 11 0\n0 0\n");
    }

    #[test]
    fn a_report_reads_no_more_than_it_may() {
        let one = given(|_| ());
        let refused = given(|block| block.cuts[0] = 7);
        let input = [&refused[..], &one, &one, &[0, 0, 0]].concat();
        let lines = [
            "1 refused 7 0\n",
            "2 24 0 201326592 8388608\n",
            "3 24 0 201326592 8388608\n",
            "4 refused 1 0\n",
        ];
        let totals = ["0 0\n", "0 0\n", "24 201326592\n", "48 402653184\n"];
        let ends = [0, refused.len(), refused.len() + one.len(), input.len() - 3];
        for most in 0..=3 {
            let printed = lines[..most].concat() + totals[most];
            let counted = report_on(most, &input);
            assert_eq!(counted, (printed.into_bytes(), ends[most]));
        }
        let all = (lines.concat() + totals[3]).into_bytes();
        assert_eq!(report_on(4, &input), (all.clone(), ends[3]));
        assert_eq!(report_on(9, &input), (all, ends[3]));
    }

    /// Whatever becomes of some bytes and whatever follows, a file is found
    /// exactly if one of all beginnings of the bytes is a file, and it is that one.
    #[test]
    fn a_file_ends_where_it_can_be_read() {
        let mut random = Random::new(71);
        let mut seen = [0; 13];
        for _ in 0..600 {
            let mut bytes = write(&any_block(&mut random, 2)).unwrap();
            for _ in 0..random.below(3) {
                let (size, anywhere) = (random.below(3), random.below(bytes.len()));
                let at = random.pick(&[size, anywhere, bytes.len() - 1]);
                bytes[at] = random.pick(&[0, 1, 2, 3, 6, 255]);
            }
            let length = (bytes.len() + random.below(20)).saturating_sub(random.below(10));
            bytes.resize_with(length, || random.bits() as u8);
            let whole = |end: usize| Some((read(&bytes[..end], BENCH_SIZE).ok()?, end));
            let ends: Vec<_> = (0..=bytes.len()).filter_map(whole).collect();
            match first_file(&bytes) {
                Ok(found) => assert_eq!(ends, [found]),
                Err(_) => assert_eq!(ends, []),
            }
            seen[first_file(&bytes).err().unwrap_or(0) as usize] += 1;
        }
        assert!([0, 1, 11, 12].iter().all(|&n| seen[n] > 20), "{seen:?}");
    }

    /// The same numbers from the plain filling and the places it works with.
    #[test]
    fn the_plain_filling_has_the_same_volumes() {
        let mut random = Random::new(72);
        let (mut moved_and_rows, mut refused) = (0, 0);
        for n in 0..400 {
            let block = match n % 4 {
                0 => worn_block(&mut random),
                _ => any_block(&mut random, 5),
            };
            let found = volumes(&block);
            assert_eq!(found, plain_volumes(&block));
            moved_and_rows += usize::from(found.is_ok_and(|v| v.rows > 0 && v.moved > 0));
            refused += usize::from(found.is_err());
        }
        assert!(moved_and_rows > 50, "{moved_and_rows}");
        assert!(refused > 50, "{refused}");
    }

    fn plain_volumes(block: &Block) -> Result<Volumes, (u32, u64)> {
        let [nx, ny, nz] = block.sizes;
        let (samples, cuts) = (&block.samples, &block.cuts);
        let lattice = block.lattice().unwrap();
        let mut state = vec![0; samples.len()];
        let mut rows = vec![0; 12 * lattice.tetrahedron_count()];
        let filled = plain::fill(nx, ny, nz, 0, samples, cuts, &mut state, &mut rows);
        if filled.number != 0 {
            return Err((filled.number, filled.place));
        }
        let moved = plain::move_points(&lattice, 0, samples, cuts);
        let mut six_volumes: Vec<i64> = Vec::new();
        for tetrahedron in plain::tetrahedra(&lattice) {
            for row in plain::rows_of(&lattice, &moved.labels, tetrahedron) {
                let places = row.map(|c| plain::place_of(&lattice, cuts, &moved.codes, c));
                // The last two corners change places if it would be negative.
                six_volumes.push(six_volume(places).abs());
            }
        }
        six_volumes.sort();
        Ok(Volumes {
            rows: six_volumes.len() as u64,
            moved: count_moves(&moved.codes) as u64,
            sum: six_volumes.iter().map(|&v| i128::from(v)).sum(),
            smallest: six_volumes.first().map_or(0, |&v| v.into()),
        })
    }
}
