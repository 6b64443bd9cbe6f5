//! A week of mounts for the volume report (document 02, request F-7): the block
//! files one after another, crates/report/stdin, and what the program must print
//! for them, crates/report/stdout.

use reference::block::Block;
use reference::blockfile::write;
use reference::generate::{block, Cutting, Mix};
use reference::random::Random;

/// Seven files: the given case of document 01, a ball, a part of which many
/// points move, one without rows, one that filling refuses, one of the largest
/// sizes, and one with a size of 0, which ends the report. The given case that
/// follows it is not looked at.
pub fn files() -> Vec<u8> {
    let mut random = Random::new(5);
    let mut drawn = |sizes, mix, cutting| block(&mut random, sizes, mix, cutting);
    let blocks = [
        Block::given_case(),
        drawn([3, 4, 3], Mix::Ball, Cutting::Calm),
        drawn([4, 3, 5], Mix::Dense, Cutting::Wild),
        drawn([1, 2, 4], Mix::Even, Cutting::Limits),
        with_a_gap(drawn([3, 2, 3], Mix::Ball, Cutting::Calm)),
        drawn([5, 5, 5], Mix::Ribs, Cutting::Calm),
    ];
    let file = |block: &Block| write(block).expect("a small block fits a file");
    let mut bytes: Vec<u8> = blocks.iter().flat_map(file).collect();
    bytes.extend([2, 0, 2]);
    bytes.extend(file(&blocks[0]));
    bytes
}

/// What the program prints for them.
pub fn report() -> Vec<u8> {
    reference::report::report(&files())
}

/// The block without the last of its cut bytes.
fn with_a_gap(mut block: Block) -> Block {
    let last = block.cuts.iter().rposition(|&byte| byte != 0);
    block.cuts[last.expect("a block with cuts")] = 0;
    block
}

#[cfg(test)]
mod tests {
    use super::*;

    /// The files are what their list says.
    #[test]
    fn the_week_has_something_of_everything() {
        let report = String::from_utf8(report()).unwrap();
        let lines: Vec<Vec<&str>> = report.lines().map(|l| l.split(' ').collect()).collect();
        assert_eq!(lines.len(), 8);
        assert_eq!(lines[0].join(" "), "1 24 0 201326592 8388608");
        for line in [&lines[1], &lines[2], &lines[5]] {
            assert!(line[1] != "0" && line[2] != "0", "rows and moved points");
        }
        assert_eq!(lines[3].join(" "), "4 0 0 0 0");
        assert_eq!(lines[4][..3], ["5", "refused", "6"]);
        assert!(lines[4][3] != "0");
        assert_eq!(lines[6].join(" "), "7 refused 1 0");
        assert_eq!(lines[7].len(), 2);
    }
}
