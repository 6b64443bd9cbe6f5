//! Command line tool. Block files are read from standard input and written to
//! standard output.

use reference::block::Block;
use reference::blockfile::{bench_output, fill_block, read, write};
use reference::generate::any_block;
use reference::lattice::LARGEST_SIZE;
use reference::random::Random;
use reference::report::report;
use std::io::{Read, Write};
use std::process::ExitCode;

const USAGE: &str = "\
usage: reference <command>
  bench-output        block file in, the bench program's output out
  report              block files one after another in, the report out
  tables [band]       block file (sizes to 64) in, all answers out: number, T,
                      M, place; the state bytes; the rows, one a line; band 0
                      if none is given
  case                the given case of document 01 out, as a block file
  random <seed> <n>   a random valid block with sizes 1 to n out, as a block file
";

fn main() -> ExitCode {
    let arguments: Vec<String> = std::env::args().skip(1).collect();
    let arguments: Vec<&str> = arguments.iter().map(String::as_str).collect();
    let output = match arguments[..] {
        ["bench-output"] => Some(bench_output(&input()).into_bytes()),
        ["report"] => Some(report(&input())),
        ["tables"] => tables_text("0"),
        ["tables", band] => tables_text(band),
        ["case"] => write(&Block::given_case()),
        ["random", seed, largest] => random_file(seed, largest),
        _ => None,
    };
    let Some(output) = output else {
        eprint!("{USAGE}");
        return ExitCode::from(2);
    };
    match std::io::stdout().write_all(&output) {
        Ok(()) => ExitCode::SUCCESS,
        Err(_) => ExitCode::FAILURE,
    }
}

fn input() -> Vec<u8> {
    let mut bytes = Vec::new();
    std::io::stdin()
        .read_to_end(&mut bytes)
        .expect("standard input can be read");
    bytes
}

fn random_file(seed: &str, largest: &str) -> Option<Vec<u8>> {
    let seed = seed.parse().ok()?;
    let largest = largest.parse().ok()?;
    (1..=LARGEST_SIZE).contains(&largest).then_some(())?;
    write(&any_block(&mut Random::new(seed), largest))
}

fn tables_text(band: &str) -> Option<Vec<u8>> {
    let band = band.parse().ok()?;
    Some(tables(&input(), band).into_bytes())
}

/// The whole answer of filling, or the refusal's number if the file cannot be
/// read.
fn tables(file: &[u8], band: u32) -> String {
    let block = match read(file, LARGEST_SIZE) {
        Ok(block) => block,
        Err(number) => return format!("{number} 0 0 0\n"),
    };
    let tables = fill_block(&block, band);
    let filled = tables.filled;
    let mut text = format!(
        "{} {} {} {}\n",
        filled.number, filled.rows, filled.moved, filled.place
    );
    if filled.number == 0 {
        text += &line_of(&tables.state);
        for row in tables.rows.chunks(4) {
            text += &line_of(row);
        }
    }
    text
}

fn line_of<T: ToString>(numbers: &[T]) -> String {
    let numbers: Vec<String> = numbers.iter().map(T::to_string).collect();
    numbers.join(" ") + "\n"
}
