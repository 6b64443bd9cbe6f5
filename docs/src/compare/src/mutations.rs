//! Valid block files with some bytes changed: anywhere, and where the format is most easily hurt.
use reference::block::Block;
use reference::blockfile::write;
use reference::generate::any_block;
use reference::random::Random;

/// Where the parts of a valid file start.
#[derive(Clone, Copy)]
struct Parts {
    /// The count of runs, right behind the samples.
    count: usize,
    /// The runs.
    runs: usize,
    /// How many runs there are.
    run_count: usize,
    /// The runs' bytes.
    bytes: usize,
}

impl Parts {
    fn of(file: &[u8], block: &Block) -> Parts {
        let count = 3 + 2 * block.samples.len();
        let run_count = usize::from(u16::from_le_bytes([file[count], file[count + 1]]));
        let runs = count + 2;
        Parts { count, runs, run_count, bytes: runs + 6 * run_count }
    }
}

/// One way to change a file.
#[derive(Clone, Copy, Debug, PartialEq, Eq)]
pub enum Mutation {
    /// A byte anywhere becomes another.
    Change,
    /// A bit anywhere is turned.
    Bit,
    /// A byte is put in anywhere.
    Insert,
    /// A byte anywhere is taken out.
    Remove,
    /// The file ends early.
    Truncate,
    /// Bytes follow the file.
    Append,
    /// A size is another.
    Size,
    /// A sample is another.
    Sample,
    /// The count of runs is another.
    Count,
    /// A run's offset or length is another.
    Run,
    /// Two runs change places.
    Swap,
    /// A run's byte is another, often zero.
    Cut,
}

/// All mutations.
pub const MUTATIONS: [Mutation; 12] = [
    Mutation::Change,
    Mutation::Bit,
    Mutation::Insert,
    Mutation::Remove,
    Mutation::Truncate,
    Mutation::Append,
    Mutation::Size,
    Mutation::Sample,
    Mutation::Count,
    Mutation::Run,
    Mutation::Swap,
    Mutation::Cut,
];

/// A valid file of sizes 1 to 5 with one mutation of this kind, now and then with more of any kind.
pub fn mutated(random: &mut Random, mutation: Mutation) -> Vec<u8> {
    let block = any_block(random, 5);
    let valid = write(&block).expect("a small block fits a file");
    let parts = Parts::of(&valid, &block);
    loop {
        let mut file = valid.clone();
        mutate(random, &mut file, parts, mutation);
        while random.percent(20) {
            let further = random.pick(&MUTATIONS);
            mutate(random, &mut file, parts, further);
        }
        // some change nothing, as a byte may become what it was
        if file != valid {
            return file;
        }
    }
}

/// Does a mutation to a file that was valid once; where it no longer fits, a byte anywhere is changed instead.
fn mutate(random: &mut Random, file: &mut Vec<u8>, parts: Parts, mutation: Mutation) {
    let Parts { count, runs, run_count, bytes } = parts;
    match mutation {
        Mutation::Insert => {
            let at = random.below(file.len() + 1);
            file.insert(at, random.bits() as u8);
        }
        Mutation::Remove if !file.is_empty() => {
            file.remove(random.below(file.len()));
        }
        Mutation::Truncate => file.truncate(random.below(file.len() + 1)),
        Mutation::Append => {
            let more = random.pick(&[1, 1, 2, 6, 300, 20_000]);
            file.extend((0..more).map(|_| random.bits() as u8));
        }
        Mutation::Bit if !file.is_empty() => {
            let at = random.below(file.len());
            file[at] ^= 1 << random.below(8);
        }
        Mutation::Size if file.len() >= 3 => file[random.below(3)] = random.pick(&[0, 1, 2, 5, 6, 7, 64, 65, 255]),
        Mutation::Sample if file.len() >= count => change(random, &mut file[3..count]),
        Mutation::Count if file.len() >= runs => nudge(random, &mut file[count..runs]),
        Mutation::Run if file.len() >= bytes && run_count > 0 => {
            let at = runs + 6 * random.below(run_count);
            let (from, to) = random.pick(&[(at, at + 4), (at + 4, at + 6)]);
            nudge(random, &mut file[from..to]);
        }
        Mutation::Swap if file.len() >= bytes && run_count > 1 => {
            let [a, b] = [0; 2].map(|_| runs + 6 * random.below(run_count));
            (0..6).for_each(|k| file.swap(a + k, b + k));
        }
        Mutation::Cut if file.len() > bytes => change(random, &mut file[bytes..]),
        _ => change(random, file),
    }
}

/// One of some bytes becomes another, often a telling one.
fn change(random: &mut Random, bytes: &mut [u8]) {
    if bytes.is_empty() {
        return;
    }
    let at = random.below(bytes.len());
    bytes[at] = match random.below(3) {
        0 => random.pick(&[0, 1, 63, 64, 105, 128, 255]),
        _ => random.bits() as u8,
    };
}

/// A number of some bytes, the low one first, becomes one more or less, zero, the largest or any.
fn nudge(random: &mut Random, bytes: &mut [u8]) {
    let old = bytes.iter().rev().fold(0u64, |number, &byte| number << 8 | u64::from(byte));
    let new = match random.below(6) {
        0 => old.wrapping_add(1),
        1 => old.wrapping_sub(1),
        2 => 0,
        3 => u64::MAX,
        4 => old.wrapping_add(random.below(40) as u64),
        _ => random.bits(),
    };
    let length = bytes.len();
    bytes.copy_from_slice(&new.to_le_bytes()[..length]);
}
