//! The data file crates/cases/stdin: recorded calls, one after the other. A
//! record is a head of twelve numbers, four bytes each, low byte first, and a
//! body; crates/replay/specs/program says what they mean.

use crate::{run, BAND};
use reference::block::Block;
use reference::blockfile::{read, write, BENCH_SIZE};
use reference::damage::{Call, Damage, DAMAGES};
use reference::generate::{block, CUTTINGS, MIXES};
use reference::place::{place, Placed};
use reference::random::Random;

/// The kinds of records.
const FILLING: u32 = 1;
const PLACES: u32 = 2;
const FILE: u32 = 3;

/// How many blocks are drawn besides the damaged ones, and every how many of
/// them is one of 5 by 5 by 5.
const BLOCKS: usize = 300;
const LARGEST_EVERY: usize = 40;

/// The sizes of the others are drawn from these: small blocks are all rim.
const SIZES: [u32; 8] = [1, 2, 2, 3, 3, 3, 4, 5];

/// The most ids that one record asks for.
const QUESTIONS: usize = 30;

/// How many block files are drawn, most of them damaged.
const FILES: usize = 100;

/// The whole file. The first two records are the given case of document 01
/// with row tables of 95 and of 96 numbers.
pub fn file() -> Vec<u8> {
    let mut random = Random::new(20_261_115);
    let given = |row_length| Call {
        row_length,
        ..Call::good(Block::given_case(), BAND, 0)
    };
    let mut calls = vec![given(95), given(96)];
    calls.extend((0..BLOCKS).map(|n| drawn(&mut random, n)));
    let damaged = damaged(&mut random);
    let mut bytes = Vec::new();
    for call in calls.iter().chain(&damaged) {
        bytes.extend(filling(call, random.bits() as u32));
    }
    let small = |call: &&Call| call.block.samples.len() < 150;
    let asked = calls.iter().filter(small).step_by(20);
    for call in asked.chain(damaged.iter().step_by(6)) {
        bytes.extend(places(&mut random, call));
    }
    for n in 0..FILES {
        bytes.extend(block_file(&mut random, n));
    }
    bytes
}

/// A head and its body.
fn record(kind: u32, numbers: [u32; 10], body: &[u8]) -> Vec<u8> {
    let mut bytes = Vec::new();
    for number in [kind, body.len() as u32].into_iter().chain(numbers) {
        bytes.extend(number.to_le_bytes());
    }
    bytes.extend(body);
    bytes
}

/// All mixes of labels with all ways to draw cut bytes; the row table exact,
/// too short by one, or longer.
fn drawn(random: &mut Random, n: usize) -> Call {
    let sizes = if n % LARGEST_EVERY == 0 {
        [5; 3]
    } else {
        [0; 3].map(|_| random.pick(&SIZES))
    };
    let mix = MIXES[n % MIXES.len()];
    let cutting = CUTTINGS[n / MIXES.len() % CUTTINGS.len()];
    let mut call = Call::good(block(random, sizes, mix, cutting), BAND, 0);
    match random.below(4) {
        0 if call.row_length > 0 => call.row_length -= 1,
        1 => call.row_length += random.below(9),
        _ => {}
    }
    call
}

/// Each damage alone on several blocks, then each two of them. The band stays
/// whole.
fn damaged(random: &mut Random) -> Vec<Call> {
    let mut damages = DAMAGES.to_vec();
    damages.retain(|&damage| damage != Damage::Band);
    let alone = damages.iter().flat_map(|&damage| vec![vec![damage]; 6]);
    let mut lists: Vec<Vec<Damage>> = alone.collect();
    for (n, &one) in damages.iter().enumerate() {
        lists.extend(damages[n + 1..].iter().map(|&other| vec![one, other]));
    }
    lists.iter().map(|list| spoilt(random, list)).collect()
}

/// A call with these damages, of sizes that a byte holds.
fn spoilt(random: &mut Random, damages: &[Damage]) -> Call {
    loop {
        let sizes = [0; 3].map(|_| random.between(2, 4) as u32);
        let (mix, cutting) = (random.pick(&MIXES), random.pick(&CUTTINGS));
        let mut call = Call::good(block(random, sizes, mix, cutting), BAND, 0);
        let lattice = call.block.lattice().expect("allowed sizes");
        let mut done = damages
            .iter()
            .map(|&damage| call.damage(random, &lattice, damage));
        if done.all(|done| done) && call.block.sizes.iter().all(|&size| size < 256) {
            return call;
        }
    }
}

fn size_bytes(call: &Call) -> Vec<u8> {
    let byte = |&size: &u32| u8::try_from(size).expect("a size in a byte");
    call.block.sizes.iter().map(byte).collect()
}

/// A call of filling into tables full of the same number.
fn filling(call: &Call, lent: u32) -> Vec<u8> {
    let outcome = run(call, lent as u8, lent);
    let answer = outcome.filled;
    let count = if answer.number == 0 {
        4 * answer.rows as usize
    } else {
        0
    };
    let (ids, rest) = outcome.rows.split_at(count);
    assert!(rest.iter().all(|&id| id == lent));
    let mut body = size_bytes(call);
    body.extend(call.block.samples.iter().flat_map(|s| s.to_le_bytes()));
    body.extend(&call.block.cuts);
    body.extend(&outcome.state);
    let two = |&id: &u32| u16::try_from(id).expect("an id in two bytes");
    body.extend(ids.iter().flat_map(|id| two(id).to_le_bytes()));
    let numbers = [
        call.block.samples.len() as u32,
        call.block.cuts.len() as u32,
        call.state_length as u32,
        call.row_length as u32,
        count as u32,
        lent,
        answer.number,
        answer.rows as u32,
        answer.moved as u32,
        answer.place as u32,
    ];
    record(FILLING, numbers, &body)
}

/// The place call after this filling, then with state bytes changed at random.
fn places(random: &mut Random, call: &Call) -> Vec<u8> {
    let state = run(call, 0, 0).state;
    let mut strange = state.clone();
    for code in &mut strange {
        if random.percent(60) {
            *code = random.below(17) as u8;
        }
    }
    [state, strange]
        .iter()
        .flat_map(|state| asked(random, call, state))
        .collect()
}

/// One record for each number that is answered.
fn asked(random: &mut Random, call: &Call, state: &[u8]) -> Vec<u8> {
    let [nx, ny, nz] = call.block.sizes;
    let cuts = &call.block.cuts;
    let last = 8 * state.len() as u32;
    let mut ids: Vec<u32> = (0..last).collect();
    ids.extend([last, last + 1, u32::MAX]);
    let answer = |&id: &u32| (id, place(nx, ny, nz, cuts, state, id));
    let answers: Vec<(u32, Placed)> = ids.iter().map(answer).collect();
    let mut bytes = Vec::new();
    for number in 0..=12 {
        let mut group: Vec<_> = answers.iter().filter(|(_, p)| p.number == number).collect();
        while group.len() > QUESTIONS {
            group.swap_remove(random.below(group.len()));
        }
        if !group.is_empty() {
            bytes.extend(questions(call, state, number, &group));
        }
    }
    bytes
}

fn questions(call: &Call, state: &[u8], number: u32, group: &[&(u32, Placed)]) -> Vec<u8> {
    let mut body = size_bytes(call);
    body.extend(&call.block.cuts);
    body.extend(state);
    for (id, placed) in group {
        body.extend(id.to_le_bytes());
        for coordinate in [placed.x, placed.y, placed.z] {
            let two = u16::try_from(coordinate).expect("a coordinate in two bytes");
            body.extend(two.to_le_bytes());
        }
    }
    let mut numbers = [0; 10];
    numbers[0] = call.block.cuts.len() as u32;
    numbers[1] = state.len() as u32;
    numbers[2] = group.len() as u32;
    numbers[6] = number;
    record(PLACES, numbers, &body)
}

/// A block file, damaged in some way, and what reading it answers and writes.
/// The reader takes the first bytes that are a whole file, and says where it
/// ends; the sample table holds zeros beforehand.
fn block_file(random: &mut Random, n: usize) -> Vec<u8> {
    let sizes = [0; 3].map(|_| random.between(1, 3) as u32);
    let (mix, cutting) = (random.pick(&MIXES), random.pick(&CUTTINGS));
    let block = block(random, sizes, mix, cutting);
    let mut file = write(&block).expect("a block that a file can hold");
    spoil_file(random, n, &mut file);
    let lent = random.bits() as u8;
    let mut samples = vec![0; block.samples.len() + random.below(3)];
    let mut cuts = vec![lent; block.cuts.len() + random.below(3)];
    let whole = (0..=file.len()).find_map(|end| Some((end, read(&file[..end], BENCH_SIZE).ok()?)));
    let mut numbers = [0; 10];
    numbers[..4].copy_from_slice(&[file.len(), samples.len(), cuts.len(), 5].map(|n| n as u32));
    numbers[5] = lent.into();
    match whole {
        Some((end, block)) => {
            samples[..block.samples.len()].copy_from_slice(&block.samples);
            cuts[..block.cuts.len()].copy_from_slice(&block.cuts);
            let [x, y, z] = block.sizes;
            numbers[7..].copy_from_slice(&[end as u32, x + (y << 16), z]);
        }
        None => numbers[6] = read(&file, BENCH_SIZE).expect_err("a file that is no block"),
    }
    let mut body = file;
    body.extend(samples.iter().flat_map(|sample: &i16| sample.to_le_bytes()));
    body.extend(cuts);
    record(FILE, numbers, &body)
}

/// Leaves the file as it is, makes it longer or shorter, or changes a size or
/// another byte after the samples.
fn spoil_file(random: &mut Random, n: usize, file: &mut Vec<u8>) {
    let samples = file[..3].iter().map(|&size| usize::from(size));
    let corners: usize = samples.clone().map(|size| size + 1).product();
    let runs = 3 + 2 * (corners + samples.product::<usize>());
    match n % 6 {
        0 => {}
        1 => file.extend([random.bits() as u8, 0]),
        2 => file.truncate(random.below(file.len())),
        3 => file.truncate(random.below(5)),
        4 => file[random.below(3)] = random.pick(&[0, 6, 64, 65, 255]),
        _ => {
            let at = random.between(runs as i64, file.len() as i64 - 1) as usize;
            file[at] = random.pick(&[0, 1, 2, 255]);
        }
    }
}
