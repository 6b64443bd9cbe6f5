//! Request F-6: the node table. The fast version against the plain one on every
//! call here, and both against the request's sentences: what is in the tables
//! afterwards, which refusal comes first, and which entry it names. Which ids
//! have a place, and where, is worked out once more in this file's own words from
//! the coordinates of document 01, and from request F-8: a point with state byte
//! 15 is at its own place, and the cuts beside it have none.

use reference::block::Block;
use reference::blockfile::fill_block;
use reference::damage::{nodes_call, NodesCall, NodesOutcome};
use reference::generate::{any_band, any_block, block, crowded_block, for_band};
use reference::generate::{Cutting, CUTTINGS, MIXES};
use reference::nodes::{nodes, Numbered};
use reference::place::place;
use reference::plain;
use reference::random::Random;
use reference::refusal;
use reference::shapes;
use std::collections::HashMap;

/// Why an id has no place.
#[derive(Clone, Copy, Debug, PartialEq, Eq)]
enum Reason {
    /// 8N or more.
    TooLarge,
    /// The cut of an edge that does not exist, though its byte is not 0.
    NoEdge,
    /// The cut of an edge whose byte is 0.
    NoByte,
    /// The start's state byte is not 0, and not 15.
    StartMoved,
    /// The start's state byte is 0, the other end's is not, and not 15.
    EndMoved,
    /// The start's state byte is 15.
    StartOnSkin,
    /// The start's state byte is 0, the other end's is 15.
    EndOnSkin,
    /// A state byte above 15.
    NoCode,
    /// A code whose edge does not exist.
    NoEdgeOfCode,
    /// A code whose edge has byte 0.
    NoByteOfCode,
    /// A code whose cut does not violate the point.
    NoViolation,
}

impl Reason {
    /// The refusals of 8 come first.
    fn number(self) -> u32 {
        if (self as usize) < Reason::NoCode as usize {
            8
        } else {
            9
        }
    }
}

const DIRECTIONS: [[i64; 3]; 7] = [
    [2, 0, 0],
    [0, 2, 0],
    [0, 0, 2],
    [1, 1, 1],
    [-1, 1, 1],
    [1, -1, 1],
    [-1, -1, 1],
];

/// So many times a direction on from somewhere.
fn on(from: [i64; 3], times: i64, direction: usize) -> [i64; 3] {
    [0, 1, 2].map(|a| from[a] + times * DIRECTIONS[direction][a])
}

/// The points of a block: the doubled coordinates of each, and its number.
struct Points {
    list: Vec<[i64; 3]>,
    numbers: HashMap<[i64; 3], usize>,
}

impl Points {
    fn of(sizes: [u32; 3]) -> Points {
        let [x, y, z] = sizes.map(|size| 2 * i64::from(size));
        let mut list = Vec::new();
        for first in [0, 1] {
            for z in (first..=z - first).step_by(2) {
                for y in (first..=y - first).step_by(2) {
                    list.extend((first..=x - first).step_by(2).map(|x| [x, y, z]));
                }
            }
        }
        let numbers = list.iter().enumerate().map(|(n, &at)| (at, n)).collect();
        Points { list, numbers }
    }

    /// The place of an id, in this file's own words.
    fn place(&self, cuts: &[u8], state: &[u8], id: u32) -> Result<[i64; 3], Reason> {
        let (id, n) = (id as usize, self.list.len());
        if id >= 8 * n {
            Err(Reason::TooLarge)
        } else if id < n {
            self.place_of_point(cuts, id, state[id])
        } else {
            self.place_of_cut(cuts, state, (id - n) / 7, (id - n) % 7)
        }
    }

    fn place_of_point(&self, cuts: &[u8], point: usize, code: u8) -> Result<[i64; 3], Reason> {
        let at = self.list[point];
        let (direction, is_start) = match usize::from(code) {
            0 | 15 => return Ok(at.map(|c| 256 * c)),
            code @ 1..=7 => (code - 1, true),
            code @ 8..=14 => (code - 8, false),
            _ => return Err(Reason::NoCode),
        };
        let other = self
            .numbers
            .get(&on(at, if is_start { 1 } else { -1 }, direction));
        let &other = other.ok_or(Reason::NoEdgeOfCode)?;
        let start = if is_start { point } else { other };
        let t = i64::from(cuts[7 * start + direction]);
        if t == 0 {
            return Err(Reason::NoByteOfCode);
        }
        let from_point = if is_start { t } else { 256 - t };
        if from_point > if direction < 3 { 63 } else { 105 } {
            return Err(Reason::NoViolation);
        }
        Ok(on(self.list[start].map(|c| 256 * c), t, direction))
    }

    fn place_of_cut(
        &self,
        cuts: &[u8],
        state: &[u8],
        start: usize,
        direction: usize,
    ) -> Result<[i64; 3], Reason> {
        let t = i64::from(cuts[7 * start + direction]);
        if t == 0 {
            return Err(Reason::NoByte);
        }
        let end = self.numbers.get(&on(self.list[start], 1, direction));
        let &end = end.ok_or(Reason::NoEdge)?;
        match [state[start], state[end]] {
            [0, 0] => Ok(on(self.list[start].map(|c| 256 * c), t, direction)),
            [0, 15] => Err(Reason::EndOnSkin),
            [0, _] => Err(Reason::EndMoved),
            [15, _] => Err(Reason::StartOnSkin),
            _ => Err(Reason::StartMoved),
        }
    }
}

fn answer(number: u32, nodes: usize, place: usize) -> Numbered {
    let (nodes, place) = (nodes as u64, place as u64);
    Numbered {
        number,
        nodes,
        place,
    }
}

/// The first of refusals 1, 3, 4 and 15 in this file's own words.
fn wrong_length(call: &NodesCall) -> Option<u32> {
    let [nx, ny, nz] = call.sizes.map(u128::from);
    let n = (nx + 1) * (ny + 1) * (nz + 1) + nx * ny * nz;
    let wrong = [
        (1, call.sizes.iter().any(|&size| size == 0 || size > 64)),
        (3, call.cuts.len() as u128 != 7 * n),
        (4, call.state.len() as u128 != n),
        (15, !call.rows.len().is_multiple_of(4)),
    ];
    wrong.iter().find(|(_, is)| *is).map(|(number, _)| *number)
}

/// What was seen on some calls.
#[derive(Debug, Default)]
struct Seen {
    /// How often each answer.
    numbers: [usize; 16],
    /// How often each reason, in the order of [`Reason`].
    reasons: [usize; 11],
    /// How often 8 and 9 named the first entry, the last one, and another.
    first: [usize; 2],
    last: [usize; 2],
    between: [usize; 2],
    /// Points among the nodes written, by their state bytes, and cuts, by their
    /// directions.
    codes: [usize; 16],
    directions: [usize; 7],
    /// Node tables that were exact and too long, with a node in them, and those
    /// too short by one number, by one node, and empty.
    exact: usize,
    longer: usize,
    number_less: usize,
    node_less: usize,
    empty: usize,
    /// Calls with an empty row table that were carried out.
    without_rows: usize,
}

impl Seen {
    /// Makes the call with both versions, which must agree in the answer and in
    /// both tables, and holds the outcome against the request's sentences.
    fn check(&mut self, call: &NodesCall) -> NodesOutcome {
        let fast = call.run(nodes);
        let slow = call.run(plain::nodes);
        assert_eq!(fast.numbered, slow.numbered);
        assert!(fast.rows == slow.rows, "rows differ");
        assert!(fast.nodes == slow.nodes, "nodes differ");
        self.numbers[fast.numbered.number as usize] += 1;
        if fast.numbered.number != 0 {
            assert!(fast.rows == call.rows, "a refusal changed the rows");
            assert!(fast.nodes == call.nodes, "a refusal changed the nodes");
        }
        match wrong_length(call) {
            Some(number) => assert_eq!(fast.numbered, answer(number, 0, 0)),
            None => self.check_ids(call, &fast),
        }
        fast
    }

    /// The same if no length is wrong.
    fn check_ids(&mut self, call: &NodesCall, outcome: &NodesOutcome) {
        let points = Points::of(call.sizes);
        let place = |id: u32| points.place(&call.cuts, &call.state, id);
        let without = |(index, &id): (usize, &u32)| Some((index, place(id).err()?));
        let first_without = call.rows.iter().enumerate().find_map(without);
        let ids = call.ids_in_use();
        if let Some((index, reason)) = first_without {
            assert_eq!(outcome.numbered, answer(reason.number(), 0, index));
            self.count_reason(reason, index, call.rows.len());
        } else if call.nodes.len() < 4 * ids.len() {
            assert_eq!(outcome.numbered, answer(10, ids.len(), 0));
            self.number_less += usize::from(call.nodes.len() + 1 == 4 * ids.len());
            self.node_less += usize::from(call.nodes.len() + 4 == 4 * ids.len());
            self.empty += usize::from(call.nodes.is_empty());
        } else {
            assert_eq!(outcome.numbered, answer(0, ids.len(), 0));
            self.check_tables(call, outcome, &ids);
            for &id in &ids {
                let node = ids.binary_search(&id).unwrap();
                let [x, y, z] = place(id).unwrap().map(|c| c as u32);
                assert_eq!(outcome.nodes[4 * node..4 * node + 4], [id, x, y, z]);
                self.count_node(call, id as usize);
            }
        }
    }

    /// The tables of a call that was carried out, by the request's sentences.
    fn check_tables(&mut self, call: &NodesCall, outcome: &NodesOutcome, ids: &[u32]) {
        let (table, behind) = outcome.nodes.split_at(4 * ids.len());
        // "Writes each id in use once, ascending."
        let listed: Vec<u32> = table.chunks(4).map(|node| node[0]).collect();
        assert!(listed.windows(2).all(|pair| pair[0] < pair[1]));
        assert!(listed == ids, "not the ids in use");
        // "With its three coordinates": those of the place call.
        let [nx, ny, nz] = call.sizes;
        for node in table.chunks(4) {
            let placed = place(nx, ny, nz, &call.cuts, &call.state, node[0]);
            assert_eq!(
                [placed.number, placed.x, placed.y, placed.z][1..],
                node[1..]
            );
            assert_eq!(placed.number, 0);
        }
        // "Putting each node's id back yields the old rows."
        let put_back = |&number: &u32| listed[number as usize];
        assert!(outcome
            .rows
            .iter()
            .map(put_back)
            .eq(call.rows.iter().copied()));
        // "Entries past the last node stay."
        assert!(behind == &call.nodes[4 * ids.len()..], "an entry changed");
        self.exact += usize::from(behind.is_empty() && !ids.is_empty());
        self.longer += usize::from(!behind.is_empty() && !ids.is_empty());
        self.without_rows += usize::from(call.rows.is_empty());
    }

    fn count_reason(&mut self, reason: Reason, index: usize, length: usize) {
        self.reasons[reason as usize] += 1;
        let positions = match index {
            0 => &mut self.first,
            _ if index == length - 1 => &mut self.last,
            _ => &mut self.between,
        };
        positions[reason.number() as usize - 8] += 1;
    }

    fn count_node(&mut self, call: &NodesCall, id: usize) {
        match id.checked_sub(call.state.len()) {
            None => self.codes[usize::from(call.state[id])] += 1,
            Some(offset) => self.directions[offset % 7] += 1,
        }
    }
}

/// One call on its own.
fn run_both(call: &NodesCall) -> NodesOutcome {
    Seen::default().check(call)
}

/// As many calls as the comparison with another implementation is made of. With
/// `--nocapture` the counts are seen.
#[test]
fn on_random_calls() {
    let mut random = Random::new(81);
    let mut seen = Seen::default();
    for _ in 0..6_000 {
        seen.check(&nodes_call(&mut random));
    }
    println!("{seen:?}");
    let of_lengths = [(1, 300), (3, 200), (4, 150), (15, 150)];
    let of_ids = [(0, 1500), (8, 1000), (9, 500), (10, 500)];
    for (number, least) in [of_lengths, of_ids].concat() {
        assert!(seen.numbers[number] > least, "{seen:?}");
    }
    assert!(seen.reasons.iter().all(|&count| count > 30), "{seen:?}");
    for positions in [seen.first, seen.last, seen.between] {
        assert!(positions.iter().all(|&count| count > 30), "{seen:?}");
    }
    assert!(seen.codes.iter().all(|&count| count > 150), "{seen:?}");
    assert!(
        seen.directions.iter().all(|&count| count > 2_000),
        "{seen:?}"
    );
    assert!(seen.exact > 500 && seen.longer > 500, "{seen:?}");
    assert!(seen.number_less > 100 && seen.node_less > 100, "{seen:?}");
    assert!(seen.empty > 100 && seen.without_rows > 400, "{seen:?}");
}

/// The call of a filled block, which is made valid with the band, with node
/// tables that are exact, too long, too short by one number and by one node, and
/// empty.
fn check_filled(seen: &mut Seen, random: &mut Random, block: Block, band: u32) {
    let mut call = NodesCall::of_block(random, for_band(block, band), band, 40);
    let exact = call.nodes.len() - 40;
    let [number_less, node_less] = [1, 4].map(|less| exact.saturating_sub(less));
    for length in [
        exact + 40,
        exact + 4,
        exact + 1,
        exact,
        number_less,
        node_less,
        0,
    ] {
        call.nodes.truncate(length);
        let numbered = seen.check(&call).numbered;
        let number = if length < exact { 10 } else { 0 };
        assert_eq!(numbered, answer(number, exact / 4, 0));
    }
}

#[test]
fn on_filled_blocks() {
    let mut random = Random::new(82);
    let mut seen = Seen::default();
    for n in 0..600 {
        let block = match n % 2 {
            0 => any_block(&mut random, 6),
            _ => crowded_block(&mut random, 6),
        };
        let band = any_band(&mut random, &block);
        let band = random.pick(&[0, band]);
        check_filled(&mut seen, &mut random, block, band);
    }
    println!("{seen:?}");
    assert!(seen.exact > 250 && seen.number_less > 250, "{seen:?}");
    assert!(seen.codes.iter().all(|&count| count > 200), "{seen:?}");
    assert!(
        seen.directions.iter().all(|&count| count > 2_000),
        "{seen:?}"
    );
}

#[test]
fn on_larger_filled_blocks() {
    let mut random = Random::new(83);
    let mut seen = Seen::default();
    for sizes in [[12, 11, 13], [64, 4, 3], [3, 64, 4], [4, 3, 64], [33, 7, 5]] {
        let mix = random.pick(&MIXES);
        let cutting = random.pick(&[&CUTTINGS[..], &[Cutting::Close]].concat());
        let block = block(&mut random, sizes, mix, cutting);
        check_filled(&mut seen, &mut random, block, 0);
    }
    check_filled(&mut seen, &mut random, shapes::mount(), 0);
    println!("{seen:?}");
    assert!(seen.exact > 4, "{seen:?}");
}

/// The block for timing, with its own rows, with the first and the last entry
/// made bad ones, and with ids in any order.
#[test]
fn on_the_sphere() {
    let mut call = NodesCall::of_sphere();
    let good = run_both(&call);
    assert_eq!(good.numbered, answer(0, 214_423, 0));
    assert_eq!(call.rows.len(), 4 * 1_218_864);
    let last = call.rows.len() - 1;
    let (kept, beyond) = (call.rows[last], 8 * 536_769);
    call.rows[last] = beyond;
    assert_eq!(run_both(&call).numbered, answer(8, 0, last));
    call.rows[last] = beyond - 1;
    assert_eq!(run_both(&call).numbered, answer(8, 0, last));
    call.rows[last] = kept;
    let mut random = Random::new(84);
    for n in (1..call.rows.len()).rev() {
        call.rows.swap(n, random.below(n + 1));
    }
    let shuffled = run_both(&call);
    assert!(shuffled.nodes == good.nodes);
}

/// Every number that can be an id, and some that cannot, alone in a row table:
/// what the place call says of it.
#[test]
fn every_id_alone() {
    let mut random = Random::new(85);
    let mut seen = Seen::default();
    let mut calls = 0;
    while calls < 60_000 {
        let mut call = nodes_call(&mut random);
        if wrong_length(&call).is_some() {
            continue;
        }
        call.nodes = vec![77; 5];
        let beyond = 8 * call.state.len() as u32;
        let powers = (0..32).map(|n| 1 << n).filter(|&power| power >= beyond);
        let near_the_end = [beyond, beyond + 1, beyond + 7, u32::MAX - 1, u32::MAX];
        for id in (0..beyond).chain(powers).chain(near_the_end) {
            call.rows = vec![id; 4];
            let outcome = seen.check(&call);
            let [nx, ny, nz] = call.sizes;
            let placed = place(nx, ny, nz, &call.cuts, &call.state, id);
            assert_eq!(outcome.numbered.number, placed.number);
            if placed.number == 0 {
                assert_eq!(outcome.nodes, [id, placed.x, placed.y, placed.z, 77]);
                assert_eq!(outcome.rows, [0; 4]);
            }
            calls += 1;
        }
    }
    println!("{seen:?}");
    assert!(seen.reasons.iter().all(|&count| count > 10), "{seen:?}");
    assert!(seen.codes.iter().all(|&count| count > 5), "{seen:?}");
}

/// The given case, filled: point 13 in the middle and the cuts of its 14 edges,
/// all halfway. N is 35, so an edge's cut has id 35+7p+d.
const GIVEN_NODES: [[u32; 4]; 15] = [
    // Point 13 is 1+3(1+3): X, Y, Z are 2, 2, 2.
    [13, 512, 512, 512],
    // 65 is 35+7*4+2, and point 4 is 1+3*1: at 2, 2, 0. On by 128 times 0, 0, 2.
    [65, 512, 512, 256],
    // 106 is 35+7*10+1, and point 10 is 1+9*1: at 2, 0, 2.
    [106, 512, 256, 512],
    // 119 is 35+7*12, and point 12 is 3*1+9*1: at 0, 2, 2.
    [119, 256, 512, 512],
    // 126 is 35+7*13: the seven edges that start in the middle.
    [126, 768, 512, 512],
    [127, 512, 768, 512],
    [128, 512, 512, 768],
    [129, 640, 640, 640],
    [130, 384, 640, 640],
    [131, 640, 384, 640],
    [132, 384, 384, 640],
    // 227 is 35+7*27+3: the first centre, at 1, 1, 1, on by 128 times 1, 1, 1.
    [227, 384, 384, 384],
    // 235 is 35+7*28+4: the centre at 3, 1, 1, on by 128 times -1, 1, 1.
    [235, 640, 384, 384],
    // 243 is 35+7*29+5: the centre at 1, 3, 1, on by 128 times 1, -1, 1.
    [243, 384, 640, 384],
    // 251 is 35+7*30+6: the centre at 3, 3, 1, on by 128 times -1, -1, 1.
    [251, 640, 640, 384],
];

/// The given case, filled, with these rows and a node table of this length.
fn given_case(rows: &[u32], length: usize) -> NodesCall {
    let block = Block::given_case();
    NodesCall {
        sizes: block.sizes,
        state: vec![0; 35],
        cuts: block.cuts,
        rows: rows.to_vec(),
        nodes: vec![99; length],
    }
}

#[test]
fn the_given_case() {
    let block = Block::given_case();
    let filled = fill_block(&block, 0);
    assert_eq!(filled.state, vec![0; 35]);
    let call = given_case(&filled.rows, 61);
    let outcome = run_both(&call);
    assert_eq!(outcome.numbered, answer(0, 15, 0));
    assert_eq!(outcome.nodes[..60], *GIVEN_NODES.as_flattened());
    assert_eq!(outcome.nodes[60], 99);
    // P1: the first row is 13, 65, 235, 227, and these are nodes 0, 1, 12, 11.
    assert_eq!(call.rows[..4], [13, 65, 235, 227]);
    assert_eq!(outcome.rows[..4], [0, 1, 12, 11]);
    for length in 0..60 {
        let short = run_both(&given_case(&filled.rows, length));
        assert_eq!(short.numbered, answer(10, 15, 0));
    }
    // The first row alone has four nodes, now 0 to 3.
    let first = run_both(&given_case(&[13, 65, 235, 227], 16));
    assert_eq!(first.numbered, answer(0, 4, 0));
    assert_eq!(first.rows, [0, 1, 3, 2]);
    let nodes = [0, 1, 11, 12].map(|n| GIVEN_NODES[n]);
    assert_eq!(first.nodes, nodes.as_flattened());
    // One id in all entries has one node.
    let one = run_both(&given_case(&[251; 8], 4));
    assert_eq!(
        (one.rows, one.nodes),
        (vec![0; 8], GIVEN_NODES[14].to_vec())
    );
}

/// P2, P4, P6 and P8: the place of a moved point is its cut's.
#[test]
fn moved_points_by_hand() {
    for (offset, byte, point, code, place) in [
        (91, 63, 13, 1, [638, 512, 512]),
        (91, 193, 14, 8, [898, 512, 512]),
        (94, 105, 13, 4, [617, 617, 617]),
        (94, 151, 34, 11, [663, 663, 663]),
    ] {
        let mut call = given_case(&[0, point, point, 26], 12);
        call.cuts[offset] = byte;
        call.state[point as usize] = code;
        let outcome = run_both(&call);
        assert_eq!(outcome.numbered, answer(0, 3, 0));
        let [x, y, z] = place;
        // Point 26 is the last corner, at 4, 4, 4; point 34, the last centre, is
        // numbered after it.
        let nodes = match point {
            34 => [[0, 0, 0, 0], [26, 1024, 1024, 1024], [34, x, y, z]],
            _ => [[0, 0, 0, 0], [point, x, y, z], [26, 1024, 1024, 1024]],
        };
        assert_eq!(outcome.nodes, nodes.as_flattened());
        let (moved, corner) = if point == 34 { (2, 1) } else { (1, 2) };
        assert_eq!(outcome.rows, [0, moved, moved, corner]);
    }
}

/// "An empty one answers 0 with 0 nodes", whatever the node table holds.
#[test]
fn an_empty_row_table() {
    for length in [0, 1, 3, 4, 60] {
        let outcome = run_both(&given_case(&[], length));
        assert_eq!(outcome.numbered, answer(0, 0, 0));
        assert_eq!(outcome.nodes, vec![99; length]);
    }
    // The state table is not looked at then, as no point is in use.
    let mut call = given_case(&[], 8);
    call.state.fill(255);
    assert_eq!(run_both(&call).numbered, answer(0, 0, 0));
    // P2: the block has no rows, though a point has moved.
    let mut block = Block::given_case();
    block.cuts[91] = 63;
    let call = NodesCall::of_block(&mut Random::new(0), block, 0, 3);
    assert_eq!((call.rows.len(), call.state[13]), (0, 1));
    assert_eq!(run_both(&call).numbered, answer(0, 0, 0));
}

/// Bad ids at every index of two rows, alone and two together.
#[test]
fn bad_ids_by_hand() {
    let rows = [13, 65, 235, 227, 13, 26, 0, 34];
    // Point 2 with a code above 15 is refused with 9, and so is point 8 with code
    // 1, the edge of which leads out of the block. Ids 280 and up are too large;
    // id 35 is a cut with byte 0; id 59, 35+7*3+3, too; id 52, 35+7*2+3, belongs
    // to no edge and has a byte.
    let bad = [
        (2, 9),
        (8, 9),
        (280, 8),
        (u32::MAX, 8),
        (35, 8),
        (59, 8),
        (52, 8),
    ];
    for first in 0..8 {
        for (id, number) in bad {
            for (second, (other, _)) in (first..8).flat_map(|n| bad.map(|bad| (n, bad))) {
                for length in [0, 27, 28, 40] {
                    let mut call = given_case(&rows, length);
                    (call.state[2], call.state[8], call.cuts[17]) = (16, 1, 128);
                    call.rows[second] = other;
                    call.rows[first] = id;
                    let numbered = run_both(&call).numbered;
                    assert_eq!(numbered, answer(number, 0, first));
                }
            }
        }
    }
}

/// A state byte that is not 0 takes their places from the cuts beside it.
#[test]
fn cuts_beside_a_spoilt_point() {
    for code in [16, 255, 1, 14] {
        // No cut of the given case violates the middle, so no code is believable
        // there. The cuts end in it or start there.
        for (rows, number, place) in [
            ([26, 13, 65, 126], 9, 1),
            ([26, 65, 13, 126], 8, 1),
            ([26, 0, 126, 13], 8, 2),
            ([26, 0, 0, 13], 9, 3),
        ] {
            let mut call = given_case(&rows, 16);
            call.state[13] = code;
            assert_eq!(run_both(&call).numbered, answer(number, 0, place));
        }
    }
}

/// All faults, alone and with all others behind them: 1, 3, 4, 15, 8 or 9, 10.
#[test]
fn order_of_checks() {
    let order = [1, 3, 4, 15, 8, 10];
    for faults in 0..64usize {
        for point_is_bad in [false, true] {
            let is_wrong = |n: usize| faults >> n & 1 == 1;
            let mut call = given_case(&[13, 65, 235, 227], 16);
            if is_wrong(0) {
                call.sizes[1] = 65;
            }
            if is_wrong(1) {
                call.cuts.pop();
            }
            if is_wrong(2) {
                call.state.push(0);
            }
            if is_wrong(3) {
                call.rows.push(13);
            }
            if is_wrong(4) && point_is_bad {
                call.rows[2] = 0;
                call.state[0] = 16;
            } else if is_wrong(4) {
                call.rows[2] = 280;
            }
            if is_wrong(5) {
                call.nodes.truncate(3);
            }
            let first = (0..6).find(|&n| is_wrong(n)).map(|n| order[n]);
            let expected = match first {
                None => answer(0, 4, 0),
                Some(8) if point_is_bad => answer(9, 0, 2),
                Some(8) => answer(8, 0, 2),
                Some(10) => answer(10, 4, 0),
                Some(number) => answer(number, 0, 0),
            };
            assert_eq!(run_both(&call).numbered, expected, "{faults}");
        }
    }
    assert_eq!((refusal::ROWS, refusal::TABLE), (15, 10));
}

/// Row tables of every length up to three rows.
#[test]
fn whole_rows_only() {
    for length in 0..=12 {
        let call = given_case(&[13; 12][..length], 4);
        let expected = match length {
            0 => answer(0, 0, 0),
            4 | 8 | 12 => answer(0, 1, 0),
            _ => answer(15, 0, 0),
        };
        assert_eq!(run_both(&call).numbered, expected);
    }
}

/// Sizes that are just not allowed, with tables as long as they would have to
/// be, and tables that are not.
#[test]
fn sizes_and_lengths() {
    let good = given_case(&[13, 65, 235, 227], 16);
    for (sizes, n) in [([0, 1, 1], 4), ([65, 1, 1], 329), ([1, 1, 65], 329)] {
        let call = NodesCall {
            sizes,
            cuts: vec![0; 7 * n],
            state: vec![0; n],
            rows: vec![0; 4],
            nodes: vec![99; 4],
        };
        assert_eq!(run_both(&call).numbered, answer(1, 0, 0));
    }
    for length in [0, 35, 244, 246, 280] {
        let mut call = good.clone();
        call.cuts.resize(length, 128);
        assert_eq!(run_both(&call).numbered, answer(3, 0, 0));
    }
    for length in [0, 34, 36, 245] {
        let mut call = good.clone();
        call.state.resize(length, 0);
        assert_eq!(run_both(&call).numbered, answer(4, 0, 0));
    }
}

/// Sizes 2, 1, 1 and 1, 1, 2 have 14 points each, and other edges. Point 1 is at
/// 2, 0, 0 in both; only in the first does its long edge along x exist, with id
/// 14+7*1 and byte 7.
#[test]
fn equal_counts_of_points() {
    let mut call = NodesCall {
        sizes: [2, 1, 1],
        cuts: vec![0; 98],
        state: vec![0; 14],
        rows: vec![21, 1, 21, 1],
        nodes: vec![99; 9],
    };
    call.cuts[7] = 128;
    let outcome = run_both(&call);
    assert_eq!(outcome.numbered, answer(0, 2, 0));
    assert_eq!(outcome.nodes, [1, 512, 0, 0, 21, 768, 0, 0, 99]);
    assert_eq!(outcome.rows, [1, 0, 1, 0]);
    call.sizes = [1, 1, 2];
    assert_eq!(run_both(&call).numbered, answer(8, 0, 0));
}
