//! The node table (request F-6): answer, row table and node table, bit for bit, on calls of every kind, on blocks of up to 64 by 64 by 64
//! cubes, at the ids that are hardest to number, and where it is refused, for one reason or for several. What comes out is held against
//! the request's words too, and what was met is counted. Node tables are full of noise beforehand, so that entries which must stay are
//! seen to stay.
use compare::{disturb, same_numbering, zero_or_any_band};
use reference::block::Block;
use reference::blockfile::fill_block;
use reference::damage::{nodes_call, NodesCall, NodesOutcome};
use reference::generate::{any_block, block, crowded_block, for_band, CUTTINGS, MIXES};
use reference::lattice::Lattice;
use reference::nodes::Numbered;
use reference::random::Random;
use reference::shapes::{mount, ribs, sphere, tenth_band};
use reference::state::{is_move, ON_SKIN};

/// What was met.
#[derive(Debug, Default)]
struct Met {
    /// The answers, by their numbers.
    numbers: [usize; 16],
    /// Accepted calls without rows, with a node table of just the right length, and with a longer one.
    room: [usize; 3],
    /// Node tables that are refused with 10: one number too short, shorter, and empty.
    short: [usize; 3],
    /// First entries without a place: the row table's first, its last, and any other.
    places: [usize; 3],
    /// First entries without a place: points, cuts of the block, and 8N or more.
    without: [usize; 3],
    /// Calls refused with 8, and with 9, where a later entry would have been refused with the other number.
    other_later: [usize; 2],
    /// Nodes that are points at rest, moved points, cuts, and points that lie on the skin unmoved.
    nodes: [usize; 4],
    /// Entries of accepted row tables.
    entries: usize,
}

/// The number with which the library answers the place of an id.
fn number_of(call: &NodesCall, id: u32) -> u32 {
    yakuemi::raw::place(call.sizes, &call.cuts, &call.state, id).number
}

impl Met {
    /// Makes a call by all, holds what comes out against the request's words and counts it.
    fn run(&mut self, call: &NodesCall) -> Numbered {
        let outcome = same_numbering(call);
        let answer = outcome.numbered;
        self.numbers[answer.number as usize] += 1;
        if answer.number == 0 {
            self.count_nodes(call, &outcome);
        } else {
            assert!(outcome.rows == call.rows && outcome.nodes == call.nodes, "{answer:?} and a table is changed");
        }
        match answer.number {
            8 | 9 => self.count_without(call, answer),
            10 => self.count_short(call, answer),
            _ => assert!(answer.place == 0 && (answer.number == 0 || answer.nodes == 0), "{answer:?}"),
        }
        answer
    }

    /// Each id in use is a node once, ascending, with its place; putting the ids back yields the rows; past the last node all stays.
    fn count_nodes(&mut self, call: &NodesCall, outcome: &NodesOutcome) {
        let count = outcome.numbered.nodes as usize;
        let (written, rest) = outcome.nodes.split_at(4 * count);
        let (nodes, _) = written.as_chunks::<4>();
        assert!(nodes.is_sorted_by(|before, after| before[0] < after[0]));
        let mut is_named = vec![false; count];
        for (index, (&node, &id)) in outcome.rows.iter().zip(&call.rows).enumerate() {
            assert_eq!(nodes[node as usize][0], id, "entry {index}");
            is_named[node as usize] = true;
        }
        assert!(!is_named.contains(&false));
        for &[id, x, y, z] in nodes {
            let placed = yakuemi::raw::place(call.sizes, &call.cuts, &call.state, id);
            assert_eq!([placed.number, placed.x, placed.y, placed.z], [0, x, y, z], "id {id}");
            let kind = match call.state.get(id as usize) {
                None => 2,
                Some(&ON_SKIN) => 3,
                Some(&code) => usize::from(is_move(code)),
            };
            self.nodes[kind] += 1;
        }
        assert!(*rest == call.nodes[4 * count..]);
        self.room[if count == 0 { 0 } else { 1 + usize::from(!rest.is_empty()) }] += 1;
        self.entries += call.rows.len();
    }

    /// Every entry before the place has one, and the number is that of its own.
    fn count_without(&mut self, call: &NodesCall, answer: Numbered) {
        let place = answer.place as usize;
        assert_eq!((answer.nodes, number_of(call, call.rows[place])), (0, answer.number));
        assert!(call.rows[..place].iter().all(|&id| number_of(call, id) == 0), "{answer:?}");
        let last = call.rows.len() - 1;
        self.places[if place == 0 { 0 } else { 2 - usize::from(place == last) }] += 1;
        let (id, points) = (call.rows[place] as usize, call.state.len());
        self.without[usize::from(id >= points) + usize::from(id >= 8 * points)] += 1;
        let other = 17 - answer.number;
        let is_later = call.rows[place..].iter().any(|&id| number_of(call, id) == other);
        self.other_later[answer.number as usize - 8] += usize::from(is_later);
    }

    /// The nodes that are needed are the ids in use, and so many do not fit.
    fn count_short(&mut self, call: &NodesCall, answer: Numbered) {
        let needed = call.ids_in_use().len();
        assert_eq!(answer, Numbered { number: 10, nodes: needed as u64, place: 0 });
        assert!(call.nodes.len() < 4 * needed);
        let missing = 4 * needed - call.nodes.len();
        self.short[if call.nodes.is_empty() { 2 } else { usize::from(missing > 1) }] += 1;
    }

    /// An empty node table, one that is too short by one number, an exact one and a longer one, for a call whose ids all have places.
    fn four_tables(&mut self, random: &mut Random, call: &mut NodesCall) {
        let count = call.ids_in_use().len();
        let longer = 4 * count + random.pick(&[1, 2, 3, 4, 17]);
        for length in [0, (4 * count).saturating_sub(1), 4 * count, longer] {
            lend(random, call, length);
            let number = if length < 4 * count { 10 } else { 0 };
            assert_eq!(self.run(call), Numbered { number, nodes: count as u64, place: 0 });
        }
    }
}

/// Makes the node table so long, with new noise.
fn lend(random: &mut Random, call: &mut NodesCall, length: usize) {
    call.nodes = (0..length).map(|_| random.bits() as u32).collect();
}

fn shuffle(random: &mut Random, numbers: &mut [u32]) {
    for n in (1..numbers.len()).rev() {
        numbers.swap(n, random.below(n + 1));
    }
}

/// 6,000 calls with rows, and some without: filled blocks, other rows with ids anywhere up to the largest 32-bit number, ids without a place
/// first, last and between others, state and cut bytes that filling did not leave, lengths and sizes that do not fit, several at once.
#[test]
fn calls_of_every_kind() {
    let mut random = Random::new(141);
    let mut met = Met::default();
    let mut with_rows = 0;
    while with_rows < 6000 {
        let mut call = nodes_call(&mut random);
        let has_rows = !call.rows.is_empty();
        with_rows += usize::from(has_rows);
        if [0, 10].contains(&met.run(&call).number) && has_rows {
            met.four_tables(&mut random, &mut call);
        }
    }
    let Met { numbers, room, short, places, without, other_later, nodes, entries } = met;
    assert!(numbers[0] > 4_500 && numbers[10] > 3_500, "{met:?}");
    assert!([1, 3, 4, 8, 9, 15].iter().all(|&number| numbers[number] > 150), "{met:?}");
    assert!(room[0] > 300 && room[1] > 2_000 && room[2] > 2_000 && short.iter().all(|&short| short > 200), "{met:?}");
    assert!(places[0] > 500 && places[1] > 150 && places[2] > 800, "{met:?}");
    assert!(without.iter().all(|&without| without > 450) && other_later.iter().all(|&later| later > 150), "{met:?}");
    assert!(nodes.iter().all(|&nodes| nodes > 18_000) && entries > 700_000, "{met:?}");
}

/// A block with the rows and the state table of its filling, without a node table. With a band it is filled without the bytes beside the
/// band, and they are in the call all the same.
fn filled(block: Block, band: u32) -> NodesCall {
    let cuts = block.cuts.clone();
    let block = for_band(block, band);
    let tables = fill_block(&block, band);
    let sizes = block.sizes;
    NodesCall { sizes, cuts, state: tables.state, rows: tables.rows, nodes: Vec::new() }
}

/// Blocks as filling leaves them, small ones and long ones: every id of their rows has a place.
#[test]
fn filled_blocks() {
    let mut random = Random::new(142);
    let mut met = Met::default();
    for n in 0..2000 {
        let given = [any_block, crowded_block][n % 2](&mut random, 5);
        let band = zero_or_any_band(&mut random, &given);
        met.four_tables(&mut random, &mut filled(given, band));
    }
    for sizes in [[64, 3, 4], [3, 64, 4], [4, 3, 64], [33, 8, 5], [64, 1, 1], [20, 20, 20]] {
        for mix in MIXES {
            let cutting = random.pick(&CUTTINGS);
            let given = block(&mut random, sizes, mix, cutting);
            met.four_tables(&mut random, &mut filled(given, 0));
        }
    }
    assert!(met.numbers[0] > 5_000 && met.numbers[10] > 1_500 && met.room.iter().all(|&room| room > 700), "{met:?}");
    assert!(met.nodes.iter().all(|&nodes| nodes > 50_000), "{met:?}");
}

/// The ids of the given case: the middle point, and the cuts of its fourteen edges.
const GIVEN_IDS: [u32; 15] = [13, 65, 106, 119, 126, 127, 128, 129, 130, 131, 132, 227, 235, 243, 251];

/// The request with numbers: document 01's given case, 35 points and 280 ids, with its first row.
#[test]
fn given_case_in_numbers() {
    let mut random = Random::new(143);
    let mut met = Met::default();
    let mut call = filled(Block::given_case(), 0);
    met.four_tables(&mut random, &mut call);
    let NodesOutcome { numbered, rows, nodes } = same_numbering(&call);
    assert_eq!(numbered, Numbered { number: 0, nodes: 15, place: 0 });
    assert_eq!((&call.rows[..4], &rows[..4]), (&[13, 65, 235, 227][..], &[0, 1, 12, 11][..]));
    assert_eq!(nodes[..8], [13, 512, 512, 512, 65, 512, 512, 256]);
    assert_eq!([nodes[44..48].to_vec(), nodes[48..52].to_vec()], [[227, 384, 384, 384], [235, 640, 384, 384]]);
    assert!((0..15).all(|node| nodes[4 * node] == GIVEN_IDS[node]));
}

/// Rows for the given case, the length of the node table, and the answer: number, nodes and place. It has 280 ids; point 0 has a state byte
/// that is not believable, and point 1 lies on the skin unmoved.
const CASES: [(&[u32], usize, [u64; 3]); 28] = [
    (&[], 0, [0, 0, 0]),
    (&[], 9, [0, 0, 0]),
    // rows that are not whole
    (&[13], 60, [15, 0, 0]),
    (&[13, 65], 60, [15, 0, 0]),
    (&[13, 65, 235], 60, [15, 0, 0]),
    (&[13, 65, 235, 227, 13], 60, [15, 0, 0]),
    (&[u32::MAX], 0, [15, 0, 0]),
    (&[0, u32::MAX], 60, [15, 0, 0]),
    // all the same, descending, with holes
    (&[13, 13, 13, 13], 4, [0, 1, 0]),
    (&[13, 13, 13, 13], 3, [10, 1, 0]),
    (&[13, 13, 13, 13], 0, [10, 1, 0]),
    (&[251, 227, 65, 1], 16, [0, 4, 0]),
    (&[251, 227, 65, 1], 15, [10, 4, 0]),
    (&[34, 2, 34, 251], 12, [0, 3, 0]),
    // 42 and 279 have byte 0, and 280 is the least that is no id
    (&[279, 13, 13, 13], 60, [8, 0, 0]),
    (&[13, 13, 13, 279], 60, [8, 0, 3]),
    (&[13, 42, 13, 13], 60, [8, 0, 1]),
    (&[13, 13, 280, 13], 60, [8, 0, 2]),
    (&[13, 13, 13, u32::MAX], 60, [8, 0, 3]),
    (&[13, 280, 280, u32::MAX], 60, [8, 0, 1]),
    (&[0, 13, 13, 13], 60, [9, 0, 0]),
    (&[13, 13, 13, 13, 13, 0, 13, 13], 60, [9, 0, 5]),
    // 8 or 9, whichever comes first in the row table, and both before 10
    (&[280, 0, 13, 13], 60, [8, 0, 0]),
    (&[13, 0, 280, 0], 60, [9, 0, 1]),
    (&[13, 65, 235, 0], 0, [9, 0, 3]),
    (&[13, 65, 235, 280], 0, [8, 0, 3]),
    (&[13, 65, 280, 0], 15, [8, 0, 2]),
    (&[0, 0, 0, 0], 3, [9, 0, 0]),
];

#[test]
fn refusals_in_numbers() {
    let mut random = Random::new(144);
    let mut met = Met::default();
    let mut call = filled(Block::given_case(), 0);
    (call.state[0], call.state[1]) = (16, ON_SKIN);
    let given = call.rows.clone();
    // a row table that is longer than its rows
    let longer = [&given[..], &[u32::MAX; 4]].concat();
    let with_given: [(&[u32], usize, [u64; 3]); 6] = [
        (&given, 60, [0, 15, 0]),
        (&given, 59, [10, 15, 0]),
        (&given, 15, [10, 15, 0]),
        (&given, 0, [10, 15, 0]),
        (&given[..95], 0, [15, 0, 0]),
        (&longer, 60, [8, 0, 96]),
    ];
    for (rows, length, [number, nodes, place]) in CASES.into_iter().chain(with_given) {
        call.rows = rows.to_vec();
        lend(&mut random, &mut call, length);
        assert_eq!(met.run(&call), Numbered { number: number as u32, nodes, place }, "{rows:?}");
    }
}

/// A block with a cut halfway along every edge, and bytes also where no edge is, of which no point moved: the ids of all points and edges
/// have places.
fn cut_everywhere(sizes: [u32; 3]) -> NodesCall {
    let [nx, ny, nz] = sizes;
    let points = Lattice::new(nx, ny, nz).unwrap().point_count();
    NodesCall { sizes, cuts: vec![128; 7 * points], state: vec![0; points], rows: Vec::new(), nodes: Vec::new() }
}

/// 8N, the least number that is no id.
fn beyond(call: &NodesCall) -> u32 {
    8 * call.state.len() as u32
}

/// Those of these numbers that are ids with a place.
fn with_place(call: &NodesCall, numbers: impl Iterator<Item = u32>) -> Vec<u32> {
    numbers.filter(|&id| number_of(call, id) == 0).collect()
}

/// Every id of small blocks with noise in their tables, alone in its row: it is refused as the place call refuses it.
#[test]
fn every_id_alone() {
    let mut random = Random::new(145);
    let mut met = Met::default();
    for _ in 0..60 {
        let mut call = filled(any_block(&mut random, 3), 0);
        disturb(&mut random, &mut call.cuts, &mut call.state);
        for id in (0..beyond(&call) + 3).chain([1 << 19, 1 << 31, u32::MAX]) {
            call.rows = vec![id; 4];
            lend(&mut random, &mut call, 4);
            let number = number_of(&call, id);
            assert_eq!(met.run(&call), Numbered { number, nodes: u64::from(number == 0), place: 0 }, "id {id}");
        }
    }
    assert!(met.numbers[0] > 2_500 && met.numbers[8] > 15_000 && met.numbers[9] > 400, "{met:?}");
}

/// The refusals in the order of the checks; of 8 and 9 the one whose entry comes first in the row table is answered.
const ORDER: [u32; 7] = [1, 3, 4, 15, 8, 9, 10];

/// Does to a call what is refused with this number.
fn spoil(random: &mut Random, call: &mut NodesCall, number: u32) {
    let (cuts, points, entries, room) = (call.cuts.len(), call.state.len(), call.rows.len(), call.nodes.len());
    match number {
        1 => call.sizes[random.below(3)] = random.pick(&[0, 65, 66, 255, 256, 1 << 16, u32::MAX]),
        3 => call.cuts.resize(random.pick(&[0, cuts - 1, cuts + 1, cuts / 7]), 128),
        4 => call.state.resize(random.pick(&[0, points - 1, points + 1, 7 * points]), 0),
        15 => call.rows.resize(random.pick(&[1, entries - 3, entries - 2, entries - 1, entries + 1, entries + 2, entries + 3]), 0),
        8 => call.rows[random.below(entries)] = random.pick(&[beyond(call), beyond(call) + 1, 1 << 31, u32::MAX]),
        9 => {
            let point = random.below(points);
            call.state[point] = random.pick(&[16, 17, 255]);
            call.rows[random.below(entries)] = point as u32;
        }
        _ => call.nodes.truncate(random.pick(&[0, room / 2, room - 4, room - 1])),
    }
}

/// Every set of faults, a hundred times: what comes first in the order of the checks is answered, and nothing is changed.
#[test]
fn refusals_in_their_order() {
    let mut random = Random::new(146);
    let mut met = Met::default();
    for n in 0..12_800 {
        let mut call = cut_everywhere([0; 3].map(|_| random.between(1, 4) as u32));
        let ids = with_place(&call, 0..beyond(&call));
        call.rows = (0..4 * random.between(1, 10)).map(|_| random.pick(&ids)).collect();
        let needed = 4 * call.ids_in_use().len();
        lend(&mut random, &mut call, needed);
        let faults: Vec<u32> = (0..7).filter(|k| n >> k & 1 != 0).map(|k| ORDER[k]).collect();
        for &fault in faults.iter().rev() {
            spoil(&mut random, &mut call, fault);
        }
        let one = |number: u32| if number == 9 { 8 } else { number };
        let first = faults.first().copied().unwrap_or(0);
        assert_eq!(one(met.run(&call).number), one(first), "{faults:?}");
    }
    assert_eq!([0, 1, 3, 4, 15, 10].map(|number| met.numbers[number]), [100, 6400, 3200, 1600, 800, 100]);
    assert!(met.numbers[8] > 200 && met.numbers[9] > 100 && met.other_later.iter().all(|&later| later > 50), "{met:?}");
}

/// Ids on both sides of the multiples of 524,288, of the count of points and of the end of the ids; the last block has 8 ids fewer than
/// such a multiple, those before it 16 and 32 more.
#[test]
fn ids_beside_large_powers_of_two() {
    let mut random = Random::new(147);
    let mut met = Met::default();
    for sizes in [[64; 3], [13, 44, 54], [30, 35, 60], [15, 35, 59]] {
        let mut call = cut_everywhere(sizes);
        let beside: Vec<u32> = (0..beyond(&call)).step_by(1 << 19).chain([beyond(&call) / 8, beyond(&call)]).collect();
        for id in beside.iter().map(|&id| u32::max(id, 1)) {
            call.rows = vec![id - 1, id, id, id - 1];
            lend(&mut random, &mut call, 8);
            met.run(&call);
        }
        let ids = beside.iter().flat_map(|&id| id.saturating_sub(9)..id + 9);
        call.rows = whole_rows(with_place(&call, ids));
        met.four_tables(&mut random, &mut call);
        call.rows.sort_by(|a, b| b.cmp(a));
        met.four_tables(&mut random, &mut call);
        shuffle(&mut random, &mut call.rows);
        met.four_tables(&mut random, &mut call);
    }
    assert!(met.numbers[0] > 35 && met.numbers[8] > 3 && met.numbers[10] == 24, "{met:?}");
    assert!(met.nodes[0] > 400 && met.nodes[2] > 1_000, "{met:?}");
}

/// Whole rows of these ids: the last one again where some are missing.
fn whole_rows(mut ids: Vec<u32>) -> Vec<u32> {
    let last = *ids.last().unwrap();
    ids.resize(ids.len().next_multiple_of(4), last);
    ids
}

/// Ids at the multiples of 524,288 by their numbers, in a block of 64 by 64 by 64 cubes: the last id is 4,294,151.
#[test]
fn large_ids_in_numbers() {
    let mut random = Random::new(148);
    let mut met = Met::default();
    let mut call = cut_everywhere([64; 3]);
    let rows = [1_048_576, 524_287, 4_294_151, 524_288, 1_048_575, 0, 524_288, 1_048_576];
    let sorted = [0, 524_287, 524_288, 1_048_575, 1_048_576, 4_294_151];
    call.rows = rows.to_vec();
    lend(&mut random, &mut call, 30);
    assert_eq!(met.run(&call), Numbered { number: 0, nodes: 6, place: 0 });
    let outcome = same_numbering(&call);
    assert_eq!(outcome.rows, [4, 1, 5, 2, 3, 0, 2, 4]);
    assert!((0..6).all(|node| outcome.nodes[4 * node] == sorted[node]));
    for (entry, id) in [(2, 4_294_152), (7, 4_294_152), (0, u32::MAX)] {
        call.rows[entry] = id;
        assert_eq!(met.run(&call), Numbered { number: 8, nodes: 0, place: entry as u64 });
        call.rows[entry] = rows[entry];
    }
}

/// A block of 64 by 64 by 64 cubes with some points that have moved or lie on the skin unmoved, cuts anywhere along their edges and some
/// points with state bytes that are not believable: ids with and without a place up to the last.
fn largest(random: &mut Random) -> NodesCall {
    let mut call = cut_everywhere([64; 3]);
    call.cuts.fill_with(|| random.between(1, 255) as u8);
    for point in (0..call.state.len()).step_by(97) {
        call.state[point] = random.between(1, 16) as u8;
    }
    call
}

/// Rows of up to 2,000 ids of all sizes, and up to three among them that have no place, points or cuts.
#[test]
fn large_ids_in_any_order() {
    let mut random = Random::new(149);
    let mut met = Met::default();
    let mut call = largest(&mut random);
    let (placed, without): (Vec<u32>, Vec<u32>) = (0..beyond(&call)).partition(|&id| number_of(&call, id) == 0);
    let (points, cuts) = without.split_at(without.partition_point(|&id| id < beyond(&call) / 8));
    for n in 0..120 {
        let length = 4 * random.between(1, 500) as usize;
        call.rows = (0..length).map(|_| random.pick(&placed)).collect();
        for _ in 0..n % 4 {
            let kind = random.pick(&[points, cuts]);
            call.rows[random.below(length)] = random.pick(kind);
        }
        let spare = random.pick(&[0, 0, 1, 5]);
        let room = 4 * call.ids_in_use().len() + spare;
        lend(&mut random, &mut call, room - usize::from(n % 8 == 0));
        met.run(&call);
    }
    assert!(met.numbers[0] > 15 && met.numbers[10] > 4 && [8, 9].iter().all(|&number| met.numbers[number] > 30), "{met:?}");
    assert!(met.other_later.iter().all(|&later| later > 12) && met.nodes[2] > 10_000, "{met:?}");
}

/// Every id that has a place, some four million, in any order: about as many nodes as there can be.
#[test]
fn as_many_nodes_as_can_be() {
    let mut random = Random::new(150);
    let mut met = Met::default();
    let mut call = largest(&mut random);
    call.rows = whole_rows(with_place(&call, 0..beyond(&call)));
    shuffle(&mut random, &mut call.rows);
    let needed = 4 * call.ids_in_use().len();
    for (length, number) in [(needed, 0), (needed - 1, 10)] {
        lend(&mut random, &mut call, length);
        assert_eq!(met.run(&call), Numbered { number, nodes: needed as u64 / 4, place: 0 });
    }
    assert!(met.nodes[0] > 500_000 && met.nodes[1] > 1_000 && met.nodes[2] > 3_500_000 && met.nodes[3] > 250, "{met:?}");
}

/// Nodes whose four numbers each are just too few for the numbers of a window of ids, just as many and four more: points at rest of a block of
/// 64 by 64 by 64 cubes, every fourth one.
#[test]
fn nodes_beside_a_window() {
    let mut random = Random::new(153);
    let mut met = Met::default();
    let points = 536_769;
    for count in [131_071, 131_072, 131_073] {
        let mut rows: Vec<u32> = (0..points as u32).step_by(4).take(count).collect();
        rows.resize(count.next_multiple_of(4), 0);
        shuffle(&mut random, &mut rows);
        let (cuts, state, nodes) = (vec![0; 7 * points], vec![0; points], Vec::new());
        met.four_tables(&mut random, &mut NodesCall { sizes: [64, 64, 64], cuts, state, rows, nodes });
    }
    assert_eq!(met.numbers[0], 6);
}

/// A block of 64 by 64 by 64 cubes: the sphere, its rows in other orders too, and with an id that has no place first, in the middle or last.
#[test]
fn the_sphere() {
    let mut random = Random::new(151);
    let mut met = Met::default();
    let mut call = filled(sphere(), 0);
    assert_eq!((call.sizes, call.rows.len()), ([64; 3], 4 * 1_218_864));
    met.four_tables(&mut random, &mut call);
    let (beyond, length) = (beyond(&call), call.rows.len());
    for place in [0, length / 2, length - 1] {
        // point 0 is at the block's corner, where no edge leads to it
        for (id, code, number) in [(beyond, 0, 8), (u32::MAX, 0, 8), (0, 8, 9)] {
            call.state[0] = code;
            let kept = std::mem::replace(&mut call.rows[place], id);
            assert_eq!(met.run(&call), Numbered { number, nodes: 0, place: place as u64 });
            (call.rows[place], call.state[0]) = (kept, 0);
        }
    }
    call.rows.reverse();
    assert_eq!(met.run(&call).number, 0);
    shuffle(&mut random, &mut call.rows);
    assert_eq!(met.run(&call).number, 0);
    assert_eq!((met.numbers[0], met.nodes.iter().sum::<usize>()), (4, 4 * 214_423));
}

#[test]
fn other_parts() {
    let mut random = Random::new(152);
    let mut met = Met::default();
    for (part, band) in [(sphere(), tenth_band(&sphere())), (ribs(), 0), (mount(), 0)] {
        let mut call = filled(part, band);
        lend(&mut random, &mut call, 4_000_000);
        assert_eq!(met.run(&call).number, 0);
    }
    assert!(met.nodes[..3].iter().all(|&nodes| nodes > 90_000) && met.nodes[3] > 20_000, "{met:?}");
}
