//! Calls of filling and of mending that must be refused, and why; and calls for
//! the node table of all kinds.
//!
//! Each refusal of filling (document 01, "Calls and refusals": 1 to 7 and 10;
//! document 02, request F-3: 14) has one kind of damage, and mending (requests
//! F-4 and F-9) shares the first of them. Several damages can be done to one
//! call, to see in which order the refusals come; and there are calls with bands
//! of which only some must be refused, with noise and bytes in and beside the
//! band (request F-9). The node table (request F-6) is asked of any row table, so
//! its calls are good ones and others alike; state byte 15 (request F-8) is put in
//! both ways, at points in use and beside cuts in use.

use crate::block::Block;
use crate::blockfile::fill_block;
use crate::fill::{Filled, LARGEST_BAND};
use crate::generate::{any_band, any_block, crowded_block, flickering_block, wide_band};
use crate::generate::{for_band, for_band_with_noise, LIMIT_BYTES};
use crate::lattice::Lattice;
use crate::nodes::{Numbered, Numbering};
use crate::place::place;
use crate::plain;
use crate::plain::label;
use crate::random::Random;
use crate::refusal;
use crate::shapes;
use crate::state::ON_SKIN;

/// The inputs of one call of filling; of the lent tables only the lengths.
#[derive(Clone, Debug)]
pub struct Call {
    /// Sizes, samples and cuts.
    pub block: Block,
    /// The band.
    pub band: u32,
    /// The length of the state table.
    pub state_length: usize,
    /// The length of the row table.
    pub row_length: usize,
}

/// One thing wrong with a call.
#[derive(Clone, Copy, Debug, PartialEq, Eq)]
pub enum Damage {
    /// A size is 0 or above 64.
    Size,
    /// The band is above 32767.
    Band,
    /// One sample too many or too few, or none at all.
    Samples,
    /// The same with the cut table.
    Cuts,
    /// The same with the state table.
    State,
    /// A rim sample is above the band.
    Rim,
    /// A byte is zero that must not be.
    Gap,
    /// A byte is non-zero that must be zero.
    Stray,
    /// The row table is too short (if it had no spare numbers).
    Table,
}

/// All damages, in the order in which filling finds them; a gap and a stray
/// byte are found in one go, the lower offset first.
pub const DAMAGES: [Damage; 9] = [
    Damage::Size,
    Damage::Band,
    Damage::Samples,
    Damage::Cuts,
    Damage::State,
    Damage::Rim,
    Damage::Gap,
    Damage::Stray,
    Damage::Table,
];

/// The damages that mending refuses, in the order in which it finds them.
pub const MEND_DAMAGES: [Damage; 4] = [Damage::Size, Damage::Band, Damage::Samples, Damage::Cuts];

impl Damage {
    /// The refusal of a call with only this damage.
    pub fn refusal(self) -> u32 {
        match self {
            Damage::Size => refusal::SIZE,
            Damage::Band => refusal::BAND,
            Damage::Samples => refusal::SAMPLES,
            Damage::Cuts => refusal::CUTS,
            Damage::State => refusal::STATE,
            Damage::Rim => refusal::RIM,
            Damage::Gap => refusal::GAP,
            Damage::Stray => refusal::STRAY,
            Damage::Table => refusal::TABLE,
        }
    }
}

/// The answer of filling and the two lent tables after it.
#[derive(Clone, Debug, PartialEq, Eq)]
pub struct Outcome {
    /// The answer.
    pub filled: Filled,
    /// The state table.
    pub state: Vec<u8>,
    /// The row table.
    pub rows: Vec<u32>,
}

/// A filling: [`crate::fill::fill`] or [`crate::plain::fill`], or the one before
/// request F-9.
pub type Filling = fn(u32, u32, u32, u32, &[i16], &[u8], &mut [u8], &mut [u32]) -> Filled;

impl Call {
    /// A call that is not refused: the row table has `spare` numbers too many.
    pub fn good(block: Block, band: u32, spare: usize) -> Call {
        let state_length = block.samples.len();
        let mut call = Call {
            block,
            band,
            state_length,
            row_length: 0,
        };
        let needed = call.run(plain::fill, &mut Random::new(0)).filled;
        call.row_length = 4 * needed.rows as usize + spare;
        call
    }

    /// Lends tables full of noise and makes the call.
    pub fn run(&self, filling: Filling, random: &mut Random) -> Outcome {
        let [nx, ny, nz] = self.block.sizes;
        let (mut state, mut rows) = self.noise(random);
        let (samples, cuts) = (&self.block.samples, &self.block.cuts);
        let band = self.band;
        let filled = filling(nx, ny, nz, band, samples, cuts, &mut state, &mut rows);
        Outcome {
            filled,
            state,
            rows,
        }
    }

    /// State and row table as they are lent.
    pub fn noise(&self, random: &mut Random) -> (Vec<u8>, Vec<u32>) {
        let state = (0..self.state_length).map(|_| random.bits() as u8);
        let state = state.collect();
        let rows = (0..self.row_length).map(|_| random.bits() as u32);
        (state, rows.collect())
    }

    /// Does a damage to a call with the lattice of its undamaged sizes;
    /// false if it cannot be done here.
    pub fn damage(&mut self, random: &mut Random, lattice: &Lattice, damage: Damage) -> bool {
        match damage {
            Damage::Size => {
                let bad = random.pick(&[0, 65, 66, 255, 256, 1 << 16, u32::MAX]);
                self.block.sizes[random.below(3)] = bad;
            }
            Damage::Band => self.band = random.pick(&BAD_BANDS),
            Damage::Samples => spoil_length(random, &mut self.block.samples, -1),
            Damage::Cuts => spoil_length(random, &mut self.block.cuts, 0),
            Damage::State => {
                let n = self.state_length;
                self.state_length = random.pick(&[0, n - 1, n + 1, 7 * n]);
            }
            Damage::Rim => return self.spoil_rim(random, lattice),
            Damage::Gap => return self.spoil_byte(random, lattice, true),
            Damage::Stray => return self.spoil_byte(random, lattice, false),
            Damage::Table => {
                if self.row_length == 0 {
                    return false;
                }
                self.row_length -= random
                    .pick(&[1, 2, 4, self.row_length])
                    .min(self.row_length);
            }
        }
        true
    }

    /// The band by which a block is valid or not, 0 if the call's own is none.
    fn band_of_labels(&self) -> u32 {
        match self.band {
            band @ 0..=LARGEST_BAND => band,
            _ => 0,
        }
    }

    /// Makes a rim point plus, with a sample just above the band or the largest.
    fn spoil_rim(&mut self, random: &mut Random, lattice: &Lattice) -> bool {
        let band = self.band_of_labels();
        if band == LARGEST_BAND {
            return false;
        }
        let samples = &mut self.block.samples;
        let rim = (0..samples.len().min(lattice.point_count())).filter(|&p| lattice.is_rim(p));
        let rim: Vec<usize> = rim.collect();
        if !rim.is_empty() {
            samples[random.pick(&rim)] = random.pick(&[band as i16 + 1, 32767]);
        }
        true
    }

    /// Clears a byte that is a cut, or sets one that is none.
    fn spoil_byte(&mut self, random: &mut Random, lattice: &Lattice, clear: bool) -> bool {
        let (samples, band) = (&self.block.samples, self.band_of_labels());
        if samples.len() < lattice.point_count() {
            return false;
        }
        let is_needed = |offset: usize| {
            let (start, direction) = (offset / 7, offset % 7);
            let end = lattice.end(start, direction);
            end.is_some_and(|end| label(band, samples[start]) * label(band, samples[end]) < 0)
        };
        let known = self.block.cuts.len().min(7 * lattice.point_count());
        let fitting: Vec<usize> = (0..known).filter(|&o| is_needed(o) == clear).collect();
        if fitting.is_empty() {
            return false;
        }
        let byte = if clear {
            0
        } else {
            random.pick(&[1, 128, 255])
        };
        self.block.cuts[random.pick(&fitting)] = byte;
        true
    }

    /// Does one damage, every second time one in which the band has a say, and
    /// now and then others, as far as they can be done.
    fn damage_once_or_more(&mut self, random: &mut Random, lattice: &Lattice) {
        let by_labels = random.pick(&[Damage::Rim, Damage::Gap, Damage::Stray]);
        let any = random.pick(&DAMAGES);
        let certain = random.pick(&[by_labels, any]);
        for damage in DAMAGES {
            if damage == certain || random.percent(6) {
                self.damage(random, lattice, damage);
            }
        }
    }

    /// Puts bytes on some of the edges with an end in the band, mostly on such
    /// whose samples are of opposite signs: those bytes were good before request
    /// F-9. The block's sizes and lengths must be right.
    fn put_bytes_beside_band(&mut self, random: &mut Random, lattice: &Lattice) {
        let (samples, band) = (&self.block.samples, self.band);
        let percent = random.pick(&[1, 10, 60]);
        let only_opposite = random.percent(70);
        for (offset, byte) in self.block.cuts.iter_mut().enumerate() {
            let Some(end) = lattice.end(offset / 7, offset % 7) else {
                continue;
            };
            let [a, b] = [samples[offset / 7], samples[end]];
            let is_beside = label(band, a) == 0 || label(band, b) == 0;
            let is_opposite = a.signum() * b.signum() < 0;
            if is_beside && (is_opposite || !only_opposite) && random.percent(percent) {
                *byte = random.pick(&[1, 63, 128, 255]);
            }
        }
    }
}

/// Bands that are refused.
pub const BAD_BANDS: [u32; 6] = [32768, 32769, 65535, 65536, 1 << 31, u32::MAX];

/// A call of filling with a band above 0, valid or not: of a block with noise in
/// the band, on the rim too; of one that is valid at band 0, and so often not
/// with its band; with bytes beside the band, or with none at all; all of these
/// also with damages. The row table is mostly exact.
pub fn banded_call(random: &mut Random) -> Call {
    let largest = random.pick(&[3, 4, 4, 5]);
    let raw = random.pick(&[any_block, crowded_block, flickering_block])(random, largest);
    let band = match random.below(4) {
        0 => any_band(random, &raw),
        1 => random.between(1, 9) as u32,
        _ => wide_band(random, &raw),
    };
    let band = band.max(1);
    let block = match random.below(6) {
        0 => raw,
        1 if random.percent(50) => shapes::emptied(raw),
        _ => for_band_with_noise(random, raw, band),
    };
    let lattice = block.lattice().expect("allowed sizes");
    let mut call = Call::good(block, band, 0);
    call.row_length = match random.below(8) {
        0 => call.row_length.saturating_sub(1),
        1 => call.row_length + 5,
        _ => call.row_length,
    };
    if random.percent(30) {
        call.put_bytes_beside_band(random, &lattice);
    }
    if random.percent(50) {
        call.damage_once_or_more(random, &lattice);
    }
    call
}

/// The sizes, band, samples and cut table of a call of mending that must be
/// refused, for one reason or for several. If a size is just not allowed, both
/// tables can be as long as they would have to be if it were. The tables hold
/// anything.
pub fn mend_call(random: &mut Random) -> ([u32; 3], u32, Vec<i16>, Vec<u8>) {
    let mut sizes = [0; 3].map(|_| random.between(1, 4) as u32);
    let wrong = random.between(1, 15);
    let is_wrong = |n: usize| wrong >> n & 1 != 0;
    let mut n = count_points(sizes);
    if is_wrong(0) {
        let axis = random.below(3);
        if random.percent(60) {
            sizes[axis] = random.pick(&[0, 65, 66]);
            n = count_points(sizes);
        } else {
            sizes[axis] = random.pick(&[255, 256, 1 << 16, 1 << 31, u32::MAX]);
        }
    }
    let good_band = random.between(0, i64::from(LARGEST_BAND)) as u32;
    let band = random.pick(&[0, good_band, LARGEST_BAND]);
    let bad_band = random.pick(&BAD_BANDS);
    let band = if is_wrong(3) { bad_band } else { band };
    let mut sample_count = n;
    if is_wrong(1) {
        sample_count = random.pick(&[0, n - 1, n + 1, 2 * n, 7 * n]);
    }
    let mut byte_count = 7 * n;
    if is_wrong(2) {
        let of_as_many_samples = 7 * (sample_count + usize::from(sample_count == n));
        byte_count = random.pick(&[0, 7 * n - 1, 7 * n + 1, n, 7 * n + 7, of_as_many_samples]);
    }
    let samples = (0..sample_count).map(|_| random.bits() as i16).collect();
    let cuts = (0..byte_count).map(|_| random.bits() as u8).collect();
    (sizes, band, samples, cuts)
}

/// The count of points by the formula of document 01, whatever the sizes.
fn count_points(sizes: [u32; 3]) -> usize {
    let corners: usize = sizes.iter().map(|&size| size as usize + 1).product();
    corners + sizes.iter().map(|&size| size as usize).product::<usize>()
}

/// Makes a table one entry too long, one too short, or empty.
fn spoil_length<T: Clone>(random: &mut Random, table: &mut Vec<T>, more: T) {
    match random.below(3) {
        0 => table.push(more),
        1 => {
            table.pop();
        }
        _ => table.clear(),
    }
}

/// The inputs of one call for the node table, with both lent tables as they are
/// lent.
#[derive(Clone, Debug, PartialEq, Eq)]
pub struct NodesCall {
    /// nx, ny, nz.
    pub sizes: [u32; 3],
    /// The cut table.
    pub cuts: Vec<u8>,
    /// The state table.
    pub state: Vec<u8>,
    /// The row table: any numbers.
    pub rows: Vec<u32>,
    /// The node table, full of noise.
    pub nodes: Vec<u32>,
}

/// The answer of a call for the node table and the two lent tables after it.
#[derive(Clone, Debug, PartialEq, Eq)]
pub struct NodesOutcome {
    /// The answer.
    pub numbered: Numbered,
    /// The row table.
    pub rows: Vec<u32>,
    /// The node table.
    pub nodes: Vec<u32>,
}

/// State bytes that are not believable wherever they stand: "9 begins above 15".
pub const BAD_CODES: [u8; 4] = [16, 17, 128, 255];

/// A call for the node table: of a filled block with its own rows, or of other
/// rows with ids in any order; with ids that have no place first, last or in the
/// middle; with state and cut bytes that filling did not leave; with tables of
/// any length and sizes that are not allowed; or with several of these at once.
/// Blocks have sizes up to 6, now and then up to 12.
pub fn nodes_call(random: &mut Random) -> NodesCall {
    let mut call = NodesCall::of_any_block(random);
    match random.below(10) {
        0..3 => call.spoil_some_codes(random),
        3 => call.spoil_all_codes(random),
        4 => call.spoil_cuts(random),
        5 if random.percent(50) => call.sizes.rotate_left(1),
        _ => {}
    }
    call.draw_rows(random);
    if random.percent(30) {
        call.spoil_entries(random);
    }
    // In one call of four a length or a size is off, or several.
    let chance = random.pick(&[0, 0, 0, 30]);
    call.spoil_lengths(random, chance);
    if random.percent(chance) {
        call.spoil_size(random);
    }
    call.draw_nodes(random);
    call
}

impl NodesCall {
    /// The call of a filled block: its rows, and a node table with `spare`
    /// numbers too many. The block must not be refused.
    pub fn of_block(random: &mut Random, block: Block, band: u32, spare: usize) -> NodesCall {
        let tables = fill_block(&block, band);
        assert_eq!(tables.filled.number, refusal::NONE, "a block to be filled");
        let mut call = NodesCall {
            sizes: block.sizes,
            cuts: block.cuts,
            state: tables.state,
            rows: tables.rows,
            nodes: Vec::new(),
        };
        call.set_node_length(random, 4 * call.ids_in_use().len() + spare);
        call
    }

    /// The call of the sphere of 64 by 64 by 64 cubes, for timing.
    pub fn of_sphere() -> NodesCall {
        NodesCall::of_block(&mut Random::new(64), shapes::sphere(), 0, 0)
    }

    /// Makes the call over copies of the lent tables.
    pub fn run(&self, numbering: Numbering) -> NodesOutcome {
        let [nx, ny, nz] = self.sizes;
        let (mut rows, mut nodes) = (self.rows.clone(), self.nodes.clone());
        let numbered = numbering(nx, ny, nz, &self.cuts, &self.state, &mut rows, &mut nodes);
        NodesOutcome {
            numbered,
            rows,
            nodes,
        }
    }

    /// Each id in use once, ascending, whether it has a place or not.
    pub fn ids_in_use(&self) -> Vec<u32> {
        let mut ids = self.rows.clone();
        ids.sort();
        ids.dedup();
        ids
    }

    /// The call of a small filled block, mostly one that has rows.
    fn of_any_block(random: &mut Random) -> NodesCall {
        let largest = match random.below(150) {
            0 => 12,
            1..=15 => 6,
            16..=40 => 5,
            41..=120 => 4,
            _ => 3,
        };
        let call = NodesCall::of_block_up_to(random, largest);
        if call.rows.is_empty() && random.percent(75) {
            return NodesCall::of_block_up_to(random, 4);
        }
        call
    }

    fn of_block_up_to(random: &mut Random, largest: u32) -> NodesCall {
        let block = match random.below(10) {
            0 | 1 => any_block(random, largest),
            2..6 => crowded_block(random, largest),
            _ => flickering_block(random, largest),
        };
        let any_band = any_band(random, &block);
        let band = random.pick(&[0, 0, any_band]);
        let cuts = block.cuts.clone();
        let mut call = NodesCall::of_block(random, for_band(block, band), band, 0);
        // With the bytes beside the band, whose cuts have no places then.
        call.cuts = cuts;
        call
    }

    /// Makes the node table this long, with new noise.
    fn set_node_length(&mut self, random: &mut Random, length: usize) {
        self.nodes = (0..length).map(|_| random.bits() as u32).collect();
    }

    /// Gives some points, mostly such that are in use or beside a cut in use,
    /// another state byte: a code, the mark of a point on the skin, or one that
    /// is not believable.
    fn spoil_some_codes(&mut self, random: &mut Random) {
        for _ in 0..random.pick(&[1, 1, 2, 5]) {
            let point = self.point_in_use(random);
            let code = random.between(0, 14) as u8;
            let bad = random.pick(&BAD_CODES);
            self.state[point] = random.pick(&[code, code, code, ON_SKIN, ON_SKIN, bad, bad]);
        }
    }

    /// A point that the rows of the filled block name, or an end of a cut that
    /// they name; any point now and then, or if there are no rows.
    fn point_in_use(&self, random: &mut Random) -> usize {
        let n = self.state.len();
        let any_point = random.below(n);
        if self.rows.is_empty() || random.percent(10) {
            return any_point;
        }
        let id = random.pick(&self.rows) as usize;
        let Some(offset) = id.checked_sub(n) else {
            return id;
        };
        let [nx, ny, nz] = self.sizes;
        let lattice = Lattice::new(nx, ny, nz).expect("the sizes of a filled block");
        let (start, direction) = (offset / 7, offset % 7);
        let end = lattice.end(start, direction).expect("the edge of a cut");
        random.pick(&[start, end])
    }

    /// Gives all points other state bytes, mostly 0, and all edges, even those
    /// that do not exist, mostly any byte: each code is then believable here and
    /// there, 15 everywhere and 16 nowhere, and each direction cut.
    fn spoil_all_codes(&mut self, random: &mut Random) {
        let stay = random.pick(&[30, 70, 95]);
        for code in &mut self.state {
            let other = random.between(1, 16) as u8;
            *code = if random.percent(stay) { 0 } else { other };
        }
        for byte in &mut self.cuts {
            let any = random.between(1, 255) as u8;
            let at_limit = random.pick(&LIMIT_BYTES);
            *byte = random.pick(&[any, any, any, at_limit, 0]);
        }
    }

    /// Gives some edges, also such that do not exist, another byte.
    fn spoil_cuts(&mut self, random: &mut Random) {
        let chance = random.pick(&[1, 5, 30]);
        for byte in &mut self.cuts {
            if random.percent(chance) {
                let at_limit = random.pick(&LIMIT_BYTES);
                *byte = random.pick(&[0, 0, at_limit, 128]);
            }
        }
    }

    /// Leaves the rows of the block, or makes others.
    fn draw_rows(&mut self, random: &mut Random) {
        // Small blocks often have no rows, and there is not much to see then.
        let kinds = if self.rows.is_empty() { 10 } else { 20 };
        match random.below(kinds) {
            0 => self.rows.clear(),
            1 | 2 => self.rows = self.any_ids(random),
            3..7 => self.rows = self.few_ids_often(random),
            7 | 8 => self.rows = self.all_ids_once(random),
            9 => self.rows.reverse(),
            _ => {}
        }
    }

    /// The ids that have a place, or those below 8N that have none.
    fn ids(&self, have_place: bool) -> Vec<u32> {
        let [nx, ny, nz] = self.sizes;
        let (cuts, state) = (&self.cuts, &self.state);
        // Most cut bytes are 0, and these cuts need not be asked for.
        let is_empty = |id: u32| id as usize >= state.len() && cuts[id as usize - state.len()] == 0;
        let is_placed = |id: u32| place(nx, ny, nz, cuts, state, id).number == refusal::NONE;
        let fits = |id: &u32| (!is_empty(*id) && is_placed(*id)) == have_place;
        (0..self.first_beyond()).filter(fits).collect()
    }

    /// 8N, the least number that is no id.
    fn first_beyond(&self) -> u32 {
        8 * self.state.len() as u32
    }

    /// Some rows of ids anywhere, up to the largest 32-bit number.
    fn any_ids(&self, random: &mut Random) -> Vec<u32> {
        let beyond = self.first_beyond();
        let with_place = self.ids(true);
        let length = 4 * random.between(1, 5);
        let any_id = |_| match random.below(8) {
            0 => random.bits() as u32,
            1 => random.pick(&[beyond - 1, beyond, beyond + 1, u32::MAX]),
            2 => random.below(beyond as usize) as u32,
            _ => pick_or(random, &with_place, 0),
        };
        (0..length).map(any_id).collect()
    }

    /// Up to 40 rows of few or many different ids that have places, in any
    /// order.
    fn few_ids_often(&self, random: &mut Random) -> Vec<u32> {
        let with_place = self.ids(true);
        let different = random.pick(&[1, 3, 10, 100]);
        let few: Vec<u32> = (0..different)
            .map(|_| pick_or(random, &with_place, 0))
            .collect();
        let length = 4 * random.between(1, 40);
        (0..length).map(|_| random.pick(&few)).collect()
    }

    /// Every id that has a place, ascending, descending or in any order, and the
    /// last again to make whole rows.
    fn all_ids_once(&self, random: &mut Random) -> Vec<u32> {
        let mut ids = self.ids(true);
        match random.below(3) {
            0 => {}
            1 => ids.reverse(),
            _ => shuffle(random, &mut ids),
        }
        let last = ids.last().copied().unwrap_or(0);
        ids.resize(ids.len().next_multiple_of(4), last);
        ids
    }

    /// Puts one or more ids without a place first, last, in the middle or
    /// anywhere.
    fn spoil_entries(&mut self, random: &mut Random) {
        if random.percent(40) {
            let point = random.below(self.state.len());
            self.state[point] = random.pick(&BAD_CODES);
        }
        let without = self.ids(false);
        let length = self.rows.len();
        if length == 0 {
            return;
        }
        for _ in 0..random.pick(&[1, 1, 1, 2, 4]) {
            let anywhere = random.below(length);
            let index = random.pick(&[0, length / 2, length - 1, length - 1, anywhere]);
            self.rows[index] = self.without_place(random, &without);
        }
    }

    /// An id without a place: no id at all, a point whose code is not
    /// believable, a cut whose byte is not 0, or any other cut.
    fn without_place(&self, random: &mut Random, without: &[u32]) -> u32 {
        let n = self.state.len();
        let beyond = self.first_beyond();
        let is_point = |id: &u32| (*id as usize) < n;
        let is_cut = |id: &u32| !is_point(id) && self.cuts[*id as usize - n] != 0;
        let fitting: Vec<u32> = match random.below(5) {
            0 => vec![beyond, beyond + 1, random.bits() as u32 | 1 << 31, u32::MAX],
            1 | 2 => without.iter().copied().filter(is_point).collect(),
            3 => without.iter().copied().filter(is_cut).collect(),
            _ => without.to_vec(),
        };
        pick_or(random, &fitting, beyond)
    }

    /// Makes the cut table, the state table and the row table too long or too
    /// short, each this many times out of a hundred, the last more often as it is
    /// looked at last.
    fn spoil_lengths(&mut self, random: &mut Random, chance: usize) {
        let n = self.state.len();
        if random.percent(chance + chance / 2) {
            let whole = self.rows.len();
            let length = random.pick(&[whole + 1, whole + 2, whole + 3, whole.max(4) - 1]);
            self.rows.resize(length, random.bits() as u32);
        }
        if random.percent(chance) {
            let length = random.pick(&[0, 7 * n - 1, 7 * n + 1, n, 7 * n + 7, 8 * n]);
            self.cuts.resize(length, random.bits() as u8);
        }
        if random.percent(chance) {
            let length = random.pick(&[0, n - 1, n + 1, 7 * n]);
            self.state.resize(length, random.bits() as u8);
        }
    }

    /// Makes a size one that is not allowed, and mostly both tables as long as
    /// they would have to be if it were.
    fn spoil_size(&mut self, random: &mut Random) {
        let axis = random.below(3);
        if random.percent(40) {
            self.sizes[axis] = random.pick(&[255, 256, 1 << 16, 1 << 31, u32::MAX]);
            return;
        }
        self.sizes[axis] = random.pick(&[0, 65, 66]);
        let n = count_points(self.sizes);
        self.cuts.resize(7 * n, 128);
        self.state.resize(n, 0);
    }

    /// Makes the node table too short by one number, by one node or by more, or
    /// exact, or too long.
    fn draw_nodes(&mut self, random: &mut Random) {
        let exact = 4 * self.ids_in_use().len();
        let length = match random.below(12) {
            0 => exact.saturating_sub(1),
            1 => exact.saturating_sub(4),
            2 => 0,
            3 => random.below(exact + 1),
            4..8 => exact,
            8 => exact + 1,
            9 => exact + 4,
            _ => exact + random.between(2, 40) as usize,
        };
        self.set_node_length(random, length);
    }
}

/// One of the choices, or another number if there are none.
fn pick_or(random: &mut Random, choices: &[u32], other: u32) -> u32 {
    match choices {
        [] => other,
        _ => random.pick(choices),
    }
}

/// Puts the numbers into any order.
fn shuffle(random: &mut Random, numbers: &mut [u32]) {
    for n in (1..numbers.len()).rev() {
        numbers.swap(n, random.below(n + 1));
    }
}

#[cfg(test)]
mod tests {
    use super::*;
    use crate::nodes::nodes;
    use crate::shapes::solid;

    /// Filling leaves nothing but zeros in the state table of the solid block.
    fn call_without_marks() -> NodesCall {
        let call = NodesCall::of_block(&mut Random::new(0), solid(), 0, 0);
        assert!(call.state.iter().all(|&code| code == 0));
        call
    }

    /// Points in use that are marked by damage keep their places, so the answer
    /// is 0 unless a cut beside one is in use, and then it is 8.
    #[test]
    fn damage_marks_points_in_use_and_beside_cuts_in_use() {
        let good = call_without_marks();
        let mut random = Random::new(86);
        let mut seen = [0; 10];
        for _ in 0..10_000 {
            let mut call = good.clone();
            call.spoil_some_codes(&mut random);
            if call.state.iter().all(|&code| code == 0 || code == ON_SKIN) {
                let is_marked = call.state.contains(&ON_SKIN);
                let number = call.run(nodes).numbered.number;
                assert!(is_marked || number == refusal::NONE);
                seen[number as usize] += usize::from(is_marked);
            }
        }
        println!("{seen:?}");
        assert!(seen[0] > 80 && seen[8] > 1_000 && seen[9] == 0, "{seen:?}");
    }
}
