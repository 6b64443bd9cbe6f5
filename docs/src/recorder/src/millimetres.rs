//! The text of crates/casebook/specs/cases/Millimetres.antt: document 02's
//! request F-1 on the given case. Units and coordinates are bit patterns, and
//! the answers those of the reference's way without floats.

use crate::BAND;
use reference::block::Block;
use reference::blockfile::fill_block;
use reference::metric::place_mm_plain;
use reference::state::ON_SKIN;

/// A question after filling: a state byte that is set (to itself, where
/// nothing is to change), an id and a unit.
struct Question {
    entry: (usize, u8),
    id: u32,
    unit: f64,
}

/// The whole file.
pub fn file() -> String {
    let block = Block::given_case();
    let state = fill_block(&block, BAND).state;
    let entries = questions()
        .iter()
        .map(|question| recorded(&block, &state, question))
        .collect::<Vec<_>>();
    let mut text = String::from(HEAD);
    for (index, [comment, entry]) in entries.iter().enumerate() {
        let joint = if index == 0 { "" } else { "∷ " };
        text += &format!("    {comment}\n    {joint}{entry}\n");
    }
    text + "    ∷ []\n"
}

/// The first row's corners, then the ends of the unit's range, then refusals
/// that come before 13, and a point with the mark, to which 13 comes.
fn questions() -> Vec<Question> {
    let ask = |id: u32, unit: f64| Question {
        entry: (0, 0),
        id,
        unit,
    };
    let corners = [13, 65, 235, 227].into_iter();
    let mut list: Vec<Question> = corners
        .flat_map(|id| [1.0, 1.0 / 512.0, 0.1].map(|unit| ask(id, unit)))
        .collect();
    let [least, most] = [1.0 / 1_048_576.0, 16.0f64];
    let ends = [
        least,
        least.next_down(),
        most,
        most.next_up(),
        0.0,
        -0.0,
        -1.0,
    ];
    let strange = [
        f64::from_bits(1),
        f64::MAX,
        f64::INFINITY,
        f64::NEG_INFINITY,
        f64::NAN,
    ];
    list.extend(ends.into_iter().chain(strange).map(|unit| ask(13, unit)));
    list.push(ask(280, 0.0));
    for code in [ON_SKIN, ON_SKIN + 1] {
        for unit in [1.0, f64::NAN] {
            list.push(Question {
                entry: (13, code),
                id: 13,
                unit,
            });
        }
    }
    list
}

/// The answer in decimals, and the entry of the list.
fn recorded(block: &Block, state: &[u8], question: &Question) -> [String; 2] {
    let [nx, ny, nz] = block.sizes;
    let Question {
        entry: (point, code),
        id,
        unit,
    } = *question;
    let mut state = state.to_vec();
    state[point] = code;
    let (number, bits) = place_mm_plain(nx, ny, nz, &block.cuts, &state, id, unit.to_bits());
    let [x, y, z] = bits.map(f64::from_bits);
    let [unit_bits, i, j, k] =
        [unit.to_bits(), bits[0], bits[1], bits[2]].map(|bits| format!("{bits:#x}"));
    [
        format!("-- id {id}, unit {unit:?}: {number}, ({x:?}, {y:?}, {z:?})"),
        format!("ask ({point} := {code}) {id} {unit_bits} {number} {i} {j} {k}"),
    ]
}

const HEAD: &str = "\
-- Document 02, F-1: corners of the first row of document 01's given case, in millimetres, at units 1, 1/512 and 0.1; the ends of the
-- unit's range; refusals that come before 13. Written by docs/src/recorder from the reference in docs/src/reference; the theorem is
-- `millimetres_come_out` in proofs/Millimetres.antt.
use Rattle.std.specs.Prelude.{List, [], ◌∷◌}
use Rattle.basics.specs.cases.Table.{◌:=◌}
use Rattle.casebook.specs.cases.Metric.{Question, ask}

unfoldable pub millimetres : List Question
millimetres =
";
