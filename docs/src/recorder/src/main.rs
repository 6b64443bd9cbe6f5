//! Writes calls of filling and of the place of an id, each with what the
//! reference answers and leaves in the lent tables, to standard output: as
//! crates/casebook/specs/cases/Blocks.antt with the argument `blocks`, and as
//! crates/cases/stdin, many more of them and of the reader too, with `cases`;
//! with `millimetres` crates/casebook/specs/cases/Millimetres.antt. And a week
//! of block files, crates/report/stdin, with `week`, and what the report of them
//! must say, crates/report/stdout, with `week-report`.

mod antt;
mod calls;
mod millimetres;
mod records;
mod week;

use reference::damage::{Call, Outcome};
use reference::place::{place, Placed};
use reference::state::{is_move, ON_SKIN};
use reference::{fill, plain};
use std::io::Write;

/// The band of every recorded filling: document 02 has the programs use 0.
const BAND: u32 = 0;

/// What the lent tables hold before a call.
const LENT_STATE: u8 = 99;
const LENT_ROW: u32 = 999_999;

/// One question for the place call, after filling and with one state byte
/// changed (to itself, where nothing is to change).
pub struct Question {
    point: usize,
    code: u8,
    id: u32,
    answer: Placed,
}

fn main() -> std::io::Result<()> {
    let bytes = match std::env::args().nth(1).as_deref() {
        Some("blocks") => written().into_bytes(),
        Some("cases") => records::file(),
        Some("millimetres") => millimetres::file().into_bytes(),
        Some("week") => week::files(),
        Some("week-report") => week::report(),
        _ => panic!("blocks, cases, millimetres, week or week-report?"),
    };
    std::io::stdout().write_all(&bytes)
}

/// The whole file.
fn written() -> String {
    let example = |(title, call): &(String, Call)| {
        let outcome = run(call, LENT_STATE, LENT_ROW);
        let questions = questions(call, &outcome.state);
        antt::example(title, call, &outcome, &questions)
    };
    let examples: Vec<String> = calls::all().iter().map(example).collect();
    antt::file(&examples)
}

/// Makes the call with both fillings of the reference, which must agree.
fn run(call: &Call, lent_state: u8, lent_row: u32) -> Outcome {
    assert_eq!(call.band, BAND, "no record holds a band");
    let [nx, ny, nz] = call.block.sizes;
    let (samples, cuts) = (&call.block.samples, &call.block.cuts);
    let [fast, plain] = [fill::fill, plain::fill].map(|filling| {
        let mut state = vec![lent_state; call.state_length];
        let mut rows = vec![lent_row; call.row_length];
        let filled = filling(nx, ny, nz, call.band, samples, cuts, &mut state, &mut rows);
        Outcome {
            filled,
            state,
            rows,
        }
    });
    assert_eq!(fast, plain);
    plain
}

/// The first id of each kind: a point that moved, one that lies on the skin
/// unmoved, any other, a cut, a cut with an end of label zero, a byte that is
/// zero, the first id that is none; then state bytes put in by hand: the mark,
/// one above it, and codes that are mostly not believable.
fn questions(call: &Call, state: &[u8]) -> Vec<Question> {
    let n = state.len();
    if n == 0 || n != call.block.samples.len() || call.block.cuts.len() != 7 * n {
        return vec![ask(call, state, 0, None)];
    }
    let cuts = &call.block.cuts;
    let first_point = |test: &dyn Fn(usize) -> bool| (0..n).find(|&p| test(p));
    let moved = first_point(&|p| is_move(state[p]));
    let marked = first_point(&|p| state[p] == ON_SKIN);
    let still = first_point(&|p| state[p] == 0);
    let cut_ids = (n..8 * n).filter(|id| cuts[id - n] != 0);
    let answers: Vec<Question> = cut_ids.map(|id| ask(call, state, id, None)).collect();
    let numbers = |number: u32| answers.iter().find(move |q| q.answer.number == number);
    let cut = numbers(0).map(|q| q.id as usize);
    let dead = numbers(8).map(|q| q.id as usize);
    let gap = (n..8 * n).find(|id| cuts[id - n] == 0);
    let ids = [moved, marked, still, cut, dead, gap, Some(8 * n)];
    let mut list: Vec<Question> = ids
        .into_iter()
        .flatten()
        .map(|id| ask(call, state, id, None))
        .collect();
    let middle = n / 2;
    for code in [ON_SKIN, ON_SKIN + 1, 1, 4, 8, 14] {
        list.push(ask(call, state, middle, Some((middle, code))));
    }
    list
}

fn ask(call: &Call, state: &[u8], id: usize, change: Option<(usize, u8)>) -> Question {
    let [nx, ny, nz] = call.block.sizes;
    let mut state = state.to_vec();
    let (point, code) = change.unwrap_or((0, state.first().copied().unwrap_or(0)));
    if let Some(byte) = state.get_mut(point) {
        *byte = code;
    }
    let id = id as u32;
    let answer = place(nx, ny, nz, &call.block.cuts, &state, id);
    Question {
        point,
        code,
        id,
        answer,
    }
}

#[cfg(test)]
mod tests {
    use super::*;

    #[test]
    fn the_cases_are_what_this_writes() {
        let file = include_bytes!("../../../../crates/cases/stdin");
        assert!(file[..] == records::file(), "write crates/cases/stdin anew");
    }

    #[test]
    fn the_week_is_what_this_writes() {
        let files = include_bytes!("../../../../crates/report/stdin");
        assert!(files[..] == week::files(), "write crates/report/stdin anew");
        let report = include_bytes!("../../../../crates/report/stdout");
        assert!(
            report[..] == week::report(),
            "write crates/report/stdout anew"
        );
    }

    #[test]
    fn the_millimetres_are_what_this_writes() {
        let file = include_str!("../../../../crates/casebook/specs/cases/Millimetres.antt");
        assert!(
            file == millimetres::file(),
            "write crates/casebook/specs/cases/Millimetres.antt anew"
        );
    }

    #[test]
    fn the_file_is_what_this_writes() {
        let file = include_str!("../../../../crates/casebook/specs/cases/Blocks.antt");
        assert!(
            file == written(),
            "write crates/casebook/specs/cases/Blocks.antt anew"
        );
    }
}
