//! The text of crates/casebook/specs/cases/Blocks.antt.

use crate::{Question, LENT_ROW, LENT_STATE};
use reference::damage::{Call, Outcome};

/// The longest line.
const WIDTH: usize = 138;

/// The whole file.
pub fn file(examples: &[String]) -> String {
    let names: Vec<String> = (1..=examples.len()).map(|n| format!("e{n}")).collect();
    let mut text = String::from(HEAD);
    for (name, example) in names.iter().zip(examples) {
        let comment = example.lines().next().unwrap_or_default();
        let body = &example[comment.len() + 1..];
        text += &format!("-- {comment}\nabbrev pub {name} : Example\n{name} =\n{body}\n");
    }
    text += "unfoldable pub examples : List Example\nexamples =\n";
    text += &wrapped(&names, 4);
    text + "\n"
}

/// A title, then the example as a record.
pub fn example(title: &str, call: &Call, outcome: &Outcome, questions: &[Question]) -> String {
    let [nx, ny, nz] = call.block.sizes;
    let answer = outcome.filled;
    let written = outcome.rows.iter().position(|&id| id == LENT_ROW);
    let ids = &outcome.rows[..written.unwrap_or(outcome.rows.len())];
    let lent = outcome.state.iter().all(|&code| code == LENT_STATE);
    let state = if lent {
        "      state = as_lent;\n".to_string()
    } else {
        field(
            "state",
            "codes ",
            &entries(outcome.state.iter().map(|&code| code.into())),
        )
    };
    let mut text = format!("{title}\n    record {{\n");
    text += &format!("      sizes = record {{ nx = {nx}; ny = {ny}; nz = {nz} }};\n");
    text += &field("samples", "", &samples(&call.block.samples));
    text += &format!("      cuts_length = {};\n", call.block.cuts.len());
    text += &field(
        "cuts",
        "",
        &entries(call.block.cuts.iter().map(|&t| t.into())),
    );
    text += &format!("      state_length = {};\n", call.state_length);
    text += &format!("      rows_length = {};\n", call.row_length);
    text += &format!(
        "      answer = record {{ number = {}; rows = {}; moved = {}; place = {} }};\n",
        answer.number, answer.rows, answer.moved, answer.place
    );
    text += &state;
    text += &field(
        "ids",
        "",
        &ids.iter().map(u32::to_string).collect::<Vec<_>>(),
    );
    text += &field(
        "questions",
        "",
        &questions.iter().map(question).collect::<Vec<_>>(),
    );
    text + "    }\n"
}

fn samples(samples: &[i16]) -> Vec<String> {
    let sign = |sample: &i16| if *sample < 0 { "neg" } else { "pos" };
    let text = |sample: &i16| format!("{} {}", sign(sample), sample.unsigned_abs());
    samples.iter().map(text).collect()
}

/// The entries of a table that are not 0.
fn entries(table: impl Iterator<Item = u32>) -> Vec<String> {
    let listed = table.enumerate().filter(|&(_, value)| value != 0);
    listed
        .map(|(index, value)| format!("{index} := {value}"))
        .collect()
}

fn question(q: &Question) -> String {
    let p = q.answer;
    format!(
        "ask ({} := {}) {} {} {} {} {}",
        q.point, q.code, q.id, p.number, p.x, p.y, p.z
    )
}

fn field(name: &str, before: &str, items: &[String]) -> String {
    if items.is_empty() {
        return format!("      {name} = {before}[];\n");
    }
    let list = wrapped(items, 10);
    format!(
        "      {name} =\n          {before}({});\n",
        list.trim_start()
    )
}

/// A list over as many lines as it takes.
fn wrapped(items: &[String], indent: usize) -> String {
    let mut lines = vec![String::new()];
    for word in items
        .iter()
        .map(|item| format!("{item} ∷ "))
        .chain(["[]".to_string()])
    {
        let line = lines.last_mut().expect("a line");
        if indent + line.chars().count() + word.chars().count() > WIDTH {
            lines.push(word);
        } else {
            line.push_str(&word);
        }
    }
    let lines = lines
        .iter()
        .map(|line| format!("{}{}", " ".repeat(indent), line.trim_end()));
    lines.collect::<Vec<_>>().join("\n")
}

const HEAD: &str = "\
-- Blocks that separate software filled too, with all that it answered and wrote. Written by docs/src/recorder from the reference in
-- docs/src/reference, which says how labels and cut bytes are mixed (generate.rs); the theorem is `agrees` in proofs/Agree.antt.
use Rattle.std.specs.Prelude.{List, [], ◌∷◌, pos}
use Rattle.basics.specs.cases.Table.{◌:=◌}
use Rattle.casebook.specs.cases.Lent.{as_lent, codes}
use Rattle.casebook.specs.cases.Example.{Example, neg, ask}

";
