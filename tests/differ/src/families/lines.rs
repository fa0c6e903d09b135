//! The program `cases_test`, which reads case after case and prints a line for
//! each: runs and trees in turn, and input that ends early.

use super::checks::shown;
use super::program::bytes;
use super::trees::{self, asked};
use super::{runs, Tally};
use crate::build::{MAX, MIN};
use std::path::Path;

/// The words of a case, and its line.
type Case = (Vec<i32>, String);

fn runs() -> Vec<Case> {
    let given = runs::given();
    let drawn = runs::drawn(&given);
    let case = |run: &runs::Run| {
        let lengths = [run.table.len() as i32, run.schedule.len() as i32];
        let line = match run.wanted {
            Ok(state) => shown(&state.words()),
            Err((rule, place)) => format!("refused {rule} at {place}"),
        };
        ([&lengths[..], &run.table, &run.schedule].concat(), line)
    };
    given.iter().chain(&drawn).map(case).collect()
}

/// Lengths of a table and of a schedule; modes; lengths of nodes and of a row.
const PAST_LIMITS: [[i32; 4]; 16] = [
    [6001, 0, 0, 0],
    [MAX, 0, 0, 0],
    [0, 6001, 0, 0],
    [0, MAX, 0, 0],
    [0, -1, 0, 0],
    [0, MIN, 0, 0],
    [-5, 0, 0, 0],
    [MIN, 0, 0, 0],
    [-1, 0, 4097, 1],
    [-1, 0, MAX, 1],
    [-1, 0, -1, 1],
    [-1, 0, MIN, 1],
    [-1, 0, 4, 17],
    [-1, 0, 4, MAX],
    [-1, 0, 4, -1],
    [-1, 0, 4, MIN],
];

/// Input with some whole cases in front, and how many.
fn ends() -> Vec<(Vec<u8>, usize)> {
    let run = bytes(&[&[11, 0, 1, 1, 0, 1, 0, 1, 0, 0, 0, 0, 0]]);
    let tree = bytes(&[&[-1, 0, 4, 1, 0, 5, 0, 0, 3, 4]]);
    let mut cases = vec![(vec![], 0), ([&run[..], &tree].concat().repeat(3), 6)];
    for whole in [&run, &tree] {
        cases.extend([1, whole.len() - 1].map(|length| (whole[..length].to_vec(), 0)));
        let lengths = [1, 4, 7, 8, 12, 15, 16, whole.len() - 1];
        cases.extend(lengths.map(|length| ([&tree[..], &whole[..length]].concat(), 1)));
    }
    let zeros = vec![0; 18000];
    for head in PAST_LIMITS {
        cases.push(([run.clone(), bytes(&[&head, &zeros])].concat(), 1));
    }
    cases
}

pub fn run(bin: &Path, tally: &mut Tally) {
    let program = &bin.join("cases_test");
    let mut trees = trees::given().into_iter().cycle();
    let mut cases = Vec::new();
    for run in runs() {
        cases.extend([Some(run), trees.next()].into_iter().flatten());
    }
    let input = cases.iter().flat_map(|(words, _)| words).flat_map(|word| word.to_le_bytes());
    let printed = asked(program, input.collect());
    let mut lines = printed.lines();
    for (words, wanted) in &cases {
        let got = lines.next().unwrap_or("nothing");
        let found = if got == wanted { vec![] } else { vec![format!("{got}, not {wanted}")] };
        tally.count(if words[0] < 0 { "trees" } else { "runs" });
        tally.case(found, || shown(words));
    }
    for (input, wanted) in ends() {
        let (length, got) = (input.len(), asked(program, input).lines().count());
        let found = if got == wanted { vec![] } else { vec![format!("{got} lines, not {wanted}")] };
        tally.count("inputs that end early");
        tally.case(found, || format!("an input of {length} bytes"));
    }
}
