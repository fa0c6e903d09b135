//! Trees on rows, through the program `cases_test`: the value of arithmetic,
//! the decision of a condition, their alarms, and the row that is left where
//! the condition is wanted true or false.

mod by_hand;
pub mod drawn;

use super::choices::{branches, LEAST};
use super::Tally;
use crate::build::{flatten, table_of_nodes, Ends, Tree};
use peer::analysis::{arithmetic, condition, narrow, Ends as Lent, Raised};
use peer::table::{Node, Table};
use std::io::Write;
use std::path::Path;
use std::process::{Command, Stdio};

#[derive(Clone, Copy, PartialEq, Eq)]
pub enum Mode {
    Value,
    Decision,
    /// By the condition, wanted true or false.
    Narrowed(bool),
}

/// What is asked of a node on a row, and the line that is printed of it, if
/// somebody wrote it out.
pub struct Case {
    pub mode: Mode,
    pub node: i32,
    pub nodes: Vec<[i32; 4]>,
    pub row: Vec<Ends>,
    pub answer: Option<String>,
}

/// What is said of a case whose row has ends in the wrong order.
pub const WITH_NONE: &str = " with a variable that is none";

pub fn run(bin: &Path, tally: &mut Tally) {
    let mut cases = by_hand::cases();
    cases.extend(drawn::cases(24_000, 20261116));
    cases.extend(drawn::choices(36_000, 20261121));
    let lines = answers(bin, tally, &cases.iter().collect::<Vec<_>>());
    for (case, line) in cases.iter().zip(&lines) {
        tally.count(case.sort());
        if case.answer.is_none() {
            case.reached().into_iter().for_each(|name| tally.count(name));
        }
        tally.case(case.differences(line), || format!("{:?}", case.words()));
    }
    for mode in ["value", "decision", "narrowed no", "narrowed yes"] {
        tally.expect(&format!("{mode}{WITH_NONE}"), 1);
    }
    for name in branches::names() {
        tally.expect(name, LEAST);
    }
}

/// The cases whose answers are written out: their words and their lines.
pub fn given() -> Vec<(Vec<i32>, String)> {
    by_hand::cases().into_iter().filter_map(|case| Some((case.words(), case.answer?))).collect()
}

/// The line that the program `cases_test` prints of each case. One more than
/// there are cases is wrong.
pub fn answers(bin: &Path, tally: &mut Tally, cases: &[&Case]) -> Vec<String> {
    let words = cases.iter().flat_map(|case| case.words());
    let printed = asked(&bin.join("cases_test"), words.flat_map(i32::to_le_bytes).collect());
    let mut lines: Vec<String> = printed.lines().map(str::to_string).collect();
    if let Some(line) = lines.get(cases.len()) {
        tally.case(vec![format!("printed once more: {line}")], || "all cases".to_string());
    }
    lines.resize(cases.len(), "nothing".to_string());
    lines
}

/// What a program prints of its input. A program may answer before it has read
/// all, so that the input is handed over by a thread of its own.
pub fn asked(program: &Path, bytes: Vec<u8>) -> String {
    let started = Command::new(program).stdin(Stdio::piped()).stdout(Stdio::piped()).spawn();
    let mut process = started.unwrap_or_else(|error| panic!("{}: {error}", program.display()));
    let mut input = process.stdin.take().expect("a pipe");
    let handing = std::thread::spawn(move || input.write_all(&bytes));
    let output = process.wait_with_output().expect("its output");
    // Whether it has read all shows in what it prints.
    let _ = handing.join().expect("the thread ends");
    assert!(output.status.success(), "{}: {}", program.display(), output.status);
    String::from_utf8(output.stdout).expect("text")
}

impl Case {
    pub fn of(mode: Mode, tree: &Tree, row: &[Ends], answer: Option<String>) -> Case {
        let mut nodes = Vec::new();
        let node = flatten(tree, &mut nodes);
        Case { mode, node, nodes, row: row.to_vec(), answer }
    }

    fn lows(&self) -> Vec<i32> {
        self.row.iter().map(|&(low, _)| low).collect()
    }

    fn highs(&self) -> Vec<i32> {
        self.row.iter().map(|&(_, high)| high).collect()
    }

    /// As the program reads it.
    pub fn words(&self) -> Vec<i32> {
        let mode = match self.mode {
            Mode::Value => 0,
            Mode::Decision => 1,
            Mode::Narrowed(wanted) => 2 + i32::from(wanted),
        };
        let sizes = [4 * self.nodes.len() as i32, self.row.len() as i32];
        let head = [-1 - mode, self.node];
        [&head[..], &sizes, self.nodes.as_flattened(), &self.lows(), &self.highs()].concat()
    }

    pub fn sort(&self) -> String {
        let inverted = self.row.iter().any(|(low, high)| low > high);
        let mode = match self.mode {
            Mode::Value => "value",
            Mode::Decision => "decision",
            Mode::Narrowed(false) => "narrowed no",
            Mode::Narrowed(true) => "narrowed yes",
        };
        format!("{mode}{}", if inverted { WITH_NONE } else { "" })
    }

    /// How the program's line and the peer's differ from the answer, or from
    /// each other.
    pub fn differences(&self, line: &str) -> Vec<String> {
        let by_peer = self.by_peer();
        let wanted = self.answer.as_ref().unwrap_or(&by_peer);
        let said = [("the program", line), ("the peer", &by_peer)];
        let wrong = said.iter().filter(|(_, said)| said != wanted);
        wrong.map(|(who, said)| format!("{who}: {said}, not {wanted}")).collect()
    }

    /// What its choices come to, by the peer's analysis.
    fn reached(&self) -> Vec<&'static str> {
        let row = Lent { lows: &self.lows(), highs: &self.highs() }.row();
        branches::reached(&decoded(&self.nodes), self.node as u16, &row)
    }

    /// The line that the peer's analysis gives.
    pub fn by_peer(&self) -> String {
        let (nodes, node) = (decoded(&self.nodes), self.node as u16);
        let (lows, highs) = (self.lows(), self.highs());
        let mut row = Lent { lows: &lows, highs: &highs }.row();
        let mut raised = Raised::default();
        let said = match self.mode {
            Mode::Value => match arithmetic(&nodes, node, &row, &mut raised) {
                Some(interval) => format!("value {} {}", interval.low(), interval.high()),
                None => "value none".to_string(),
            },
            Mode::Decision => {
                let truth = condition(&nodes, node, &row, &mut raised);
                let (yes, no) = truth.map_or((false, false), |truth| (truth.yes, truth.no));
                format!("decision {} {}", u8::from(yes), u8::from(no))
            }
            Mode::Narrowed(wanted) if narrow(&nodes, node, wanted, &mut row) => {
                let ends = row.ends().lows.iter().zip(row.ends().highs).take(self.row.len());
                ends.fold("row".to_string(), |line, (low, high)| format!("{line} {low} {high}"))
            }
            Mode::Narrowed(_) => "row none".to_string(),
        };
        raised.pairs().fold(said, |line, [node, kind]| format!("{line} alarm {node} {kind}"))
    }
}

/// The nodes as the peer has them, of a table in which each that is no child is
/// a point's, so that each is used once. It has all variables, since a formula
/// may read past the row.
pub fn decoded(nodes: &[[i32; 4]]) -> Vec<Node> {
    let mut child = vec![false; nodes.len()];
    for node in nodes {
        for &field in &node[1..=operands(node[0]).len()] {
            child[field as usize] = true;
        }
    }
    let point = |node: usize| match nodes[node][0] {
        0..16 => [1, 0, node as i32, 0],
        _ => [2, node as i32, 0, 0],
    };
    let tops = (0..child.len()).filter(|&node| !child[node]);
    let points: Vec<[i32; 4]> = tops.map(point).collect();
    let words = table_of_nodes(&[points.len() as i32], &[0; 16], 0, &points, nodes);
    Table::decode(&words).expect("a valid table").nodes
}

#[derive(Clone, Copy, PartialEq, Eq)]
pub enum Sort {
    Arithmetic,
    Condition,
}

/// What the children of a node are, by its kind.
pub fn operands(kind: i32) -> &'static [Sort] {
    use Sort::{Arithmetic, Condition};
    match kind {
        3 => &[Arithmetic],
        4..=7 | 9 | 16..=19 => &[Arithmetic, Arithmetic],
        8 => &[Condition, Arithmetic, Arithmetic],
        20 | 21 => &[Condition, Condition],
        22 => &[Condition],
        _ => &[],
    }
}
