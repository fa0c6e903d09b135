//! The tower of `examples/`, from the words that `tools/tower encode` writes: its
//! verdicts and its runs, that no range of it can be narrower, that the fault of
//! `wrong.txt` is the one that is told, and that the alarm of `ring.txt` has no
//! cause.

use super::checks::Check;
use super::runs::Run;
use super::trees::{asked, operands};
use super::Tally;
use crate::answers::Answer;
use crate::build::{end, raw, table, Point, Tree, MAX, MIN};
use peer::analysis::{arithmetic, narrow, Raised, Silent};
use peer::check::Proposal;
use peer::interval::Interval;
use peer::table::{Point as Step, Table};
use peer::words::ALARM_WORDS;
use rangecheck::STATE_WORDS;
use std::collections::BTreeSet;
use std::fmt::Debug;
use std::path::Path;
use std::process::Command;

/// The texts, the lines that the printing program gives, and where each of the
/// four tasks stops: its node and its kind. Where there is no task, both are 0.
const TEXTS: [(&str, &str, [(i64, i64); 4]); 4] = [
    (TOWER, "accepted 2;node 29 overflow;node 40 zero", [(-1, 0), (29, 1), (-1, 0), (40, 2)]),
    (WRONG, "refused 14 write at 19", [(15, 2), (-1, 0), (-1, 0), (-1, 0)]),
    (RING, "accepted 1;node 7 overflow", [(-1, 0), (0, 0), (0, 0), (0, 0)]),
    (BOARD, "accepted 1;node 11 zero", [(11, 2), (0, 0), (0, 0), (0, 0)]),
];
const TOWER: &str = "tower.txt";
const WRONG: &str = "wrong.txt";
const RING: &str = "ring.txt";
const BOARD: &str = "board.txt";

/// A whole turn.
const TURN: i32 = 1_000_000_000;

pub fn run(bin: &Path, tally: &mut Tally) {
    for (name, answer, stops) in TEXTS {
        verdict(bin, tally, name, answer);
        last_state(bin, tally, name, stops);
    }
    narrowest(tally, TOWER);
    narrowest(tally, RING);
    narrowest(tally, BOARD);
    locks_and_ways(tally);
    one_rule(tally);
    no_cause(tally);
}

/// A table and a proposal or a schedule, and the bytes that they came in.
struct Given {
    table: Vec<i32>,
    other: Vec<i32>,
    bytes: Vec<u8>,
}

fn encoded(options: &[&str], name: &str) -> Given {
    let root = concat!(env!("CARGO_MANIFEST_DIR"), "/../..");
    let text = format!("{root}/examples/tower/{name}");
    let ran = Command::new(format!("{root}/tools/tower")).arg("encode").args(options).arg(text).output();
    let ran = ran.unwrap_or_else(|error| panic!("tools/tower: {error}"));
    assert!(ran.status.success(), "tools/tower: {}", String::from_utf8_lossy(&ran.stderr));
    let words: Vec<i32> =
        ran.stdout.as_chunks().0.iter().map(|word| i32::from_le_bytes(*word)).collect();
    let (table, other) = words[2..].split_at(words[0] as usize);
    Given { table: table.to_vec(), other: other.to_vec(), bytes: ran.stdout }
}

/// Counts a case of that sort, which is right if both are the same.
fn compare<T: PartialEq + Debug>(tally: &mut Tally, sort: &str, on: &str, got: T, want: T) {
    let found = if got == want { vec![] } else { vec![format!("{got:?}, not {want:?}")] };
    tally.count(sort);
    tally.case(found, || on.to_string());
}

fn verdict(bin: &Path, tally: &mut Tally, name: &str, answer: &str) {
    let given = encoded(&[], name);
    let check = Check::new(given.table, given.other, answer);
    tally.count("verdicts");
    tally.case(check.differences(ALARM_WORDS), || name.to_string());
    let printed = asked(&bin.join("rangecheck"), given.bytes);
    let lines = answer.replace(';', "\n") + "\n";
    compare(tally, "verdicts", &format!("{name}, printed"), printed, lines);
}

fn last_state(bin: &Path, tally: &mut Tally, name: &str, stops: [(i64, i64); 4]) {
    let given = encoded(&["--run"], name);
    let run = Run::by_peer(given.table, given.other);
    tally.count("runs");
    tally.case(run.differences(STATE_WORDS), || name.to_string());
    let state = Answer::run(&run.table, &run.schedule, STATE_WORDS);
    let words = state.slice();
    let stopped = std::array::from_fn(|task| (words[32 + task], words[40 + task]));
    compare(tally, "runs", &format!("where the tasks of {name} stop"), stopped, stops);
    let line = words.iter().map(i64::to_string).collect::<Vec<_>>().join(" ") + "\n";
    let printed = asked(&bin.join("cases_test"), given.bytes);
    compare(tally, "runs", &format!("{name}, printed"), printed, line);
}

/// The refusal's number, by the library and by the peer alike, or 0.
fn refused(table: &[i32], proposal: &[i32]) -> (u32, u32) {
    let number = |answer: Answer<i32>| answer.said.map_or_else(|refusal| refusal.number, |_| 0);
    let check = Answer::check(table, proposal, ALARM_WORDS);
    (number(check), number(Answer::check_by_peer(table, proposal, ALARM_WORDS)))
}

/// With any end moved inwards by one, or any held word changed, it is refused.
fn narrowest(tally: &mut Tally, name: &str) {
    let Given { table, other: proposal, .. } = encoded(&[], name);
    let heads = 4 + proposal[0] as usize;
    let lows = heads + 3 * proposal[3] as usize;
    let highs = (lows + proposal.len()) / 2;
    for at in (4..heads).chain(lows..proposal.len()) {
        let mut moved = proposal.clone();
        moved[at] += if at < highs { 1 } else { -1 };
        let (library, peer) = refused(&table, &moved);
        let on = format!("{name} with word {at} moved: {library} and {peer}");
        compare(tally, "words moved", &on, (library != 0, peer), (true, library));
    }
}

/// Two tasks hold both locks somewhere; each point is reached, and each way on
/// is possible.
fn locks_and_ways(tally: &mut Tally) {
    let given = encoded(&[], TOWER);
    let table = Table::decode(&given.table).expect("a valid table");
    let proposal = Proposal::decode(&given.other, &table).expect("a fitting proposal");
    let owners: Vec<usize> =
        (0..table.tasks).flat_map(|task| table.points_of(task).map(move |_| task)).collect();
    let both = (0..owners.len()).filter(|&point| proposal.held[point] == 3);
    let both: BTreeSet<usize> = both.map(|point| owners[point]).collect();
    compare(tally, "locks and ways", "tasks that hold both locks", both, BTreeSet::from([0, 2]));
    for point in 0..owners.len() {
        let wanted = match table.points[point] {
            Step::End => 0,
            Step::Test { .. } => 2,
            _ => 1,
        };
        let on = format!("the ways of point {point}");
        compare(tally, "locks and ways", &on, ways(&table, &proposal, point), wanted);
    }
}

/// How many outcomes a point has, by the peer's analysis.
fn ways(table: &Table, proposal: &Proposal, point: usize) -> usize {
    let held = proposal.held[point];
    let mut row = proposal.row(point).row();
    if held == -1 {
        return 0;
    }
    let holds = |mutex: u8| held >> mutex & 1 == 1;
    match table.points[point] {
        Step::End => 0,
        Step::Assign { node, .. } => {
            usize::from(arithmetic(&table.nodes, node, &row, &mut Silent).is_some())
        }
        Step::Test { condition, .. } => {
            let possible = |&wanted: &bool| {
                let mut row = row;
                narrow(&table.nodes, condition, wanted, &mut row)
            };
            [true, false].iter().filter(|wanted| possible(wanted)).count()
        }
        Step::Lock { mutex, .. } => {
            usize::from(!holds(mutex) && row.meet(proposal.rest(usize::from(mutex))))
        }
        Step::Unlock { mutex, .. } => usize::from(holds(mutex)),
    }
}

/// The fault of `wrong.txt` breaks no other rule: without the writes that have
/// no entry, it is accepted, and what 9 to 13, 15 and 16 ask of it is the same.
/// The node at which its run stops is one that the alarm list leaves out.
fn one_rule(tally: &mut Tally) {
    let Given { table: mut words, other: proposal, .. } = encoded(&[], WRONG);
    let decoded = Table::decode(&words).expect("a valid table");
    let rows = Proposal::decode(&proposal, &decoded).expect("a fitting proposal");
    let mut raised = Raised::default();
    let value = arithmetic(&decoded.nodes, 15, &rows.row(6).row(), &mut raised);
    let on = "60 / doors by the row of wrong.txt";
    compare(tally, "the fault", on, (value, raised.count()), (Interval::new(5, 60), 0));
    let mut ended = Vec::new();
    let list = loop {
        let answer = Answer::check(&words, &proposal, ALARM_WORDS);
        match answer.said {
            Err(refusal) if refusal.number == 14 => {
                ended.push(refusal.place);
                words = without(&words, refusal.place as usize);
            }
            Err(refusal) => break Err(refusal.number),
            Ok(count) => break Ok(answer.slice()[..2 * count].to_vec()),
        }
    };
    let on = format!("{WRONG} without the writes at {ended:?}");
    compare(tally, "the fault", &on, refused(&words, &proposal), (0, 0));
    let listed = list.is_ok_and(|list| list.chunks(2).all(|alarm| alarm[0] != 15));
    compare(tally, "the fault", &format!("{on}, its list"), listed, true);
}

/// By quotient and product the position is the one by remainder, and nothing
/// stops, whatever the offset is: what the check lists there has no cause.
fn no_cause(tally: &mut Tally) {
    let table = encoded(&[], RING).table;
    let turns = [-2 * TURN, -TURN, 0, TURN, 2 * TURN];
    let near = turns.into_iter().flat_map(|turn| turn - 1..=turn + 1);
    for offset in near.chain([MIN, MIN + 1, MAX - 1, MAX]) {
        let state = Answer::run(&table, &[0, offset, 0, 0], STATE_WORDS);
        let words = state.slice();
        let position = i64::from(offset % TURN);
        let on = format!("{RING} at {offset}");
        let got = (words[9], words[10], words[40]);
        compare(tally, "positions", &on, got, (position, position, 0));
    }
}

/// A table with a point in the place of which its task ends.
fn without(words: &[i32], point: usize) -> Vec<i32> {
    let (tasks, variables) = (words[0] as usize, words[1] as usize);
    let (shares, rest) = words[5..].split_at(tasks);
    let (starts, rest) = rest.split_at(variables);
    let (points, nodes) = rest.as_chunks().0.split_at(words[3] as usize);
    let mut points: Vec<Point> = points.iter().map(|quad| point_of(quad, nodes)).collect();
    points[point] = end();
    table(shares, starts, words[2], &points)
}

fn point_of(quad: &[i32; 4], nodes: &[[i32; 4]]) -> Point {
    let [kind, a, b, c] = *quad;
    match kind {
        1 => raw(1, [a.into(), tree_of(b, nodes).into(), c.into()]),
        2 => raw(2, [tree_of(a, nodes).into(), b.into(), c.into()]),
        _ => raw(kind, [a.into(), b.into(), c.into()]),
    }
}

fn tree_of(node: i32, nodes: &[[i32; 4]]) -> Tree {
    let [kind, fields @ ..] = nodes[node as usize];
    let children = operands(kind).len();
    let field = |(at, word): (usize, i32)| {
        if at < children {
            tree_of(word, nodes).into()
        } else {
            word.into()
        }
    };
    raw(kind, fields.into_iter().enumerate().map(field))
}
