//! Checks of which one size grows while the others stay: how the time grows with
//! the points, the entries, the nodes and the depth of a formula.

use crate::inputs::{Check, Pair};
use std::collections::VecDeque;

const VARIABLES: usize = 16;
const TASKS: usize = 8;

const ANY: [i32; 2] = [i32::MIN, i32::MAX];
const NARROW: [i32; 2] = [-9, 9];

/// The end of a task, which every point of these tables could be.
const END: [i32; 4] = [0; 4];

/// A table and a proposal, as they are put together.
struct Case {
    shares: Vec<i32>,
    mutexes: usize,
    points: Vec<[i32; 4]>,
    nodes: Vec<[i32; 4]>,
    held: Vec<i32>,
    heads: Vec<[i32; 3]>,
    /// The interval of each variable where a mutex is held, and in the rest rows.
    /// Where none is held it is any.
    row: [i32; 2],
    /// That of each entry.
    entry: [i32; 2],
}

impl Case {
    /// Tasks that end at their only point, with wide rows and nothing written.
    fn ended(tasks: usize) -> Case {
        Case {
            shares: vec![1; tasks],
            mutexes: 0,
            points: vec![END; tasks],
            nodes: vec![],
            held: vec![0; tasks],
            heads: vec![],
            row: ANY,
            entry: NARROW,
        }
    }

    fn pair(&self) -> Pair {
        let counts = [self.shares.len(), VARIABLES, self.mutexes, self.points.len()];
        let sizes: Vec<i32> = counts.iter().chain(&[self.nodes.len()]).map(|&n| n as i32).collect();
        let (points, nodes) = (self.points.as_flattened(), self.nodes.as_flattened());
        let table = [&sizes, &self.shares[..], &[0; VARIABLES], points, nodes].concat();

        let rests = vec![self.row; self.mutexes];
        let rows = self.held.iter().map(|&held| if held == 0 { ANY } else { self.row });
        let rows = rows.chain(rests).flat_map(|row| [row; VARIABLES]);
        let ends: Vec<[i32; 2]> = rows.chain(self.heads.iter().map(|_| self.entry)).collect();
        let sizes = [counts[3], VARIABLES, self.mutexes, self.heads.len()].map(|n| n as i32);
        let heads = self.heads.as_flattened();
        let mut proposal = [&sizes, &self.held[..], heads].concat();
        proposal.extend(ends.iter().map(|end| end[0]));
        proposal.extend(ends.iter().map(|end| end[1]));
        (table, proposal)
    }

    fn check(&self, name: String) -> Check {
        Check { name, pairs: vec![self.pair()] }
    }
}

/// One task that locks and unlocks a mutex in turns.
fn points(count: usize) -> Check {
    let last = count as i32 - 1;
    let point = |p: i32| if p == last { END } else { [3 + p % 2, 0, p + 1, 0] };
    let case = Case {
        shares: vec![count as i32],
        mutexes: 1,
        points: (0..=last).map(point).collect(),
        held: (0..=last).map(|p| p % 2).collect(),
        ..Case::ended(1)
    };
    case.check(format!("{count} points"))
}

/// The first of all heads that tasks, two mutexes and the variables allow.
fn heads(count: usize) -> Vec<[i32; 3]> {
    let all = (0..TASKS as i32)
        .flat_map(|u| (0..4).flat_map(move |s| (0..VARIABLES as i32).map(move |v| [u, s, v])));
    all.take(count).collect()
}

/// Entries that every row holds.
fn entries(count: usize) -> Check {
    let case = Case { mutexes: 2, heads: heads(count), ..Case::ended(TASKS) };
    case.check(format!("{count} entries that rows hold"))
}

/// Entries that no row holds, and that disturb none: all are made with a mutex
/// that is held at every point but the first of each task. Each point is looked
/// at with each of them.
fn pairs((count, entries): (usize, usize)) -> Check {
    let each = count as i32 / TASKS as i32;
    let first = |p: i32| p % each == 0;
    let point = |p: i32| match p % each {
        0 => [3, 0, p + 1, 0],
        _ => END,
    };
    let held = |p: i32| i32::from(!first(p));
    let case = Case {
        shares: vec![each; TASKS],
        mutexes: 1,
        points: (0..count as i32).map(point).collect(),
        held: (0..count as i32).map(held).collect(),
        heads: heads(4 * entries).into_iter().filter(|head| head[1] == 1).collect(),
        row: NARROW,
        entry: ANY,
        ..Case::ended(TASKS)
    };
    case.check(format!("{entries} entries that no row holds, {count} points"))
}

/// An assignment of one formula with so many nodes, half of them sums: side by
/// side as far as can be, or one below the other.
fn sums(count: usize, deep: bool) -> Check {
    let leaves = count.div_ceil(2);
    let mut nodes = vec![[2, 0, 0, 0]; leaves];
    let mut open: VecDeque<i32> = (0..leaves as i32).collect();
    while open.len() > 1 {
        let sides: Vec<i32> = open.drain(..2).collect();
        nodes.push([4, sides[0], sides[1], 0]);
        let sum = nodes.len() as i32 - 1;
        if deep {
            open.push_front(sum);
        } else {
            open.push_back(sum);
        }
    }
    let assign = open.pop_front().map(|node| [1, 0, node, 1]);
    let case = Case {
        shares: vec![2],
        points: vec![assign.unwrap_or(END), END],
        held: vec![0; 2],
        heads: assign.map(|_| [0; 3]).into_iter().collect(),
        nodes,
        entry: ANY,
        ..Case::ended(1)
    };
    let form = if deep { "one below the other" } else { "side by side" };
    case.check(format!("{count} nodes, {form}"))
}

pub fn checks() -> Vec<Check> {
    let mut all: Vec<Check> = [16, 32, 64, 128, 256].map(points).into();
    all.extend([0, 128, 256, 512].map(entries));
    all.extend([(16, 128), (128, 128), (256, 128), (256, 64), (256, 32)].map(pairs));
    all.extend([0, 255, 511, 1023].map(|count| sums(count, false)));
    all.extend([255, 511, 1023].map(|count| sums(count, true)));
    all
}
