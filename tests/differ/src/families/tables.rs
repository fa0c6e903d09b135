//! Tables: document 01's examples, each of refusals 1 to 6 at a first, a
//! middle and a last place, the largest, those of the vectors, and damaged
//! ones. A table that isn't refused plays an empty schedule, and lets the check
//! go on to its proposal, which is empty too.

use super::checks::{bare, shown};
use super::{draw, vectors, Tally};
use crate::answers::{differences, Answer};
use crate::build::{end, table, table_of_nodes, MAX, MIN};
use peer::generate::Random;
use peer::table::Table;
use peer::words::Refusal;
use rangecheck::STATE_WORDS;
use std::path::Path;

/// A table and its refusal, if it has one.
type Case = (Vec<i32>, Option<Refusal>);

/// Three tasks with every kind of point, and trees with every sort of field.
#[derive(Clone)]
struct Parts {
    shares: Vec<i32>,
    points: Vec<[i32; 4]>,
    nodes: Vec<[i32; 4]>,
}

impl Parts {
    fn whole() -> Parts {
        let nodes = vec![
            [0, 9, 0, 0],    // 0 constant
            [1, -2, 5, 0],   // 1 input
            [4, 0, 1, 0],    // 2 sum of 0 and 1
            [2, 1, 0, 0],    // 3 variable
            [3, 3, 0, 0],    // 4 negation
            [16, 2, 4, 0],   // 5 less
            [2, 0, 0, 0],    // 6
            [0, 3, 0, 0],    // 7
            [18, 6, 7, 0],   // 8 equal
            [20, 5, 8, 0],   // 9 both
            [22, 9, 0, 0],   // 10 not
            [0, 1, 0, 0],    // 11
            [2, 2, 0, 0],    // 12
            [8, 10, 11, 12], // 13 choice
            [0, 4, 0, 0],    // 14
            [2, 0, 0, 0],    // 15
            [19, 14, 15, 0], // 16 not equal
        ];
        let points = vec![
            // Task 0: points 0 to 2.
            [3, 0, 1, 0],
            [1, 2, 13, 2],
            [4, 0, 0, 0],
            // Task 1: points 3 to 6.
            [2, 16, 4, 6],
            [3, 1, 5, 0],
            [4, 1, 3, 0],
            [0, 0, 0, 0],
            // Task 2: points 7 and 8.
            [3, 0, 8, 0],
            [0, 0, 0, 0],
        ];
        Parts { shares: vec![3, 4, 2], points, nodes }
    }

    fn words(&self) -> Vec<i32> {
        table_of_nodes(&self.shares, &[0, -5, 7], 2, &self.points, &self.nodes)
    }
}

fn with_shares(shares: [i32; 3]) -> Vec<i32> {
    Parts { shares: shares.to_vec(), ..Parts::whole() }.words()
}

fn with_node(at: usize, node: [i32; 4]) -> Vec<i32> {
    let mut parts = Parts::whole();
    parts.nodes[at] = node;
    parts.words()
}

fn with_point(at: usize, point: [i32; 4]) -> Vec<i32> {
    let mut parts = Parts::whole();
    parts.points[at] = point;
    parts.words()
}

fn small() -> Vec<i32> {
    table(&[1], &[0], 0, &[end()])
}

/// 8 tasks, 16 variables, 8 mutexes, 256 points and 1024 nodes: each point
/// assigns a product with its sign turned.
fn largest() -> Vec<i32> {
    let (mut points, mut nodes) = (Vec::new(), Vec::new());
    for p in 0..256 {
        let first = 4 * p;
        nodes.extend([[2, p % 16, 0, 0], [1, -p, p, 0]]);
        nodes.extend([[6, first, first + 1, 0], [3, first + 2, 0, 0]]);
        points.push([1, p % 16, first + 3, p - p % 32]);
    }
    let starts: Vec<i32> = (0..16).collect();
    table_of_nodes(&[32; 8], &starts, 8, &points, &nodes)
}

fn by_hand() -> Vec<Case> {
    let mut cases = examples();
    cases.extend(lengths_and_sizes());
    cases.extend(shares());
    cases.extend(nodes());
    cases.extend(points());
    cases.extend(uses());
    cases
}

fn examples() -> Vec<Case> {
    let large_first = [&[9], &small()[1..]].concat();
    vec![
        (vec![], Some((1, 0))),
        (bare(), None),
        (small(), None),
        (small()[..10].to_vec(), Some((1, 10))),
        (large_first, Some((2, 0))),
        (Parts::whole().words(), None),
        (largest(), None),
    ]
}

fn lengths_and_sizes() -> Vec<Case> {
    let whole = Parts::whole().words();
    let length = whole.len();
    // 1: short at every length, one word too few, one too many.
    let mut cases: Vec<Case> = (0..5).map(|k| (vec![1; k], Some((1, k)))).collect();
    cases.push((whole[..length - 1].to_vec(), Some((1, length - 1))));
    cases.push(([&whole[..], &[0]].concat(), Some((1, length + 1))));
    // 2: each size below and above its limits.
    for (k, (low, high)) in [(1, 8), (1, 16), (0, 8), (1, 256), (0, 1024)].into_iter().enumerate() {
        for size in [low - 1, high + 1, MIN, MAX] {
            let mut words = whole.clone();
            words[k] = size;
            cases.push((words, Some((2, k))));
        }
    }
    cases
}

/// 3: a count below 1 at a first, a middle and a last task; a wrong sum.
fn shares() -> Vec<Case> {
    let mut cases = Vec::new();
    for task in 0..3 {
        for count in [0, -1, MIN] {
            let mut shares = [3, 4, 2];
            shares[task] = count;
            cases.push((with_shares(shares), Some((3, task))));
        }
    }
    let sums = [[3, 4, 3], [2, 4, 2], [3, MAX, 2]];
    cases.extend(sums.map(|shares| (with_shares(shares), Some((3, 3)))));
    cases
}

/// 4: a first, middle and last node of no kind, with an unused field, a child
/// that is not below, a child of the wrong sort, a bad variable, a bad input.
fn nodes() -> Vec<Case> {
    let mut cases = Vec::new();
    for at in [0, 8, 16] {
        for kind in [-1, 10, 11, 12, 13, 14, 15, 23, MAX] {
            cases.push((with_node(at, [kind, 0, 0, 0]), Some((4, at))));
        }
    }
    for (at, node) in [
        (0, [0, 9, 1, 0]),
        (0, [0, 9, 0, -1]),
        (1, [1, 6, 5, 0]),
        (1, [1, -2, 5, 1]),
        (3, [2, 3, 0, 0]),
        (3, [2, -1, 0, 0]),
        (4, [3, 4, 0, 0]),
        (4, [3, 5, 0, 0]),
        (2, [4, 0, 2, 0]),
        (2, [9, 0, 1, 1]),
        (2, [9, 0, 1, MIN]),
        (2, [9, 0, 2, 0]),
        (2, [9, 2, 1, 0]),
        (2, [9, -1, 1, 0]),
        (13, [9, 10, 11, 0]),
        (13, [9, 11, 10, 0]),
        (9, [20, 5, 7, 0]),
        (13, [8, 11, 11, 12]),
        (13, [8, 10, 11, 10]),
        (16, [19, 14, 15, 1]),
        (16, [19, 14, 16, 0]),
    ] {
        cases.push((with_node(at, node), Some((4, at))));
    }
    // A remainder in the place of a sum.
    cases.push((with_node(2, [9, 0, 1, 0]), None));
    // A child of the right sort that another uses too.
    cases.push((with_node(16, [19, 14, 13, 0]), Some((6, 13))));
    cases
}

/// 5: a first, middle and last point of no kind, with a bad field, a target in
/// another task or past the points, a node of the wrong sort.
fn points() -> Vec<Case> {
    let mut cases = Vec::new();
    for at in [0, 4, 8] {
        for kind in [-1, 5, MAX] {
            cases.push((with_point(at, [kind, 0, 0, 0]), Some((5, at))));
        }
    }
    for (at, point) in [
        (0, [3, 2, 1, 0]),
        (0, [3, -1, 1, 0]),
        (0, [3, 0, 3, 0]),
        (0, [3, 0, 1, 1]),
        (1, [1, 3, 13, 2]),
        (1, [1, 2, 16, 2]),
        (1, [1, 2, 17, 2]),
        (1, [1, 2, 13, 9]),
        (3, [2, 13, 4, 6]),
        (3, [2, 16, 2, 6]),
        (3, [2, 16, 4, 7]),
        (3, [2, 16, 4, -1]),
        (8, [0, 0, 0, 1]),
        (8, [4, 1, 6, 0]),
    ] {
        cases.push((with_point(at, point), Some((5, at))));
    }
    // A remainder in the place of the condition that point 3 tests.
    cases.push((with_node(16, [9, 14, 15, 0]), Some((5, 3))));
    cases
}

/// 6: a first, a middle and a last node that is not used, or used twice.
fn uses() -> Vec<Case> {
    vec![
        (with_node(2, [4, 1, 1, 0]), Some((6, 0))),
        (with_node(2, [4, 0, 0, 0]), Some((6, 0))),
        (with_node(2, [9, 0, 0, 0]), Some((6, 0))),
        (with_node(8, [18, 6, 6, 0]), Some((6, 6))),
        (with_node(8, [18, 7, 7, 0]), Some((6, 6))),
        (with_point(1, [3, 0, 2, 0]), Some((6, 13))),
        (with_point(3, [3, 0, 4, 0]), Some((6, 16))),
        (with_point(6, [2, 16, 4, 6]), Some((6, 16))),
        (with_node(13, [8, 10, 12, 12]), Some((6, 11))),
    ]
}

/// Every table of the vectors, with its refusal where that is one of 1 to 6.
fn of_vectors() -> Vec<Case> {
    let checks = vectors::checks().into_iter().map(|check| {
        let refused = check.wanted.err().filter(|(rule, _)| *rule <= 6);
        (check.table, refused)
    });
    let runs = vectors::runs().into_iter().map(|run| (run.table, run.wanted.err()));
    checks.chain(runs).collect()
}

fn damaged(of_vectors: &[Case]) -> Vec<Case> {
    let mut random = Random::new(20261115);
    let by_hand = [Parts::whole().words(), bare(), small()];
    let by_hand = std::iter::repeat_n(&by_hand, 20).flatten();
    let mut cases = Vec::new();
    for words in by_hand.chain(of_vectors.iter().map(|(words, _)| words)) {
        for _ in 0..14 {
            let words = draw::damaged(&mut random, words);
            let refused = Table::decode(&words).err();
            cases.push((words, refused));
        }
    }
    cases
}

pub fn cases() -> Vec<Case> {
    let of_vectors = of_vectors();
    let damaged = damaged(&of_vectors);
    [by_hand(), of_vectors, damaged].concat()
}

fn compare((words, refused): &Case) -> Vec<String> {
    let mut found = Vec::new();
    let by_peer = Table::decode(words).err();
    if by_peer != *refused {
        found.push(format!("the peer's table: {by_peer:?}, not {refused:?}"));
    }
    let played = peer::run(words, &[]);
    if played.err() != *refused {
        found.push(format!("the peer's run: {:?}, not {refused:?}", played.err()));
    }
    // The state is that of the start, and goes by the peer.
    let wanted = refused.map_or(played, Err);
    let run = Answer::run(words, &[], STATE_WORDS);
    found.extend(differences("run", &run, &Answer::run_by_peer(&wanted, STATE_WORDS)));
    let wanted = Answer::check_by_hand(&Err(refused.unwrap_or((7, 0))), 9);
    found.extend(differences("check", &Answer::check(words, &[], 9), &wanted));
    let by_peer = Answer::check_by_peer(words, &[], 9);
    found.extend(differences("the peer's check", &by_peer, &wanted));
    found
}

pub fn run(_bin: &Path, tally: &mut Tally) {
    for case in cases() {
        match case.1 {
            Some((rule, _)) => tally.count(format!("refused {rule}")),
            None => tally.count("passed"),
        }
        tally.case(compare(&case), || shown(&case.0));
    }
}
