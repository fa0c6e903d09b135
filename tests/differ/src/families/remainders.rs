//! Remainders of drawn dividends by drawn divisors, as whole checks and runs.
//! What request 1 tells apart is counted, and has to be reached often.

use super::assigned::Assigned;
use super::Tally;
use crate::build::*;
use peer::analysis::{arithmetic, Row, Silent};
use peer::generate::Random;
use peer::interval::Interval;
use peer::table::Node;
use std::path::Path;

/// How many formulas are drawn, and how often each branch is reached at least.
const DRAWN: usize = 30_000;
const LEAST: usize = 1_000;

/// Of a remainder in a check, and of one in a run.
const BRANCHES: [&str; 18] = [
    "an operand with none",
    "divisor only 0",
    "divisor 0 and more",
    "divisor without 0",
    "divisor with MIN",
    "low end: not negative",
    "low end: kept",
    "low end: cut to -D",
    "high end: not positive",
    "high end: kept",
    "high end: cut to D",
    "run: + by +",
    "run: + by -",
    "run: - by +",
    "run: - by -",
    "run: to 0",
    "run: MIN by -1",
    "run: by 0",
];

/// Where signs and remainders turn.
const GRID: [i32; 10] = [MIN, MIN + 1, -7, -1, 0, 1, 2, 7, MAX - 1, MAX];

pub fn run(_bin: &Path, tally: &mut Tally) {
    let mut random = Random::new(20261119);
    for _ in 0..DRAWN {
        let (case, plain) = draw(&mut random);
        let (nodes, row) = case.parts();
        count_branches(tally, &nodes, &row);
        let foreseen = case.foreseen();
        case.check(tally, &foreseen);
        for values in [case.values.clone(), case.ends(&mut random)] {
            let state = case.run(tally, &values, &foreseen);
            if plain {
                tally.count(branch_of_run([values[0], values[1]], state.values[2]));
            }
        }
    }
    for branch in BRANCHES {
        tally.expect(branch, LEAST);
    }
}

fn v() -> Tree {
    var(0)
}

fn u() -> Tree {
    var(1)
}

/// A remainder of V by U and nothing else, or any other tree.
fn draw(random: &mut Random) -> (Assigned, bool) {
    let values = match random.below(20) {
        0 => [MIN, -1],
        _ => [word(random), word(random)],
    };
    let spans = values.map(|value| around(random, value));
    let plain = random.chance(60);
    let tree = if plain { remainder(v(), u()) } else { nested(random) };
    (Assigned { tree, spans: spans.to_vec(), values: values.to_vec() }, plain)
}

fn word(random: &mut Random) -> i32 {
    match random.below(10) {
        0..3 => random.pick(&[-1, 0, 1]),
        3..6 => random.below(31) as i32 - 15,
        6..9 => random.pick(&GRID),
        _ => random.any(),
    }
}

/// An interval that holds the value: it alone, or up to another word or two.
fn around(random: &mut Random, value: i32) -> Ends {
    let more = random.below(3);
    let widened = |(low, high): Ends, word: i32| (low.min(word), high.max(word));
    (0..more).map(|_| word(random)).fold((value, value), widened)
}

/// A remainder in another operation or of one, or with an operand that has
/// none. All of the formula is evaluated, whatever its intervals are.
fn nested(random: &mut Random) -> Tree {
    let none = || quotient(num(1), num(0));
    let ring = || remainder(v(), u());
    let kind = random.pick(&[4, 5, 6, 7, 9]);
    let number = num(word(random));
    match random.below(12) {
        0 => binary(kind, ring(), number),
        1 => binary(kind, number, ring()),
        2 => remainder(binary(kind, v(), number), u()),
        3 => remainder(v(), binary(kind, u(), number)),
        4 => negation(ring()),
        5 => remainder(negation(v()), negation(u())),
        6 => binary(kind, ring(), remainder(u(), v())),
        7 => remainder(v(), number),
        8 => remainder(number, u()),
        9 => remainder(v(), none()),
        10 => remainder(none(), u()),
        _ => remainder(remainder(v(), num(0)), u()),
    }
}

/// Counts the branches of each remainder on the row.
fn count_branches(tally: &mut Tally, nodes: &[Node], row: &Row) {
    let interval = |node| arithmetic(nodes, node, row, &mut Silent);
    for node in nodes {
        if let Node::Remainder(a, b) = *node {
            match (interval(a), interval(b)) {
                (Some(a), Some(b)) => branches(a, b).iter().for_each(|branch| tally.count(*branch)),
                _ => tally.count("an operand with none"),
            }
        }
    }
}

fn branches(a: Interval, b: Interval) -> Vec<&'static str> {
    let mut all = Vec::new();
    if b.holds(MIN) {
        all.push("divisor with MIN");
    }
    if b == Interval::single(0) {
        all.push("divisor only 0");
        return all;
    }
    all.push(if b.holds(0) { "divisor 0 and more" } else { "divisor without 0" });
    let most = b.low().unsigned_abs().max(b.high().unsigned_abs()) - 1;
    all.push(match a.low() {
        0.. => "low end: not negative",
        low if low.unsigned_abs() <= most => "low end: kept",
        _ => "low end: cut to -D",
    });
    all.push(match a.high() {
        ..=0 => "high end: not positive",
        high if high.unsigned_abs() <= most => "high end: kept",
        _ => "high end: cut to D",
    });
    all
}

fn branch_of_run([v, u]: [i32; 2], result: i32) -> &'static str {
    match (v, u, result) {
        (_, 0, _) => "run: by 0",
        (MIN, -1, _) => "run: MIN by -1",
        (_, _, 0) => "run: to 0",
        (1.., 1.., _) => "run: + by +",
        (1.., _, _) => "run: + by -",
        (_, 1.., _) => "run: - by +",
        _ => "run: - by -",
    }
}
