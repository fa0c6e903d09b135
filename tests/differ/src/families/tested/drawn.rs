//! Comparisons on rows by a seed, and the targets that are tried for them. Both
//! sides are mostly variables, and mostly the same one, since only those are cut.

use super::{wider, with, with_held, Left, Target, Tested, MUTEXES};
use crate::build::*;
use crate::families::checks::Check;
use crate::families::choices::drawn::{around, word};
use crate::families::choices::LEAST;
use peer::generate::Random;
use std::iter::once;

/// How many variables a row has: few, or as many as there can be.
const COUNTS: [usize; 6] = [1, 2, 2, 3, 5, 16];

pub const COMPARISONS: [i32; 4] = [16, 17, 18, 19];
const NOT: i32 = 22;
const KINDS: [&str; 4] = ["less", "at most", "equal", "not equal"];

/// By which sides of the comparison are variables.
const LEFT: &str = "left side a variable";
const RIGHT: &str = "right side a variable";
const TWO: &str = "both sides variables";
const SAME: &str = "both sides one variable";
const NEITHER: &str = "neither side a variable";

/// By what else is in it.
const QUOTIENT: &str = "with a quotient";
const CHOICE: &str = "with a choice";
const ALARM: &str = "with an alarm";

/// By what is left where it is true, and where it is false.
const NOTHING: [&str; 2] = ["yes: none", "no: none"];
const WHOLE: [&str; 2] = ["yes: the whole row", "no: the whole row"];
const ONE_CUT: [&str; 2] = ["yes: one variable cut", "no: one variable cut"];
const TWO_CUT: &str = "two variables cut";
const NO_MEET: &str = "one variable on both sides, of which nothing is left";

/// By what the condition is that it is in: a pair, or an odd or even number of
/// 'not', at most so many.
const TOPS: [&str; 4] = ["in both", "in either", "in not", "in not, an even number"];
const MOST_NOTS: usize = 4;

/// All of them, and how often each has to be reached.
pub fn names() -> Vec<(&'static str, usize)> {
    let sides = [LEFT, RIGHT, TWO, SAME, NEITHER, QUOTIENT, CHOICE, ALARM];
    let seldom = [TWO_CUT, NO_MEET];
    let all = [&KINDS[..], &sides, &NOTHING, &WHOLE, &ONE_CUT, &TOPS, &seldom].concat();
    all.into_iter().map(|name| (name, LEAST)).collect()
}

/// Those that a comparison is an example of.
pub fn sorts(tested: &Tested, left: &Left) -> Vec<&'static str> {
    let mut nodes = Vec::new();
    flatten(&tested.condition, &mut nodes);
    let any = |kind: i32| nodes.iter().any(|node| node[0] == kind);
    let marks = [(any(7), QUOTIENT), (any(8), CHOICE), (!left.alarms.is_empty(), ALARM)];
    let marks = marks.into_iter().filter(|(is, _)| *is).map(|(_, name)| name);
    let kind = KINDS[nodes[nodes.len() - 1][0] as usize - 16];
    let shape = shape(&nodes);
    let sides = (0..2).flat_map(|side| sorts_of_side(tested, left, shape, side));
    [kind, shape].into_iter().chain(marks).chain(sides).collect()
}

fn shape(nodes: &[[i32; 4]]) -> &'static str {
    let [_, a, b, _] = nodes[nodes.len() - 1];
    match (nodes[a as usize], nodes[b as usize]) {
        ([2, v, ..], [2, w, ..]) if v == w => SAME,
        ([2, ..], [2, ..]) => TWO,
        ([2, ..], _) => LEFT,
        (_, [2, ..]) => RIGHT,
        _ => NEITHER,
    }
}

fn sorts_of_side(tested: &Tested, left: &Left, shape: &str, side: usize) -> Vec<&'static str> {
    let Some(row) = &left.rows[side] else {
        return if shape == SAME { vec![NOTHING[side], NO_MEET] } else { vec![NOTHING[side]] };
    };
    match row.iter().zip(&tested.row).filter(|(left, whole)| left != whole).count() {
        0 => vec![WHOLE[side]],
        1 => vec![ONE_CUT[side]],
        _ => vec![TWO_CUT],
    }
}

/// What the condition is that a comparison is in.
pub fn top(tested: &Tested) -> &'static str {
    let mut nodes = Vec::new();
    flatten(&tested.condition, &mut nodes);
    let nots = nodes.iter().rev().take_while(|node| node[0] == NOT).count();
    match nodes[nodes.len() - 1][0] {
        NOT if nots % 2 == 0 => TOPS[3],
        kind => TOPS[kind as usize - 20],
    }
}

/// A comparison on a row, at a first point or a later one.
pub fn comparison(random: &mut Random) -> Tested {
    let count = random.pick(&COUNTS);
    let row = row(random, count);
    let condition = Drawing::new(random, count).comparison();
    let before = random.below(3);
    let held = if before == 0 { 0 } else { random.below(1 << MUTEXES) as i32 };
    Tested { condition, row, before, held }
}

/// Of intervals with few values, and some with one to three, of which a variable
/// on both sides can have nothing left.
pub fn row(random: &mut Random, count: usize) -> Row {
    let ends = |_| {
        let value = word(random);
        match random.below(4) {
            0 => (value, value.saturating_add(random.below(3) as i32)),
            _ => around(random, value),
        }
    };
    (0..count).map(ends).collect()
}

/// A condition that holds the comparison and leaves the same rows, or the same
/// exchanged: but rows are made for it.
pub fn alike(random: &mut Random, tested: &Tested, left: &Left) -> (Tested, Left) {
    let comparison = || tested.condition.clone();
    let always = equal(num(0), num(0));
    let never = less(num(0), num(0));
    let (condition, same) = match random.below(5) {
        0 => {
            let nots = random.between(1, MOST_NOTS);
            let same = if nots % 2 == 0 { left.clone() } else { left.exchanged() };
            ((0..nots).fold(comparison(), |tree, _| not(tree)), same)
        }
        1 => (both(comparison(), always), left.clone()),
        2 => (both(always, comparison()), left.after(3)),
        3 => (either(comparison(), never), left.clone()),
        _ => (either(never, comparison()), left.after(3)),
    };
    (Tested { condition, ..tested.clone() }, same)
}

impl Left {
    fn exchanged(&self) -> Left {
        let [yes, no] = self.rows.clone();
        Left { rows: [no, yes], alarms: self.alarms.clone() }
    }

    /// The same of a condition that comes after so many nodes.
    fn after(&self, nodes: i32) -> Left {
        let alarms = self.alarms.iter().map(|[node, kind]| [node + nodes, *kind]);
        Left { rows: self.rows.clone(), alarms: alarms.collect() }
    }
}

/// A condition that holds the comparison and another of the same row.
pub fn with_another(random: &mut Random, tested: &Tested) -> Tested {
    let other = Drawing::new(random, tested.row.len()).comparison();
    let comparison = tested.condition.clone();
    let condition = match random.below(8) {
        0 | 1 => both(comparison, other),
        2 => both(other, not(comparison)),
        3 | 4 => either(comparison, other),
        5 => either(not(other), comparison),
        6 => not(both(other, comparison)),
        _ => not(either(comparison, other)),
    };
    Tested { condition, ..tested.clone() }
}

/// The exact targets; for each side that has an outcome, one that lacks an end
/// and one that has more, since no drawn interval has all words; and seldom one
/// with another held word. Where there is no outcome, the target is anything.
pub fn checks(random: &mut Random, tested: &Tested, left: &Left) -> Vec<Check> {
    let exact = [0, 1].map(|side| match &left.rows[side] {
        Some(row) => (tested.held, row.clone()),
        None => anything(random, tested.row.len()),
    });
    let mut checks = vec![tested.check(exact.clone(), left.accepted())];
    for (side, row) in left.outcomes() {
        let variable = one_to_change(random, row, &tested.row);
        let [less, more] = [narrower(row[variable]), wider(row[variable])];
        let less = with(&exact, side, variable, random.pick(&less));
        let more = with(&exact, side, variable, random.pick(&more));
        checks.push(tested.check(less, tested.refused(13)));
        checks.push(tested.check(more, left.accepted()));
        if random.chance(20) {
            let held = random.pick(&[-1, tested.held ^ 1, tested.held ^ 2]);
            checks.push(tested.check(with_held(&exact, side, held), tested.refused(12)));
        }
    }
    checks
}

/// A target, reached or not.
fn anything(random: &mut Random, count: usize) -> Target {
    let held = random.below(1 + (1 << MUTEXES)) as i32 - 1;
    (held, row(random, count))
}

/// A variable that is cut, mostly, else any.
fn one_to_change(random: &mut Random, left: &[Ends], whole: &[Ends]) -> usize {
    let cut = (0..whole.len()).filter(|&variable| left[variable] != whole[variable]);
    let any = random.below(whole.len());
    let among: Vec<usize> = cut.chain(once(any)).collect();
    random.pick(&among)
}

/// Comparisons of a row with so many variables, and their sides.
pub struct Drawing<'a> {
    pub random: &'a mut Random,
    count: usize,
    /// The variable that is mostly read.
    tested: i32,
}

impl<'a> Drawing<'a> {
    /// The tested variable is often the first or the last.
    pub fn new(random: &'a mut Random, count: usize) -> Drawing<'a> {
        let any = random.below(count);
        let tested = random.pick(&[0, any, any, count - 1]) as i32;
        Drawing { random, count, tested }
    }

    pub fn comparison(&mut self) -> Tree {
        let kind = self.random.pick(&COMPARISONS);
        binary(kind, self.side(), self.side())
    }

    fn side(&mut self) -> Tree {
        match self.random.below(20) {
            0..11 => self.variable(),
            11..14 => num(word(self.random)),
            14 => self.input(),
            15..18 => self.operation(),
            _ => self.choice(),
        }
    }

    pub fn variable(&mut self) -> Tree {
        let other = self.random.below(self.count) as i32;
        var(if self.random.chance(60) { self.tested } else { other })
    }

    fn input(&mut self) -> Tree {
        let value = word(self.random);
        let (low, high) = around(self.random, value);
        input(low, high)
    }

    fn leaf(&mut self) -> Tree {
        match self.random.below(10) {
            0..6 => self.variable(),
            6..9 => num(word(self.random)),
            _ => self.input(),
        }
    }

    pub fn operation(&mut self) -> Tree {
        match self.random.below(6) {
            0 => negation(self.leaf()),
            1 => sum(self.leaf(), self.leaf()),
            2 => difference(self.leaf(), self.leaf()),
            _ => quotient(self.leaf(), self.leaf()),
        }
    }

    fn choice(&mut self) -> Tree {
        let kind = self.random.pick(&COMPARISONS);
        let asked = binary(kind, self.leaf(), self.leaf());
        choice(asked, self.branch(), self.branch())
    }

    fn branch(&mut self) -> Tree {
        if self.random.chance(40) {
            self.leaf()
        } else {
            self.operation()
        }
    }
}
