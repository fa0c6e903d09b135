//! Trees and rows by a seed. Ends are often small, so that intervals meet, or
//! at the limits, where sums turn over; some are handed in the wrong way round.

use super::{operands, Case, Mode, Sort};
use crate::build::{Ends, MAX, MIN};
use crate::families::choices::drawn;
use peer::generate::Random;

/// All inner kinds, those that rarely fit more often.
const ANY: [i32; 23] =
    [3, 4, 5, 6, 7, 8, 9, 16, 17, 18, 19, 20, 21, 22, 7, 8, 8, 8, 9, 20, 20, 21, 21];

/// Conditions on leaves alone.
const PLAIN: [i32; 9] = [16, 17, 18, 19, 20, 20, 21, 21, 22];

const MODES: [Mode; 4] = [Mode::Value, Mode::Decision, Mode::Narrowed(false), Mode::Narrowed(true)];

pub fn cases(count: usize, seed: u64) -> Vec<Case> {
    let mut random = Random::new(seed);
    MODES.into_iter().cycle().take(count).map(|mode| case(&mut random, mode)).collect()
}

/// Choices whose branches read what their conditions test, and conditions with
/// such choices in them.
pub fn choices(count: usize, seed: u64) -> Vec<Case> {
    let mut random = Random::new(seed);
    let case = |mode| {
        let row: Vec<Ends> = (0..2).map(|_| span(&mut random, true)).collect();
        let tree = match mode {
            Mode::Value => drawn::choice_of(&mut random, &[0, 1], 3),
            _ => drawn::condition_of(&mut random, &[0, 1], 3),
        };
        Case::of(mode, &tree, &row, None)
    };
    MODES.into_iter().cycle().take(count).map(case).collect()
}

fn case(random: &mut Random, mode: Mode) -> Case {
    let small = random.chance(40);
    let row: Vec<Ends> = (0..random.between(1, 4)).map(|_| span(random, small)).collect();
    let sort = if mode == Mode::Value { Sort::Arithmetic } else { Sort::Condition };
    let variables: Vec<i32> = (0..row.len() as i32).collect();
    let (nodes, node) = tree(random, &variables, sort, small);
    Case { mode, node, nodes, row, answer: None }
}

/// Nodes of any kinds that read some of the variables, and the number of the
/// one that is asked for; not all of the others need be in its tree.
pub fn tree(
    random: &mut Random,
    variables: &[i32],
    sort: Sort,
    small: bool,
) -> (Vec<[i32; 4]>, i32) {
    let kinds: &[i32] = if sort == Sort::Condition && random.chance(50) { &PLAIN } else { &ANY };
    let mut forest = Forest::default();
    let node = forest.grow(random, variables, sort, small, kinds);
    (forest.nodes, node as i32)
}

fn end(random: &mut Random, small: bool) -> i32 {
    match if small { 0 } else { random.below(10) } {
        0..6 => random.below(15) as i32 - 5,
        6..9 => random.pick(&[MIN, MIN + 1, MAX - 1, MAX]),
        _ => random.pick(&[-65536, -46341, 46340, 1 << 30]),
    }
}

fn ordered((a, b): Ends) -> Ends {
    (a.min(b), a.max(b))
}

/// Ends in order.
pub fn interval(random: &mut Random, small: bool) -> Ends {
    ordered((end(random, small), end(random, small)))
}

fn span(random: &mut Random, small: bool) -> Ends {
    let drawn = (end(random, small), end(random, small));
    let (low, high) = if random.chance(6) { drawn } else { ordered(drawn) };
    if random.chance(15) {
        (low, low)
    } else {
        (low, high)
    }
}

/// Nodes from the bottom up, each taking children that no other has.
#[derive(Default)]
struct Forest {
    nodes: Vec<[i32; 4]>,
    /// How many nodes are in the tree of each.
    sizes: Vec<usize>,
    /// Those that are nobody's children yet.
    arithmetic: Vec<usize>,
    conditions: Vec<usize>,
}

impl Forest {
    fn free(&mut self, sort: Sort) -> &mut Vec<usize> {
        match sort {
            Sort::Arithmetic => &mut self.arithmetic,
            Sort::Condition => &mut self.conditions,
        }
    }

    /// Grows some nodes and gives that of the sort with the largest tree.
    fn grow(
        &mut self,
        random: &mut Random,
        variables: &[i32],
        sort: Sort,
        small: bool,
        kinds: &[i32],
    ) -> usize {
        let count = random.between(3, 13);
        while self.nodes.len() < count || self.free(sort).is_empty() {
            // The last ones are conditions wherever one is wanted.
            let late = sort == Sort::Condition && self.nodes.len() >= count - 1;
            let fit = self.fitting(if late { &PLAIN } else { kinds });
            if fit.is_empty() || !late && random.chance(30) {
                self.leaf(random, variables, small);
            } else {
                let kind = random.pick(&fit);
                self.inner(random, kind);
            }
        }
        let sizes = self.sizes.clone();
        self.free(sort).iter().copied().max_by_key(|&node| sizes[node]).expect("one is free")
    }

    /// The kinds for which there are children.
    fn fitting(&self, kinds: &[i32]) -> Vec<i32> {
        let enough = |kind: &i32| {
            let wanted = |sort| operands(*kind).iter().filter(|&&operand| operand == sort).count();
            wanted(Sort::Arithmetic) <= self.arithmetic.len()
                && wanted(Sort::Condition) <= self.conditions.len()
        };
        kinds.iter().copied().filter(enough).collect()
    }

    fn leaf(&mut self, random: &mut Random, variables: &[i32], small: bool) {
        let (low, high) = interval(random, small);
        let node = match random.below(6) {
            0 => [0, low, 0, 0],
            1 => [1, low, high, 0],
            _ => [2, random.pick(variables), 0, 0],
        };
        self.push(node, 1);
    }

    fn inner(&mut self, random: &mut Random, kind: i32) {
        let (mut node, mut size) = ([kind, 0, 0, 0], 1);
        for (field, &sort) in node[1..].iter_mut().zip(operands(kind)) {
            let free = self.free(sort);
            let child = free.remove(random.below(free.len()));
            *field = child as i32;
            size += self.sizes[child];
        }
        self.push(node, size);
    }

    fn push(&mut self, node: [i32; 4], size: usize) {
        let sort = if node[0] < 16 { Sort::Arithmetic } else { Sort::Condition };
        let number = self.nodes.len();
        self.free(sort).push(number);
        self.nodes.push(node);
        self.sizes.push(size);
    }
}
