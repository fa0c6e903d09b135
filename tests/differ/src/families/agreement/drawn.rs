//! Trees and rows by a seed. A tree reads few of a row's variables, so that
//! there are others in which rows can differ, and it reads one of them in a
//! single place, so that it shows whether that place counts.

use super::{empty, places, Question};
use crate::build::{flatten, Ends};
use crate::families::choices::drawn::{choice_of, condition_of};
use crate::families::trees::drawn::{interval, tree};
use crate::families::trees::{decoded, Case, Mode, Sort};
use peer::analysis::reads;
use peer::generate::Random;
use std::iter::repeat_with;

/// How often of a hundred an interval is empty, of a variable that is read and
/// of another.
const EMPTY: [[usize; 2]; 3] = [[0, 0], [0, 40], [30, 20]];

/// So many third rows are tried for another answer than that of the first.
const TRIES: usize = 10;

/// All that is asked of one tree on three rows.
pub fn questions(random: &mut Random) -> Vec<Question> {
    let count = random.between(3, 16);
    let variables = some(random, count);
    let small = random.chance(70);
    let tree = Grown::draw(random, &variables, small);
    let read = &reads(&decoded(&tree.nodes), tree.node as u16)[..count];
    let [one, like] = alike(random, read, small);
    let changed = if random.chance(90) { variables[0] } else { random.pick(&variables) } as usize;
    let third = tree.third(random, &one, changed, small);
    let rows = [one, like, third];
    let question = |&mode| {
        let cases = rows.each_ref().map(|row| tree.case(mode, row));
        Question { cases, changed }
    };
    tree.modes().iter().map(question).collect()
}

/// Two to five variables, and not all of them.
fn some(random: &mut Random, count: usize) -> Vec<i32> {
    let mut all: Vec<i32> = (0..count as i32).collect();
    let wanted = random.between(2, 5.min(count - 1));
    (0..wanted).map(|_| all.swap_remove(random.below(all.len()))).collect()
}

/// Nodes, and the number of the one that is asked for; not all of the others
/// need be in its tree.
struct Grown {
    sort: Sort,
    nodes: Vec<[i32; 4]>,
    node: i32,
}

impl Grown {
    /// A tree that reads the first variable once. The place for it is drawn first,
    /// so that rare ones come too.
    fn draw(random: &mut Random, variables: &[i32], small: bool) -> Grown {
        let place = random.pick(&places::names());
        loop {
            let mut grown = Grown::any(random, &variables[1..], small);
            let mut readings = places::readings(&grown.nodes, grown.node);
            readings.retain(|(_, places)| places.contains(place));
            if !readings.is_empty() {
                let (reading, _) = readings[random.below(readings.len())];
                grown.nodes[reading][1] = variables[0];
                return grown;
            }
        }
    }

    /// A tree of any nodes, or one of choices.
    fn any(random: &mut Random, variables: &[i32], small: bool) -> Grown {
        let sort = random.pick(&[Sort::Arithmetic, Sort::Condition]);
        if random.chance(30) {
            let (nodes, node) = tree(random, variables, sort, small);
            return Grown { sort, nodes, node };
        }
        let depth = random.between(1, 3);
        let tree = match sort {
            Sort::Arithmetic => choice_of(random, variables, depth),
            Sort::Condition => condition_of(random, variables, depth),
        };
        let mut nodes = Vec::new();
        let node = flatten(&tree, &mut nodes);
        Grown { sort, nodes, node }
    }

    fn modes(&self) -> &'static [Mode] {
        match self.sort {
            Sort::Arithmetic => &[Mode::Value],
            Sort::Condition => &[Mode::Decision, Mode::Narrowed(false), Mode::Narrowed(true)],
        }
    }

    fn case(&self, mode: Mode, row: &[Ends]) -> Case {
        let (nodes, row) = (self.nodes.clone(), row.to_vec());
        Case { mode, node: self.node, nodes, row, answer: None }
    }

    /// The row with another interval for the changed variable, if there is one
    /// with another answer.
    fn third(&self, random: &mut Random, one: &[Ends], changed: usize, small: bool) -> Vec<Ends> {
        let mut draw = || {
            let mut row = one.to_vec();
            row[changed] = other(one[changed], || interval(random, small));
            row
        };
        let said = |row: &[Ends]| self.case(self.modes()[0], row).by_peer();
        let (last, on_one) = (draw(), said(one));
        repeat_with(draw).take(TRIES).find(|row| said(row) != on_one).unwrap_or(last)
    }
}

/// Two rows that agree on what is read, and on nothing else.
fn alike(random: &mut Random, read: &[bool], small: bool) -> [Vec<Ends>; 2] {
    let [of_read, of_others] = random.pick(&EMPTY);
    let pair = |&read: &bool| {
        let one = ends(random, small, if read { of_read } else { of_others });
        let like = match (read, empty(one)) {
            (true, false) => one,
            // Empty too, but with other ends.
            (true, true) => other(one, || ends(random, small, 100)),
            (false, _) => other(one, || ends(random, small, of_others)),
        };
        (one, like)
    };
    let (one, like) = read.iter().map(pair).unzip();
    [one, like]
}

/// Ends in order, or for an empty interval the other way round.
fn ends(random: &mut Random, small: bool, percent: usize) -> Ends {
    if !random.chance(percent) {
        return interval(random, small);
    }
    let mut drawn = repeat_with(|| interval(random, small));
    let (low, high) = drawn.find(|(low, high)| low < high).expect("there is no end of them");
    (high, low)
}

/// What is drawn first that isn't that.
fn other(than: Ends, draw: impl FnMut() -> Ends) -> Ends {
    repeat_with(draw).find(|&drawn| drawn != than).expect("there is no end of them")
}

#[cfg(test)]
mod tests {
    use super::*;

    #[test]
    fn rows_are_alike_in_what_is_read_and_in_nothing_else() {
        let mut random = Random::new(3);
        let (mut both_empty, mut one_empty) = (0, 0);
        for _ in 0..2000 {
            let read: Vec<bool> = (0..8).map(|_| random.chance(50)).collect();
            let [one, like] = alike(&mut random, &read, true);
            for ((one, like), read) in one.into_iter().zip(like).zip(read) {
                match (read, empty(one), empty(like)) {
                    (true, false, _) => assert_eq!(one, like),
                    (true, true, _) => assert!(empty(like) && one != like),
                    (false, ..) => assert_ne!(one, like),
                }
                both_empty += usize::from(read && empty(one));
                one_empty += usize::from(empty(one) != empty(like));
            }
        }
        assert!(both_empty > 500 && one_empty > 500, "{both_empty} {one_empty}");
    }

    #[test]
    fn the_third_row_differs_in_one_variable() {
        let mut random = Random::new(4);
        for _ in 0..200 {
            for Question { cases: [one, _, third], changed } in questions(&mut random) {
                let differ = |&variable: &usize| one.row[variable] != third.row[variable];
                assert_eq!((0..one.row.len()).filter(differ).collect::<Vec<_>>(), [changed]);
            }
        }
    }
}
