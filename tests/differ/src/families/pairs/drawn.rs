//! Conditions by a seed, of some comparisons on a row. Numbers are near the ends
//! of the variables that they are compared with, so that a side is often decided,
//! leaves nothing or cuts nothing.

use crate::build::*;
use crate::families::assigned::Assigned;
use crate::families::choices::drawn::choice_of;
use crate::families::tested::drawn::{row, Drawing as Sides, COMPARISONS};
use crate::families::tested::Tested;
use peer::generate::Random;

/// How many variables a row has: few, or as many as there can be.
const COUNTS: [usize; 10] = [1, 1, 2, 2, 2, 3, 3, 4, 4, 16];

/// How many comparisons a condition has at least and at most.
const FEWEST: usize = 2;
const MOST: usize = 8;

const LESS: i32 = 16;
const AT_MOST: i32 = 17;
const BOTH: i32 = 20;
const EITHER: i32 = 21;

/// Of how many comparisons and pairs in a hundred the opposite is taken, and how
/// many comparisons have a side that is none.
const NOTS: [usize; 3] = [0, 15, 40];
const NONES: [usize; 4] = [0, 0, 0, 20];

/// How many pairs in a hundred are after one that leaves a part of the row only.
const AFTER_A_PART: usize = 10;

/// On which side of a pair more comparisons are.
#[derive(Clone, Copy)]
enum Shape {
    Left,
    Right,
    Balanced,
    Any,
}

/// The kinds of pairs in pairs.
#[derive(Clone, Copy)]
enum Kinds {
    Same,
    InTurns,
    Any,
}

const SHAPES: [Shape; 4] = [Shape::Left, Shape::Right, Shape::Balanced, Shape::Any];
const KINDS: [Kinds; 4] = [Kinds::Same, Kinds::InTurns, Kinds::InTurns, Kinds::Any];

/// A condition on a row, at a first point or a later one under a held set.
pub fn tested(random: &mut Random) -> Tested {
    let count = random.pick(&COUNTS);
    let mut row = row(random, count);
    two_values(random, &mut row);
    let comparisons = random.between(FEWEST, MOST);
    let condition = Drawing::new(random, &row).condition(comparisons, 0);
    let (before, held) = random.pick(&[(0, 0), (1, 0), (1, 2), (2, 3)]);
    Tested { condition, row, before, held }
}

/// Often leaves two values of a variable, of which nothing is left where it is
/// less than itself, though each of its two cuts leaves one.
fn two_values(random: &mut Random, row: &mut [Ends]) {
    let variable = random.below(row.len());
    let (low, _) = row[variable];
    if low < MAX && random.chance(40) {
        row[variable] = (low, low + 1);
    }
}

/// A choice by the same condition. Mostly one branch has none, so that what is
/// written is what the other comes to.
pub fn choice_by(random: &mut Random, tested: &Tested) -> Assigned {
    let mut sides = Sides::new(random, tested.row.len());
    let branches = match sides.random.below(10) {
        0..4 => [branch(&mut sides), none()],
        4..8 => [none(), branch(&mut sides)],
        _ => [branch(&mut sides), branch(&mut sides)],
    };
    let [then, otherwise] = branches;
    let tree = choice(tested.condition.clone(), then, otherwise);
    let values = tested.row.iter().map(|&(low, _)| low).collect();
    Assigned { tree, spans: tested.row.clone(), values }
}

fn branch(sides: &mut Sides) -> Tree {
    if sides.random.chance(60) {
        sides.variable()
    } else {
        sides.operation()
    }
}

fn none() -> Tree {
    quotient(num(1), num(0))
}

/// The row with the ends of a variable the wrong way round.
pub fn with_none(random: &mut Random, row: &[Ends]) -> Row {
    let mut row = row.to_vec();
    let variable = random.below(row.len());
    let (low, high) = row[variable];
    row[variable] = if low < high { (high, low) } else { (MAX, MIN) };
    row
}

struct Drawing<'a> {
    sides: Sides<'a>,
    row: &'a [Ends],
    shape: Shape,
    kinds: Kinds,
    /// The kind of the pair that all others are in.
    top: i32,
    nots: usize,
    nones: usize,
}

impl<'a> Drawing<'a> {
    fn new(random: &'a mut Random, row: &'a [Ends]) -> Drawing<'a> {
        let (shape, kinds) = (random.pick(&SHAPES), random.pick(&KINDS));
        let top = random.pick(&[BOTH, EITHER]);
        let (nots, nones) = (random.pick(&NOTS), random.pick(&NONES));
        Drawing { sides: Sides::new(random, row.len()), row, shape, kinds, top, nots, nones }
    }

    fn random(&mut self) -> &mut Random {
        self.sides.random
    }

    /// Of so many comparisons, in so many pairs around it.
    fn condition(&mut self, comparisons: usize, depth: usize) -> Tree {
        let tree = match comparisons {
            1 => self.comparison(),
            4.. if self.random().chance(AFTER_A_PART) => self.after_a_part(comparisons, depth),
            _ => {
                let left = self.left(comparisons);
                let kind = self.kind(depth);
                let first = self.condition(left, depth + 1);
                binary(kind, first, self.condition(comparisons - left, depth + 1))
            }
        };
        let nots = self.nots;
        if self.random().chance(nots) {
            not(tree)
        } else {
            tree
        }
    }

    /// A pair after one that leaves a part of the row, and of its opposite nothing,
    /// since a side of it is none.
    fn after_a_part(&mut self, comparisons: usize, depth: usize) -> Tree {
        let kind = self.kind(depth);
        let other = BOTH + EITHER - kind;
        let before = binary(other, self.near(LESS), self.either_way(LESS, none()));
        let left = self.condition(1, depth + 2);
        let after = binary(other, left, self.condition(comparisons - 3, depth + 2));
        binary(kind, before, after)
    }

    /// How many comparisons are on the left side.
    fn left(&mut self, comparisons: usize) -> usize {
        match self.shape {
            Shape::Left => comparisons - 1,
            Shape::Right => 1,
            Shape::Balanced => comparisons / 2,
            Shape::Any => self.random().between(1, comparisons - 1),
        }
    }

    fn kind(&mut self, depth: usize) -> i32 {
        match self.kinds {
            Kinds::Same => self.top,
            Kinds::InTurns if depth % 2 == 1 => BOTH + EITHER - self.top,
            Kinds::InTurns => self.top,
            Kinds::Any => self.random().pick(&[BOTH, EITHER]),
        }
    }

    fn comparison(&mut self) -> Tree {
        let (kind, nones) = (self.random().pick(&COMPARISONS), self.nones);
        if self.random().chance(nones) {
            return self.either_way(kind, none());
        }
        match self.random().below(20) {
            0..8 => self.near(kind),
            8..10 => binary(kind, self.any(), self.any()),
            10..12 => self.twice(),
            12 => {
                let variables: Vec<i32> = (0..self.row.len() as i32).collect();
                let side = choice_of(self.random(), &variables, 1);
                self.either_way(kind, side)
            }
            _ => self.sides.comparison(),
        }
    }

    fn any(&mut self) -> Tree {
        let count = self.row.len();
        var(self.random().below(count) as i32)
    }

    /// One variable with itself, of two values if there is one.
    fn twice(&mut self) -> Tree {
        let row = self.row;
        let two = row.iter().position(|&(low, high)| high.abs_diff(low) == 1);
        let any = self.random().below(row.len());
        let variable = two.unwrap_or(any) as i32;
        let kind = self.random().pick(&[LESS, AT_MOST]);
        binary(kind, var(variable), var(variable))
    }

    /// A variable and a number that is in its interval, or just outside.
    fn near(&mut self, kind: i32) -> Tree {
        let row = self.row;
        let variable = self.random().below(row.len());
        let (low, high) = row[variable];
        let (low, high) = (low.saturating_sub(1), high.saturating_add(1));
        let number = low.wrapping_add(self.random().below(high.abs_diff(low) as usize + 1) as i32);
        let sides = [var(variable as i32), num(number)];
        self.placed(kind, sides)
    }

    /// A variable and something else.
    fn either_way(&mut self, kind: i32, side: Tree) -> Tree {
        let sides = [self.sides.variable(), side];
        self.placed(kind, sides)
    }

    fn placed(&mut self, kind: i32, [a, b]: [Tree; 2]) -> Tree {
        if self.random().chance(50) {
            binary(kind, a, b)
        } else {
            binary(kind, b, a)
        }
    }
}
