//! The task table, decoded once. A `Table` is always a whole and valid one, so
//! check and run need no further questions about fields, targets or sorts.

use crate::interval::Interval;
use crate::words::Refusal;
use std::ops::{Range, RangeInclusive};

pub const TASKS: usize = 8;
pub const VARIABLES: usize = 16;
pub const MUTEXES: usize = 8;
pub const NODES: usize = 1024;

/// Limits of the five sizes, in their order.
const LIMITS: [RangeInclusive<i32>; 5] = [1..=8, 1..=16, 0..=8, 1..=256, 0..=1024];

/// Node, point and variable numbers are kept small, to keep a table in the
/// nearest cache.
#[derive(Clone, Copy, Debug, PartialEq, Eq)]
pub enum Node {
    Constant(i32),
    Input(Interval),
    Variable(u8),
    Negation(u16),
    Sum(u16, u16),
    Difference(u16, u16),
    Product(u16, u16),
    Quotient(u16, u16),
    Choice { condition: u16, then: u16, otherwise: u16 },
    Remainder(u16, u16),
    Less(u16, u16),
    AtMost(u16, u16),
    Equal(u16, u16),
    NotEqual(u16, u16),
    Both(u16, u16),
    Either(u16, u16),
    Not(u16),
}

impl Node {
    /// The nodes that it names, in their order.
    pub fn children(self) -> Vec<u16> {
        match self {
            Node::Constant(_) | Node::Input(_) | Node::Variable(_) => vec![],
            Node::Negation(a) | Node::Not(a) => vec![a],
            Node::Sum(a, b)
            | Node::Difference(a, b)
            | Node::Product(a, b)
            | Node::Quotient(a, b)
            | Node::Remainder(a, b)
            | Node::Less(a, b)
            | Node::AtMost(a, b)
            | Node::Equal(a, b)
            | Node::NotEqual(a, b)
            | Node::Both(a, b)
            | Node::Either(a, b) => vec![a, b],
            Node::Choice { condition, then, otherwise } => vec![condition, then, otherwise],
        }
    }
}

#[derive(Clone, Copy, Debug, PartialEq, Eq)]
pub enum Point {
    End,
    Assign { variable: u8, node: u16, next: u16 },
    Test { condition: u16, yes: u16, no: u16 },
    Lock { mutex: u8, next: u16 },
    Unlock { mutex: u8, next: u16 },
}

#[derive(Clone, Copy, Debug, PartialEq, Eq)]
pub enum Sort {
    Arithmetic,
    Condition,
}

#[derive(Clone, Debug)]
pub struct Table {
    pub tasks: usize,
    pub variables: usize,
    pub mutexes: usize,
    /// Task t owns the points from `firsts[t]` up to `firsts[t + 1]`.
    firsts: [usize; TASKS + 1],
    pub starts: [i32; VARIABLES],
    pub points: Vec<Point>,
    pub nodes: Vec<Node>,
}

impl Node {
    #[inline]
    pub fn sort(&self) -> Sort {
        match self {
            Node::Constant(_)
            | Node::Input(_)
            | Node::Variable(_)
            | Node::Negation(_)
            | Node::Sum(..)
            | Node::Difference(..)
            | Node::Product(..)
            | Node::Quotient(..)
            | Node::Choice { .. }
            | Node::Remainder(..) => Sort::Arithmetic,
            Node::Less(..)
            | Node::AtMost(..)
            | Node::Equal(..)
            | Node::NotEqual(..)
            | Node::Both(..)
            | Node::Either(..)
            | Node::Not(_) => Sort::Condition,
        }
    }
}

impl Table {
    /// Reads a table, or gives the refusal, 1 to 6.
    pub fn decode(words: &[i32]) -> Result<Table, Refusal> {
        let length = (1, words.len());
        let sizes = words.first_chunk::<5>().ok_or(length)?;
        let outside = |(size, limits): (&i32, &RangeInclusive<i32>)| !limits.contains(size);
        if let Some(place) = sizes.iter().zip(&LIMITS).position(outside) {
            return Err((2, place));
        }
        let [tasks, variables, mutexes, points, nodes] = sizes.map(|size| size as usize);
        if words.len() != 5 + tasks + variables + 4 * points + 4 * nodes {
            return Err(length);
        }
        let (shares, rest) = words[5..].split_at(tasks);
        let (start_words, rest) = rest.split_at(variables);
        let (point_words, node_words) = rest.split_at(4 * points);

        let firsts = firsts(shares, points)?;
        let mut starts = [0; VARIABLES];
        starts[..variables].copy_from_slice(start_words);
        let mut forest = Forest::new(node_words.len() / 4);
        for (place, &words) in node_words.as_chunks().0.iter().enumerate() {
            let node = forest.decode(words, variables).ok_or((4, place))?;
            forest.nodes.push(node);
        }
        let mut decoded = Vec::with_capacity(points);
        let point_words = point_words.as_chunks().0;
        for task in 0..tasks {
            let own = firsts[task]..firsts[task + 1];
            for (place, &words) in own.clone().zip(&point_words[own.clone()]) {
                let point = decode_point(words, &own, variables, mutexes, &mut forest);
                decoded.push(point.ok_or((5, place))?);
            }
        }
        if let Some(node) = forest.uses[..nodes].iter().position(|&uses| uses != 1) {
            return Err((6, node));
        }
        let nodes = forest.nodes;
        Ok(Table { tasks, variables, mutexes, firsts, starts, points: decoded, nodes })
    }

    #[inline]
    pub fn first(&self, task: usize) -> usize {
        self.firsts[task]
    }

    #[inline]
    pub fn points_of(&self, task: usize) -> Range<usize> {
        self.firsts[task]..self.firsts[task + 1]
    }
}

/// The tasks' first points, and the number of points after the last share.
fn firsts(shares: &[i32], points: usize) -> Result<[usize; TASKS + 1], Refusal> {
    if let Some(task) = shares.iter().position(|&share| share < 1) {
        return Err((3, task));
    }
    let mut firsts = [0; TASKS + 1];
    // Eight shares of 32 bits cannot pass 64.
    let mut sum = 0u64;
    for (task, &share) in shares.iter().enumerate() {
        sum += share as u64;
        firsts[task + 1] = sum as usize;
    }
    if sum == points as u64 {
        Ok(firsts)
    } else {
        Err((3, shares.len()))
    }
}

/// The nodes read so far, and how often each is used.
struct Forest {
    nodes: Vec<Node>,
    /// A node can be named by all others, so a byte would not do.
    uses: [u16; NODES],
}

impl Forest {
    fn new(count: usize) -> Forest {
        Forest { nodes: Vec::with_capacity(count), uses: [0; NODES] }
    }

    /// Only earlier nodes are here, all valid: a child found among them has a
    /// lower number and a known sort.
    fn decode(&mut self, [kind, a, b, c]: [i32; 4], variables: usize) -> Option<Node> {
        use Sort::{Arithmetic, Condition};
        Some(match kind {
            0 if b == 0 && c == 0 => Node::Constant(a),
            1 if c == 0 => Node::Input(Interval::new(a, b)?),
            2 if b == 0 && c == 0 => Node::Variable(number(a, variables)? as u8),
            3 if b == 0 && c == 0 => Node::Negation(self.used(a, Arithmetic)?),
            4..=7 | 9 | 16..=19 if c == 0 => {
                let a = self.used(a, Arithmetic)?;
                let b = self.used(b, Arithmetic)?;
                match kind {
                    4 => Node::Sum(a, b),
                    5 => Node::Difference(a, b),
                    6 => Node::Product(a, b),
                    7 => Node::Quotient(a, b),
                    9 => Node::Remainder(a, b),
                    16 => Node::Less(a, b),
                    17 => Node::AtMost(a, b),
                    18 => Node::Equal(a, b),
                    _ => Node::NotEqual(a, b),
                }
            }
            8 => Node::Choice {
                condition: self.used(a, Condition)?,
                then: self.used(b, Arithmetic)?,
                otherwise: self.used(c, Arithmetic)?,
            },
            20 if c == 0 => Node::Both(self.used(a, Condition)?, self.used(b, Condition)?),
            21 if c == 0 => Node::Either(self.used(a, Condition)?, self.used(b, Condition)?),
            22 if b == 0 && c == 0 => Node::Not(self.used(a, Condition)?),
            _ => return None,
        })
    }

    /// A node of this sort, which is hereby used once more.
    #[inline]
    fn used(&mut self, word: i32, sort: Sort) -> Option<u16> {
        let node = number(word, self.nodes.len())?;
        let at = usize::from(node);
        if self.nodes[at].sort() != sort {
            return None;
        }
        self.uses[at] += 1;
        Some(node)
    }
}

/// `own` are the points of the task, among which the targets have to lie.
fn decode_point(
    [kind, a, b, c]: [i32; 4],
    own: &Range<usize>,
    variables: usize,
    mutexes: usize,
    forest: &mut Forest,
) -> Option<Point> {
    let target = |word| number(word, own.end).filter(|&to| usize::from(to) >= own.start);
    Some(match kind {
        0 if a == 0 && b == 0 && c == 0 => Point::End,
        1 => Point::Assign {
            variable: number(a, variables)? as u8,
            node: forest.used(b, Sort::Arithmetic)?,
            next: target(c)?,
        },
        2 => Point::Test {
            condition: forest.used(a, Sort::Condition)?,
            yes: target(b)?,
            no: target(c)?,
        },
        3 if c == 0 => Point::Lock { mutex: number(a, mutexes)? as u8, next: target(b)? },
        4 if c == 0 => Point::Unlock { mutex: number(a, mutexes)? as u8, next: target(b)? },
        _ => return None,
    })
}

/// A word that numbers one of `count` things.
fn number(word: i32, count: usize) -> Option<u16> {
    usize::try_from(word).ok().filter(|&number| number < count).map(|number| number as u16)
}

#[cfg(test)]
mod tests {
    use super::*;
    use crate::words::parse;

    fn decode(text: &str) -> Result<Table, Refusal> {
        Table::decode(&parse(text).unwrap())
    }

    #[test]
    fn the_least_table() {
        let whole = "1 1 0 1 0  1  0  0 0 0 0";
        assert!(decode(whole).is_ok());
        assert_eq!(decode(&whole[..whole.len() - 2]).unwrap_err(), (1, 10));
        assert_eq!(decode(&whole.replacen('1', "9", 1)).unwrap_err(), (2, 0));
        assert_eq!(decode("").unwrap_err(), (1, 0));
        assert_eq!(decode("9 9 9 9").unwrap_err(), (1, 4));
        assert_eq!(decode("1 17 -1 0 2000").unwrap_err(), (2, 1));
    }

    #[test]
    fn shares() {
        assert_eq!(decode("2 1 0 2 0  2 0  0  0 0 0 0  0 0 0 0").unwrap_err(), (3, 1));
        assert_eq!(decode("2 1 0 2 0  2 1  0  0 0 0 0  0 0 0 0").unwrap_err(), (3, 2));
        let great = "2 1 0 2 0  2147483647 2147483647  0  0 0 0 0  0 0 0 0";
        assert_eq!(decode(great).unwrap_err(), (3, 2));
    }

    /// One task of one point that uses node 2, the others as given.
    fn with_nodes(point: &str, nodes: [&str; 3]) -> Result<Table, Refusal> {
        decode(&format!("1 2 1 1 3  1  0 0  {point}  {}", nodes.join(" ")))
    }

    #[test]
    fn nodes() {
        let assign = "1 1 2 0";
        assert!(with_nodes(assign, ["1 -3 3 0", "2 1 0 0", "7 1 0 0"]).is_ok());
        assert!(with_nodes(assign, ["1 -3 3 0", "2 1 0 0", "9 1 0 0"]).is_ok());
        for (bad, place) in [
            (["9 0 0 0", "2 1 0 0", "7 1 0 0"], 0),
            (["10 0 0 0", "2 1 0 0", "7 1 0 0"], 0),
            (["-1 0 0 0", "2 1 0 0", "7 1 0 0"], 0),
            (["23 0 0 0", "2 1 0 0", "7 1 0 0"], 0),
            (["15 0 0 0", "2 1 0 0", "7 1 0 0"], 0),
            (["0 0 1 0", "2 1 0 0", "7 1 0 0"], 0),
            (["1 3 2 0", "2 1 0 0", "7 1 0 0"], 0),
            (["1 3 3 1", "2 1 0 0", "7 1 0 0"], 0),
            (["0 0 0 0", "2 2 0 0", "7 1 0 0"], 1),
            (["0 0 0 0", "2 -1 0 0", "7 1 0 0"], 1),
            (["0 0 0 0", "3 1 0 0", "7 1 0 0"], 1),
            (["0 0 0 0", "3 0 0 1", "7 1 0 0"], 1),
            (["0 0 0 0", "22 0 0 0", "7 1 0 0"], 1),
            (["0 0 0 0", "0 0 0 0", "7 1 0 1"], 2),
            (["0 0 0 0", "0 0 0 0", "9 1 0 1"], 2),
            (["0 0 0 0", "0 0 0 0", "9 1 2 0"], 2),
            (["0 0 0 0", "0 0 0 0", "9 -1 0 0"], 2),
            (["0 0 0 0", "18 0 0 0", "9 0 1 0"], 2),
            (["0 0 0 0", "18 0 0 0", "9 1 0 0"], 2),
            (["0 0 0 0", "0 0 0 0", "20 1 0 0"], 2),
            (["0 0 0 0", "0 0 0 0", "8 0 1 0"], 2),
            (["0 0 0 0", "0 0 0 0", "4 2 0 0"], 2),
        ] {
            assert_eq!(with_nodes(assign, bad).unwrap_err(), (4, place), "{bad:?}");
        }
    }

    #[test]
    fn points_and_uses() {
        let sum = ["0 1 0 0", "2 1 0 0", "4 1 0 0"];
        let less = ["0 1 0 0", "2 1 0 0", "16 1 0 0"];
        assert!(with_nodes("2 2 0 0", less).is_ok());
        for bad in [
            "5 0 0 0", "-1 0 0 0", "0 0 0 1", "1 2 2 0", "1 0 3 0", "1 0 -1 0", "1 0 2 1",
            "2 2 0 0", "3 1 0 0", "3 0 1 0", "3 0 0 1", "4 1 0 0", "4 0 0 1",
        ] {
            assert_eq!(with_nodes(bad, sum).unwrap_err(), (5, 0), "{bad}");
        }
        assert_eq!(with_nodes("1 0 2 0", less).unwrap_err(), (5, 0));
        let remainder = ["0 1 0 0", "2 1 0 0", "9 1 0 0"];
        assert_eq!(with_nodes("2 2 0 0", remainder).unwrap_err(), (5, 0));
        assert_eq!(with_nodes("2 2 0 1", less).unwrap_err(), (5, 0));
        assert_eq!(with_nodes("0 0 0 0", sum).unwrap_err(), (6, 2));
        assert_eq!(with_nodes("1 0 2 0", ["0 1 0 0", "0 1 0 0", "4 0 0 0"]).unwrap_err(), (6, 0));
        // A target in another task.
        let two = "2 1 0 2 1  1 1  0  1 0 0 1  0 0 0 0  0 0 0 0";
        assert_eq!(decode(two).unwrap_err(), (5, 0));
    }
}
