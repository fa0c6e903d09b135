//! A table's nodes on rows of intervals: the interval of an arithmetic node,
//! the possible answers of a condition and the rows that it leaves for each,
//! and the alarms on the way.

mod reads;
mod row;
mod split;

pub use reads::reads;
pub use row::{Ends, Row};
pub use split::{condition, narrow, split, Side};

use crate::interval::{Computed, Interval};
use crate::table::{Node, NODES};

/// Where alarms go. Narrowing evaluates nodes on other rows too and must raise
/// none there, so the evaluator is compiled once for each of the two uses.
pub trait Alarms {
    fn raise(&mut self, node: u16, kinds: u8);
}

/// Takes no alarm.
pub struct Silent;

impl Alarms for Silent {
    #[inline]
    fn raise(&mut self, _: u16, _: u8) {}
}

/// The alarm kinds of each node. In this order they are already sorted by node
/// and then by kind, as the alarm list has to be.
pub struct Raised([u8; NODES]);

impl Alarms for Raised {
    #[inline]
    fn raise(&mut self, node: u16, kinds: u8) {
        self.0[usize::from(node)] |= kinds;
    }
}

impl Default for Raised {
    fn default() -> Raised {
        Raised([0; NODES])
    }
}

impl Raised {
    pub fn count(&self) -> usize {
        self.0.iter().map(|kinds| kinds.count_ones() as usize).sum()
    }

    /// The pairs of the alarm list, node then kind.
    pub fn pairs(&self) -> impl Iterator<Item = [i32; 2]> + '_ {
        self.0.iter().enumerate().filter(|(_, &kinds)| kinds != 0).flat_map(|(node, &kinds)| {
            [1, 2]
                .into_iter()
                .filter(move |kind| kinds & kind != 0)
                .map(move |kind| [node as i32, i32::from(kind)])
        })
    }
}

/// The interval of arithmetic node `node`, or none.
pub fn arithmetic(
    nodes: &[Node],
    node: u16,
    row: &Row,
    alarms: &mut impl Alarms,
) -> Option<Interval> {
    // Both operands are always evaluated, because the alarms of both count
    // even if one has none.
    macro_rules! operands {
        ($a:expr, $b:expr) => {{
            let a = arithmetic(nodes, $a, row, alarms);
            let b = arithmetic(nodes, $b, row, alarms);
            (a?, b?)
        }};
    }
    let computed: Computed = match nodes[usize::from(node)] {
        Node::Constant(value) => return Some(Interval::single(value)),
        Node::Input(interval) => return Some(interval),
        Node::Variable(variable) => return row.interval(variable),
        Node::Negation(a) => arithmetic(nodes, a, row, alarms)?.negation(),
        Node::Sum(a, b) => {
            let (a, b) = operands!(a, b);
            a.sum(b)
        }
        Node::Difference(a, b) => {
            let (a, b) = operands!(a, b);
            a.difference(b)
        }
        Node::Product(a, b) => {
            let (a, b) = operands!(a, b);
            a.product(b)
        }
        Node::Quotient(a, b) => {
            let (a, b) = operands!(a, b);
            a.quotient(b)
        }
        Node::Remainder(a, b) => {
            let (a, b) = operands!(a, b);
            a.remainder(b)
        }
        Node::Choice { condition, then, otherwise } => {
            return choice(nodes, condition, [then, otherwise], row, alarms);
        }
        _ => unreachable!("a condition where the table has arithmetic"),
    };
    if computed.alarms != 0 {
        alarms.raise(node, computed.alarms);
    }
    computed.interval
}

/// The join of the branches that are taken, each on the row that is left where
/// the condition has that answer. A branch that the condition shuts out, or for
/// which it leaves no row, raises no alarm either.
fn choice(
    nodes: &[Node],
    condition: u16,
    [then, otherwise]: [u16; 2],
    row: &Row,
    alarms: &mut impl Alarms,
) -> Option<Interval> {
    let (mut yes, mut no) = (Side::Whole, Side::Whole);
    let truth = split(nodes, condition, row, &mut yes, &mut no, alarms)?;
    let mut branch = |allowed: bool, side: &Side, node| {
        let row = side.row(row).filter(|_| allowed)?;
        arithmetic(nodes, node, row, alarms)
    };
    match (branch(truth.yes, &yes, then), branch(truth.no, &no, otherwise)) {
        (Some(a), Some(b)) => Some(a.join(b)),
        (a, b) => a.or(b),
    }
}

#[cfg(test)]
mod tests;
