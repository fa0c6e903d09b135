//! Evaluation of a table's nodes on plain values, with inputs from a schedule.

use crate::interval::{OVERFLOW, ZERO};
use crate::table::{Node, VARIABLES};

/// The node of the first error and its kind.
pub type Stop = (u16, u8);

/// One evaluation. It keeps its place in the schedule also over an error, as
/// the words used up until then stay used.
pub struct Evaluation<'a> {
    nodes: &'a [Node],
    values: &'a [i32; VARIABLES],
    schedule: &'a [i32],
    at: usize,
}

impl<'a> Evaluation<'a> {
    #[inline]
    pub fn new(
        nodes: &'a [Node],
        values: &'a [i32; VARIABLES],
        schedule: &'a [i32],
        at: usize,
    ) -> Evaluation<'a> {
        Evaluation { nodes, values, schedule, at }
    }

    /// The place of the next unused word.
    #[inline]
    pub fn at(&self) -> usize {
        self.at
    }

    pub fn arithmetic(&mut self, node: u16) -> Result<i32, Stop> {
        let exact = match self.nodes[usize::from(node)] {
            Node::Constant(value) => return Ok(value),
            Node::Input(range) => {
                let Some(&word) = self.schedule.get(self.at) else { return Ok(range.low()) };
                self.at += 1;
                return Ok(if range.holds(word) { word } else { range.low() });
            }
            Node::Variable(variable) => return Ok(self.values[usize::from(variable)]),
            Node::Negation(a) => self.arithmetic(a)?.checked_neg(),
            Node::Sum(a, b) => {
                let (a, b) = self.operands(a, b)?;
                a.checked_add(b)
            }
            Node::Difference(a, b) => {
                let (a, b) = self.operands(a, b)?;
                a.checked_sub(b)
            }
            Node::Product(a, b) => {
                let (a, b) = self.operands(a, b)?;
                a.checked_mul(b)
            }
            Node::Quotient(a, b) => {
                let (a, b) = self.division(node, a, b)?;
                a.checked_div(b)
            }
            Node::Remainder(a, b) => {
                let (a, b) = self.division(node, a, b)?;
                // MIN by -1 is 0; the checked operation takes it for an error.
                Some(a.wrapping_rem(b))
            }
            Node::Choice { condition, then, otherwise } => {
                let branch = if self.condition(condition)? { then } else { otherwise };
                return self.arithmetic(branch);
            }
            _ => unreachable!("a condition where the table has arithmetic"),
        };
        exact.ok_or((node, OVERFLOW))
    }

    /// Both sides are always evaluated: the second may use up words or stop.
    pub fn condition(&mut self, node: u16) -> Result<bool, Stop> {
        Ok(match self.nodes[usize::from(node)] {
            Node::Less(a, b) => {
                let (a, b) = self.operands(a, b)?;
                a < b
            }
            Node::AtMost(a, b) => {
                let (a, b) = self.operands(a, b)?;
                a <= b
            }
            Node::Equal(a, b) => {
                let (a, b) = self.operands(a, b)?;
                a == b
            }
            Node::NotEqual(a, b) => {
                let (a, b) = self.operands(a, b)?;
                a != b
            }
            Node::Both(a, b) => self.condition(a)? & self.condition(b)?,
            Node::Either(a, b) => self.condition(a)? | self.condition(b)?,
            Node::Not(a) => !self.condition(a)?,
            _ => unreachable!("arithmetic where the table has a condition"),
        })
    }

    /// The operands of a division at `node`, the second of which isn't 0.
    #[inline]
    fn division(&mut self, node: u16, a: u16, b: u16) -> Result<(i32, i32), Stop> {
        match self.operands(a, b)? {
            (_, 0) => Err((node, ZERO)),
            operands => Ok(operands),
        }
    }

    #[inline]
    fn operands(&mut self, a: u16, b: u16) -> Result<(i32, i32), Stop> {
        Ok((self.arithmetic(a)?, self.arithmetic(b)?))
    }
}
