//! What a condition makes of a row: its possible answers, and the rows that are
//! left where it is true and where it is false. All three come from one walk, so
//! that choices in conditions of choices cost no more than their nodes. Only the
//! right side of a both or an either may have to be read on a second row, which
//! the left side has cut.

use super::{arithmetic, Alarms, Row, Silent};
use crate::interval::{Interval, Truth};
use crate::table::Node;

/// What narrowing has left so far of the row that came in. A row is copied only
/// where a cut changes it.
#[derive(Clone, Debug, PartialEq, Eq)]
pub enum Side {
    Nothing,
    /// All of it.
    Whole,
    Part(Row),
}

impl Side {
    /// The row that is left of `row`, which came in.
    #[inline]
    pub fn row<'a>(&'a self, row: &'a Row) -> Option<&'a Row> {
        match self {
            Side::Nothing => None,
            Side::Whole => Some(row),
            Side::Part(part) => Some(part),
        }
    }

    #[inline]
    fn set(&mut self, row: &Row, variable: u8, interval: Interval) {
        match self {
            Side::Part(part) => part.set(variable, interval),
            Side::Whole if row.interval(variable) != Some(interval) => {
                let mut part = *row;
                part.set(variable, interval);
                *self = Side::Part(part);
            }
            _ => {}
        }
    }

    /// A side with nothing adds nothing, and since cuts only take away, nothing
    /// can be added to all of the row.
    fn join(&mut self, other: Side) {
        match (&mut *self, other) {
            (Side::Part(part), Side::Part(other)) => part.join(&other),
            (Side::Whole, _) | (_, Side::Nothing) => {}
            (_, other) => *self = other,
        }
    }
}

/// The possible answers of condition `node` on the row, or none, with their
/// alarms. On the way `yes` is narrowed by the condition and `no` by its
/// opposite, from whatever they are, which raises no alarm.
pub fn split(
    nodes: &[Node],
    node: u16,
    row: &Row,
    yes: &mut Side,
    no: &mut Side,
    alarms: &mut impl Alarms,
) -> Option<Truth> {
    Some(match nodes[usize::from(node)] {
        Node::Less(a, b) => less(nodes, [a, b], row, yes, no, alarms)?,
        Node::AtMost(a, b) => less(nodes, [b, a], row, no, yes, alarms)?.opposite(),
        Node::Equal(a, b) => equal(nodes, [a, b], row, yes, no, alarms)?,
        Node::NotEqual(a, b) => equal(nodes, [a, b], row, no, yes, alarms)?.opposite(),
        Node::Both(a, b) => {
            // Answers and alarms of both sides are those on the row that came
            // in, but where both are true, the right narrows what the left has
            // left.
            let mut other = no.clone();
            let left = split(nodes, a, row, yes, no, alarms);
            let right = split(nodes, b, row, yes, &mut other, alarms);
            no.join(other);
            left?.both(right?)
        }
        Node::Either(a, b) => {
            let mut other = yes.clone();
            let left = split(nodes, a, row, yes, no, alarms);
            let right = split(nodes, b, row, &mut other, no, alarms);
            yes.join(other);
            left?.either(right?)
        }
        Node::Not(a) => split(nodes, a, row, no, yes, alarms)?.opposite(),
        _ => unreachable!("arithmetic where the table has a condition"),
    })
}

fn less(
    nodes: &[Node],
    operands: [u16; 2],
    row: &Row,
    yes: &mut Side,
    no: &mut Side,
    alarms: &mut impl Alarms,
) -> Option<Truth> {
    let intervals = evaluated(nodes, operands, row, alarms);
    cut(nodes, operands, row, intervals, yes, Interval::cut_less);
    cut(nodes, operands, row, intervals, no, |a, b| b.cut_at_most(a).map(|(b, a)| (a, b)));
    intervals.map(|(a, b)| Truth::less(a, b))
}

fn equal(
    nodes: &[Node],
    operands: [u16; 2],
    row: &Row,
    yes: &mut Side,
    no: &mut Side,
    alarms: &mut impl Alarms,
) -> Option<Truth> {
    let intervals = evaluated(nodes, operands, row, alarms);
    cut(nodes, operands, row, intervals, yes, Interval::cut_equal);
    cut(nodes, operands, row, intervals, no, Interval::cut_not_equal);
    intervals.map(|(a, b)| Truth::equal(a, b))
}

/// The intervals of both operands; the alarms of both count even if one has
/// none.
#[inline]
fn evaluated(
    nodes: &[Node],
    [a, b]: [u16; 2],
    row: &Row,
    alarms: &mut impl Alarms,
) -> Option<(Interval, Interval)> {
    let a = arithmetic(nodes, a, row, alarms);
    let b = arithmetic(nodes, b, row, alarms);
    Some((a?, b?))
}

/// Narrows a side by a comparison: cuts both operands, whose intervals on the
/// row that came in are known, and carries the cuts of variables back.
#[inline]
fn cut(
    nodes: &[Node],
    operands: [u16; 2],
    row: &Row,
    intervals: Option<(Interval, Interval)>,
    side: &mut Side,
    by: impl Fn(Interval, Interval) -> Option<(Interval, Interval)>,
) {
    let intervals = match side {
        Side::Nothing => return,
        Side::Whole => intervals,
        Side::Part(part) => evaluated(nodes, operands, part, &mut Silent),
    };
    let cuts = intervals.and_then(|(a, b)| carried(nodes, operands, by(a, b)?));
    match cuts {
        None => *side = Side::Nothing,
        Some(cuts) => {
            for (variable, interval) in cuts.into_iter().flatten() {
                side.set(row, variable, interval);
            }
        }
    }
}

/// The variables among the operands with their cuts; one variable on both sides
/// takes the meet of its two.
#[inline]
fn carried(
    nodes: &[Node],
    operands: [u16; 2],
    (left, right): (Interval, Interval),
) -> Option<[Option<(u8, Interval)>; 2]> {
    let variable = |node: u16| match nodes[usize::from(node)] {
        Node::Variable(variable) => Some(variable),
        _ => None,
    };
    Some(match operands.map(variable) {
        [Some(a), Some(b)] if a == b => [Some((a, left.meet(right)?)), None],
        [a, b] => [a.map(|a| (a, left)), b.map(|b| (b, right))],
    })
}

/// The possible answers of condition `node` alone, or none.
pub fn condition(nodes: &[Node], node: u16, row: &Row, alarms: &mut impl Alarms) -> Option<Truth> {
    split(nodes, node, row, &mut Side::Nothing, &mut Side::Nothing, alarms)
}

/// Narrows `row` to where condition `node` answers `wanted`. False stands for
/// none, and the row is then as it was.
pub fn narrow(nodes: &[Node], node: u16, wanted: bool, row: &mut Row) -> bool {
    let (mut kept, mut other) = (Side::Whole, Side::Nothing);
    let (yes, no) = if wanted { (&mut kept, &mut other) } else { (&mut other, &mut kept) };
    split(nodes, node, row, yes, no, &mut Silent);
    if let Side::Part(part) = kept {
        *row = part;
        return true;
    }
    kept == Side::Whole
}

#[cfg(test)]
mod tests {
    use super::super::Ends;
    use super::*;

    fn of(low: i32, high: i32) -> Interval {
        Interval::new(low, high).unwrap()
    }

    fn narrowed(nodes: &[Node], wanted: bool, row: &[Interval]) -> Option<Row> {
        let mut row = Row::of(row);
        narrow(nodes, nodes.len() as u16 - 1, wanted, &mut row).then_some(row)
    }

    #[test]
    fn one_variable_on_both_sides() {
        let nodes = [Node::Variable(0), Node::Variable(0), Node::Less(0, 1)];
        assert_eq!(narrowed(&nodes, true, &[of(0, 9)]), Some(Row::of(&[of(1, 8)])));
        assert_eq!(narrowed(&nodes, true, &[of(0, 2)]), Some(Row::of(&[of(1, 1)])));
        assert_eq!(narrowed(&nodes, true, &[of(0, 1)]), None);
        assert_eq!(narrowed(&nodes, true, &[of(0, 0)]), None);
        assert_eq!(narrowed(&nodes, false, &[of(0, 9)]), Some(Row::of(&[of(0, 9)])));
    }

    #[test]
    fn both_cuts_use_the_ends_from_before() {
        let nodes = [Node::Variable(0), Node::Variable(1), Node::Less(0, 1)];
        let row = [of(0, 9), of(-5, 4)];
        assert_eq!(narrowed(&nodes, true, &row), Some(Row::of(&[of(0, 3), of(1, 4)])));
        // The opposite is "1 at most 0".
        assert_eq!(narrowed(&nodes, false, &row), Some(Row::of(&[of(0, 9), of(-5, 4)])));
        assert_eq!(
            narrowed(&nodes, false, &[of(-9, 2), of(0, 4)]),
            Some(Row::of(&[of(0, 2), of(0, 2)]))
        );
    }

    #[test]
    fn both_in_turn_and_either_joined() {
        // v0 < v1, v1 < 3: the second sees the first's cut.
        let leaves = [
            Node::Variable(0),
            Node::Variable(1),
            Node::Less(0, 1),
            Node::Variable(1),
            Node::Constant(3),
            Node::Less(3, 4),
        ];
        let row = [of(0, 9), of(0, 9)];
        let with = |top| [&leaves[..], &[top]].concat();
        let both = with(Node::Both(2, 5));
        assert_eq!(narrowed(&both, true, &row), Some(Row::of(&[of(0, 8), of(1, 2)])));
        // Not both: v1 at most v0 or 3 at most v1.
        assert_eq!(narrowed(&both, false, &row), Some(Row::of(&[of(0, 9), of(0, 9)])));
        let either = with(Node::Either(2, 5));
        assert_eq!(narrowed(&either, true, &row), Some(Row::of(&[of(0, 9), of(0, 9)])));
        assert_eq!(
            narrowed(&either, true, &[of(9, 9), of(0, 9)]),
            Some(Row::of(&[of(9, 9), of(0, 2)]))
        );
        // Neither: v1 at most v0, then 3 at most v1.
        assert_eq!(narrowed(&either, false, &row), Some(Row::of(&[of(0, 9), of(3, 9)])));
        assert_eq!(narrowed(&either, false, &[of(0, 2), of(4, 9)]), None);
    }

    #[test]
    fn ends_in_the_wrong_order_stay_where_nothing_reads_them() {
        // v0 < 5, and v1 < 5 of which nothing is known.
        let nodes = [
            Node::Variable(0),
            Node::Constant(5),
            Node::Less(0, 1),
            Node::Variable(1),
            Node::Constant(5),
            Node::Less(3, 4),
            Node::Either(2, 5),
        ];
        let given = Ends { lows: &[0, 3], highs: &[9, 2] };
        for top in [2, 6] {
            let mut row = given.row();
            assert!(narrow(&nodes, top, true, &mut row));
            assert_eq!(row, Ends { lows: &[0, 3], highs: &[4, 2] }.row());
        }
        assert!(!narrow(&nodes, 5, true, &mut given.row()));
        assert!(!narrow(&nodes, 5, false, &mut given.row()));
        assert!(!narrow(&nodes, 6, false, &mut given.row()));
    }

    #[test]
    fn an_operand_with_none_gives_none() {
        // 1 / 0 < 1, either that or v < 5.
        let nodes = [
            Node::Constant(1),
            Node::Constant(0),
            Node::Quotient(0, 1),
            Node::Constant(1),
            Node::Less(2, 3),
            Node::Variable(0),
            Node::Constant(5),
            Node::Less(5, 6),
            Node::Either(4, 7),
        ];
        assert_eq!(narrowed(&nodes[..5], true, &[of(0, 9)]), None);
        assert_eq!(narrowed(&nodes[..5], false, &[of(0, 9)]), None);
        assert_eq!(narrowed(&nodes, true, &[of(0, 9)]), Some(Row::of(&[of(0, 4)])));
        assert_eq!(narrowed(&nodes, false, &[of(0, 9)]), None);
    }
}
