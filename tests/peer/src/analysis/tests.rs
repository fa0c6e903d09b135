//! Trees on rows by hand, and drawn ones against slow evaluators that go
//! sentence by sentence as the text does.

use super::*;
use crate::generate::{table, Random};
use crate::interval::Truth;
use crate::table::{Point, Table};

fn of(low: i32, high: i32) -> Interval {
    Interval::new(low, high).unwrap()
}

fn evaluated(nodes: &[Node], row: &[Interval]) -> (Option<Interval>, Vec<[i32; 2]>) {
    let mut raised = Raised::default();
    let top = nodes.len() as u16 - 1;
    let interval = arithmetic(nodes, top, &Row::of(row), &mut raised);
    assert_eq!(raised.count(), raised.pairs().count());
    (interval, raised.pairs().collect())
}

/// v = 0 ? 0 : 10 / v
const GUARDED: [Node; 8] = [
    Node::Variable(0),
    Node::Constant(0),
    Node::Equal(0, 1),
    Node::Constant(0),
    Node::Constant(10),
    Node::Variable(0),
    Node::Quotient(4, 5),
    Node::Choice { condition: 2, then: 3, otherwise: 6 },
];

#[test]
fn a_choice_narrows_its_branches() {
    assert_eq!(evaluated(&GUARDED, &[of(0, 5)]), (Some(of(0, 10)), vec![]));
    assert_eq!(evaluated(&GUARDED, &[of(-5, 0)]), (Some(of(-10, 0)), vec![]));
    // With v surely 0 the other branch is shut out.
    assert_eq!(evaluated(&GUARDED, &[of(0, 0)]), (Some(of(0, 0)), vec![]));
    assert_eq!(evaluated(&GUARDED, &[of(2, 5)]), (Some(of(2, 5)), vec![]));
    // Only an end can be taken away.
    assert_eq!(evaluated(&GUARDED, &[of(-5, 5)]), (Some(of(-10, 10)), vec![[6, 2]]));
}

#[test]
fn a_branch_without_a_row_is_left_out() {
    // v < v ? 1 / 0 : v: on 0..1 the decision allows both, but no row is left.
    let nodes = [
        Node::Variable(0),
        Node::Variable(0),
        Node::Less(0, 1),
        Node::Constant(1),
        Node::Constant(0),
        Node::Quotient(3, 4),
        Node::Variable(0),
        Node::Choice { condition: 2, then: 5, otherwise: 6 },
    ];
    assert_eq!(evaluated(&nodes, &[of(0, 1)]), (Some(of(0, 1)), vec![]));
    assert_eq!(evaluated(&nodes, &[of(0, 2)]), (Some(of(0, 2)), vec![[5, 2]]));
}

#[test]
fn a_condition_alarms_on_the_row_that_came_in() {
    // v != 0 and 10 / v < 20 ? 10 / v : 0: only the decision divides by 0.
    let nodes = [
        Node::Variable(0),
        Node::Constant(0),
        Node::NotEqual(0, 1),
        Node::Constant(10),
        Node::Variable(0),
        Node::Quotient(3, 4),
        Node::Constant(20),
        Node::Less(5, 6),
        Node::Both(2, 7),
        Node::Constant(10),
        Node::Variable(0),
        Node::Quotient(9, 10),
        Node::Constant(0),
        Node::Choice { condition: 8, then: 11, otherwise: 12 },
    ];
    assert_eq!(evaluated(&nodes, &[of(0, 5)]), (Some(of(0, 10)), vec![[5, 2]]));
    assert_eq!(evaluated(&nodes, &[of(1, 5)]), (Some(of(2, 10)), vec![]));
}

/// The nest is read once for each of its nodes, and not once for each way
/// through it.
#[test]
fn a_deep_nest_is_read_once() {
    // (.. < 5) ? 1 : 9, within itself
    let mut nodes = vec![Node::Constant(0)];
    for level in 0..204 {
        let inner = 5 * level;
        nodes.extend([
            Node::Constant(5),
            Node::Less(inner, inner + 1),
            Node::Constant(1),
            Node::Constant(9),
            Node::Choice { condition: inner + 2, then: inner + 3, otherwise: inner + 4 },
        ]);
    }
    assert_eq!(evaluated(&nodes, &[]), (Some(of(1, 1)), vec![]));
}

#[test]
fn alarms_of_both_operands_count() {
    // (1 / 0) + (MAX + 1): the sum itself raises nothing.
    let nodes = [
        Node::Constant(1),
        Node::Constant(0),
        Node::Quotient(0, 1),
        Node::Constant(i32::MAX),
        Node::Constant(1),
        Node::Sum(3, 4),
        Node::Sum(2, 5),
    ];
    assert_eq!(evaluated(&nodes, &[]), (None, vec![[2, 2], [5, 1]]));
}

#[test]
fn a_remainder_alarms_for_zero_alone_and_not_where_an_operand_has_none() {
    // (input -3..100 % 8) % v: no product, so no overflow.
    let nodes = [
        Node::Input(of(-3, 100)),
        Node::Constant(8),
        Node::Remainder(0, 1),
        Node::Variable(0),
        Node::Remainder(2, 3),
    ];
    assert_eq!(evaluated(&nodes, &[of(-5, -5)]), (Some(of(-3, 4)), vec![]));
    assert_eq!(evaluated(&nodes, &[of(-5, 0)]), (Some(of(-3, 4)), vec![[4, 2]]));
    assert_eq!(evaluated(&nodes, &[of(0, 0)]), (None, vec![[4, 2]]));
    // v % (1 % 0) and (1 % 0) % v
    let none = |a, b| {
        [
            Node::Variable(0),
            Node::Constant(1),
            Node::Constant(0),
            Node::Remainder(1, 2),
            Node::Remainder(a, b),
        ]
    };
    for nodes in [none(0, 3), none(3, 0)] {
        assert_eq!(evaluated(&nodes, &[of(0, 9)]), (None, vec![[3, 2]]));
    }
}

#[test]
fn a_condition_with_none_allows_no_branch() {
    // not (1 / 0 < 1) or v = v ? 1 / v : 1 / v
    let nodes = [
        Node::Constant(1),
        Node::Constant(0),
        Node::Quotient(0, 1),
        Node::Constant(1),
        Node::Less(2, 3),
        Node::Not(4),
        Node::Variable(0),
        Node::Variable(0),
        Node::Equal(6, 7),
        Node::Either(5, 8),
        Node::Variable(0),
        Node::Negation(10),
        Node::Variable(0),
        Node::Negation(12),
        Node::Choice { condition: 9, then: 11, otherwise: 13 },
    ];
    assert_eq!(evaluated(&nodes, &[Interval::FULL]), (None, vec![[2, 2]]));
}

#[test]
fn ends_handed_in_the_wrong_way_round_are_none() {
    // 1 / v0 + v1, and v1 alone.
    let nodes = [
        Node::Constant(1),
        Node::Variable(0),
        Node::Quotient(0, 1),
        Node::Variable(1),
        Node::Sum(2, 3),
    ];
    let row = Ends { lows: &[0, 3], highs: &[9, 2] }.row();
    let mut raised = Raised::default();
    assert_eq!(arithmetic(&nodes, 4, &row, &mut raised), None);
    assert_eq!(raised.pairs().collect::<Vec<_>>(), [[2, 2]]);
    assert_eq!(arithmetic(&nodes, 3, &row, &mut Silent), None);
    assert_eq!(arithmetic(&nodes, 1, &row, &mut Silent), Some(of(0, 9)));
}

#[test]
fn a_branch_with_none_is_left_out() {
    // input 0..1 = 0 ? 1 / 0 : v, and both kinds at one node.
    let nodes = [
        Node::Input(of(0, 1)),
        Node::Constant(0),
        Node::Equal(0, 1),
        Node::Constant(1),
        Node::Constant(0),
        Node::Quotient(3, 4),
        Node::Variable(0),
        Node::Choice { condition: 2, then: 5, otherwise: 6 },
        Node::Input(of(-1, 0)),
        Node::Quotient(7, 8),
    ];
    assert_eq!(
        evaluated(&nodes, &[of(i32::MIN, 3)]),
        (Some(of(-3, i32::MAX)), vec![[5, 2], [9, 1], [9, 2]])
    );
}

/// The value as the text has it.
fn value(nodes: &[Node], node: u16, row: &Row, alarms: &mut impl Alarms) -> Option<Interval> {
    let (operation, [a, b]): (fn(Interval, Interval) -> Computed, _) =
        match nodes[usize::from(node)] {
            Node::Constant(_) | Node::Input(_) | Node::Variable(_) | Node::Negation(_) => {
                return one_operand(nodes, node, row, alarms);
            }
            Node::Sum(a, b) => (Interval::sum, [a, b]),
            Node::Difference(a, b) => (Interval::difference, [a, b]),
            Node::Product(a, b) => (Interval::product, [a, b]),
            Node::Quotient(a, b) => (Interval::quotient, [a, b]),
            Node::Remainder(a, b) => (Interval::remainder, [a, b]),
            Node::Choice { condition, then, otherwise } => {
                let truth = decision(nodes, condition, row, alarms)?;
                let branches = [(truth.yes, true, then), (truth.no, false, otherwise)];
                let allowed = branches.into_iter().filter(|(allowed, ..)| *allowed);
                let mut taken = |(_, wanted, node)| {
                    let row = narrowed(nodes, condition, wanted, *row)?;
                    value(nodes, node, &row, alarms)
                };
                return allowed.filter_map(&mut taken).reduce(Interval::join);
            }
            _ => unreachable!(),
        };
    let a = value(nodes, a, row, alarms);
    let b = value(nodes, b, row, alarms);
    told(node, operation(a?, b?), alarms)
}

fn one_operand(nodes: &[Node], node: u16, row: &Row, alarms: &mut impl Alarms) -> Option<Interval> {
    match nodes[usize::from(node)] {
        Node::Constant(value) => Some(Interval::single(value)),
        Node::Input(interval) => Some(interval),
        Node::Variable(variable) => row.interval(variable),
        Node::Negation(a) => told(node, value(nodes, a, row, alarms)?.negation(), alarms),
        _ => unreachable!(),
    }
}

fn told(node: u16, computed: Computed, alarms: &mut impl Alarms) -> Option<Interval> {
    alarms.raise(node, computed.alarms);
    computed.interval
}

/// The decision as the text has it.
fn decision(nodes: &[Node], node: u16, row: &Row, alarms: &mut impl Alarms) -> Option<Truth> {
    let (comparison, [a, b]): (fn(Interval, Interval) -> Truth, _) = match nodes[usize::from(node)]
    {
        Node::Less(a, b) => (Truth::less, [a, b]),
        Node::AtMost(a, b) => (Truth::at_most, [a, b]),
        Node::Equal(a, b) => (Truth::equal, [a, b]),
        Node::NotEqual(a, b) => (|a, b| Truth::equal(a, b).opposite(), [a, b]),
        Node::Not(a) => return decision(nodes, a, row, alarms).map(Truth::opposite),
        Node::Both(a, b) | Node::Either(a, b) => {
            let left = decision(nodes, a, row, alarms);
            let right = decision(nodes, b, row, alarms);
            return Some(match nodes[usize::from(node)] {
                Node::Both(..) => left?.both(right?),
                _ => left?.either(right?),
            });
        }
        _ => unreachable!(),
    };
    let a = value(nodes, a, row, alarms);
    let b = value(nodes, b, row, alarms);
    Some(comparison(a?, b?))
}

/// The narrowing as the text has it.
fn narrowed(nodes: &[Node], node: u16, wanted: bool, row: Row) -> Option<Row> {
    type Cut = fn(Interval, Interval) -> Option<(Interval, Interval)>;
    let (cut, [a, b]): (Cut, _) = match (nodes[usize::from(node)], wanted) {
        (Node::Less(a, b), true) | (Node::AtMost(b, a), false) => (Interval::cut_less, [a, b]),
        (Node::AtMost(a, b), true) | (Node::Less(b, a), false) => (Interval::cut_at_most, [a, b]),
        (Node::Equal(a, b), true) | (Node::NotEqual(a, b), false) => (Interval::cut_equal, [a, b]),
        (Node::NotEqual(a, b), true) | (Node::Equal(a, b), false) => {
            (Interval::cut_not_equal, [a, b])
        }
        (Node::Not(a), _) => return narrowed(nodes, a, !wanted, row),
        (Node::Both(a, b), true) | (Node::Either(a, b), false) => {
            let left = narrowed(nodes, a, wanted, row)?;
            return narrowed(nodes, b, wanted, left);
        }
        (Node::Both(a, b), false) | (Node::Either(a, b), true) => {
            let sides = [a, b].map(|side| narrowed(nodes, side, wanted, row));
            return sides.into_iter().flatten().reduce(|mut left, right| {
                left.join(&right);
                left
            });
        }
        _ => unreachable!(),
    };
    let interval = |operand| value(nodes, operand, &row, &mut Silent);
    let (left, right) = cut(interval(a)?, interval(b)?)?;
    // A variable on both sides meets the second cut with the first.
    let mut row = row;
    for (operand, cut) in [(a, left), (b, right)] {
        if let Node::Variable(variable) = nodes[usize::from(operand)] {
            row.set(variable, row.interval(variable)?.meet(cut)?);
        }
    }
    Some(row)
}

/// A row of drawn ends, some in the wrong order.
fn drawn_row(random: &mut Random) -> Row {
    let end = |random: &mut Random| random.below(16) as i32 - 5;
    let mut ends: [Vec<i32>; 2] = Default::default();
    for _ in 0..crate::table::VARIABLES {
        let (low, high) = match random.below(20) {
            0 => (end(random), end(random)),
            1..=5 => random.ends(),
            _ => {
                let (a, b) = (end(random), end(random));
                (a.min(b), a.max(b))
            }
        };
        ends[0].push(low);
        ends[1].push(high);
    }
    Ends { lows: &ends[0], highs: &ends[1] }.row()
}

#[test]
fn one_walk_gives_what_the_sentences_give() {
    let mut random = Random::new(7);
    let mut choices = 0;
    for _ in 0..12_000 {
        let table = Table::decode(&table(&mut random)).unwrap();
        // The slow evaluators take all ways through a nest.
        if table.nodes.len() > 120 {
            continue;
        }
        let row = drawn_row(&mut random);
        let (mut fast, mut slow) = (Raised::default(), Raised::default());
        for point in &table.points {
            match *point {
                Point::Assign { node, .. } => {
                    let interval = arithmetic(&table.nodes, node, &row, &mut fast);
                    assert_eq!(interval, value(&table.nodes, node, &row, &mut slow));
                }
                Point::Test { condition, .. } => {
                    let (mut yes, mut no) = (Side::Whole, Side::Whole);
                    let truth = split(&table.nodes, condition, &row, &mut yes, &mut no, &mut fast);
                    assert_eq!(truth, decision(&table.nodes, condition, &row, &mut slow));
                    for (side, wanted) in [(yes, true), (no, false)] {
                        let left = narrowed(&table.nodes, condition, wanted, row);
                        assert_eq!(side.row(&row), left.as_ref());
                    }
                }
                _ => {}
            }
        }
        assert!(fast.pairs().eq(slow.pairs()));
        let is_choice = |node: &&Node| matches!(node, Node::Choice { .. });
        choices += table.nodes.iter().filter(is_choice).count();
    }
    assert!(choices > 1500, "{choices}");
}
