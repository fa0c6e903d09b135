//! Comparisons whose sides' rows are written out. Each is tried with just these
//! targets, and with each end of each variable in each of them one tighter and
//! one wider; at a first point, and at a later one under a held set.

mod rows;
mod ways;

use super::{wider, with, with_held, Left, Target, Tested};
use crate::build::*;
use crate::families::checks::Check;

/// The row that most of these are on.
const V: Ends = (0, 9);
const W: Ends = (3, 6);

fn v() -> Tree {
    var(0)
}

fn w() -> Tree {
    var(1)
}

/// 1..10 on that row.
fn v_and_1() -> Tree {
    sum(v(), num(1))
}

/// -5..4 on that row.
fn v_less_5() -> Tree {
    difference(v(), num(5))
}

/// What is left of V and W.
type Two = Option<[Ends; 2]>;

/// All of both.
const ALL: Two = Some([V, W]);

/// A part of V and all of W.
fn of_v(low: i32, high: i32) -> Two {
    Some([(low, high), W])
}

/// All of V and a part of W.
fn of_w(low: i32, high: i32) -> Two {
    Some([V, (low, high)])
}

pub fn cases() -> Vec<Check> {
    let mut list = List(Vec::new());
    for (kind, sides) in [(16, less_than()), (17, at_most_that()), (18, equal_to())] {
        for (a, b, yes, no) in sides {
            list.put(&[V, W], binary(kind, a, b), [yes, no]);
        }
    }
    // Where it isn't equal, it is as where equal is false.
    for (a, b, yes, no) in equal_to() {
        list.put(&[V, W], not_equal(a, b), [no, yes]);
    }
    rows::cases(&mut list);
    ways::cases(&mut list);
    list.0
}

struct List(Vec<Check>);

impl List {
    /// A condition without an alarm, and what it leaves of the row.
    fn put<const N: usize>(
        &mut self,
        row: &[Ends; N],
        condition: Tree,
        left: [Option<[Ends; N]>; 2],
    ) {
        self.put_with(row, condition, left, &[]);
    }

    fn put_with<const N: usize>(
        &mut self,
        row: &[Ends; N],
        condition: Tree,
        left: [Option<[Ends; N]>; 2],
        alarms: &[[i32; 2]],
    ) {
        let rows = left.map(|ends| ends.map(|ends| ends.to_vec()));
        let left = Left { rows, alarms: alarms.to_vec() };
        for (before, held) in [(0, 0), (2, 3)] {
            let condition = condition.clone();
            let tested = Tested { condition, row: row.to_vec(), before, held };
            self.0.extend(every_check(&tested, &left));
        }
    }
}

pub fn every_check(tested: &Tested, left: &Left) -> Vec<Check> {
    let exact = left.rows.each_ref().map(|row| match row {
        Some(row) => (tested.held, row.clone()),
        None => (-1, tested.row.clone()),
    });
    let mut checks = vec![tested.check(exact.clone(), left.accepted())];
    for (side, row) in left.outcomes() {
        for (variable, &ends) in row.iter().enumerate() {
            for less in narrower(ends) {
                let less = with(&exact, side, variable, less);
                checks.push(tested.check(less, tested.refused(13)));
            }
            for more in wider(ends) {
                checks.push(tested.check(with(&exact, side, variable, more), left.accepted()));
            }
        }
        for held in [-1, tested.held ^ 1] {
            checks.push(tested.check(with_held(&exact, side, held), tested.refused(12)));
        }
    }
    checks.extend(no_outcome(tested, left, &exact));
    checks
}

/// A target that there is no way to may have any held word and any row.
fn no_outcome(tested: &Tested, left: &Left, exact: &[Target; 2]) -> Vec<Check> {
    let mut checks = Vec::new();
    for side in (0..2).filter(|&side| left.rows[side].is_none()) {
        for held in [-1, 0, 1, 3] {
            for ends in [FULL, (MIN, MIN), (MAX, MAX), (5, 5)] {
                let mut targets = with_held(exact, side, held);
                targets[side].1.fill(ends);
                checks.push(tested.check(targets, left.accepted()));
            }
        }
    }
    checks
}

/// Both sides of a comparison, and what is left where it is true and where it
/// is false.
type Sides = (Tree, Tree, Two, Two);

fn less_than() -> Vec<Sides> {
    vec![
        (v(), num(5), of_v(0, 4), of_v(5, 9)),
        (num(5), v(), of_v(6, 9), of_v(0, 5)),
        (v(), num(0), None, ALL),
        (v(), num(10), ALL, None),
        (num(9), v(), None, ALL),
        (v(), w(), of_v(0, 5), of_v(3, 9)),
        (w(), v(), of_v(4, 9), of_v(0, 6)),
        (v(), v(), of_v(1, 8), ALL),
        (num(3), num(5), ALL, None),
        (num(5), num(5), None, ALL),
        // A side that is no variable cuts the other and isn't cut.
        (v(), v_and_1(), ALL, of_v(1, 9)),
        (v_and_1(), v(), of_v(2, 9), ALL),
        (v(), input(2, 4), of_v(0, 3), of_v(2, 9)),
        (input(2, 4), v(), of_v(3, 9), of_v(0, 4)),
        (v_less_5(), w(), ALL, of_w(3, 4)),
        (w(), v_less_5(), of_w(3, 3), ALL),
        (v_and_1(), v_less_5(), ALL, ALL),
        (v_and_1(), negation(w()), None, ALL),
    ]
}

fn at_most_that() -> Vec<Sides> {
    vec![
        (v(), num(5), of_v(0, 5), of_v(6, 9)),
        (num(5), v(), of_v(5, 9), of_v(0, 4)),
        (v(), num(-1), None, ALL),
        (v(), num(9), ALL, None),
        (num(10), v(), None, ALL),
        (v(), w(), of_v(0, 6), of_v(4, 9)),
        (w(), v(), of_v(3, 9), of_v(0, 5)),
        (v(), v(), ALL, of_v(1, 8)),
        (num(3), num(5), ALL, None),
        (num(5), num(5), ALL, None),
        (num(5), num(3), None, ALL),
        (v(), v_and_1(), ALL, of_v(2, 9)),
        (v_and_1(), v(), of_v(1, 9), ALL),
        (v(), input(2, 4), of_v(0, 4), of_v(3, 9)),
        (input(2, 4), v(), of_v(2, 9), of_v(0, 3)),
        (v_less_5(), w(), ALL, of_w(3, 3)),
        (w(), v_less_5(), of_w(3, 4), ALL),
        (v_and_1(), v_less_5(), ALL, ALL),
        (v_and_1(), negation(w()), None, ALL),
    ]
}

fn equal_to() -> Vec<Sides> {
    vec![
        (v(), num(5), of_v(5, 5), ALL),
        (num(5), v(), of_v(5, 5), ALL),
        (v(), num(0), of_v(0, 0), of_v(1, 9)),
        (num(9), v(), of_v(9, 9), of_v(0, 8)),
        (num(6), w(), of_w(6, 6), of_w(3, 5)),
        (v(), num(10), None, ALL),
        (v(), w(), of_v(3, 6), ALL),
        (w(), v(), of_v(3, 6), ALL),
        (v(), v(), ALL, ALL),
        (num(3), num(5), None, ALL),
        (num(5), num(5), ALL, None),
        (v(), v_and_1(), of_v(1, 9), ALL),
        (v_and_1(), v(), of_v(1, 9), ALL),
        (v(), input(2, 4), of_v(2, 4), ALL),
        (v_less_5(), w(), of_w(3, 4), ALL),
        (w(), v_less_5(), of_w(3, 4), ALL),
        (v_and_1(), v_less_5(), ALL, ALL),
        (v_and_1(), negation(w()), None, ALL),
    ]
}
