//! Conditions whose decisions and rows are written out, most on two variables
//! within 0..9. Each is asked of the program, is a test with just these targets
//! and with each of their ends one tighter and one wider, and is the condition of
//! a choice that reads one variable in one branch.

mod rows;

use super::MODES;
use crate::build::*;
use crate::families::assigned::{Assigned, Foreseen};
use crate::families::tested::Left;
use crate::families::trees::{Case, Mode};
use peer::interval::Interval;

/// What is left of two variables.
type Two = Option<[Ends; 2]>;

/// A condition; whether it can be true and false; and the rows where it is.
type Asked = (Tree, [bool; 2], Two, Two);

const SPAN: Ends = (0, 9);

/// All of both variables.
const ALL: Two = Some([SPAN; 2]);

/// The ways that a condition can go.
const UNDECIDED: [bool; 2] = [true, true];
const TRUE: [bool; 2] = [true, false];
const FALSE: [bool; 2] = [false, true];
/// A side of it is none.
const NO_WAY: [bool; 2] = [false, false];

fn v() -> Tree {
    var(0)
}

fn w() -> Tree {
    var(1)
}

fn v_under(limit: i32) -> Tree {
    less(v(), num(limit))
}

fn v_over(limit: i32) -> Tree {
    less(num(limit), v())
}

fn v_is(value: i32) -> Tree {
    equal(v(), num(value))
}

fn w_under(limit: i32) -> Tree {
    less(w(), num(limit))
}

fn w_over(limit: i32) -> Tree {
    less(num(limit), w())
}

fn w_is(value: i32) -> Tree {
    equal(w(), num(value))
}

/// It has no decision and leaves nothing; its third node has an alarm.
fn nothing() -> Tree {
    less(by_zero(), w())
}

fn by_zero() -> Tree {
    quotient(num(1), num(0))
}

/// A part of V and all of W.
fn of_v(low: i32, high: i32) -> Two {
    Some([(low, high), SPAN])
}

/// All of V and a part of W.
fn of_w(low: i32, high: i32) -> Two {
    Some([SPAN, (low, high)])
}

/// A part of each.
fn of(v: Ends, w: Ends) -> Two {
    Some([v, w])
}

pub struct Given {
    pub condition: Tree,
    pub row: Row,
    pub decision: [bool; 2],
    pub left: Left,
}

pub fn given() -> Vec<Given> {
    let mut list = List(Vec::new());
    let groups =
        [in_turn(), joined(), of_pairs(), in_pairs(), no_row(), whole_row(), read_again(), nots()];
    for (condition, decision, yes, no) in groups.into_iter().flatten() {
        list.put(&[SPAN; 2], condition, decision, [yes, no], &[]);
    }
    rows::given(&mut list);
    list.0
}

/// Those of a row in which a variable has its ends the wrong way round, which no
/// proposal has.
pub fn with_none() -> Vec<Case> {
    rows::with_none()
}

struct List(Vec<Given>);

impl List {
    fn put<const N: usize>(
        &mut self,
        row: &[Ends; N],
        condition: Tree,
        decision: [bool; 2],
        left: [Option<[Ends; N]>; 2],
        alarms: &[[i32; 2]],
    ) {
        let rows = left.map(|ends| ends.map(|ends| ends.to_vec()));
        let left = Left { rows, alarms: alarms.to_vec() };
        self.0.push(Given { condition, row: row.to_vec(), decision, left });
    }
}

impl Given {
    /// For the program.
    pub fn cases(&self) -> [Case; 3] {
        MODES.map(|mode| {
            let answer = match mode {
                Mode::Narrowed(wanted) => row_line(self.left.rows[usize::from(!wanted)].as_deref()),
                _ => decision_line(self.decision, &self.left.alarms),
            };
            Case::of(mode, &self.condition, &self.row, Some(answer))
        })
    }

    /// Choices that read a variable in one branch and have none in the other: the
    /// variable's interval is written, if the branch is taken.
    pub fn choices(&self) -> Vec<(Assigned, Foreseen)> {
        let each = (0..self.row.len()).flat_map(|variable| [(variable, 0), (variable, 1)]);
        each.map(|(variable, side)| (self.choice(variable, side), self.written(variable, side)))
            .collect()
    }

    fn choice(&self, variable: usize, side: usize) -> Assigned {
        let read = var(variable as i32);
        let [then, otherwise] = if side == 0 { [read, by_zero()] } else { [by_zero(), read] };
        let tree = choice(self.condition.clone(), then, otherwise);
        let values = self.row.iter().map(|&(low, _)| low).collect();
        Assigned { tree, spans: self.row.clone(), values }
    }

    fn written(&self, variable: usize, side: usize) -> Foreseen {
        let taken = |side: usize| self.left.rows[side].as_ref().filter(|_| self.decision[side]);
        let ends = taken(side).map(|row| row[variable]);
        let written = ends.and_then(|(low, high)| Interval::new(low, high));
        let mut alarms = self.left.alarms.clone();
        if taken(1 - side).is_some() {
            // After the condition's nodes, and the variable's if it comes first.
            let quotient = flatten(&self.condition, &mut Vec::new()) + 3 + i32::from(side == 0);
            alarms.push([quotient, 2]);
        }
        Foreseen { written, alarms }
    }
}

fn decision_line([yes, no]: [bool; 2], alarms: &[[i32; 2]]) -> String {
    let said = format!("decision {} {}", u8::from(yes), u8::from(no));
    alarms.iter().fold(said, |line, [node, kind]| format!("{line} alarm {node} {kind}"))
}

fn row_line(row: Option<&[Ends]>) -> String {
    match row {
        None => "row none".to_string(),
        Some(row) => {
            row.iter().fold("row".to_string(), |line, (low, high)| format!("{line} {low} {high}"))
        }
    }
}

/// Both narrows left, then right. Where it is false, either side is.
fn in_turn() -> Vec<Asked> {
    vec![
        (both(v_under(3), less(w(), v())), UNDECIDED, of((1, 2), (0, 1)), ALL),
        (both(less(w(), v()), v_under(3)), UNDECIDED, of((1, 2), (0, 8)), ALL),
        (both(less(v(), w()), less(w(), v())), UNDECIDED, of((2, 8), (1, 7)), ALL),
        (both(v_under(3), v_under(5)), UNDECIDED, of_v(0, 2), of_v(3, 9)),
        (both(both(v_under(7), v_under(5)), v_under(3)), UNDECIDED, of_v(0, 2), of_v(3, 9)),
        (both(v_under(3), both(v_under(5), v_under(7))), UNDECIDED, of_v(0, 2), of_v(3, 9)),
        (both(w_under(4), both(w_under(7), less(v(), w()))), UNDECIDED, of((0, 2), (1, 3)), ALL),
    ]
}

/// Either joins the two. Where it is false, both sides are.
fn joined() -> Vec<Asked> {
    vec![
        (either(v_under(3), v_over(7)), UNDECIDED, ALL, of_v(3, 7)),
        (either(v_under(3), v_under(5)), UNDECIDED, of_v(0, 4), of_v(5, 9)),
        (either(v_is(9), either(v_is(8), v_is(7))), UNDECIDED, of_v(7, 9), of_v(0, 6)),
        (either(either(v_is(0), v_is(9)), v_is(4)), UNDECIDED, ALL, of_v(1, 8)),
        (either(either(v_is(7), v_is(2)), v_is(5)), UNDECIDED, of_v(2, 7), ALL),
        (either(v_is(8), either(v_is(3), v_is(5))), UNDECIDED, of_v(3, 8), ALL),
        (either(less(w(), v()), v_under(3)), UNDECIDED, ALL, of_v(3, 9)),
        (either(v_under(3), less(w(), v())), UNDECIDED, ALL, of((3, 9), (3, 9))),
    ]
}

/// Two pairs in a pair.
fn of_pairs() -> Vec<Asked> {
    let low_high = |v, w| both(v_under(v), w_over(w));
    let v_then_w = || both(v_under(3), less(w(), v()));
    let w_then_v = || both(w_under(2), less(v(), w()));
    let one_of = |a, b| either(v_is(a), v_is(b));
    vec![
        (either(low_high(3, 7), low_high(5, 4)), UNDECIDED, of((0, 4), (5, 9)), ALL),
        (either(v_then_w(), w_then_v()), UNDECIDED, of((0, 2), (0, 1)), ALL),
        (not(either(v_then_w(), w_then_v())), UNDECIDED, ALL, of((0, 2), (0, 1))),
        (both(one_of(0, 1), one_of(1, 2)), UNDECIDED, of_v(1, 1), ALL),
        (both(one_of(9, 8), one_of(9, 7)), UNDECIDED, of_v(9, 9), of_v(0, 8)),
        (not(both(one_of(9, 8), one_of(9, 7))), UNDECIDED, of_v(0, 8), of_v(9, 9)),
    ]
}

/// A pair in a pair in a pair.
fn in_pairs() -> Vec<Asked> {
    let first = || both(v_under(8), either(v_under(2), both(w_under(5), less(v(), w()))));
    let second = || either(v_is(0), both(v_under(6), either(v_is(1), less(w(), v()))));
    let third = || both(v_under(5), either(both(w_under(3), w_over(0)), w_is(5)));
    vec![
        (first(), UNDECIDED, of_v(0, 3), of_v(2, 9)),
        (not(first()), UNDECIDED, of_v(2, 9), of_v(0, 3)),
        (second(), UNDECIDED, of_v(0, 5), of_v(2, 9)),
        (not(second()), UNDECIDED, of_v(2, 9), of_v(0, 5)),
        (third(), UNDECIDED, of((0, 4), (1, 5)), ALL),
        (not(third()), UNDECIDED, ALL, of((0, 4), (1, 5))),
    ]
}

/// A side that leaves nothing, before another or after it.
fn no_row() -> Vec<Asked> {
    let low_w = || either(w_under(5), w_under(7));
    vec![
        (both(v_under(0), w_under(5)), FALSE, None, ALL),
        (both(w_under(5), v_under(0)), FALSE, None, ALL),
        (both(v_under(0), low_w()), FALSE, None, ALL),
        (both(v_under(5), v_over(5)), UNDECIDED, None, ALL),
        (either(v_under(0), low_w()), UNDECIDED, of_w(0, 6), of_w(7, 9)),
        (either(v_under(5), v_over(3)), UNDECIDED, ALL, None),
        (either(v_under(10), w_under(5)), TRUE, ALL, None),
        (both(v_under(3), w_under(10)), UNDECIDED, of_v(0, 2), of_v(3, 9)),
        (both(either(v_under(5), v_over(3)), w_under(5)), UNDECIDED, of_w(0, 4), of_w(5, 9)),
        (either(both(v_under(5), v_over(5)), w_under(5)), UNDECIDED, of_w(0, 4), of_w(5, 9)),
        (either(both(v_under(5), v_over(5)), low_w()), UNDECIDED, of_w(0, 6), of_w(7, 9)),
    ]
}

/// A left side that leaves the whole row, and nothing or a part where it is
/// false; and one that leaves a part.
fn whole_row() -> Vec<Asked> {
    let v_to_w = || at_most(v(), w());
    vec![
        (both(w_under(10), v_under(3)), UNDECIDED, of_v(0, 2), of_v(3, 9)),
        (both(v_under(10), either(w_under(5), w_under(7))), UNDECIDED, of_w(0, 6), of_w(7, 9)),
        (both(v_to_w(), either(w_is(9), v_is(0))), UNDECIDED, ALL, of((1, 9), (0, 8))),
        (both(v_to_w(), either(w_is(9), w_is(8))), UNDECIDED, of_w(8, 9), of_w(0, 8)),
        (both(v_under(5), either(v_under(2), w_under(3))), UNDECIDED, of_v(0, 4), of_v(2, 9)),
    ]
}

/// A right side that is no variable is read on what the left side leaves, where
/// they are joined too; and so is a choice.
fn read_again() -> Vec<Asked> {
    let w_to_v = || less(w(), sum(v(), num(1)));
    let w_between = || both(w_to_v(), w_over(0));
    // 0..7, and 0..2 where V is under 3.
    let chosen = || less(w(), choice(v_under(3), v(), num(7)));
    vec![
        (both(v_under(4), w_to_v()), UNDECIDED, of((0, 3), (0, 3)), ALL),
        (both(v_under(4), either(w_to_v(), w_is(5))), UNDECIDED, of((0, 3), (0, 5)), ALL),
        (both(v_under(4), either(w_between(), w_is(5))), UNDECIDED, of((0, 3), (1, 5)), ALL),
        (either(v_under(4), w_to_v()), UNDECIDED, ALL, of((4, 9), (5, 9))),
        (both(v_under(3), chosen()), UNDECIDED, of((0, 2), (0, 1)), ALL),
        (both(v_under(5), chosen()), UNDECIDED, of((0, 4), (0, 6)), ALL),
    ]
}

/// Not exchanges the rows, and not both is either of the opposites.
fn nots() -> Vec<Asked> {
    let outside = either(v_under(2), v_over(7));
    vec![
        (not(both(not(v_under(3)), not(w_under(3)))), UNDECIDED, ALL, of((3, 9), (3, 9))),
        (not(either(v_under(3), not(w_under(6)))), UNDECIDED, of((3, 9), (0, 5)), ALL),
        (not(not(both(v_under(3), less(w(), v())))), UNDECIDED, of((1, 2), (0, 1)), ALL),
        (not(v_under(3)), UNDECIDED, of_v(3, 9), of_v(0, 2)),
        (not(not(v_under(3))), UNDECIDED, of_v(0, 2), of_v(3, 9)),
        (not(not(not(less(w(), v())))), UNDECIDED, ALL, of((1, 9), (0, 8))),
        (both(not(outside), less(w(), v())), UNDECIDED, of((2, 7), (0, 6)), ALL),
    ]
}
