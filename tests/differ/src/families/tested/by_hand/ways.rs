//! Comparisons with alarms, those of a choice, and ways on that lead back or to
//! one point.

use super::{of_v, of_w, v, w, List, ALL, V, W};
use crate::build::*;
use crate::families::checks::Check;

pub fn cases(list: &mut List) {
    alarms(list);
    no_operand(list);
    choices(list);
    branches_that_are_not_read(list);
    back_or_together(list);
    two_tests(list);
    not_reached(list);
}

fn by_zero() -> Tree {
    quotient(num(1), num(0))
}

fn ten_by_v() -> Tree {
    quotient(num(10), v())
}

/// An alarm of a side is listed whichever way the comparison goes.
fn alarms(list: &mut List) {
    let row = [(0, 5)];
    let all = Some(row);
    let above = Some([(2, 5)]);
    for (condition, left, node) in [
        (less(ten_by_v(), num(5)), [all, all], 2),
        (less(ten_by_v(), num(11)), [all, None], 2),
        (less(num(10), ten_by_v()), [None, all], 3),
        (less(v(), ten_by_v()), [all, above], 3),
        (at_most(ten_by_v(), v()), [above, all], 2),
        (equal(ten_by_v(), v()), [above, all], 2),
        (not_equal(v(), ten_by_v()), [all, above], 3),
    ] {
        list.put_with(&row, condition, left, &[[node, 2]]);
    }
    let next = sum(v(), num(1));
    let left = [Some([(0, MAX - 1)]), Some([(1, MAX)])];
    list.put_with(&[(0, MAX)], less(v(), next), left, &[[3, 1]]);
    let wide = less(quotient(v(), input(-1, 1)), num(0));
    list.put_with(&[FULL], wide, [Some([FULL]); 2], &[[2, 1], [2, 2]]);
}

/// A side with none leaves nothing on either way, and its alarm is listed.
fn no_operand(list: &mut List) {
    list.put_with(&[(0, 0)], less(ten_by_v(), v()), [None; 2], &[[2, 2]]);
    list.put_with(&[(0, 0)], equal(v(), ten_by_v()), [None; 2], &[[3, 2]]);
    list.put_with(&[V, W], at_most(by_zero(), w()), [None; 2], &[[2, 2]]);
    list.put_with(&[V, W], not_equal(v(), by_zero()), [None; 2], &[[3, 2]]);
    list.put_with(&[V, W], less(by_zero(), by_zero()), [None; 2], &[[2, 2], [5, 2]]);
}

/// A choice by a comparison on a side: its branches are read on a part of the
/// row, and it cuts the other side.
fn choices(list: &mut List) {
    // 0..4
    let low = || choice(less(v(), num(5)), v(), num(0));
    list.put(&[V, W], less(low(), w()), [ALL, of_w(3, 4)]);
    list.put(&[V, W], at_most(w(), low()), [of_w(3, 4), ALL]);
    list.put(&[V, W], less(v(), low()), [of_v(0, 3), ALL]);
    list.put(&[V, W], equal(low(), w()), [of_w(3, 4), ALL]);
    // Both variables are cut for the branch: -6..2, and -2..0.
    let apart = || choice(less(v(), w()), difference(v(), w()), num(0));
    list.put(&[V, W], less(v(), apart()), [of_v(0, 1), ALL]);
    let row = [(4, 9), (0, 6)];
    list.put(&row, at_most(w(), apart()), [Some([(4, 9), (0, 0)]), Some(row)]);
    // One that divides where V isn't 0, and one where it may be.
    let guarded = choice(not_equal(v(), num(0)), ten_by_v(), num(0));
    list.put(&[V, W], less(guarded, v()), [of_v(1, 9), ALL]);
    let divides = choice(less(v(), num(5)), ten_by_v(), w());
    list.put_with(&[V, W], less(divides, v()), [of_v(3, 9), ALL], &[[5, 2]]);
}

/// No alarm of a branch that isn't allowed, or for which no row is left.
fn branches_that_are_not_read(list: &mut List) {
    let then = choice(less(v(), num(10)), w(), by_zero());
    list.put(&[V, W], equal(then, v()), [of_v(3, 6), ALL]);
    let otherwise = choice(less(num(9), v()), by_zero(), w());
    list.put(&[V, W], equal(v(), otherwise), [of_v(3, 6), ALL]);
    let row = [(0, 1), W];
    let nowhere = choice(less(v(), v()), by_zero(), w());
    list.put(&row, less(v(), nowhere), [Some(row), None]);
    let everywhere = choice(at_most(v(), v()), w(), by_zero());
    list.put(&row, less(v(), everywhere), [Some(row), None]);
}

/// A way on to the test itself, or both to one point.
fn back_or_together(list: &mut List) {
    let tests = |condition, yes, no| table(&[2], &[0], 0, &[test(condition, yes, no), end()]);
    let refused = "refused 13 flow at 0";
    for (yes, no, targets) in [
        (0, 1, [((5, 9), "accepted 0"), ((6, 9), refused), ((5, 8), refused)]),
        (1, 0, [((0, 4), "accepted 0"), ((1, 4), refused), ((0, 3), refused)]),
        (1, 1, [((0, 9), "accepted 0"), ((1, 9), refused), ((0, 8), refused)]),
    ] {
        for (target, answer) in targets {
            let given = proposal(1, &[0, 0], &[], &[vec![V], vec![target]], &[]);
            list.0.push(Check::new(tests(less(v(), num(5)), yes, no), given, answer));
        }
    }
}

/// The place of a refusal is the first test that a row doesn't fit.
fn two_tests(list: &mut List) {
    let tests = [test(less(v(), num(5)), 1, 3), test(less(v(), num(2)), 2, 3), end(), end()];
    let tests = table(&[4], &[0], 0, &tests);
    for (first, low, high, answer) in [
        ((0, 4), (0, 1), (2, 9), "accepted 0"),
        ((0, 3), (0, 1), (2, 9), "refused 13 flow at 0"),
        ((0, 4), (0, 1), (2, 8), "refused 13 flow at 0"),
        ((0, 4), (0, 0), (2, 9), "refused 13 flow at 1"),
        ((0, 4), (0, 1), (3, 9), "refused 13 flow at 1"),
        ((0, 4), (0, 0), (2, 8), "refused 13 flow at 0"),
    ] {
        let all = [V, first, low, high].map(|ends| vec![ends]);
        list.0.push(Check::new(&*tests, proposal(1, &[0; 4], &[], &all, &[]), answer));
    }
}

/// A test that isn't reached has no way on, and no alarm.
fn not_reached(list: &mut List) {
    let tests = [end(), test(less(v(), ten_by_v()), 2, 3), end(), end()];
    let tests = table(&[4], &[0], 0, &tests);
    let all = [(0, 0), (0, 5), (7, 7), (8, 8)].map(|ends| vec![ends]);
    for (held, answer) in [
        ([0, -1, 0, 0], "accepted 0"),
        ([0, -1, -1, -1], "accepted 0"),
        ([0, 0, 0, 0], "refused 13 flow at 1"),
    ] {
        list.0.push(Check::new(&*tests, proposal(1, &held, &[], &all, &[]), answer));
    }
}
