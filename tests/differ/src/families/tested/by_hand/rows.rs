//! Comparisons on other rows: where both variables are cut, where one is on
//! both sides, where ends are at the limits, and of sixteen variables.

use super::{v, w, List};
use crate::build::*;
use std::array::from_fn;

pub fn cases(list: &mut List) {
    two_cuts(list);
    one_has_a_single_value(list);
    one_variable_twice(list);
    limits(list);
    longest_rows(list);
}

/// Both variables are cut, by the ends from before.
fn two_cuts(list: &mut List) {
    let row = [(4, 9), (0, 6)];
    let (all, below, meet) = (Some(row), Some([(4, 5), (5, 6)]), Some([(4, 6), (4, 6)]));
    list.put(&row, less(v(), w()), [below, all]);
    list.put(&row, less(w(), v()), [all, meet]);
    list.put(&row, at_most(v(), w()), [meet, all]);
    list.put(&row, at_most(w(), v()), [all, below]);
    list.put(&row, equal(v(), w()), [meet, all]);
    list.put(&row, not_equal(w(), v()), [all, meet]);
}

/// Or both have.
fn one_has_a_single_value(list: &mut List) {
    let row = [(4, 4), (0, 4)];
    let (same, apart) = (Some([(4, 4), (4, 4)]), Some([(4, 4), (0, 3)]));
    list.put(&row, equal(v(), w()), [same, apart]);
    list.put(&row, not_equal(w(), v()), [apart, same]);
    list.put(&row, less(w(), v()), [apart, same]);
    list.put(&row, less(v(), w()), [None, Some(row)]);
    list.put(&row, at_most(v(), w()), [same, apart]);
    let row = [(4, 4), (4, 4)];
    list.put(&row, equal(v(), w()), [same, None]);
    list.put(&row, not_equal(v(), w()), [None, same]);
    list.put(&row, less(v(), w()), [None, same]);
    list.put(&row, at_most(v(), w()), [same, None]);
}

/// The meet of two cuts, which may be nothing though neither cut is.
fn one_variable_twice(list: &mut List) {
    for (ends, within) in [((0, 9), Some([(1, 8)])), ((0, 2), Some([(1, 1)])), ((0, 1), None)] {
        let all = Some([ends]);
        list.put(&[ends], less(v(), v()), [within, all]);
        list.put(&[ends], at_most(v(), v()), [all, within]);
        list.put(&[ends], equal(v(), v()), [all, all]);
        list.put(&[ends], not_equal(v(), v()), [all, all]);
    }
    let four = Some([(4, 4)]);
    list.put(&[(4, 4)], less(v(), v()), [None, four]);
    list.put(&[(4, 4)], at_most(v(), v()), [four, None]);
    list.put(&[(4, 4)], equal(v(), v()), [four, None]);
    list.put(&[(4, 4)], not_equal(v(), v()), [None, four]);
}

fn limits(list: &mut List) {
    let all = Some([FULL]);
    let [least, most] = [MIN, MAX].map(|end| Some([(end, end)]));
    let (but_least, but_most) = (Some([(MIN + 1, MAX)]), Some([(MIN, MAX - 1)]));
    for (condition, left) in [
        (less(v(), num(MIN)), [None, all]),
        (less(num(MAX), v()), [None, all]),
        (less(v(), num(MAX)), [but_most, most]),
        (less(num(MIN), v()), [but_least, least]),
        (less(v(), v()), [Some([(MIN + 1, MAX - 1)]), all]),
        (at_most(v(), num(MAX)), [all, None]),
        (at_most(num(MIN), v()), [all, None]),
        (at_most(v(), num(MIN)), [least, but_least]),
        (at_most(num(MAX), v()), [most, but_most]),
        (equal(v(), num(MIN)), [least, but_least]),
        (equal(num(MAX), v()), [most, but_most]),
        (not_equal(v(), num(MAX)), [but_most, most]),
    ] {
        list.put(&[FULL], condition, left);
    }
}

/// No two of sixteen variables have an end in common. Of fifteen of them, or of
/// fourteen, all must lie within the target.
fn longest_rows(list: &mut List) {
    let row: [Ends; 16] = from_fn(|k| (-(k as i32), 20 + k as i32));
    let all = Some(row);
    let but = |at: usize, low: i32, high: i32| {
        let mut left = row;
        left[at] = (low, high);
        Some(left)
    };
    for (condition, left) in [
        (less(var(0), num(5)), [but(0, 0, 4), but(0, 5, 20)]),
        (less(var(15), num(5)), [but(15, -15, 4), but(15, 5, 35)]),
        (less(num(5), var(15)), [but(15, 6, 35), but(15, -15, 5)]),
        (at_most(var(8), num(5)), [but(8, -8, 5), but(8, 6, 28)]),
        (equal(var(15), num(35)), [but(15, 35, 35), but(15, -15, 34)]),
        (not_equal(num(0), var(0)), [but(0, 1, 20), but(0, 0, 0)]),
        (less(var(0), var(15)), [but(15, 1, 35), but(15, -15, 20)]),
        (less(var(15), var(0)), [but(15, -15, 19), but(15, 0, 35)]),
        (equal(var(0), var(15)), [but(15, 0, 20), all]),
        (less(var(15), var(15)), [but(15, -14, 34), all]),
        (less(var(0), var(0)), [but(0, 1, 19), all]),
        (less(num(3), num(5)), [all, None]),
    ] {
        list.put(&row, condition, left);
    }
}
