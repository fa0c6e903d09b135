//! Request 2's sentences on choices: a branch is read on the row that the
//! condition or its opposite leaves, and is taken if the condition allows it and
//! a row is left.

use super::{below, unknown, v, w, List, NONE};
use crate::build::{
    at_most, both, choice, difference, either, equal, input, less, negation, not, not_equal, num,
    product, quotient, remainder, sum, var, Tree, FULL, MAX, MIN,
};

pub fn cases(list: &mut List) {
    tested_divisors(list);
    tested_by_less_and_at_most(list);
    tested_by_connectives(list);
    rows_of_the_branches(list);
    rows_that_stay(list);
    one_variable_twice(list);
    no_row_is_left(list);
    alarms_of_the_condition(list);
    alarms_of_the_branches(list);
    choices_in_branches(list);
    choices_in_conditions(list);
    choices_in_right_sides(list);
    conditions_with_none(list);
    variables_past_the_row(list);
    deepest_nests(list);
}

fn ten_by_v() -> Tree {
    quotient(num(10), v())
}

fn zero() -> Tree {
    equal(v(), num(0))
}

fn by_zero() -> Tree {
    quotient(num(1), num(0))
}

/// The request's own choice, and the one with its branches exchanged. Of a row
/// with 0 inside nothing is taken away, since only an end can be.
fn tested_divisors(list: &mut List) {
    let guarded = choice(zero(), num(0), ten_by_v());
    let exchanged = choice(not_equal(v(), num(0)), ten_by_v(), num(0));
    let other_side = choice(equal(num(0), v()), num(0), ten_by_v());
    for (span, answer) in [
        ((0, 5), "0 10"),
        ((-5, 0), "-10 0"),
        ((0, 1), "0 10"),
        ((0, 0), "0 0"),
        ((1, 5), "2 10"),
        ((-5, -1), "-10 -2"),
    ] {
        for tree in [&guarded, &exchanged, &other_side] {
            list.value(tree, &[span], answer);
        }
    }
    list.value(&guarded, &[(-5, 5)], "-10 10 alarm 6 2");
    list.value(&exchanged, &[(-5, 5)], "-10 10 alarm 5 2");
    let rest = choice(zero(), num(0), remainder(num(10), v()));
    list.value(&rest, &[(0, 5)], "0 4");
    list.value(&rest, &[(-1, 5)], "0 4 alarm 6 2");
    // Ends at the limits: neither the sign of MIN is turned nor MAX passed.
    let turned = choice(equal(v(), num(MIN)), num(MAX), negation(v()));
    list.value(&turned, &[FULL], "-2147483647 2147483647");
    let next = choice(less(v(), num(MAX)), sum(v(), num(1)), v());
    list.value(&next, &[FULL], "-2147483647 2147483647");
}

fn tested_by_less_and_at_most(list: &mut List) {
    let row = [(-5, 5)];
    list.value(&choice(less(num(0), v()), ten_by_v(), num(0)), &row, "0 10");
    list.value(&choice(less(v(), num(0)), ten_by_v(), num(0)), &row, "-10 0");
    list.value(&choice(less(v(), num(1)), num(0), ten_by_v()), &row, "0 10");
    list.value(&choice(less(num(-1), v()), num(0), ten_by_v()), &row, "-10 0");
    list.value(&choice(at_most(num(1), v()), ten_by_v(), num(0)), &row, "0 10");
    list.value(&choice(at_most(v(), num(-1)), ten_by_v(), num(0)), &row, "-10 0");
    list.value(&choice(at_most(v(), num(0)), num(0), ten_by_v()), &row, "0 10");
    list.value(&choice(at_most(num(0), v()), num(0), ten_by_v()), &row, "-10 0");
    // By one less the divisor can be 0.
    list.value(&choice(less(num(-1), v()), ten_by_v(), num(0)), &row, "0 10 alarm 5 2");
    list.value(&choice(less(v(), num(0)), num(0), ten_by_v()), &row, "0 10 alarm 6 2");
    list.value(&choice(at_most(num(0), v()), ten_by_v(), num(0)), &row, "0 10 alarm 5 2");
    list.value(&choice(at_most(v(), num(-1)), num(0), ten_by_v()), &row, "0 10 alarm 6 2");
}

fn tested_by_connectives(list: &mut List) {
    list.value(&choice(not(zero()), ten_by_v(), num(0)), &[(0, 5)], "0 10");
    list.value(&choice(not(not_equal(v(), num(0))), num(0), ten_by_v()), &[(0, 5)], "0 10");
    list.value(&choice(not(not(zero())), num(0), ten_by_v()), &[(0, 5)], "0 10");
    // Where both are true, 1..3; where not both, 0..0 joined with 4..5.
    let within = both(not_equal(v(), num(0)), less(v(), num(4)));
    list.value(&choice(within, ten_by_v(), negation(v())), &[(0, 5)], "-5 10");
    // Where not both, nothing is below 0, and 1..5 above.
    let at_zero = || both(at_most(num(0), v()), at_most(v(), num(0)));
    list.value(&choice(at_zero(), num(0), ten_by_v()), &[(0, 5)], "0 10");
    list.value(&choice(at_zero(), num(0), ten_by_v()), &[(-5, 5)], "-10 10 alarm 10 2");
    // Where neither, 1..5 and then 0..5.
    let either_way = || either(zero(), less(num(5), w()));
    list.value(&choice(either_way(), num(0), ten_by_v()), &[(0, 5), (0, 9)], "0 10");
    list.value(&choice(either_way(), num(-7), w()), &[(0, 5), (0, 9)], "-7 5");
    // Where either, nothing is below 0, and 1..5 above.
    let off_zero = || either(less(v(), num(0)), less(num(0), v()));
    list.value(&choice(off_zero(), ten_by_v(), num(0)), &[(0, 5)], "0 10");
    list.value(&choice(off_zero(), ten_by_v(), num(0)), &[(-5, 5)], "-10 10 alarm 9 2");
}

fn rows_of_the_branches(list: &mut List) {
    let sides = |condition| choice(condition, v(), negation(v()));
    list.value(&sides(less(v(), num(5))), &[(0, 9)], "-9 4");
    list.value(&sides(at_most(v(), num(5))), &[(0, 9)], "-9 5");
    list.value(&sides(equal(v(), num(9))), &[(0, 9)], "-8 9");
    list.value(&sides(not_equal(v(), num(9))), &[(0, 9)], "-9 8");
    list.value(&sides(not(less(v(), num(5)))), &[(0, 9)], "-4 9");
    // Decided on 0..9, where the right side too can be false.
    list.value(&sides(both(less(v(), num(3)), less(v(), num(5)))), &[(0, 9)], "-9 2");
    list.value(&sides(either(less(v(), num(3)), less(v(), num(5)))), &[(0, 9)], "-9 4");
    // Both operands are cut: to 4 and 5, and to 3..6 each.
    let later = choice(less(v(), w()), difference(w(), v()), num(0));
    list.value(&later, &[(4, 9), (0, 5)], "0 1");
    let sooner = choice(less(v(), w()), num(0), difference(v(), w()));
    list.value(&sooner, &[(0, 6), (3, 9)], "-3 3");
    list.value(&choice(equal(v(), w()), v(), num(4)), &[(0, 9), (4, 20)], "4 9");
}

/// Only variable nodes carry a cut back, and only to their own variable; and
/// what a choice narrows stays within it.
fn rows_that_stay(list: &mut List) {
    let digit = || input(0, 5);
    let asked = choice(equal(digit(), num(0)), num(0), quotient(num(10), digit()));
    list.value(&asked, &[(0, 0)], "0 10 alarm 6 2");
    let other = choice(equal(w(), num(0)), num(0), ten_by_v());
    list.value(&other, &[(0, 5), (0, 5)], "0 10 alarm 6 2");
    let of_sum = choice(equal(sum(v(), num(0)), num(0)), num(0), ten_by_v());
    list.value(&of_sum, &[(0, 5)], "0 10 alarm 8 2");
    let doubled = choice(less(v(), product(v(), num(2))), ten_by_v(), num(0));
    list.value(&doubled, &[(0, 5)], "0 10 alarm 7 2");
    list.value(&sum(choice(below(), v(), num(0)), v()), &[(0, 9)], "0 13");
    let again = sum(choice(zero(), num(0), ten_by_v()), ten_by_v());
    list.value(&again, &[(0, 5)], "2 20 alarm 10 2");
    let small = less(choice(below(), v(), num(0)), num(3));
    list.both_ways(&small, &[(0, 9)], "0 9", "0 9");
}

/// On 0..1 the decision of `v < v` allows yes, and that of its opposite no, but
/// no row is left there.
fn one_variable_twice(list: &mut List) {
    let under = choice(less(v(), v()), ten_by_v(), num(0));
    let over = choice(at_most(v(), v()), num(0), ten_by_v());
    for (span, answer) in [((0, 9), "0 10"), ((0, 2), "0 10"), ((0, 1), "0 0"), ((0, 0), "0 0")] {
        list.value(&under, &[span], answer);
        list.value(&over, &[span], answer);
    }
    list.decision(&less(v(), v()), &[(0, 1)], "1 1");
    list.decision(&at_most(v(), v()), &[(0, 1)], "1 1");
    list.value(&choice(less(v(), v()), v(), num(3)), &[(0, 9)], "1 8");
    list.value(&choice(at_most(v(), v()), num(3), v()), &[(0, 9)], "1 8");
    list.value(&choice(equal(v(), v()), v(), num(7)), &[(0, 1)], "0 7");
    list.value(&choice(equal(v(), v()), v(), by_zero()), &[(4, 4)], "4 4");
    list.value(&choice(not_equal(v(), v()), by_zero(), v()), &[(4, 4)], "4 4");
}

/// Though the decision, which is made of both sides' on the row that came in,
/// allows the branch.
fn no_row_is_left(list: &mut List) {
    let never = || both(less(v(), num(3)), less(num(5), v()));
    let always = || either(less(v(), num(6)), less(num(3), v()));
    list.decision(&never(), &[(0, 9)], "1 1");
    list.decision(&always(), &[(0, 9)], "1 1");
    list.value(&choice(never(), by_zero(), v()), &[(0, 9)], "0 9");
    list.value(&choice(not(never()), v(), by_zero()), &[(0, 9)], "0 9");
    list.value(&choice(always(), v(), by_zero()), &[(0, 9)], "0 9");
    list.value(&choice(not(always()), by_zero(), v()), &[(0, 9)], "0 9");
    // A branch that would have a value.
    list.value(&choice(never(), num(20), v()), &[(0, 9)], "0 9");
    list.value(&choice(always(), v(), num(20)), &[(0, 9)], "0 9");
    // Without the other branch either, where that has none.
    list.value(&choice(never(), num(20), by_zero()), &[(0, 9)], "none alarm 10 2");
    // On what the left side leaves, v = 0, the right side's operand has none.
    let small = || less(ten_by_v(), num(3));
    list.decision(&both(zero(), small()), &[(0, 5)], "1 1 alarm 5 2");
    list.value(&choice(both(zero(), small()), num(7), num(8)), &[(0, 5)], "8 8 alarm 5 2");
    let either_way = either(not_equal(v(), num(0)), small());
    list.value(&choice(either_way, num(7), num(8)), &[(0, 5)], "7 7 alarm 5 2");
}

/// Those of its decision on the row that came in, though the left side shuts 0
/// out of the row on which the right side narrows; and narrowing has none.
fn alarms_of_the_condition(list: &mut List) {
    let small = || both(not_equal(v(), num(0)), less(ten_by_v(), num(20)));
    let large = || either(zero(), less(num(20), ten_by_v()));
    list.value(&choice(small(), ten_by_v(), num(0)), &[(0, 5)], "0 10 alarm 5 2");
    list.value(&choice(large(), num(0), ten_by_v()), &[(0, 5)], "0 10 alarm 6 2");
    list.both_ways(&small(), &[(0, 5)], "0 0", "1 5");
    list.both_ways(&large(), &[(0, 5)], "1 5", "0 0");
    // On both rows, the one that came in and the narrowed one: told once.
    let half = both(less(num(-3), v()), less(ten_by_v(), num(20)));
    list.value(&choice(half, num(1), num(2)), &[(-5, 5)], "1 2 alarm 5 2");
    let turned = choice(less(negation(v()), num(0)), num(1), num(2));
    list.value(&turned, &[(MIN, 5)], "1 2 alarm 1 1");
    // With none, and no branch taken.
    list.value(&choice(less(by_zero(), v()), v(), v()), &[(0, 5)], "none alarm 2 2");
}

fn alarms_of_the_branches(list: &mut List) {
    let one_by = |tree| quotient(num(1), tree);
    // In the then branch, in the else branch, in both.
    let then = choice(at_most(v(), num(0)), one_by(v()), one_by(v()));
    list.value(&then, &[(-2, 3)], "-1 1 alarm 5 2");
    let otherwise = choice(less(num(0), v()), one_by(v()), one_by(v()));
    list.value(&otherwise, &[(-2, 3)], "-1 1 alarm 8 2");
    let both_of_them = choice(below(), one_by(v()), one_by(difference(v(), num(7))));
    list.value(&both_of_them, &[(0, 9)], "-1 1 alarm 5 2 alarm 10 2");
    // A branch that has only an alarm is left out, and its alarm stays.
    list.value(&choice(below(), by_zero(), v()), &[(0, 9)], "5 9 alarm 5 2");
    list.value(&choice(below(), v(), by_zero()), &[(0, 9)], "0 4 alarm 6 2");
    // A branch that isn't allowed has none.
    list.value(&choice(below(), v(), by_zero()), &[(0, 4)], "0 4");
    list.value(&choice(below(), by_zero(), v()), &[(5, 9)], "5 9");
}

/// The inner one is read on the row that the outer one has narrowed.
fn choices_in_branches(list: &mut List) {
    let tree = choice(less(v(), num(6)), v(), by_zero());
    list.value(&choice(below(), tree, num(0)), &[(0, 9)], "0 4");
    let tree = choice(below(), by_zero(), v());
    list.value(&choice(below(), num(7), tree), &[(0, 9)], "5 9");
    let low = choice(less(v(), num(3)), v(), num(7));
    let high = choice(less(v(), num(8)), num(6), v());
    list.value(&choice(below(), low, high), &[(0, 9)], "0 9");
    let between = choice(less(num(2), v()), v(), num(3));
    list.value(&choice(below(), between, num(3)), &[(0, 9)], "3 4");
    // Two divisors, each tested.
    let share = quotient(quotient(num(100), v()), w());
    let inner = choice(equal(w(), num(0)), num(0), share);
    list.value(&choice(zero(), num(0), inner), &[(0, 5), (0, 5)], "0 100");
    let share = quotient(quotient(num(100), v()), w());
    let tested = either(zero(), equal(w(), num(0)));
    list.value(&choice(tested, num(0), share), &[(0, 5), (0, 5)], "0 100");
}

/// 0..4 where V is 0..9; that is also what a comparison with it cuts by.
fn low_part() -> Tree {
    choice(below(), v(), num(0))
}

fn choices_in_conditions(list: &mut List) {
    let row = [(0, 9), (0, 20)];
    list.decision(&less(low_part(), num(5)), &row, "1 0");
    list.value(&choice(less(low_part(), num(5)), num(1), by_zero()), &row, "1 1");
    list.both_ways(&less(w(), low_part()), &row, "0 9 0 20", "0 9 0 3");
    list.both_ways(&at_most(w(), low_part()), &row, "0 9 1 20", "0 9 0 4");
    list.both_ways(&equal(low_part(), w()), &row, "0 9 0 20", "0 9 0 4");
    list.both_ways(&less(low_part(), w()), &[(0, 9), (-5, 20)], "0 9 -5 4", "0 9 1 20");
    list.value(&choice(less(w(), low_part()), w(), negation(w())), &row, "-20 3");
    // 0..4 is always below 5..9.
    let high_part = choice(below(), num(9), v());
    list.decision(&less(low_part(), high_part), &row, "1 0");
    // The guarded choice, 0..10 without an alarm, under a condition.
    let guarded = choice(zero(), num(0), ten_by_v());
    let tree = choice(less(guarded, num(5)), v(), negation(v()));
    list.value(&tree, &[(0, 5)], "-5 5");
    // A choice in the condition of the choice that is compared: V is 0..4 where
    // the inner one is 0..4, and 5..9 is shut out.
    let inner = choice(less(low_part(), num(5)), low_part(), by_zero());
    list.both_ways(&less(w(), inner), &row, "0 9 0 20", "0 9 0 3");
}

/// The right side of a both is decided on the row that came in, and narrows
/// what the left side leaves; that of an either where neither is wanted.
fn choices_in_right_sides(list: &mut List) {
    let row = [(0, 9), (0, 20)];
    let part = || choice(below(), v(), num(9));
    let within = || both(less(v(), num(3)), less(w(), part()));
    list.decision(&within(), &row, "1 1");
    list.both_ways(&within(), &row, "0 9 0 20", "0 2 0 1");
    list.value(&choice(within(), w(), num(0)), &row, "0 1");
    let beyond = || either(at_most(num(3), v()), at_most(part(), w()));
    list.decision(&beyond(), &row, "1 1");
    list.both_ways(&beyond(), &row, "0 2 0 1", "0 9 0 20");
    list.value(&choice(beyond(), num(0), w()), &row, "0 1");
    // Decided on 0..9, though the left side leaves only 0..2.
    list.decision(&both(less(v(), num(3)), less(part(), num(5))), &[(0, 9)], "1 1");
}

/// By a variable that is none, or by a quotient.
fn conditions_with_none(list: &mut List) {
    // Either narrows to 0..4, but there is no decision.
    list.value(&choice(either(unknown(), below()), v(), v()), &NONE, "none");
    list.value(&choice(both(below(), unknown()), num(1), num(2)), &NONE, "none");
    list.value(&choice(not(unknown()), num(1), num(2)), &NONE, "none");
    let asked = || less(by_zero(), v());
    list.value(&choice(either(asked(), below()), v(), v()), &[(0, 9)], "none alarm 2 2");
    list.value(&choice(both(asked(), below()), v(), v()), &[(0, 9)], "none alarm 2 2");
    list.value(&choice(less(v(), w()), v(), by_zero()), &NONE, "none");
    // A variable that nothing reads may be none.
    list.value(&choice(below(), v(), num(0)), &NONE, "0 4");
    list.value(&choice(zero(), num(0), ten_by_v()), &NONE, "0 10");
    list.value(&choice(below(), sum(v(), w()), v()), &NONE, "5 9");
    list.value(&choice(below(), v(), sum(v(), w())), &NONE, "0 4");
    list.value(&choice(below(), choice(unknown(), v(), v()), v()), &NONE, "5 9");
    let compared = less(choice(below(), w(), v()), num(7));
    list.decision(&compared, &NONE, "1 1");
    list.both_ways(&compared, &NONE, "0 9 3 2", "0 9 3 2");
}

/// They are 0.
fn variables_past_the_row(list: &mut List) {
    let far = || var(3);
    let guarded = choice(equal(far(), num(0)), v(), quotient(num(10), far()));
    list.value(&guarded, &[(0, 5)], "0 5");
    list.value(&choice(less(v(), far()), v(), num(7)), &[(-5, 5)], "-5 7");
    list.value(&choice(less(far(), v()), far(), v()), &[(-5, 5)], "-5 0");
    list.both_ways(&less(v(), far()), &[(-5, 5)], "0 5", "-5 -1");
}

/// So many choices in one another, five nodes for each.
const LEVELS: i32 = 204;

fn deepest_nests(list: &mut List) {
    let nest = |leaf: Tree, level: &dyn Fn(Tree, i32) -> Tree| (1..=LEVELS).fold(leaf, level);
    let plain = |tree, _| choice(less(tree, num(5)), num(1), num(9));
    list.value(&nest(num(0), &plain), &[(0, 9)], "1 1");
    list.value(&nest(v(), &plain), &[(0, 9)], "1 9");
    // `v < v` leaves 1..8, and from then on v is cut by 1..9 and by 0..9.
    let cut = |tree, _| choice(less(v(), tree), v(), num(9));
    list.value(&nest(v(), &cut), &[(0, 9)], "0 9");
    // From outside V is below 999, below 998, down to below 796.
    let then = |tree, level| choice(less(v(), num(795 + level)), tree, num(-1));
    list.value(&nest(v(), &then), &[(0, 1000)], "-1 795");
    // From outside V isn't below 1, isn't below 2, up to 204.
    let otherwise = |tree, level| choice(less(v(), num(205 - level)), num(2000), tree);
    list.value(&nest(quotient(num(408), v()), &otherwise), &[(0, 408)], "1 2000");
    // Four nodes for each comparison, and on both sides of a both: below 999 and
    // so on, down to below 745.
    let under = |limit| less(v(), num(1000 - limit));
    let right = (2..=255).fold(under(1), |tree, k| both(under(k), tree));
    let left = (2..=255).fold(under(1), |tree, k| both(tree, under(k)));
    for tree in [right, left] {
        list.value(&choice(tree, v(), num(-1)), &[(0, 1000)], "-1 744");
    }
    let over = |limit| at_most(num(1000 - limit), v());
    let right = (2..=255).fold(over(1), |tree, k| either(over(k), tree));
    let left = (2..=255).fold(over(1), |tree, k| either(tree, over(k)));
    for tree in [right, left] {
        list.value(&choice(tree, num(-1), v()), &[(0, 1000)], "-1 744");
    }
}
