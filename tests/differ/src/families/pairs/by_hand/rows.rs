//! Sides that are none, one variable on both sides, a row of all variables, and
//! rows with ends the wrong way round.

use super::*;

pub fn given(list: &mut List) {
    sides_with_none(list);
    alarms(list);
    one_variable(list);
    two_values(list);
    all_variables(list);
}

/// A side that is none gives no decision and leaves nothing, so that a pair
/// leaves what the other side does, or nothing. Its alarm counts.
fn sides_with_none(list: &mut List) {
    let low_w = || either(w_under(5), w_under(7));
    for (condition, yes, no, alarm) in [
        (both(either(v_under(3), nothing()), low_w()), of((0, 2), (0, 6)), of_w(7, 9), 5),
        (both(nothing(), either(v_under(5), w_under(7))), None, of((5, 9), (7, 9)), 2),
        (either(v_under(3), both(nothing(), w_under(5))), of_v(0, 2), of((3, 9), (5, 9)), 5),
        (either(nothing(), both(v_under(5), w_under(7))), of((0, 4), (0, 6)), None, 2),
    ] {
        list.put(&[SPAN; 2], condition, NO_WAY, [yes, no], &[[alarm, 2]]);
    }
}

/// Both sides are decided on the row that came in, and so their alarms are those
/// on it: the left side leaves no 0 of V, or nothing for the branch that divides.
fn alarms(list: &mut List) {
    let ten_by_v = || quotient(num(10), v());
    let condition = both(v_over(0), less(ten_by_v(), num(5)));
    list.put(&[SPAN; 2], condition, UNDECIDED, [of_v(1, 9), ALL], &[[5, 2]]);
    let chosen = less(choice(w_under(5), ten_by_v(), num(0)), w());
    let condition = either(w_over(4), chosen);
    list.put(&[SPAN; 2], condition, UNDECIDED, [of_w(1, 9), of_w(0, 4)], &[[8, 2]]);
}

/// The meet of its two cuts.
fn one_variable(list: &mut List) {
    let v_twice = || less(v(), v());
    for (condition, yes, no) in [
        (both(v_under(5), v_twice()), of_v(1, 3), ALL),
        (both(v_under(2), v_twice()), None, ALL),
        (either(v_twice(), v_over(7)), of_v(1, 9), of_v(0, 7)),
        (both(v_twice(), both(v_twice(), v_twice())), of_v(3, 6), ALL),
    ] {
        list.put(&[SPAN; 2], condition, UNDECIDED, [yes, no], &[]);
    }
}

/// V has 4 and 5, of which the meet leaves nothing.
fn two_values(list: &mut List) {
    let v_twice = || less(v(), v());
    let two = [(4, 5), SPAN];
    let [four, five] = [of_v(4, 4), of_v(5, 5)];
    for (condition, decision, left) in [
        (either(v_is(4), v_twice()), UNDECIDED, [four, five]),
        (either(v_is(4), v_under(4)), UNDECIDED, [four, five]),
        (either(v_twice(), v_is(3)), UNDECIDED, [None, Some(two)]),
        (both(v_is(5), at_most(v(), v())), UNDECIDED, [five, four]),
        (both(at_most(v(), v()), v_is(5)), UNDECIDED, [five, four]),
    ] {
        list.put(&two, condition, decision, left, &[]);
    }
}

/// The first and the last of sixteen.
fn all_variables(list: &mut List) {
    let last = || var(15);
    let condition = both(v_under(3), either(less(num(5), last()), less(last(), v())));
    let mut yes = [SPAN; 16];
    yes[0] = (0, 2);
    list.put(&[SPAN; 16], condition, UNDECIDED, [Some(yes), Some([SPAN; 16])], &[]);
    let condition = either(less(last(), num(3)), less(v(), last()));
    let mut no = [SPAN; 16];
    no[0] = (3, 9);
    no[15] = (3, 9);
    list.put(&[SPAN; 16], condition, UNDECIDED, [Some([SPAN; 16]), Some(no)], &[]);
}

pub fn with_none() -> Vec<Case> {
    let row = [SPAN, (3, 2)];
    let mut cases = Vec::new();
    for (condition, yes, no) in [
        (either(both(v_under(3), w_under(3)), v_under(5)), (0, 4), (5, 9)),
        (both(v_under(5), either(w_under(3), v_under(2))), (0, 1), (5, 9)),
        (both(either(v_under(3), w_under(3)), either(v_under(2), v_under(1))), (0, 1), (2, 9)),
    ] {
        let left = [yes, no].map(|ends| row_line(Some(&[ends, row[1]])));
        let answers = [decision_line(NO_WAY, &[]), left[1].clone(), left[0].clone()];
        let each = MODES.into_iter().zip(answers);
        cases.extend(each.map(|(mode, answer)| Case::of(mode, &condition, &row, Some(answer))));
    }
    cases
}
