//! Trees on rows whose answers are written out: the document's own examples,
//! request 1's sentences on remainders, request 2's on choices, one variable on
//! both sides, none in every place, two levels of both, either and not, a choice
//! under a condition under a choice, the longest chains.

mod choices;

use super::{Case, Mode};
use crate::build::{
    at_most, binary, both, choice, difference, either, equal, input, less, negation, not,
    not_equal, num, product, quotient, remainder, sum, var, Ends, Tree, FULL, MAX, MIN,
};

/// The comparisons' kinds: less, at most, equal, not equal.
const COMPARISONS: [i32; 4] = [16, 17, 18, 19];

/// The operations' kinds: sum, difference, product, quotient, remainder.
const OPERATIONS: [i32; 5] = [4, 5, 6, 7, 9];

pub fn cases() -> Vec<Case> {
    let mut list = List(Vec::new());
    examples(&mut list);
    remainders(&mut list);
    remainders_in_conditions(&mut list);
    comparisons(&mut list);
    one_variable_twice(&mut list);
    none_in_arithmetic(&mut list);
    none_under_a_choice(&mut list);
    none_in_comparisons(&mut list);
    none_in_connectives(&mut list);
    two_levels(&mut list);
    choice_under_a_condition(&mut list);
    longest_chains(&mut list);
    choices::cases(&mut list);
    list.0
}

struct List(Vec<Case>);

impl List {
    fn case(&mut self, mode: Mode, tree: &Tree, row: &[Ends], answer: &str) {
        self.0.push(Case::of(mode, tree, row, Some(answer.to_string())));
    }

    fn value(&mut self, tree: &Tree, row: &[Ends], answer: &str) {
        self.case(Mode::Value, tree, row, &format!("value {answer}"));
    }

    fn decision(&mut self, tree: &Tree, row: &[Ends], answer: &str) {
        self.case(Mode::Decision, tree, row, &format!("decision {answer}"));
    }

    fn narrowed(&mut self, tree: &Tree, row: &[Ends], wanted: bool, answer: &str) {
        self.case(Mode::Narrowed(wanted), tree, row, &format!("row {answer}"));
    }

    fn both_ways(&mut self, tree: &Tree, row: &[Ends], no: &str, yes: &str) {
        self.narrowed(tree, row, false, no);
        self.narrowed(tree, row, true, yes);
    }
}

fn v() -> Tree {
    var(0)
}

fn w() -> Tree {
    var(1)
}

/// Document 01's examples, and ends at the limits.
fn examples(list: &mut List) {
    let ten_by_v = || quotient(num(10), v());
    let guarded = choice(equal(v(), num(0)), num(0), ten_by_v());
    let most = "2147483647";
    list.value(&ten_by_v(), &[(0, 5)], "2 10 alarm 2 2");
    list.value(&guarded, &[(0, 5)], "0 10");
    list.narrowed(&less(v(), v()), &[(0, 9)], true, "1 8");
    list.value(&negation(v()), &[(MIN, 0)], &format!("0 {most} alarm 1 1"));
    list.value(&product(input(1, 2), v()), &[(MAX, MAX)], &format!("{most} {most} alarm 2 1"));
    list.value(&quotient(num(MIN), num(-1)), &[(0, 0)], "none alarm 2 1");
    list.value(&quotient(input(-7, 7), v()), &[(-2, 3)], "-7 7 alarm 2 2");
    list.value(&quotient(num(-7), num(2)), &[(0, 0)], "-3 -3");
    list.value(&quotient(num(3), v()), &[(0, 0)], "none alarm 2 2");
    let all = quotient(input(MIN, MAX), input(-1, 1));
    list.value(&all, &[(0, 0)], &format!("-2147483648 {most} alarm 2 1 alarm 2 2"));
    let sides = sum(difference(v(), num(1)), sum(w(), num(1)));
    let row = [(MIN, 0), (0, MAX)];
    list.value(&sides, &row, "-2147483647 2147483646 alarm 2 1 alarm 5 1");
    list.decision(&less(ten_by_v(), num(2)), &[(0, 5)], "0 1 alarm 2 2");
    list.decision(&at_most(ten_by_v(), num(2)), &[(0, 5)], "1 1 alarm 2 2");
}

/// Dividend and divisor as variables, and as inputs.
fn remainders(list: &mut List) {
    for (a, b, answer) in [
        // By the greatest magnitude, less 1, and not the exact result.
        ((5, 5), (3, 3), "0 2"),
        ((5, 5), (-3, 2), "0 2 alarm 2 2"),
        ((0, 100), (12, 12), "0 11"),
        ((-7, 7), (-2, 3), "-2 2 alarm 2 2"),
        // Ends of the dividend that lie nearer to 0.
        ((3, 4), (5, 9), "0 4"),
        ((-3, 100), (8, 8), "-3 7"),
        ((-100, 3), (-8, -8), "-7 3"),
        ((-7, 7), (8, 8), "-7 7"),
        ((-8, 8), (8, 8), "-7 7"),
        // A dividend on one side of 0, or with an end there.
        ((-9, -5), (2, 4), "-3 0"),
        ((-9, 0), (2, 4), "-3 0"),
        ((5, 9), (-4, -2), "0 3"),
        ((0, 9), (-4, -2), "0 3"),
        ((0, 0), (7, 9), "0 0"),
        // MIN by -1 gives 0, and no overflow.
        ((MIN, MIN), (-1, -1), "0 0"),
        (FULL, (-1, -1), "0 0"),
        (FULL, (-1, 1), "0 0 alarm 2 2"),
        // The limits: for a divisor with MIN, D is MAX.
        ((MIN, MIN), (MIN, MIN), "-2147483647 0"),
        ((MIN, MIN), (MAX, MAX), "-2147483646 0"),
        ((MAX, MAX), (MIN, MIN), "0 2147483647"),
        ((MAX, MAX), (MAX, MAX), "0 2147483646"),
        (FULL, (MIN, MIN), "-2147483647 2147483647"),
        (FULL, (MIN, MIN + 1), "-2147483647 2147483647"),
        (FULL, (MIN + 1, MIN + 1), "-2147483646 2147483646"),
        (FULL, FULL, "-2147483647 2147483647 alarm 2 2"),
        (FULL, (0, MAX), "-2147483646 2147483646 alarm 2 2"),
        // A divisor of only 0.
        ((5, 5), (0, 0), "none alarm 2 2"),
        ((0, 0), (0, 0), "none alarm 2 2"),
        (FULL, (0, 0), "none alarm 2 2"),
    ] {
        list.value(&remainder(v(), w()), &[a, b], answer);
        list.value(&remainder(input(a.0, a.1), input(b.0, b.1)), &[(0, 0)], answer);
    }
    // Alarms of both operands, and those of operations around it.
    let odd = || remainder(v(), num(2));
    let nested = remainder(remainder(num(9), v()), odd());
    list.value(&nested, &[(0, 9)], "0 0 alarm 2 2 alarm 6 2");
    list.value(&sum(num(MAX), odd()), &[(0, 9)], "2147483647 2147483647 alarm 4 1");
    list.value(&quotient(num(1), odd()), &[(0, 9)], "1 1 alarm 4 2");
}

/// It is no variable, so that its cut isn't carried back.
fn remainders_in_conditions(list: &mut List) {
    let of_v = |by| remainder(v(), num(by));
    list.decision(&less(of_v(12), num(12)), &[(0, 100)], "1 0");
    list.decision(&equal(of_v(3), num(2)), &[(5, 5)], "1 1");
    list.decision(&less(remainder(num(7), v()), num(9)), &[(0, 100)], "1 0 alarm 2 2");
    list.decision(&less(of_v(0), num(1)), &[(0, 100)], "0 0 alarm 2 2");
    list.both_ways(&less(of_v(12), w()), &[(0, 100), (0, 50)], "0 100 0 11", "0 100 1 50");
    list.both_ways(&equal(of_v(12), w()), &[(0, 100), (-5, 50)], "0 100 -5 50", "0 100 0 11");
    list.both_ways(&less(of_v(12), num(0)), &[(0, 100)], "0 100", "none");
    list.both_ways(&less(of_v(0), w()), &[(0, 100), (0, 50)], "none", "none");
}

/// Each comparison with 5, on rows below, up to, at, from and above it; and
/// what it leaves of a row.
fn comparisons(list: &mut List) {
    let spans = [(0, 4), (0, 5), (5, 5), (5, 9), (6, 9)];
    let answers = [
        ["1 0", "1 1", "0 1", "0 1", "0 1"],
        ["1 0", "1 0", "1 0", "1 1", "0 1"],
        ["0 1", "1 1", "1 0", "1 1", "0 1"],
        ["1 0", "1 1", "0 1", "1 1", "1 0"],
    ];
    for (kind, answers) in COMPARISONS.into_iter().zip(answers) {
        for (span, answer) in spans.into_iter().zip(answers) {
            list.decision(&binary(kind, v(), num(5)), &[span], answer);
        }
    }
    list.decision(&equal(v(), v()), &[(4, 5)], "1 1");
    let all = "-2147483648 2147483647";
    list.both_ways(&less(v(), w()), &[(0, 9), (0, 5)], "0 9 0 5", "0 4 1 5");
    list.both_ways(&at_most(v(), w()), &[(4, 9), (0, 5)], "4 9 0 5", "4 5 4 5");
    list.both_ways(&equal(v(), w()), &[(0, 5), (5, 5)], "0 4 5 5", "5 5 5 5");
    list.both_ways(&not_equal(v(), num(0)), &[(0, 5)], "0 0", "1 5");
    list.both_ways(&less(v(), num(MIN)), &[(MIN, MAX)], all, "none");
    list.both_ways(&less(num(MAX), v()), &[(MIN, MAX)], all, "none");
    list.both_ways(&less(num(5), num(3)), &[(0, 9)], "0 9", "none");
    list.both_ways(&both(less(v(), v()), less(v(), v())), &[(0, 9)], "0 9", "2 7");
}

/// One variable on both sides: what no and yes leave of each row.
fn one_variable_twice(list: &mut List) {
    let answers = [
        ((0, 9), [("0 9", "1 8"), ("1 8", "0 9"), ("0 9", "0 9"), ("0 9", "0 9")]),
        ((4, 4), [("4 4", "none"), ("none", "4 4"), ("none", "4 4"), ("4 4", "none")]),
        ((4, 5), [("4 5", "none"), ("none", "4 5"), ("4 5", "4 5"), ("4 5", "4 5")]),
    ];
    for (span, answers) in answers {
        for (kind, (no, yes)) in COMPARISONS.into_iter().zip(answers) {
            list.both_ways(&binary(kind, v(), v()), &[span], no, yes);
        }
    }
}

/// A row of which the second variable is none.
const NONE: [Ends; 2] = [(0, 9), (3, 2)];

/// Its alarm counts, though the other operand is none.
fn zero() -> Tree {
    quotient(num(1), v())
}

fn below() -> Tree {
    less(v(), num(5))
}

fn unknown() -> Tree {
    less(w(), num(3))
}

fn none_in_arithmetic(list: &mut List) {
    list.value(&w(), &NONE, "none");
    list.value(&negation(w()), &NONE, "none");
    for kind in OPERATIONS {
        list.value(&binary(kind, w(), v()), &NONE, "none");
        list.value(&binary(kind, v(), w()), &NONE, "none");
        list.value(&binary(kind, w(), w()), &NONE, "none");
        list.value(&binary(kind, zero(), w()), &NONE, "none alarm 2 2");
        list.value(&binary(kind, w(), zero()), &NONE, "none alarm 3 2");
    }
}

fn none_under_a_choice(list: &mut List) {
    let (always, never) = (|| less(v(), num(10)), || less(num(9), v()));
    list.value(&choice(unknown(), num(1), zero()), &NONE, "none");
    list.value(&choice(less(w(), zero()), num(1), num(2)), &NONE, "none alarm 3 2");
    list.value(&choice(below(), w(), num(7)), &NONE, "7 7");
    list.value(&choice(below(), num(7), w()), &NONE, "7 7");
    list.value(&choice(below(), w(), w()), &NONE, "none");
    list.value(&choice(always(), w(), zero()), &NONE, "none");
    list.value(&choice(never(), zero(), w()), &NONE, "none");
    list.value(&choice(always(), num(7), zero()), &NONE, "7 7");
    list.value(&choice(never(), zero(), num(7)), &NONE, "7 7");
    let by_zero = quotient(num(1), num(0));
    list.value(&choice(below(), by_zero, num(7)), &NONE, "7 7 alarm 5 2");
}

fn none_in_comparisons(list: &mut List) {
    for kind in COMPARISONS {
        list.decision(&binary(kind, w(), v()), &NONE, "0 0");
        list.decision(&binary(kind, v(), w()), &NONE, "0 0");
        list.decision(&binary(kind, zero(), w()), &NONE, "0 0 alarm 2 2");
        list.decision(&binary(kind, w(), zero()), &NONE, "0 0 alarm 3 2");
        for (a, b) in [(w(), v()), (v(), w()), (w(), w()), (w(), num(0)), (num(0), w())] {
            list.both_ways(&binary(kind, a, b), &NONE, "none", "none");
        }
    }
}

fn none_in_connectives(list: &mut List) {
    for (a, b) in [(unknown(), below()), (below(), unknown())] {
        for (kind, no, yes) in [(20, "5 9 3 2", "none"), (21, "none", "0 4 3 2")] {
            let tree = binary(kind, a.clone(), b.clone());
            list.decision(&tree, &NONE, "0 0");
            list.both_ways(&tree, &NONE, no, yes);
        }
    }
    for tree in [not(unknown()), both(unknown(), unknown()), either(unknown(), unknown())] {
        list.decision(&tree, &NONE, "0 0");
        list.both_ways(&tree, &NONE, "none", "none");
    }
    list.both_ways(&below(), &NONE, "5 9 3 2", "0 4 3 2");
}

/// Each wants V on one side of a number. Of 0..9 they leave, where no and where
/// yes: `lb` 6..9, 0..5; `le` 5..9, 0..4; `ln` 0..3, 4..9; `rb` 0..2, 3..9;
/// `re` 0..6, 7..9; `rn` 2..9, 0..1. After each tree, the row 0..9 where no and
/// where yes, and the decision on 0..2.
fn two_levels(list: &mut List) {
    let under = |limit| less(v(), num(limit));
    let over = |limit| less(num(limit), v());
    let lb = || both(under(6), under(8));
    let le = || either(under(3), under(5));
    let ln = || not(under(4));
    let rb = || both(over(1), over(2));
    let re = || either(over(6), over(7));
    let rn = || not(over(1));
    for (tree, no, yes, can) in [
        (both(lb(), rb()), "0 9", "3 5", "0 1"),
        (both(lb(), re()), "0 9", "none", "0 1"),
        (both(lb(), rn()), "2 9", "0 1", "1 1"),
        (both(le(), rb()), "0 9", "3 4", "0 1"),
        (both(le(), re()), "0 9", "none", "0 1"),
        (both(le(), rn()), "2 9", "0 1", "1 1"),
        (both(ln(), rb()), "0 3", "4 9", "0 1"),
        (both(ln(), re()), "0 6", "7 9", "0 1"),
        (both(ln(), rn()), "0 9", "none", "0 1"),
        (either(lb(), rb()), "none", "0 9", "1 0"),
        (either(lb(), re()), "6 6", "0 9", "1 0"),
        (either(lb(), rn()), "6 9", "0 5", "1 0"),
        (either(le(), rb()), "none", "0 9", "1 0"),
        (either(le(), re()), "5 6", "0 9", "1 0"),
        (either(le(), rn()), "5 9", "0 4", "1 0"),
        (either(ln(), rb()), "0 2", "3 9", "0 1"),
        (either(ln(), re()), "0 3", "4 9", "0 1"),
        (either(ln(), rn()), "2 3", "0 9", "1 1"),
        (not(lb()), "0 5", "6 9", "0 1"),
        (not(le()), "0 4", "5 9", "0 1"),
        (not(ln()), "4 9", "0 3", "1 0"),
    ] {
        list.both_ways(&tree, &[(0, 9)], no, yes);
        list.decision(&tree, &[(0, 9)], "1 1");
        list.decision(&tree, &[(0, 2)], can);
    }
}

/// A choice under a condition under a choice.
fn choice_under_a_condition(list: &mut List) {
    let under = || less(choice(below(), w(), quotient(num(10), w())), num(3));
    for (span, answer, no, yes) in [
        ((0, 4), "0 4", "none", "0 4 0 2"),
        ((0, 9), "-9 9 alarm 6 2", "0 9 0 2", "0 9 0 2"),
        ((5, 9), "-9 -5 alarm 6 2", "5 9 0 2", "none"),
    ] {
        list.value(&choice(under(), v(), negation(v())), &[span, (0, 2)], answer);
        list.both_ways(&under(), &[span, (0, 2)], no, yes);
    }
}

/// 1024 nodes, as many as a table has.
fn longest_chains(list: &mut List) {
    let chain = |over: fn(Tree) -> Tree, tree, count| (0..count).fold(tree, |tree, _| over(tree));
    let negations = chain(negation, v(), 1023);
    list.value(&negations, &[(0, 9)], "-9 0");
    list.value(&negations, &[(MIN, MAX)], "-2147483647 2147483647 alarm 1 1");
    list.value(&negations, &[(1, 0)], "none");
    let remainders = chain(|tree| remainder(tree, num(7)), v(), 511);
    list.value(&remainders, &[(-2, 100)], "-2 6");
    let nots = chain(not, below(), 1021);
    list.decision(&nots, &[(0, 4)], "0 1");
    list.both_ways(&nots, &[(0, 9)], "0 4", "5 9");
}
