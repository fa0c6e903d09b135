//! Trees that read V in one place alone, with the answers written out: the same
//! on two rows that differ in U, which no tree reads, and another on a row that
//! differs in V.

use super::Question;
use crate::build::{
    at_most, binary, both, choice, either, equal, less, negation, not, not_equal, num, quotient,
    sum, var, Ends, Tree,
};
use crate::families::trees::{Case, Mode};

/// V's ends in the first row and in the third, where nothing else is said.
const LOW: Ends = (0, 4);
const HIGH: Ends = (5, 9);

/// W's ends in each row.
const W: Ends = (0, 9);

/// U's ends in the first row and in the third, and those that it has in the
/// second.
const U: Ends = (1, 5);
const OTHERS: [Ends; 2] = [(-7, 30), (3, 2)];

/// V's ends in two rows that both have it empty.
const EMPTY: [Ends; 2] = [(3, 2), (9, -9)];

/// V's ends, and the answer without what it says of U.
type Said<'a> = (Ends, &'a str);

struct List(Vec<Question>);

pub fn questions() -> Vec<Question> {
    let mut list = List(Vec::new());
    operations(&mut list);
    branches(&mut list);
    comparisons(&mut list);
    connectives(&mut list);
    compared_branches(&mut list);
    conditions_in_choices(&mut list);
    empty_and_none(&mut list);
    empty_and_left(&mut list);
    list.0
}

impl List {
    fn value(&mut self, tree: &Tree, low: &str, high: &str) {
        self.on(Mode::Value, tree, [(LOW, low), (LOW, low), (HIGH, high)]);
    }

    fn decision(&mut self, tree: &Tree, low: &str, high: &str) {
        self.on(Mode::Decision, tree, [(LOW, low), (LOW, low), (HIGH, high)]);
    }

    fn no(&mut self, tree: &Tree, low: &str, high: &str) {
        self.on(Mode::Narrowed(false), tree, [(LOW, low), (LOW, low), (HIGH, high)]);
    }

    fn yes(&mut self, tree: &Tree, low: &str, high: &str) {
        self.on(Mode::Narrowed(true), tree, [(LOW, low), (LOW, low), (HIGH, high)]);
    }

    fn on(&mut self, mode: Mode, tree: &Tree, [one, like, third]: [Said; 3]) {
        for other in OTHERS {
            let cases = [(one, U), (like, other), (third, U)].map(|((v, answer), u)| {
                Case::of(mode, tree, &[v, W, u], Some(line(mode, answer, u)))
            });
            self.0.push(Question { cases, changed: 0 });
        }
    }
}

/// What is printed; U has the ends that it came with.
fn line(mode: Mode, answer: &str, (low, high): Ends) -> String {
    match mode {
        Mode::Value => format!("value {answer}"),
        Mode::Decision => format!("decision {answer}"),
        Mode::Narrowed(_) if answer == "none" => "row none".to_string(),
        Mode::Narrowed(_) => format!("row {answer} {low} {high}"),
    }
}

fn v() -> Tree {
    var(0)
}

fn w() -> Tree {
    var(1)
}

/// True on `LOW`, false on `HIGH`.
fn below() -> Tree {
    less(v(), num(5))
}

/// Of W both are possible.
fn open() -> Tree {
    less(w(), num(5))
}

fn operations(list: &mut List) {
    list.value(&v(), "0 4", "5 9");
    list.value(&negation(v()), "-4 0", "-9 -5");
    for (kind, low, high) in [
        (4, "8 12", "13 17"),
        (5, "-8 -4", "-3 1"),
        (6, "0 32", "40 72"),
        (7, "0 0", "0 1"),
        (9, "0 4", "0 7"),
    ] {
        list.value(&binary(kind, v(), num(8)), low, high);
    }
    for (kind, low, high) in [
        (4, "8 12", "13 17"),
        (5, "4 8", "-1 3"),
        (6, "0 32", "40 72"),
        (7, "2 8 alarm 2 2", "0 1"),
        (9, "0 3 alarm 2 2", "0 8"),
    ] {
        list.value(&binary(kind, num(8), v()), low, high);
    }
}

/// By the value, and by an alarm alone.
fn branches(list: &mut List) {
    let nothing_by_v = || quotient(num(0), v());
    list.value(&choice(below(), num(1), num(2)), "1 1", "2 2");
    list.value(&choice(open(), v(), num(7)), "0 7", "5 9");
    list.value(&choice(open(), num(7), v()), "0 7", "5 9");
    let asked = less(nothing_by_v(), w());
    list.value(&choice(asked, num(1), num(2)), "1 2 alarm 2 2", "1 2");
    list.value(&choice(open(), nothing_by_v(), num(7)), "0 7 alarm 5 2", "0 7");
    list.value(&choice(open(), num(7), nothing_by_v()), "0 7 alarm 6 2", "0 7");
}

fn comparisons(list: &mut List) {
    for (kind, low, high) in
        [(16, "1 0", "0 1"), (17, "1 0", "1 1"), (18, "0 1", "1 1"), (19, "1 0", "1 1")]
    {
        list.decision(&binary(kind, v(), num(5)), low, high);
    }
    for (kind, low, high) in
        [(16, "0 1", "1 1"), (17, "0 1", "1 0"), (18, "0 1", "1 1"), (19, "1 0", "1 1")]
    {
        list.decision(&binary(kind, num(5), v()), low, high);
    }
    list.no(&less(v(), w()), "0 4 0 4", "5 9 0 9");
    list.yes(&less(v(), w()), "0 4 1 9", "5 8 6 9");
    list.no(&less(w(), v()), "0 4 0 9", "5 9 5 9");
    list.yes(&less(w(), v()), "1 4 0 3", "5 9 0 8");
    list.no(&at_most(v(), w()), "1 4 0 3", "5 9 0 8");
    list.yes(&at_most(v(), w()), "0 4 0 9", "5 9 5 9");
    list.no(&at_most(w(), v()), "0 4 1 9", "5 8 6 9");
    list.yes(&at_most(w(), v()), "0 4 0 4", "5 9 0 9");
    // Only a single value takes an end from W.
    let single = [((0, 0), "0 0 1 9"), ((0, 0), "0 0 1 9"), (HIGH, "5 9 0 9")];
    for (a, b) in [(v(), w()), (w(), v())] {
        let (same, apart) = (equal(a.clone(), b.clone()), not_equal(a, b));
        list.yes(&same, "0 4 0 4", "5 9 5 9");
        list.no(&apart, "0 4 0 4", "5 9 5 9");
        list.on(Mode::Narrowed(false), &same, single);
        list.on(Mode::Narrowed(true), &apart, single);
    }
}

fn connectives(list: &mut List) {
    let other = || less(w(), num(7));
    for (a, b) in [(other(), below()), (below(), other())] {
        let (all, any) = (both(a.clone(), b.clone()), either(a, b));
        list.decision(&all, "1 1", "0 1");
        list.no(&all, "0 4 7 9", "5 9 0 9");
        list.yes(&all, "0 4 0 6", "none");
        list.decision(&any, "1 0", "1 1");
        list.no(&any, "none", "5 9 7 9");
        list.yes(&any, "0 4 0 9", "5 9 0 6");
    }
    list.decision(&not(below()), "0 1", "1 0");
    list.no(&not(less(v(), w())), "0 4 1 9", "5 8 6 9");
    list.yes(&not(less(v(), w())), "0 4 0 4", "5 9 0 9");
}

/// V is in a branch of a choice that is compared, and in the other branch a
/// number.
fn compared_branches(list: &mut List) {
    let then = |number| choice(open(), v(), num(number));
    let otherwise = |number| choice(open(), num(number), v());
    for [with_0, with_9] in [[then(0), then(9)], [otherwise(0), otherwise(9)]] {
        let asked = less(with_0.clone(), num(5));
        list.decision(&asked, "1 0", "1 1");
        list.value(&choice(asked, num(2), num(6)), "2 2", "2 6");
        list.no(&less(with_0, w()), "0 4 0 4", "5 9 0 9");
        list.yes(&less(with_9, w()), "0 4 1 9", "5 9 6 9");
    }
}

/// Conditions with V in each place, all of them true on `LOW` and false on
/// `HIGH`.
fn conditions() -> [Tree; 9] {
    let (always, never) = (|| less(w(), num(10)), || less(w(), num(0)));
    [
        below(),
        less(num(-5), negation(v())),
        less(sum(num(1), v()), num(6)),
        both(below(), always()),
        both(always(), below()),
        either(below(), never()),
        either(never(), below()),
        not(at_most(num(5), v())),
        // In a condition within a condition.
        less(choice(below(), num(1), num(7)), num(3)),
    ]
}

fn conditions_in_choices(list: &mut List) {
    for condition in conditions() {
        list.decision(&condition, "1 0", "0 1");
        let chosen = choice(condition, num(2), num(6));
        list.value(&chosen, "2 2", "6 6");
        list.decision(&less(chosen.clone(), num(4)), "1 0", "0 1");
        list.no(&less(chosen.clone(), w()), "0 4 0 2", "5 9 0 6");
        list.yes(&less(chosen, w()), "0 4 3 9", "5 9 7 9");
    }
}

/// Where V is empty there is no answer, whatever its ends are.
fn empty_and_none(list: &mut List) {
    let [one, like] = EMPTY;
    let mut none = |mode, tree: &Tree, answer, low| {
        list.on(mode, tree, [(one, answer), (like, answer), (LOW, low)]);
    };
    none(Mode::Value, &sum(v(), w()), "none", "0 13");
    let by_v = less(quotient(num(8), v()), w());
    none(Mode::Decision, &by_v, "0 0", "1 1 alarm 2 2");
    for condition in conditions() {
        none(Mode::Decision, &condition, "0 0", "1 0");
        let chosen = choice(condition, num(2), num(6));
        none(Mode::Value, &chosen, "none", "2 2");
        none(Mode::Decision, &less(chosen.clone(), num(4)), "0 0", "1 0");
        none(Mode::Narrowed(false), &less(chosen.clone(), w()), "none", "0 4 0 2");
        none(Mode::Narrowed(true), &less(chosen, w()), "none", "0 4 3 9");
    }
}

/// Where V is empty in a branch or in one of two sides, the other can leave
/// something, and V keeps its ends.
fn empty_and_left(list: &mut List) {
    let [one, like] = EMPTY;
    let part = || choice(open(), v(), num(7));
    list.on(Mode::Value, &part(), [(one, "7 7"), (like, "7 7"), (LOW, "0 7")]);
    let asked = less(part(), num(3));
    list.on(Mode::Decision, &asked, [(one, "0 1"), (like, "0 1"), (LOW, "1 1")]);
    let mut left = |wanted, tree: &Tree, of_w: &str, third| {
        let row = |(low, high): Ends| format!("{low} {high} {of_w}");
        let rows = [(one, &row(one)[..]), (like, &row(like)), third];
        list.on(Mode::Narrowed(wanted), tree, rows);
    };
    left(false, &less(part(), w()), "0 7", (HIGH, "5 9 0 9"));
    left(true, &less(part(), w()), "8 9", (LOW, "0 4 1 9"));
    for (a, b) in [(open(), below()), (below(), open())] {
        left(false, &both(a.clone(), b.clone()), "5 9", (HIGH, "5 9 0 9"));
        left(true, &either(a, b), "0 4", (LOW, "0 4 0 9"));
    }
}
