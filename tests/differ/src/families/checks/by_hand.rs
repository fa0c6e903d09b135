//! Document 01's examples, the errors that it lists, and its sentences on
//! outcomes and alarms; those of request 1 on remainders and of request 2 on
//! choices.

use super::Check;
use crate::build::*;

pub fn cases() -> Vec<Check> {
    let mut cases = Vec::new();
    examples(&mut cases);
    errors_of_the_trade(&mut cases);
    outcomes(&mut cases);
    no_outcome(&mut cases);
    remainders(&mut cases);
    remainders_of_none(&mut cases);
    choices(&mut cases);
    choices_of_none(&mut cases);
    choices_in_tests(&mut cases);
    rows_by_choices_in_tests(&mut cases);
    cases
}

fn v() -> Tree {
    var(0)
}

/// v = 0 ? 0 : 10 / v
fn guarded() -> Tree {
    choice(equal(v(), num(0)), num(0), quotient(num(10), v()))
}

pub fn bare() -> Vec<i32> {
    table(&[2, 1], &[0], 0, &[assign(0, num(5), 1), end(), end()])
}

/// Bare's proposal with the last two high ends: of point 2 and of the entry.
fn bare_proposal(row: i32, entry: i32) -> Vec<i32> {
    let rows = [vec![(0, 0)], vec![(5, 5)], vec![(0, row)]];
    proposal(1, &[0; 3], &[], &rows, &[([0, 0, 0], (5, entry))])
}

fn examples(cases: &mut Vec<Check>) {
    let small = table(&[1], &[0], 0, &[end()]);
    let small_proposal = proposal(1, &[0], &[], &rows(1, &[(0, 0)]), &[]);
    let large_first = [&[9], &small[1..]].concat();
    cases.extend([
        Check::new(bare(), bare_proposal(5, 5), "accepted 0"),
        Check::new(bare(), bare_proposal(4, 5), "refused 15 disturb at 2"),
        Check::new(bare(), bare_proposal(5, 4), "refused 9 range at 13"),
        Check::new([], [], "refused 1 length at 0"),
        Check::new(&*small, &*small_proposal, "accepted 0"),
        Check::new(&small[..10], &*small_proposal, "refused 1 length at 10"),
        Check::new(large_first, small_proposal, "refused 2 size at 0"),
    ]);

    // Point 2 divides 10 by variable 0 within 0..5 into a second variable:
    // written 2..10, zero possible.
    let divides = [assign(0, input(0, 5), 1), end(), assign(1, quotient(num(10), v()), 3), end()];
    let divides = table(&[2, 2], &[0, 2], 0, &divides);
    for (filed, answer) in [
        ((2, 10), "accepted 1;node 3 zero"),
        ((3, 10), "refused 14 write at 2"),
        ((2, 9), "refused 14 write at 2"),
    ] {
        let entries = [([0, 0, 0], (0, 5)), ([1, 0, 1], filed)];
        let given = proposal(2, &[0; 4], &[], &rows(4, &[(0, 5), (2, 10)]), &entries);
        cases.push(Check::new(&*divides, given, answer));
    }

    // v = 0 ? 0 : 10 / v lists nothing since request 2.
    let guarded = table(&[2], &[0], 0, &[assign(0, guarded(), 1), end()]);
    let rows = [vec![(0, 5)], vec![(0, 10)]];
    let given = proposal(1, &[0, 0], &[], &rows, &[([0, 0, 0], (0, 10))]);
    cases.push(Check::new(guarded, given, "accepted 0"));

    // Lock 0, lock 1, unlock 0, write: held set 2 at the write.
    let nested = [lock(0, 1), lock(1, 2), unlock(0, 3), assign(0, num(5), 4), end()];
    let nested = table(&[5], &[0], 2, &nested);
    let rows = [vec![vec![(0, 0)]; 4], vec![vec![(5, 5)]]].concat();
    let held: [([i32; 5], &[i32], &str); 5] = [
        ([0, 1, 3, 2, 2], &[2], "accepted 0"),
        ([0, 1, 3, 2, 2], &[3], "refused 14 write at 3"),
        ([0, 1, 3, 2, 2], &[0, 1, 3], "refused 14 write at 3"),
        ([0, 1, 3, 3, 3], &[3], "refused 12 locks at 2"),
        ([0, 1, 2, 0, 0], &[2], "refused 12 locks at 1"),
    ];
    for (held, under, answer) in held {
        let entries: Vec<Entry> = under.iter().map(|&set| ([0, set, 0], (5, 5))).collect();
        let given = proposal(1, &held, &[vec![(0, 5)], vec![(0, 0)]], &rows, &entries);
        cases.push(Check::new(&*nested, given, answer));
    }
}

fn errors_of_the_trade(cases: &mut Vec<Check>) {
    // Filing a write under a lock already given back.
    let given_back = [lock(0, 1), unlock(0, 2), assign(0, num(5), 3), end()];
    let given_back = table(&[4], &[0], 1, &given_back);
    for (under, answer) in [(0, "accepted 0"), (1, "refused 14 write at 2")] {
        let entries = [([0, under, 0], (5, 5))];
        let rests = rows(1, &[(0, 5)]);
        let given = proposal(1, &[0, 1, 0, 0], &rests, &rows(4, &[(0, 5)]), &entries);
        cases.push(Check::new(&*given_back, given, answer));
    }

    // Forgetting a task's point because that task is waiting: task 0 is at its
    // lock while task 1 writes.
    let waiting = table(&[2, 2], &[0], 1, &[lock(0, 1), end(), assign(0, num(5), 3), end()]);
    for (row, answer) in [
        ((0, 5), "accepted 0"),
        ((0, 0), "refused 15 disturb at 0"),
        ((0, 4), "refused 15 disturb at 0"),
    ] {
        let all = [vec![vec![row]], rows(3, &[(0, 5)])].concat();
        let entries = [([1, 0, 0], (5, 5))];
        let given = proposal(1, &[0, 1, 0, 0], &rows(1, &[(0, 5)]), &all, &entries);
        cases.push(Check::new(&*waiting, given, answer));
    }

    // Using the rest row at unlock in place of checking it.
    let unlocks = table(&[4], &[0], 1, &[lock(0, 1), assign(0, num(7), 2), unlock(0, 3), end()]);
    for (rest, after, answer) in [
        ((0, 7), (7, 7), "accepted 0"),
        ((0, 6), (7, 7), "refused 16 rest at 2"),
        ((0, 0), (7, 7), "refused 16 rest at 2"),
        ((0, 6), (0, 6), "refused 13 flow at 2"),
    ] {
        let all = [vec![(0, 7)], vec![(0, 7)], vec![(7, 7)], vec![after]];
        let entries = [([0, 1, 0], (7, 7))];
        let given = proposal(1, &[0, 1, 1, 0], &[vec![rest]], &all, &entries);
        cases.push(Check::new(&*unlocks, given, answer));
    }

    // Treating an unreached point's row as a fact: nothing goes to point 1.
    let never = table(&[2], &[0], 0, &[end(), assign(0, quotient(num(9), v()), 0)]);
    let filed: &[Entry] = &[([0, 0, 0], (-9, 9))];
    for (held, row, after, entries, answer) in [
        (-1, (-1, 4), (0, 0), &[][..], "accepted 0"),
        (-1, FULL, (0, 0), &[], "accepted 0"),
        (-1, (-1, 4), (-9, 9), &[], "accepted 0"),
        (0, (-1, 4), (0, 0), &[], "refused 13 flow at 1"),
        (0, (-1, 4), (-9, 9), &[], "refused 14 write at 1"),
        (0, (-1, 4), (-9, 9), filed, "accepted 1;node 2 zero"),
    ] {
        let given = proposal(1, &[0, held], &[], &[vec![after], vec![row]], entries);
        cases.push(Check::new(&*never, given, answer));
    }

    // Rounding -7 / 2 down to -4.
    let rounds = table(&[2], &[0], 0, &[assign(0, quotient(num(-7), num(2)), 1), end()]);
    for (target, entry, answer) in [
        (-3, -3, "accepted 0"),
        (-4, -4, "refused 13 flow at 0"),
        (-4, -3, "refused 13 flow at 0"),
        (-3, -4, "refused 14 write at 0"),
    ] {
        let all = [vec![(0, 0)], vec![(target, target)]];
        let given = proposal(1, &[0, 0], &[], &all, &[([0, 0, 0], (entry, entry))]);
        cases.push(Check::new(&*rounds, given, answer));
    }
}

fn outcomes(cases: &mut Vec<Check>) {
    // Each side of a test whose narrowing leaves a row.
    let counts = [test(less(v(), num(5)), 1, 2), assign(0, sum(v(), num(1)), 0), end()];
    let counts = table(&[3], &[0], 0, &counts);
    for (held, body, after, answer) in [
        ([0, 0, 0], (0, 4), (5, 5), "accepted 0"),
        ([0, 0, 0], (0, 3), (5, 5), "refused 13 flow at 0"),
        ([0, 0, 0], (0, 4), (4, 4), "refused 13 flow at 0"),
        ([0, -1, 0], (0, 4), (5, 5), "refused 12 locks at 0"),
        ([0, 0, -1], (0, 4), (5, 5), "refused 12 locks at 0"),
        ([0, 0, 0], (-1, 4), (5, 5), "refused 14 write at 1"),
        ([0, 0, 0], (0, 5), (5, 5), "refused 13 flow at 1"),
    ] {
        let all = [vec![(0, 5)], vec![body], vec![after]];
        let given = proposal(1, &held, &[], &all, &[([0, 0, 0], (1, 5))]);
        cases.push(Check::new(&*counts, given, answer));
    }
    let always = table(&[3], &[0], 0, &[test(at_most(num(0), v()), 1, 2), end(), end()]);
    for (row, answer) in [((0, 5), "accepted 0"), ((-1, 5), "refused 12 locks at 0")] {
        let all = [vec![row], vec![(0, 5)], vec![(0, 0)]];
        let given = proposal(1, &[0, 0, -1], &[], &all, &[]);
        cases.push(Check::new(&*always, given, answer));
    }

    // The alarms of a test are those of its condition, where it is reached.
    let tests = [
        test(less(quotient(num(10), v()), sum(num(MAX), v())), 2, 2),
        test(less(quotient(num(1), v()), num(0)), 2, 2),
        end(),
    ];
    let tests = table(&[3], &[0], 0, &tests);
    for (held, answer) in [
        (-1, "accepted 2;node 2 zero;node 5 overflow"),
        (0, "accepted 3;node 2 zero;node 5 overflow;node 9 zero"),
    ] {
        let all = [vec![(0, 5)], vec![(0, 9)], vec![(0, 9)]];
        cases.push(Check::new(&*tests, proposal(1, &[0, held, 0], &[], &all, &[]), answer));
    }
}

fn no_outcome(cases: &mut Vec<Check>) {
    // Of a write of none.
    let by_zero = table(&[2], &[0], 0, &[assign(0, quotient(num(1), num(0)), 1), end()]);
    let given = proposal(1, &[0, -1], &[], &rows(2, &[(0, 0)]), &[]);
    cases.push(Check::new(by_zero, given, "accepted 1;node 2 zero"));
    // Of a lock on a held mutex.
    let twice = table(&[3], &[0], 1, &[lock(0, 1), lock(0, 2), end()]);
    let given = proposal(1, &[0, 1, -1], &rows(1, &[(0, 0)]), &rows(3, &[(0, 0)]), &[]);
    cases.push(Check::new(twice, given, "accepted 0"));
    // Of an unlock of one that isn't held.
    let not_held = table(&[2], &[0], 2, &[unlock(1, 1), end()]);
    let given = proposal(1, &[0, -1], &rows(2, &[(0, 0)]), &rows(2, &[(0, 3)]), &[]);
    cases.push(Check::new(not_held, given, "accepted 0"));
    // Of a lock whose row doesn't meet the rest row.
    let apart = [test(less(num(4), v()), 1, 2), lock(0, 3), end(), end()];
    let apart = table(&[4], &[0], 1, &apart);
    for (rest, answer) in [((0, 4), "accepted 0"), ((0, 5), "refused 12 locks at 1")] {
        let all = [vec![(0, 9)], vec![(5, 9)], vec![(0, 4)], vec![(0, 0)]];
        let given = proposal(1, &[0, 0, 0, -1], &[vec![rest]], &all, &[]);
        cases.push(Check::new(&*apart, given, answer));
    }
}

fn remainders(cases: &mut Vec<Check>) {
    let trees = [
        (remainder(num(5), num(3)), (0, 0), (0, 2), "accepted 0"),
        (remainder(num(MIN), num(-1)), (0, 0), (0, 0), "accepted 0"),
        (remainder(v(), num(12)), (0, 100), (0, 11), "accepted 0"),
        (remainder(v(), num(8)), (-3, 100), (-3, 7), "accepted 0"),
        (remainder(v(), num(4)), (-9, -5), (-3, 0), "accepted 0"),
        (remainder(input(3, 4), v()), (5, 9), (0, 4), "accepted 0"),
        (remainder(input(-7, 7), v()), (-2, 3), (-2, 2), "accepted 1;node 2 zero"),
        (remainder(input(MIN, MAX), v()), (MIN, MIN), (-MAX, MAX), "accepted 0"),
        // The sum around it can overflow, and the remainder only be by 0.
        (
            sum(num(MAX), remainder(num(1), v())),
            FULL,
            (MAX, MAX),
            "accepted 2;node 3 zero;node 4 overflow",
        ),
    ];
    exactly(cases, trees);
}

/// A tree of V, which is assigned to another variable; the span of V, what is
/// written, and the answer to just that.
type Written = (Tree, Ends, Ends, &'static str);

/// What is written, and no less: a target's row or an entry that lacks an end
/// is refused.
fn exactly(cases: &mut Vec<Check>, trees: impl IntoIterator<Item = Written>) {
    for (tree, span, written, accepted) in trees {
        let table = table(&[2], &[span.0, 0], 0, &[assign(1, tree, 1), end()]);
        let check = |target: Ends, entry: Ends, answer: &str| {
            let all = [vec![span, (0, 0)], vec![span, target]];
            let given = proposal(2, &[0, 0], &[], &all, &[([0, 0, 1], entry)]);
            Check::new(&*table, given, answer)
        };
        cases.push(check(written, written, accepted));
        for less in narrower(written) {
            cases.push(check(less, written, "refused 13 flow at 0"));
            cases.push(check(written, less, "refused 14 write at 0"));
        }
    }
}

/// By only 0, or of an operand with none: nothing is written, and of the latter
/// there is no alarm at the remainder, though V can be 0.
fn remainders_of_none(cases: &mut Vec<Check>) {
    let none = || quotient(num(1), num(0));
    let by_zero = || remainder(v(), num(0));
    for (tree, answer) in [
        (by_zero(), "accepted 1;node 2 zero"),
        (remainder(v(), none()), "accepted 1;node 3 zero"),
        (remainder(none(), v()), "accepted 1;node 2 zero"),
        (remainder(none(), none()), "accepted 2;node 2 zero;node 5 zero"),
        (remainder(by_zero(), v()), "accepted 1;node 2 zero"),
    ] {
        let table = table(&[2], &[0], 0, &[assign(0, tree, 1), end()]);
        for held in [-1, 0] {
            let given = proposal(1, &[0, held], &[], &rows(2, &[(0, 9)]), &[]);
            cases.push(Check::new(&*table, given, answer));
        }
    }
    // In a test: where the condition has none there is no way on.
    let tests = [test(less(remainder(num(9), v()), num(9)), 1, 2), end(), end()];
    let tests = table(&[3], &[0], 0, &tests);
    for (row, held, answer) in [
        ((0, 9), [0, 0, -1], "accepted 1;node 2 zero"),
        ((0, 9), [0, -1, -1], "refused 12 locks at 0"),
        ((0, 10), [0, 0, -1], "refused 12 locks at 0"),
        ((0, 10), [0, 0, 0], "accepted 1;node 2 zero"),
        ((0, 0), [0, -1, -1], "accepted 1;node 2 zero"),
    ] {
        cases.push(Check::new(&*tests, proposal(1, &held, &[], &rows(3, &[row]), &[]), answer));
    }
}

/// V where it is below 5, else 0: 0..4 where V is 0..9.
fn low_part() -> Tree {
    choice(less(v(), num(5)), v(), num(0))
}

/// Above 0, and ten by it below 20: only the decision divides by 0.
fn small_share() -> Tree {
    both(not_equal(v(), num(0)), less(quotient(num(10), v()), num(20)))
}

/// What is written is narrower than by branches on the whole row, and a target's
/// row or an entry may be so too.
fn choices(cases: &mut Vec<Check>) {
    let ten_by_v = || quotient(num(10), v());
    let one_by = |tree| quotient(num(1), tree);
    let nowhere = both(less(v(), num(3)), less(num(5), v()));
    let everywhere = either(less(v(), num(6)), less(num(3), v()));
    let trees = [
        (guarded(), (0, 5), (0, 10), "accepted 0"),
        (guarded(), (-5, 5), (-10, 10), "accepted 1;node 6 zero"),
        (low_part(), (0, 9), (0, 4), "accepted 0"),
        (choice(less(v(), num(5)), num(9), v()), (0, 9), (5, 9), "accepted 0"),
        (choice(less(v(), num(MAX)), sum(v(), num(1)), v()), FULL, (-MAX, MAX), "accepted 0"),
        (choice(equal(v(), num(MIN)), num(1), negation(v())), FULL, (-MAX, MAX), "accepted 0"),
        (choice(small_share(), ten_by_v(), num(0)), (0, 5), (0, 10), "accepted 1;node 5 zero"),
        // No row is left for the branch, though its condition allows it.
        (choice(nowhere, one_by(num(0)), v()), (0, 9), (0, 9), "accepted 0"),
        (choice(everywhere, v(), one_by(num(0))), (0, 9), (0, 9), "accepted 0"),
        (choice(less(v(), v()), num(7), num(0)), (0, 1), (0, 0), "accepted 0"),
        // Decided by what a choice in the condition is.
        (choice(less(low_part(), num(5)), num(1), num(2)), (0, 9), (1, 1), "accepted 0"),
        (
            choice(less(v(), num(5)), one_by(v()), one_by(difference(v(), num(7)))),
            (0, 9),
            (-1, 1),
            "accepted 2;node 5 zero;node 10 zero",
        ),
    ];
    exactly(cases, trees);
}

/// Where no branch is left, nothing is written.
fn choices_of_none(cases: &mut Vec<Check>) {
    let nowhere = || both(less(v(), num(3)), less(num(5), v()));
    let none = || quotient(num(1), num(0));
    let low = || less(v(), num(5));
    for (tree, answer) in [
        (choice(nowhere(), num(7), none()), "accepted 1;node 10 zero"),
        (choice(not(nowhere()), none(), num(7)), "accepted 1;node 10 zero"),
        (choice(less(none(), v()), num(7), v()), "accepted 1;node 2 zero"),
        // Either leaves a row, but has no decision.
        (choice(either(less(none(), v()), low()), num(7), v()), "accepted 1;node 2 zero"),
        (choice(both(less(none(), v()), low()), num(7), v()), "accepted 1;node 2 zero"),
    ] {
        let table = table(&[2], &[0], 0, &[assign(0, tree, 1), end()]);
        let given = proposal(1, &[0, -1], &[], &rows(2, &[(0, 9)]), &[]);
        cases.push(Check::new(table, given, answer));
    }
}

/// A test whose condition holds a choice: the ways on that it has, and alarms.
fn choices_in_tests(cases: &mut Vec<Check>) {
    let always = || less(low_part(), num(5));
    for (condition, span, held, answer) in [
        (always(), (0, 9), [0, 0, -1], "accepted 0"),
        (always(), (0, 9), [0, -1, -1], "refused 12 locks at 0"),
        (not(always()), (0, 9), [0, -1, 0], "accepted 0"),
        (less(low_part(), num(4)), (0, 9), [0, 0, -1], "refused 12 locks at 0"),
        (less(low_part(), num(4)), (0, 9), [0, 0, 0], "accepted 0"),
        (less(guarded(), num(5)), (0, 5), [0, 0, 0], "accepted 0"),
        (less(guarded(), num(5)), (-1, 5), [0, 0, 0], "accepted 1;node 6 zero"),
        (less(guarded(), num(11)), (0, 5), [0, 0, -1], "accepted 0"),
    ] {
        let table = table(&[3], &[0], 0, &[test(condition, 1, 2), end(), end()]);
        let given = proposal(1, &held, &[], &rows(3, &[span]), &[]);
        cases.push(Check::new(table, given, answer));
    }
}

/// What a test leaves of a second variable by a choice of V, and of V by both.
fn rows_by_choices_in_tests(cases: &mut Vec<Check>) {
    let tests = test(at_most(var(1), low_part()), 1, 2);
    let tests = table(&[3], &[0, 0], 0, &[tests, end(), end()]);
    for (yes, no, answer) in [
        ((0, 4), (1, 20), "accepted 0"),
        ((0, 3), (1, 20), "refused 13 flow at 0"),
        ((1, 4), (1, 20), "refused 13 flow at 0"),
        ((0, 4), (2, 20), "refused 13 flow at 0"),
        ((0, 4), (1, 19), "refused 13 flow at 0"),
    ] {
        let all = [(0, 20), yes, no].map(|ends| vec![(0, 9), ends]);
        cases.push(Check::new(&*tests, proposal(2, &[0; 3], &[], &all, &[]), answer));
    }
    let tests = table(&[3], &[0], 0, &[test(small_share(), 1, 2), end(), end()]);
    for (yes, no, answer) in [
        ((1, 5), (0, 0), "accepted 1;node 5 zero"),
        ((2, 5), (0, 0), "refused 13 flow at 0"),
        ((1, 4), (0, 0), "refused 13 flow at 0"),
        ((1, 5), (1, 1), "refused 13 flow at 0"),
    ] {
        let all = [(0, 5), yes, no].map(|ends| vec![ends]);
        cases.push(Check::new(&*tests, proposal(1, &[0; 3], &[], &all, &[]), answer));
    }
}
