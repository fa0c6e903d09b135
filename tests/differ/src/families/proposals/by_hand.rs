//! Request 4 sentence by sentence: the words and the passes, or the refusal,
//! written out.

use super::super::checks::bare;
use super::Proposal;
use crate::build::*;
use peer::words::Refusal;
use peer::Proposed;

pub fn cases() -> Vec<Proposal> {
    let mut cases = Vec::new();
    starting(&mut cases);
    held_sets(&mut cases);
    unreached(&mut cases);
    passes(&mut cases);
    entries_of_others(&mut cases);
    targets(&mut cases);
    written(&mut cases);
    rest_rows(&mut cases);
    nearest(&mut cases);
    loops(&mut cases);
    thresholds_refused(&mut cases);
    two_sets(&mut cases);
    of_tables(&mut cases);
    cases
}

fn v() -> Tree {
    var(0)
}

/// These words are proposed, after so many passes.
fn made(table: &[i32], thresholds: &[i32], words: Vec<i32>, passes: usize) -> Proposal {
    let wanted = Ok(Proposed { words, passes });
    Proposal { table: table.to_vec(), thresholds: thresholds.to_vec(), wanted }
}

fn refused(table: &[i32], thresholds: &[i32], refusal: Refusal) -> Proposal {
    Proposal { table: table.to_vec(), thresholds: thresholds.to_vec(), wanted: Err(refusal) }
}

/// A proposal for one variable: the held word and the range of each point, the
/// range of each rest row, and the entries.
fn single(points: &[(i32, Ends)], rests: &[Ends], entries: &[Entry]) -> Vec<i32> {
    let held: Vec<i32> = points.iter().map(|&(held, _)| held).collect();
    let rows: Vec<Row> = points.iter().map(|&(_, ends)| vec![ends]).collect();
    let rests: Vec<Row> = rests.iter().map(|&ends| vec![ends]).collect();
    proposal(1, &held, &rests, &rows, entries)
}

/// The same where no mutex is held anywhere.
fn free(ranges: &[Ends], entries: &[Entry]) -> Vec<i32> {
    let points: Vec<(i32, Ends)> = ranges.iter().map(|&ends| (0, ends)).collect();
    single(&points, &[], entries)
}

/// What task 0 writes to the only variable while it holds none.
fn by_first(ends: Ends) -> Entry {
    ([0, 0, 0], ends)
}

/// 'First points and rest rows begin at the starting values.'
fn starting(cases: &mut Vec<Proposal>) {
    let ends = table(&[1, 1], &[7, -3], 1, &[end(), end()]);
    let row = vec![(7, 7), (-3, -3)];
    let words = proposal(2, &[0, 0], &[row.clone()], &[row.clone(), row], &[]);
    cases.push(made(&ends, &[], words.clone(), 1));
    cases.push(made(&ends, &[-5, 5], words, 1));
    let limits = table(&[1], &[MIN, MAX], 0, &[end()]);
    let words = proposal(2, &[0], &[], &[vec![(MIN, MIN), (MAX, MAX)]], &[]);
    cases.push(made(&limits, &[0], words, 1));
}

/// 'The held set found by walking instructions from the task's first point.'
fn held_sets(cases: &mut Vec<Proposal>) {
    // Lock 0, lock 1, unlock 0, write: held set 2 at the write. Mutex 0 isn't
    // held there, so that its rest row has what is written.
    let nested = [lock(0, 1), lock(1, 2), unlock(0, 3), assign(0, num(3), 4), end()];
    let nested = table(&[5], &[0], 2, &nested);
    let still = (0, 0);
    let points = [(0, still), (1, still), (3, still), (2, still), (2, (3, 3))];
    let entries = [([0, 2, 0], (3, 3))];
    cases.push(made(&nested, &[9], single(&points, &[(0, 9), still], &entries), 2));
    cases.push(made(&nested, &[], single(&points, &[(0, MAX), still], &entries), 2));
    // Two tasks, each from its own first point.
    let both = table(&[2, 2], &[0], 8, &[lock(7, 1), unlock(7, 0), lock(0, 3), unlock(0, 2)]);
    let points = [(0, still), (128, still), (0, still), (1, still)];
    cases.push(made(&both, &[], single(&points, &[still; 8], &[]), 2));
}

/// 'Stopping where a lock is already held or an unlock isn't', and 'points that
/// no pass reaches are marked -1, their rows 0', though a walk comes there.
fn unreached(cases: &mut Vec<Proposal>) {
    let (seven, nothing) = ((7, 7), (-1, (0, 0)));
    let again = table(&[3], &[7], 1, &[lock(0, 1), lock(0, 2), end()]);
    let points = [(0, seven), (1, seven), nothing];
    cases.push(made(&again, &[], single(&points, &[seven], &[]), 2));
    let points = [(0, seven), nothing];
    let given = |point| table(&[2], &[7], 1, &[point, end()]);
    let untaken = made(&given(unlock(0, 1)), &[], single(&points, &[seven], &[]), 1);
    let apart = made(&given(end()), &[], single(&points, &[seven], &[]), 1);
    // 1 / 0 is none: nothing is written, and there is no entry.
    let by_zero = given(assign(0, quotient(num(1), num(0)), 1));
    let by_zero = made(&by_zero, &[], single(&points, &[seven], &[]), 1);
    cases.extend([untaken, apart, by_zero]);
    // 1 < 0 is never true, so that the write at 1 isn't reached.
    let never = [test(less(num(1), num(0)), 1, 2), assign(0, num(9), 2), end()];
    let never = table(&[3], &[7], 0, &never);
    cases.push(made(&never, &[], single(&[(0, seven), nothing, (0, seven)], &[], &[]), 2));
    // A lock whose rest row never meets the row: v is 5 there, and under the
    // mutex, which nobody gives back, it is 7.
    let apart = [lock(0, 1), assign(0, num(7), 1), test(equal(v(), num(7)), 3, 3), end()];
    let apart = table(&[2, 2], &[7], 1, &apart);
    let entries = [([0, 1, 0], seven)];
    let points = [(0, seven), (1, seven), (0, seven), (0, seven)];
    cases.push(made(&apart, &[], single(&points, &[seven], &entries), 2));
}

/// 'A pass visits in rising order every point reached by then'; 'the pass that
/// changes nothing is the last'.
fn passes(cases: &mut Vec<Proposal>) {
    let write = |value, next| assign(0, num(value), next);
    let entry = [by_first((1, 9))];
    let onward = table(&[4], &[0], 0, &[write(1, 1), write(2, 2), write(3, 3), end()]);
    let rows = [(0, 0), (1, 1), (2, 2), (3, 3)];
    cases.push(made(&onward, &[9], free(&rows, &entry), 2));
    let back = table(&[4], &[0], 0, &[write(1, 3), end(), write(3, 1), write(2, 2)]);
    let rows = [(0, 0), (3, 3), (2, 2), (1, 1)];
    cases.push(made(&back, &[9], free(&rows, &entry), 3));
    // 0, 4, 3, 2, 1: each pass goes one point further.
    let all = [write(1, 4), end(), write(4, 1), write(3, 2), write(2, 3)];
    let all = table(&[5], &[0], 0, &all);
    let rows = [(0, 0), (4, 4), (3, 3), (2, 2), (1, 1)];
    cases.push(made(&all, &[9], free(&rows, &entry), 4));
}

/// 'Its row is widened by each entry of another task with a disjoint set; from
/// that row, each target by its outcome.'
fn entries_of_others(cases: &mut Vec<Proposal>) {
    cases.push(made(&bare(), &[5], free(&[(0, 0), (5, 5), (0, 5)], &[by_first((5, 5))]), 2));
    cases.push(made(&bare(), &[], free(&[(0, 0), (5, 5), (0, MAX)], &[by_first((5, 5))]), 2));
    // 9 by task 0 and 4 by task 1: each point is widened by the other's alone,
    // and task 0 learns of task 1's in the second pass.
    let both = [assign(0, num(9), 1), end(), assign(0, num(4), 3), end()];
    let both = table(&[2, 2], &[0], 0, &both);
    let rows = [(0, 10), (3, 9), (0, 10), (4, 10)];
    let entries = [by_first((9, 9)), ([1, 0, 0], (4, 4))];
    cases.push(made(&both, &[3, 10], free(&rows, &entries), 3));
    // Task 1 writes minus what task 0 wrote, from the wider row.
    let follows = [assign(0, num(5), 1), end(), assign(1, negation(v()), 3), end()];
    let follows = table(&[2, 2], &[0, 0], 0, &follows);
    let rows =
        [vec![(0, 0), (-8, 0)], vec![(5, 5), (-8, 0)], vec![(0, 6), (0, 0)], vec![(0, 6), (-6, 0)]];
    let entries = [by_first((5, 5)), ([1, 0, 1], (-6, 0))];
    cases.push(made(&follows, &[-8, 6], proposal(2, &[0; 4], &[], &rows, &entries), 3));
    // Task 0 writes 5 under mutex 0: it shows where task 1 doesn't hold that.
    let writes = [lock(0, 1), assign(0, num(5), 2), end()];
    let locks = [lock(0, 4), lock(1, 5), unlock(0, 6), end()];
    let guarded = table(&[3, 4], &[0], 2, &[&writes[..], &locks].concat());
    let (still, seen) = ((0, 0), (0, 6));
    let own = [(0, still), (1, still), (1, (5, 5))];
    let other = [(0, seen), (1, still), (3, still), (2, seen)];
    let words = single(&[&own[..], &other].concat(), &[still, seen], &[([0, 1, 0], (5, 5))]);
    cases.push(made(&guarded, &[6], words, 2));
}

/// 'Each target by its outcome (yes before no)'; 'a new target takes the interval
/// as it is'.
fn targets(cases: &mut Vec<Proposal>) {
    for (condition, last) in [
        (less(v(), num(0)), (-9, 20)),
        (at_most(num(0), v()), (-20, 9)),
        (equal(v(), v()), (-9, 9)),
    ] {
        let points = [assign(0, input(-9, 9), 1), test(condition, 2, 2), end()];
        let joined = table(&[3], &[0], 0, &points);
        let words = free(&[(0, 0), (-9, 9), last], &[by_first((-9, 9))]);
        cases.push(made(&joined, &[-20, 20], words, 2));
    }
    // A first point is never new, also where it is its own target.
    let own = table(&[1], &[0], 0, &[assign(0, input(-3, 3), 0)]);
    cases.push(made(&own, &[-4, 4], free(&[(-4, 4)], &[by_first((-3, 3))]), 2));
}

/// 'The entry by the written interval'; 'a new entry takes the interval as it
/// is'; heads rise by task, set and variable.
fn written(cases: &mut Vec<Proposal>) {
    let shared = [assign(0, num(1), 1), assign(0, num(7), 2), end()];
    let shared = table(&[3], &[0], 0, &shared);
    cases.push(made(&shared, &[9], free(&[(0, 0), (1, 1), (7, 7)], &[by_first((1, 9))]), 2));
    cases.push(made(&shared, &[7], free(&[(0, 0), (1, 1), (7, 7)], &[by_first((1, 7))]), 2));
    // Variable 1 under mutex 0, then without it, then variable 0.
    let writes = [lock(0, 1), assign(1, num(1), 2), unlock(0, 3), assign(1, num(2), 4)];
    let sorted = [&writes[..], &[assign(0, num(3), 5), end()]].concat();
    let sorted = table(&[6], &[0, 0], 1, &sorted);
    let row = |first, second| vec![(first, first), (second, second)];
    let rows = [row(0, 0), row(0, 0), row(0, 1), row(0, 1), row(0, 2), row(3, 2)];
    let entries = [([0, 0, 0], (3, 3)), ([0, 0, 1], (2, 2)), ([0, 1, 1], (1, 1))];
    let words = proposal(2, &[0, 1, 1, 0, 0, 0], &[vec![(0, 8), (0, 8)]], &rows, &entries);
    cases.push(made(&sorted, &[8], words, 2));
}

/// 'The rest row by an unlock outcome. At its end each rest row is widened by the
/// entries without its mutex.'
fn rest_rows(cases: &mut Vec<Proposal>) {
    let still = (0, 0);
    // At once: the lock at 4 comes after the unlock, and what it lets in is new.
    let writes = [lock(0, 1), assign(0, input(0, 3), 2), unlock(0, 3)];
    let locks = [assign(0, input(0, 2), 4), lock(0, 5), end()];
    let at_once = table(&[6], &[0], 1, &[&writes[..], &locks].concat());
    let points = [(0, still), (1, still), (1, (0, 3)), (0, (0, 3)), (0, (0, 2)), (1, (0, 2))];
    let entries = [by_first((0, 2)), ([0, 1, 0], (0, 3))];
    cases.push(made(&at_once, &[6], single(&points, &[(0, 6)], &entries), 2));
    // At its end: the lock lets in 0..0, and in the second pass 0..3, which isn't
    // new any more.
    let at_end = table(&[3], &[0], 1, &[assign(0, input(0, 3), 1), lock(0, 2), end()]);
    let points = [(0, still), (0, (0, 3)), (1, (0, 6))];
    cases.push(made(&at_end, &[6], single(&points, &[(0, 6)], &[by_first((0, 3))]), 3));
    // 5 doesn't meet 0..0, so that the lock leads nowhere in the first pass.
    let later = table(&[3], &[0], 1, &[assign(0, num(5), 1), lock(0, 2), end()]);
    let points = [(0, still), (0, (5, 5)), (1, (5, 5))];
    cases.push(made(&later, &[6], single(&points, &[(0, 6)], &[by_first((5, 5))]), 3));
    // The rest row of the mutex that is given back, and of no other.
    let inner = [lock(0, 1), lock(1, 2), assign(0, num(5), 3), unlock(1, 4), end()];
    let inner = table(&[5], &[0], 2, &inner);
    let points = [(0, still), (1, still), (3, still), (3, (5, 5)), (1, (5, 5))];
    let words = single(&points, &[still, (0, 6)], &[([0, 3, 0], (5, 5))]);
    cases.push(made(&inner, &[6], words, 2));
}

/// 'An end that must move goes to the nearest threshold covering it, or to MIN or
/// MAX': what task 1's point becomes, which starts at 0, when task 0 writes.
fn nearest(cases: &mut Vec<Proposal>) {
    let all: Vec<i32> = (-16..16).map(|step| 10 * step + 5).collect();
    let given: [(Ends, &[i32], Ends); 22] = [
        ((5, 5), &[5], (0, 5)),
        ((5, 5), &[4, 6, 9], (0, 6)),
        ((5, 5), &[3, 4], (0, MAX)),
        ((5, 5), &[], (0, MAX)),
        ((0, 5), &[-1, 5], (0, 5)),
        ((-5, -5), &[-5], (-5, 0)),
        ((-5, -5), &[-9, -6, -4], (-6, 0)),
        ((-5, -5), &[-4, -3], (MIN, 0)),
        ((-5, -5), &[], (MIN, 0)),
        ((0, 0), &[-1, 1], (0, 0)),
        ((-2, 7), &[-8, -1, 1, 8], (-8, 8)),
        ((-9, 9), &[-8, 8], (MIN, MAX)),
        ((MIN, MAX), &[0], FULL),
        ((5, MAX), &[MAX - 1], (0, MAX)),
        ((5, MAX - 1), &[MAX - 1], (0, MAX - 1)),
        ((MIN, -5), &[MIN + 1], (MIN, 0)),
        ((MIN + 1, -5), &[MIN + 1], (MIN + 1, 0)),
        ((5, 5), &[MIN, MAX], (0, MAX)),
        // Of 32 the first, the last, and those in the middle.
        ((-155, 155), &all, (-155, 155)),
        ((-156, 154), &all, (MIN, 155)),
        ((-6, 6), &all, (-15, 15)),
        ((-154, 156), &all, (-155, MAX)),
    ];
    for (ends, thresholds, seen) in given {
        let writes = [assign(0, input(ends.0, ends.1), 1), end(), end()];
        let writes = table(&[2, 1], &[0], 0, &writes);
        let words = free(&[(0, 0), ends, seen], &[by_first(ends)]);
        cases.push(made(&writes, thresholds, words, 2));
    }
}

/// A loop is widened from its second visit on, until a test keeps it or no
/// threshold is left.
fn loops(cases: &mut Vec<Proposal>) {
    let counts = [test(less(v(), num(5)), 1, 2), assign(0, sum(v(), num(1)), 0), end()];
    let counts = table(&[3], &[0], 0, &counts);
    let kept = free(&[(0, 5), (0, 4), (5, 5)], &[by_first((1, 5))]);
    cases.push(made(&counts, &[4, 5], kept, 4));
    // 0..4 goes on to 0..10, from which 11 follows.
    let past = free(&[(0, MAX), (0, 10), (5, MAX)], &[by_first((1, MAX))]);
    cases.push(made(&counts, &[10], past, 4));
    for (thresholds, passes) in [(&[][..], 3), (&[10], 3), (&[10, 20], 4), (&[-5, 10, 20, 30], 5)] {
        let up = table(&[1], &[0], 0, &[assign(0, sum(v(), num(1)), 0)]);
        cases.push(made(&up, thresholds, free(&[(0, MAX)], &[by_first((1, MAX))]), passes));
        let down: Vec<i32> = thresholds.iter().rev().map(|threshold| -threshold).collect();
        let falls = table(&[1], &[0], 0, &[assign(0, difference(v(), num(1)), 0)]);
        cases.push(made(&falls, &down, free(&[(MIN, 0)], &[by_first((MIN, -1))]), passes));
    }
}

/// '19 at the first threshold that isn't above the one before or comes after the
/// 32nd.'
fn thresholds_refused(cases: &mut Vec<Proposal>) {
    let rising: Vec<i32> = (0..40).collect();
    let same = |at: usize| [&rising[..at], &[rising[at - 1]], &rising[at + 1..]].concat();
    let given: [(&[i32], usize); 12] = [
        (&[1, 1], 1),
        (&[2, 1], 1),
        (&[MAX, MIN], 1),
        (&[MIN, MIN], 1),
        (&[-3, -2, -1, 0, -1, -1], 4),
        (&[0, 1, 2, 2, 1], 3),
        (&rising[..33], 32),
        (&rising, 32),
        (&same(31), 31),
        (&same(31)[..32], 31),
        (&same(32), 32),
        (&same(33), 32),
    ];
    let second = [lock(0, 1), assign(0, num(1), 0)];
    let second = table(&[2], &[0], 1, &second);
    for (thresholds, place) in given {
        cases.push(refused(&bare(), thresholds, (19, place)));
        // Before 18, too.
        cases.push(refused(&second, thresholds, (19, place)));
    }
    let still = |thresholds: &[i32]| {
        let ends = table(&[1], &[0], 0, &[end()]);
        made(&ends, thresholds, free(&[(0, 0)], &[]), 1)
    };
    cases.extend([still(&rising[..31]), still(&rising[..32]), still(&[MIN, MAX]), still(&[7])]);
}

/// '18 at the smallest point to which two walks bring different held sets', also
/// where the walks pass a larger one with two before, whatever tests answer.
fn two_sets(cases: &mut Vec<Proposal>) {
    let never = || less(num(1), num(0));
    let joined = table(&[3], &[0], 1, &[test(never(), 1, 2), lock(0, 2), end()]);
    cases.push(refused(&joined, &[], (18, 2)));
    // A first point is brought the empty set, and its own set by the loop.
    let first = table(&[1, 2], &[0], 1, &[end(), lock(0, 2), assign(0, num(1), 1)]);
    cases.push(refused(&first, &[5], (18, 1)));
    // Nothing is written, but the walk goes on.
    let none = [assign(0, quotient(num(1), num(0)), 1), lock(0, 0)];
    cases.push(refused(&table(&[2], &[0], 1, &none), &[], (18, 0)));
    // 3 locks on the way to 4; both sets go on from there to 2.
    let parting = |points: [Point; 4]| {
        let test = test(equal(input(0, 1), num(1)), 3, 4);
        table(&[5], &[0], 2, &[vec![test], points.to_vec()].concat())
    };
    for (points, place) in [
        ([end(), end(), lock(0, 4), end()], 4),
        ([end(), end(), lock(0, 4), lock(1, 2)], 2),
        ([end(), unlock(1, 1), lock(0, 4), lock(1, 2)], 1),
        ([end(), end(), lock(0, 4), lock(0, 1)], 4),
        ([end(), end(), lock(0, 4), unlock(0, 1)], 4),
        ([end(), lock(1, 3), lock(0, 4), unlock(0, 2)], 2),
    ] {
        cases.push(refused(&parting(points), &[], (18, place)));
    }
    // A set that can't go on brings no second one.
    let stays = parting([end(), end(), unlock(0, 4), end()]);
    let points = [(0, (0, 0)), (-1, (0, 0)), (-1, (0, 0)), (0, (0, 0)), (0, (0, 0))];
    cases.push(made(&stays, &[], single(&points, &[(0, 0); 2], &[]), 2));
    cases.push(refused(&falling(), &[], (18, 2)));
}

/// Eight tests with a lock on one side of each, from high points to low ones: 2,
/// 4, 8 and so on up to 256 sets come to the points where the sides join, of which
/// the last is the smallest.
fn falling() -> Vec<i32> {
    let mut points = vec![end(); 18];
    let mut from = 0;
    for mutex in 0..8 {
        let (locks, joins) = (17 - 2 * mutex, 16 - 2 * mutex);
        points[from as usize] = test(equal(input(0, 1), num(1)), locks, joins);
        points[locks as usize] = lock(mutex, joins);
        from = joins;
    }
    table(&[18], &[0], 8, &points)
}

/// The refusals of a table come first, whatever the thresholds are.
fn of_tables(cases: &mut Vec<Proposal>) {
    let given = [
        (vec![], (1, 0)),
        (bare()[..23].to_vec(), (1, 23)),
        ([&[9], &bare()[1..]].concat(), (2, 0)),
        (table_of_nodes(&[1, 1], &[0], 0, &[[0; 4]], &[]), (3, 2)),
        (table(&[1], &[0], 0, &[assign(0, raw(10, []), 0)]), (4, 0)),
        (table(&[1], &[0], 0, &[lock(0, 0)]), (5, 0)),
        (table_of_nodes(&[1], &[0], 0, &[[0; 4]], &[[0; 4]]), (6, 0)),
    ];
    for (table, refusal) in given {
        cases.push(refused(&table, &[], refusal));
        cases.push(refused(&table, &[1, 1], refusal));
    }
}
