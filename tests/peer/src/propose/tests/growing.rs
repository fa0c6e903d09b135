//! Held sets, rows, rest rows, entries and passes where nothing is refused.

use super::*;

/// The words and passes of a proposal.
fn words(table: &[i32], thresholds: &[i32]) -> (String, usize) {
    let proposed = propose(table, thresholds, PROPOSAL_WORDS).unwrap();
    (crate::words::shown(&proposed.words), proposed.passes)
}

#[test]
fn first_points_and_rest_rows_begin_at_the_starting_values() {
    let ends = table("1 1", "7 -3", 1, "0 0 0 0  0 0 0 0", "");
    let expected = "2 2 1 0 0 0 7 -3 7 -3 7 -3 7 -3 7 -3 7 -3";
    assert_eq!(words(&ends, &[1, 2]), (expected.to_string(), 1));
}

#[test]
fn bare_is_given_what_document_01_gives() {
    let given = "3 1 0 1 0 0 0 0 0 0 0 5 0 5 0 5 5 5";
    assert_eq!(words(&bare(), &[5]), (given.to_string(), 2));
    let full = "3 1 0 1 0 0 0 0 0 0 0 5 0 5 0 5 2147483647 5";
    assert_eq!(words(&bare(), &[]), (full.to_string(), 2));
}

/// Lock 0, lock 1, unlock 0, write, end.
#[test]
fn held_sets_by_walking() {
    let locks = "3 0 1 0  3 1 2 0  4 0 3 0  1 0 0 4  0 0 0 0";
    let given = given(&table("5", "0", 2, locks, "0 1 0 0"), &[]);
    assert_eq!(given.held, [0, 1, 3, 2, 2]);
    assert_eq!(given.entries, [([0, 2, 0], [1, 1])]);
}

/// A task that writes an input, and one whose point starts at 0..0: what the
/// second becomes.
fn seen([low, high]: Ends, thresholds: &[i32]) -> Ends {
    let writes = format!("1 {low} {high} 0");
    let given = given(&table("2 1", "0", 0, "1 0 0 1  0 0 0 0  0 0 0 0", &writes), thresholds);
    // The target and the entry are new.
    assert_eq!((given.rows[1][0], given.entries[0].1), ([low, high], [low, high]));
    assert_eq!(given.passes, 2);
    given.rows[2][0]
}

#[test]
fn a_high_end_goes_to_the_nearest_threshold_covering_it() {
    for (thresholds, high) in [
        (&[4, 5, 9][..], 5),
        (&[4, 6, 9], 6),
        (&[5, 6], 5),
        (&[6], 6),
        (&[4, MAX], MAX),
        (&[3, 4], MAX),
        (&[-9, -1], MAX),
        (&[], MAX),
    ] {
        assert_eq!(seen([5, 5], thresholds), [0, high], "{thresholds:?}");
        assert_eq!(seen([0, 5], thresholds), [0, high], "{thresholds:?}");
    }
    assert_eq!(seen([5, MAX], &[4, MAX - 1]), [0, MAX]);
    assert_eq!(seen([5, MAX - 1], &[4, MAX - 1]), [0, MAX - 1]);
}

#[test]
fn a_low_end_goes_to_the_nearest_threshold_covering_it() {
    for (thresholds, low) in [
        (&[-9, -5, -4][..], -5),
        (&[-9, -6, -4], -6),
        (&[-6, -5], -5),
        (&[-6], -6),
        (&[MIN, -4], MIN),
        (&[-4, -3], MIN),
        (&[1, 9], MIN),
        (&[], MIN),
    ] {
        assert_eq!(seen([-5, -5], thresholds), [low, 0], "{thresholds:?}");
        assert_eq!(seen([-5, 0], thresholds), [low, 0], "{thresholds:?}");
    }
    assert_eq!(seen([MIN, -5], &[MIN + 1, 4]), [MIN, 0]);
    assert_eq!(seen([MIN + 1, -5], &[MIN + 1, 4]), [MIN + 1, 0]);
}

#[test]
fn only_an_end_that_must_move_moves() {
    let near = [-8, -1, 1, 8];
    assert_eq!(seen([0, 0], &near), [0, 0]);
    assert_eq!(seen([0, 1], &near), [0, 1]);
    assert_eq!(seen([-1, 0], &near), [-1, 0]);
    assert_eq!(seen([2, 7], &near), [0, 8]);
    assert_eq!(seen([-7, -2], &near), [-8, 0]);
    assert_eq!(seen([-7, 7], &near), [-8, 8]);
    assert_eq!(seen([-9, 9], &near), [MIN, MAX]);
    assert_eq!(seen([MIN, MAX], &near), [MIN, MAX]);
}

/// Each of 32 thresholds can be the nearest.
#[test]
fn every_threshold_counts() {
    let highs: Vec<i32> = (1..=32).map(|step| 10 * step).collect();
    let lows: Vec<i32> = highs.iter().rev().map(|high| -high).collect();
    for &high in &highs {
        assert_eq!(seen([0, high - 9], &highs), [0, high]);
        assert_eq!(seen([0, high], &highs), [0, high]);
        assert_eq!(seen([9 - high, 0], &lows), [-high, 0]);
        assert_eq!(seen([-high, 0], &lows), [-high, 0]);
    }
    assert_eq!(seen([-321, 321], &highs), [MIN, MAX]);
}

/// A test of an input leads to 1 and 2, of which each writes an input and goes
/// on to 3.
fn joined(first: &str, second: &str) -> Given {
    let nodes = format!("1 0 1 0  0 0 0 0  18 0 1 0  1 {first} 0  1 {second} 0");
    given(&table("4", "0", 0, "2 2 1 2  1 0 3 3  1 0 4 3  0 0 0 0", &nodes), &[-10, 10])
}

#[test]
fn a_target_and_an_entry_are_new_once() {
    for (first, second, ends) in [
        ("-3 3", "-3 3", [-3, 3]),
        ("-3 3", "-1 2", [-3, 3]),
        ("-3 3", "-3 4", [-3, 10]),
        ("-3 3", "-4 3", [-10, 3]),
        ("-3 3", "-4 5", [-10, 10]),
        ("-3 3", "11 11", [-3, MAX]),
        ("-3 3", "-11 3", [MIN, 3]),
    ] {
        let given = joined(first, second);
        assert_eq!(given.points(), [[0, 0], [0, 0], [0, 0], ends], "{first}, {second}");
        assert_eq!(given.entries, [([0, 0, 0], ends)], "{first}, {second}");
        assert_eq!(given.passes, 2);
    }
}

/// An input is written and tested against 0, yes and no to the same point: the
/// low end is that of yes as it was, the high end is widened by no.
#[test]
fn yes_comes_before_no() {
    let points = "1 0 0 1  2 3 2 2  0 0 0 0";
    let nodes = "1 -9 9 0  2 0 0 0  0 0 0 0  16 1 2 0";
    let given = given(&table("3", "0", 0, points, nodes), &[-20, 20]);
    assert_eq!(given.points(), [[0, 0], [-9, 9], [-9, 20]]);
    assert_eq!(given.passes, 2);
}

/// While v < 8, v := v + 1. A first point is never new.
#[test]
fn a_loop_is_widened_from_its_second_visit_on() {
    let points = "2 2 1 2  1 0 5 0  0 0 0 0";
    let nodes = "2 0 0 0  0 8 0 0  16 0 1 0  2 0 0 0  0 1 0 0  4 3 4 0";
    let counts = table("3", "0", 0, points, nodes);
    let tight = given(&counts, &[7, 8]);
    assert_eq!(tight.points(), [[0, 8], [0, 7], [8, 8]]);
    assert_eq!(tight.entries, [([0, 0, 0], [1, 8])]);
    assert_eq!(tight.passes, 4);
    // Pass 1: 0..10 at the start; 2: 8..10 behind, and 0..10, not 0..7, inside,
    // so that 11 follows and 0..MAX; 3: 8..MAX behind; 4: nothing.
    let loose = given(&counts, &[10]);
    assert_eq!(loose.points(), [[0, MAX], [0, 10], [8, MAX]]);
    assert_eq!(loose.entries, [([0, 0, 0], [1, MAX])]);
    assert_eq!(loose.passes, 4);
}

/// v := v + 1 for ever.
#[test]
fn a_loop_goes_from_threshold_to_threshold() {
    let counts = table("1", "0", 0, "1 0 2 0", "2 0 0 0  0 1 0 0  4 0 1 0");
    for (thresholds, passes) in [(&[][..], 3), (&[10], 3), (&[10, 20], 4), (&[10, 20, 30], 5)] {
        let given = given(&counts, thresholds);
        assert_eq!(given.points(), [[0, MAX]]);
        assert_eq!(given.entries, [([0, 0, 0], [1, MAX])]);
        assert_eq!(given.passes, passes, "{thresholds:?}");
    }
}

/// Every point reached by then is visited in rising order, so that what lies
/// ahead is visited in the same pass and what lies behind in the next.
#[test]
fn points_are_visited_in_rising_order() {
    let nodes = "0 1 0 0  0 2 0 0  0 3 0 0";
    let forward = table("4", "0", 0, "1 0 0 1  1 0 1 2  1 0 2 3  0 0 0 0", nodes);
    assert_eq!(given(&forward, &[]).passes, 2);
    let backward = table("4", "0", 0, "1 0 0 3  0 0 0 0  1 0 1 1  1 0 2 2", nodes);
    let given = given(&backward, &[]);
    assert_eq!(given.points(), [[0, 0], [2, 2], [3, 3], [1, 1]]);
    assert_eq!(given.passes, 3);
}

/// v is set to 5 by task 0, and u to -v by task 1: a point is widened by the
/// entries first, and its outcomes are those of the wider row.
#[test]
fn outcomes_are_those_of_the_widened_row() {
    let nodes = "0 5 0 0  2 0 0 0  3 1 0 0";
    let both = table("2 2", "0 0", 0, "1 0 0 1  0 0 0 0  1 1 2 3  0 0 0 0", nodes);
    let given = given(&both, &[5]);
    assert_eq!(given.rows[2], [[0, 5], [0, 0]]);
    assert_eq!(given.rows[3], [[0, 5], [-5, 0]]);
    assert_eq!(given.entries, [([0, 0, 0], [5, 5]), ([1, 0, 1], [-5, 0])]);
    // Task 0 sees u in the next pass only.
    assert_eq!(given.rows[..2], [[[0, 0], [MIN, 0]], [[5, 5], [MIN, 0]]]);
    assert_eq!(given.passes, 3);
}

/// Task 0 writes 9, task 1 writes 5: each is widened by the other's alone.
#[test]
fn a_task_is_not_widened_by_its_own_entries() {
    let points = "1 0 0 1  0 0 0 0  1 0 1 3  0 0 0 0";
    let given = given(&table("2 2", "0", 0, points, "0 9 0 0  0 5 0 0"), &[5, 9]);
    assert_eq!(given.points(), [[0, 5], [5, 9], [0, 9], [5, 9]]);
    assert_eq!(given.entries, [([0, 0, 0], [9, 9]), ([1, 0, 0], [5, 5])]);
    assert_eq!(given.passes, 3);
}

/// Task 0 writes 5 under mutex 0. Task 1 locks 0, locks 1, unlocks 0 and unlocks 1.
#[test]
fn only_entries_with_a_disjoint_set_disturb() {
    let writes = "3 0 1 0  1 0 0 2  0 0 0 0";
    let locks = "3 0 4 0  3 1 5 0  4 0 6 0  4 1 7 0  0 0 0 0";
    let given = given(&table("3 5", "0", 2, &format!("{writes}  {locks}"), "0 5 0 0"), &[6]);
    assert_eq!(given.held, [0, 1, 1, 0, 1, 3, 2, 0]);
    assert_eq!(given.entries, [([0, 1, 0], [5, 5])]);
    let (without, with) = ([0, 6], [0, 0]);
    assert_eq!(given.points()[3..], [without, with, with, without, without]);
    // The entry has mutex 0 and not 1; 0 is given back with 0..0.
    assert_eq!(given.rests, [[[0, 0]], [[0, 6]]]);
}

/// Lock 0, write 5, unlock 0: only the unlock brings 5 to the rest row.
#[test]
fn an_unlock_widens_the_rest_row() {
    let points = "3 0 1 0  1 0 0 2  4 0 3 0  0 0 0 0";
    let given = given(&table("4", "0", 1, points, "0 5 0 0"), &[6]);
    assert_eq!(given.points(), [[0, 0], [0, 0], [5, 5], [5, 5]]);
    assert_eq!(given.rests, [[[0, 6]]]);
    assert_eq!(given.entries, [([0, 1, 0], [5, 5])]);
    assert_eq!(given.passes, 2);
    // Without the unlock it stays.
    let points = "3 0 1 0  1 0 0 2  0 0 0 0";
    assert_eq!(super::given(&table("3", "0", 1, points, "0 5 0 0"), &[6]).rests, [[[0, 0]]]);
}

/// Write 0..3 under mutex 0, give it back, write 0..2 and lock it again: that lock
/// comes after the unlock in the same pass, and what it lets in is new.
#[test]
fn an_unlock_widens_the_rest_row_at_once() {
    let points = "3 0 1 0  1 0 0 2  4 0 3 0  1 0 1 4  3 0 5 0  0 0 0 0";
    let given = given(&table("6", "0", 1, points, "1 0 3 0  1 0 2 0"), &[6]);
    assert_eq!(given.points(), [[0, 0], [0, 0], [0, 3], [0, 3], [0, 2], [0, 2]]);
    assert_eq!(given.rests, [[[0, 6]]]);
    assert_eq!(given.passes, 2);
}

/// Another mutex is given back: the rest row of that one alone is widened by it.
#[test]
fn an_unlock_widens_the_rest_row_of_its_own_mutex() {
    let points = "3 0 1 0  3 1 2 0  1 0 0 3  4 1 4 0  0 0 0 0";
    let given = given(&table("5", "0", 2, points, "0 5 0 0"), &[6]);
    assert_eq!(given.held, [0, 1, 3, 3, 1]);
    assert_eq!(given.rests, [[[0, 0]], [[0, 6]]]);
}

/// Write 0..3, then lock 0: at the end of the first pass the entry widens the
/// rest row, so that the second pass widens what the first let in.
#[test]
fn unguarded_entries_widen_rest_rows_at_the_end_of_a_pass() {
    let points = "1 0 0 1  3 0 2 0  0 0 0 0";
    let given = given(&table("3", "0", 1, points, "1 0 3 0"), &[6]);
    assert_eq!(given.points(), [[0, 0], [0, 3], [0, 6]]);
    assert_eq!(given.rests, [[[0, 6]]]);
    assert_eq!(given.entries, [([0, 0, 0], [0, 3])]);
    assert_eq!(given.passes, 3);
    // If nobody locks, that is the first pass's last change.
    let unused = super::given(&table("2", "0", 1, "1 0 0 1  0 0 0 0", "1 0 3 0"), &[6]);
    assert_eq!((unused.rests, unused.passes), (vec![vec![[0, 6]]], 2));
}

/// Write 5, then lock 0: 5..5 doesn't meet 0..0 in the first pass.
#[test]
fn a_lock_lets_in_what_meets_the_rest_row() {
    let points = "1 0 0 1  3 0 2 0  0 0 0 0";
    let given = given(&table("3", "0", 1, points, "0 5 0 0"), &[6]);
    assert_eq!(given.held, [0, 0, 1]);
    assert_eq!(given.points(), [[0, 0], [5, 5], [5, 5]]);
    assert_eq!(given.rests, [[[0, 6]]]);
    assert_eq!(given.passes, 3);
}

#[test]
fn entries_rise_by_task_set_and_variable() {
    let first = "3 0 1 0  1 1 0 2  4 0 3 0  1 1 1 4  1 0 2 5  0 0 0 0";
    let second = "1 0 3 7  0 0 0 0";
    let nodes = "0 1 0 0  0 2 0 0  0 3 0 0  0 4 0 0";
    let given = given(&table("6 2", "0 0", 1, &format!("{first}  {second}"), nodes), &[]);
    assert_eq!(
        given.entries,
        [([0, 0, 0], [3, 3]), ([0, 0, 1], [2, 2]), ([0, 1, 1], [1, 1]), ([1, 0, 0], [4, 4])]
    );
}

/// v := 1, then v := 7 under the same set: one entry, new and then widened.
#[test]
fn two_writes_share_an_entry() {
    let given = given(&table("3", "0", 0, "1 0 0 1  1 0 1 2  0 0 0 0", "0 1 0 0  0 7 0 0"), &[9]);
    assert_eq!(given.points(), [[0, 0], [1, 1], [7, 7]]);
    assert_eq!(given.entries, [([0, 0, 0], [1, 9])]);
    assert_eq!(given.passes, 2);
}

/// 1 < 0 never leads to the write at 1; its row and held word say so, and it
/// leaves no entry.
#[test]
fn a_point_that_no_pass_reaches() {
    let nodes = "0 1 0 0  0 0 0 0  16 0 1 0  0 9 0 0";
    let never = table("3", "7", 0, "2 2 1 2  1 0 3 2  0 0 0 0", nodes);
    assert_eq!(words(&never, &[]), ("3 1 0 0 0 -1 0 7 0 7 7 0 7".to_string(), 2));
    // The same behind 1 / 0, a lock that is held, an unlock that isn't, and where
    // nothing leads.
    let nodes = "0 1 0 0  0 0 0 0  7 0 1 0";
    let none = table("2", "7", 0, "1 0 2 1  0 0 0 0", nodes);
    assert_eq!(words(&none, &[]), ("2 1 0 0 0 -1 7 0 7 0".to_string(), 1));
    let held = table("3", "7", 1, "3 0 1 0  3 0 2 0  0 0 0 0", "");
    assert_eq!(words(&held, &[]), ("3 1 1 0 0 1 -1 7 7 0 7 7 7 0 7".to_string(), 2));
    let free = table("2", "7", 1, "4 0 1 0  0 0 0 0", "");
    assert_eq!(words(&free, &[]), ("2 1 1 0 0 -1 7 0 7 7 0 7".to_string(), 1));
    let apart = table("2", "7", 0, "0 0 0 0  0 0 0 0", "");
    assert_eq!(words(&apart, &[]), ("2 1 0 0 0 -1 7 0 7 0".to_string(), 1));
}
