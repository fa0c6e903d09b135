//! Refusals 18, 19 and 20, their places and their order.

use super::*;
use crate::generate::largest;

fn refused(table: &[i32], thresholds: &[i32]) -> Refusal {
    propose(table, thresholds, PROPOSAL_WORDS).unwrap_err()
}

#[test]
fn thresholds_rise() {
    for (thresholds, place) in [
        (&[1, 1][..], 1),
        (&[2, 1], 1),
        (&[MAX, MIN], 1),
        (&[0, 1, 2, 2, 1], 3),
        (&[-3, -2, -1, 0, -1, -1], 4),
        (&[MIN, MIN], 1),
    ] {
        assert_eq!(refused(&bare(), thresholds), (19, place), "{thresholds:?}");
    }
    for thresholds in [&[][..], &[7], &[MIN], &[MAX], &[MIN, MAX], &[-1, 0, 1]] {
        assert!(propose(&bare(), thresholds, PROPOSAL_WORDS).is_ok(), "{thresholds:?}");
    }
}

#[test]
fn thresholds_are_32_at_most() {
    let rising: Vec<i32> = (0..40).collect();
    assert!(propose(&bare(), &rising[..31], PROPOSAL_WORDS).is_ok());
    assert!(propose(&bare(), &rising[..32], PROPOSAL_WORDS).is_ok());
    assert_eq!(refused(&bare(), &rising[..33]), (19, 32));
    assert_eq!(refused(&bare(), &rising), (19, 32));
    // One that doesn't rise is the first at fault if it comes before.
    let with = |at: usize| [&rising[..at], &[rising[at - 1]], &rising[at + 1..]].concat();
    assert_eq!(refused(&bare(), &with(31)), (19, 31));
    assert_eq!(refused(&bare(), &with(31)[..32]), (19, 31));
    assert_eq!(refused(&bare(), &with(32)), (19, 32));
    assert_eq!(refused(&bare(), &with(33)), (19, 32));
}

#[test]
fn room_for_one_entry_a_point() {
    let least = table("1", "7", 1, "0 0 0 0", "");
    let two = table("2 1", "7 7", 0, "0 0 0 0  0 0 0 0  0 0 0 0", "");
    for (table, needed) in [
        // 4 + 1 + 3 + 2 * ((1 + 1) * 1 + 1)
        (least, 14),
        // 4 + 3 + 9 + 2 * (3 * 1 + 3)
        (bare(), 28),
        // 4 + 3 + 9 + 2 * (3 * 2 + 3)
        (two, 34),
        // 4 + 256 + 768 + 2 * ((256 + 8) * 16 + 256)
        (largest(1).0, 9988),
    ] {
        let ample = propose(&table, &[], PROPOSAL_WORDS).unwrap();
        assert!(ample.words.len() <= needed);
        assert_eq!(propose(&table, &[], needed), Ok(ample));
        for short in [needed - 1, needed / 2, 0] {
            assert_eq!(propose(&table, &[], short), Err((20, needed)));
        }
    }
}

/// A proposal with fewer entries than points is shorter than the room.
#[test]
fn room_counts_also_entries_that_there_are_not() {
    let written = propose(&bare(), &[], 28).unwrap().words.len();
    assert_eq!(written, 18);
    assert_eq!(propose(&bare(), &[], written), Err((20, 28)));
}

/// One task of five points, the first a test of an input that leads to these two;
/// mutexes 0 and 1.
fn parting(targets: &str, points: [&str; 4]) -> Vec<i32> {
    let points = format!("2 2 {targets}  {}", points.join("  "));
    table("5", "0", 2, &points, "1 0 1 0  0 0 0 0  18 0 1 0")
}

const END: &str = "0 0 0 0";

#[test]
fn two_held_sets_at_one_point() {
    for (points, place) in [
        // 3 locks on its way to 4.
        ([END, END, "3 0 4 0", END], 4),
        // Both sets are walked on with, and bring two to smaller points.
        ([END, END, "3 0 4 0", "3 1 2 0"], 2),
        ([END, "4 1 1 0", "3 0 4 0", "3 1 2 0"], 1),
        // The walk with the one or the other ends at 4.
        ([END, END, "3 0 4 0", "3 0 1 0"], 4),
        ([END, END, "3 0 4 0", "4 0 1 0"], 4),
        // 4 is left with mutex 0 alone, and 2 leads to 3 again with mutex 1.
        ([END, "3 1 3 0", "3 0 4 0", "4 0 2 0"], 2),
    ] {
        for targets in ["3 4", "4 3"] {
            assert_eq!(refused(&parting(targets, points), &[]), (18, place), "{points:?}");
        }
    }
}

#[test]
fn a_first_point_is_brought_the_empty_set() {
    // Lock 0, and again from the start.
    let again = table("2", "0", 1, "3 0 1 0  1 0 0 0", "0 1 0 0");
    assert_eq!(refused(&again, &[]), (18, 0));
    let back = table("2", "0", 1, "3 0 1 0  4 0 0 0", "");
    assert_eq!(given(&back, &[]).held, [0, 1]);
    // Places are over the whole table.
    let second = table("1 2", "0", 1, "0 0 0 0  3 0 2 0  1 0 0 1", "0 1 0 0");
    assert_eq!(refused(&second, &[]), (18, 1));
}

#[test]
fn walks_ignore_what_tests_answer() {
    // 1 < 0 is never true, but the walk goes on to the lock.
    let never = table("3", "0", 1, "2 2 1 2  3 0 2 0  0 0 0 0", "0 1 0 0  0 0 0 0  16 0 1 0");
    assert_eq!(refused(&never, &[]), (18, 2));
    let yes = table("3", "0", 1, "2 2 2 1  3 0 2 0  0 0 0 0", "0 1 0 0  0 0 0 0  16 0 1 0");
    assert_eq!(refused(&yes, &[]), (18, 2));
    // Nor does it matter that a written interval is none, 1 / 0.
    let none = table("3", "0", 1, "1 0 2 1  3 0 0 0  0 0 0 0", "0 1 0 0  0 0 0 0  7 0 1 0");
    assert_eq!(refused(&none, &[]), (18, 0));
}

#[test]
fn a_walk_ends_where_a_lock_is_held_or_an_unlock_is_not() {
    let held = |points| given(&parting("3 4", points), &[]).held;
    // 3 has no mutex to give back, 4 takes one and 1 takes it again: neither
    // leads on to 2.
    assert_eq!(held([END, END, "4 0 2 0", END]), [0, -1, -1, 0, 0]);
    assert_eq!(held(["3 0 2 0", END, END, "3 0 1 0"]), [0, 1, -1, 0, 0]);
    // Nor does that bring a second set to a point that others lead to.
    assert_eq!(held([END, END, "4 0 4 0", END]), [0, -1, -1, 0, 0]);
    assert_eq!(held(["3 0 0 0", END, END, "3 0 1 0"]), [0, 1, -1, 0, 0]);
    // What no walk comes to brings nothing.
    assert_eq!(held(["3 0 4 0", "4 0 1 0", END, END]), [0, -1, -1, 0, 0]);
}

/// Eight tests with a lock on the one side of each, from high points to low ones:
/// 2, 4, 8 and so on up to 256 sets come to the points where the sides join, the
/// last of which is the smallest.
#[test]
fn all_sets_are_followed() {
    let mut points = vec![END.to_string(); 18];
    let mut nodes = String::new();
    let mut test = 0;
    for mutex in 0..8 {
        let (lock, join, node) = (17 - 2 * mutex, 16 - 2 * mutex, 3 * mutex);
        points[test] = format!("2 {} {lock} {join}", node + 2);
        points[lock] = format!("3 {mutex} {join} 0");
        nodes += &format!("1 0 1 0  0 0 0 0  18 {node} {} 0  ", node + 1);
        test = join;
    }
    let falling = table("18", "0", 8, &points.join("  "), &nodes);
    assert_eq!(refused(&falling, &[]), (18, 2));
}

/// A table that is at fault at its only node, thresholds that don't rise, no room
/// and two held sets at point 0: of these the first is told.
#[test]
fn the_order_of_refusals() {
    let two_sets = table("2", "0", 1, "3 0 1 0  1 0 0 0", "0 1 0 0");
    let faulty = table("2", "0", 1, "3 0 1 0  1 0 0 0", "10 1 0 0");
    assert_eq!(propose(&faulty, &[1, 1], 0), Err((4, 0)));
    assert_eq!(propose(&two_sets, &[1, 1], 0), Err((19, 1)));
    assert_eq!(propose(&two_sets, &[1, 1], PROPOSAL_WORDS), Err((19, 1)));
    // 4 + 2 + 6 + 2 * (3 * 1 + 2)
    assert_eq!(propose(&two_sets, &[1], 0), Err((20, 22)));
    assert_eq!(propose(&two_sets, &[1], 21), Err((20, 22)));
    assert_eq!(propose(&two_sets, &[1], 22), Err((18, 0)));
}

#[test]
fn refusals_of_the_table_come_first() {
    let bad = [1, 1];
    for (table, refusal) in [
        (vec![], (1, 0)),
        (bare()[..23].to_vec(), (1, 23)),
        (table("9", "0", 0, "", ""), (2, 3)),
        (table("1 1", "0", 0, "0 0 0 0", ""), (3, 2)),
        (table("1", "0", 0, "0 0 0 0", "10 0 0 0"), (4, 0)),
        (table("1", "0", 0, "3 0 0 0", ""), (5, 0)),
        (table("1", "0", 0, "0 0 0 0", "0 0 0 0"), (6, 0)),
    ] {
        assert_eq!(propose(&table, &bad, 0), Err(refusal));
        assert_eq!(propose(&table, &[], PROPOSAL_WORDS), Err(refusal));
    }
}
