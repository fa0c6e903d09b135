//! The document's examples, one test for each later refusal, and the check
//! against a slow one that goes rule by rule as the document's table does.

use super::*;
use crate::analysis::{arithmetic, narrow, Row, Silent};
use crate::generate::{case, Random};
use crate::words::parse;

const BARE: &str = "2 1 0 3 1  2 1  0  1 0 0 1  0 0 0 0  0 0 0 0  0 5 0 0";
const GIVEN: &str = "3 1 0 1  0 0 0  0 0 0  0 5 0 5  0 5 5 5";

/// The verdict and the alarm list, with a look at the words behind it.
fn checked(table: &str, proposal: &str) -> (Verdict, Vec<i32>) {
    let mut alarms = [77; 64];
    let verdict = check(&parse(table).unwrap(), &parse(proposal).unwrap(), &mut alarms);
    let written = match verdict {
        Verdict::Accepted { count } => 2 * count,
        Verdict::Refused { .. } => 0,
    };
    assert!(alarms[written..].iter().all(|&word| word == 77));
    (verdict, alarms[..written].to_vec())
}

fn refused(table: &str, proposal: &str) -> Refusal {
    match checked(table, proposal).0 {
        Verdict::Refused { rule, place } => (rule, place),
        accepted => panic!("{accepted:?}"),
    }
}

fn accepted(table: &str, proposal: &str) -> Vec<i32> {
    match checked(table, proposal) {
        (Verdict::Accepted { .. }, alarms) => alarms,
        (refused, _) => panic!("{refused:?}"),
    }
}

/// A proposal with one word changed.
fn with(proposal: &str, at: usize, word: i32) -> String {
    let mut words = parse(proposal).unwrap();
    words[at] = word;
    words.iter().map(|word| format!("{word} ")).collect()
}

#[test]
fn bare() {
    assert_eq!(accepted(BARE, GIVEN), []);
    assert_eq!(refused(BARE, &with(GIVEN, 16, 4)), (15, 2));
    assert_eq!(refused(BARE, &with(GIVEN, 17, 4)), (9, 13));
    assert_eq!(refused("", GIVEN), (1, 0));
}

#[test]
fn short_tables() {
    let whole = "1 1 0 1 0  1  0  0 0 0 0";
    assert_eq!(accepted(whole, "1 1 0 0  0  0 0"), []);
    assert_eq!(refused(&whole[..whole.len() - 2], ""), (1, 10));
    assert_eq!(refused(&with(whole, 0, 9), ""), (2, 0));
}

const DIVIDES: &str = "2 2 0 4 4  2 2  0 0  1 0 0 1  0 0 0 0  1 1 3 3  0 0 0 0
    0 5 0 0  0 10 0 0  2 0 0 0  7 1 2 0";

fn divides(entry: &str) -> String {
    let ends: Vec<&str> = entry.split("..").collect();
    let lows = format!("0 0  5 0  0 0  0 2  5 {}", ends[0]);
    let highs = format!("0 10  5 10  5 0  5 10  5 {}", ends[1]);
    format!("4 2 0 2  0 0 0 0  0 0 0  1 0 1  {lows}  {highs}")
}

#[test]
fn point_2_divides_10_by_0_to_5() {
    assert_eq!(accepted(DIVIDES, &divides("2..10")), [3, 2]);
    assert_eq!(refused(DIVIDES, &divides("3..10")), (14, 2));
    assert_eq!(refused(DIVIDES, &divides("2..9")), (14, 2));
    // The row behind the write: 2..10 and no less.
    let given = divides("2..10");
    assert_eq!(refused(DIVIDES, &with(&given, 4 + 4 + 6 + 7, 3)), (13, 2));
    assert_eq!(refused(DIVIDES, &with(&given, 4 + 4 + 6 + 10 + 7, 9)), (13, 2));
}

/// v = 0 ? 0 : 10 / v, assigned to v.
const GUARDED: &str = "1 1 0 2 8  2  0  1 0 7 1  0 0 0 0
    2 0 0 0  0 0 0 0  18 0 1 0  0 0 0 0  0 10 0 0  2 0 0 0  7 4 5 0  8 2 3 6";

#[test]
fn a_choice_that_tests_its_own_divisor() {
    let given = |low: i32| format!("2 1 0 1  0 0  0 0 0  {low} -10 -10  5 10 10");
    assert_eq!(accepted(GUARDED, "2 1 0 1  0 0  0 0 0  0 0 0  5 10 10"), []);
    assert_eq!(accepted(GUARDED, &given(0)), []);
    assert_eq!(accepted(GUARDED, &given(-1)), [6, 2]);
    // v below 5 is 0..4, else 0.
    let low_part = "2 0 0 0  0 5 0 0  16 0 1 0  2 0 0 0  0 0 0 0  8 2 3 4";
    let assigned = format!("1 1 0 2 6  2  0  1 0 5 1  0 0 0 0  {low_part}");
    let given = |row, entry| format!("2 1 0 1  0 0  0 0 0  0 0 0  9 {row} {entry}");
    assert_eq!(accepted(&assigned, &given(4, 4)), []);
    assert_eq!(refused(&assigned, &given(3, 4)), (13, 0));
    assert_eq!(refused(&assigned, &given(4, 3)), (14, 0));
    // It is always below 5, so that a test of that has one way on.
    let tested =
        format!("1 1 0 3 8  3  0  2 7 1 2  0 0 0 0  0 0 0 0  {low_part}  0 5 0 0  16 5 6 0");
    assert_eq!(accepted(&tested, "3 1 0 0  0 0 -1  0 0 0  9 9 0"), []);
    assert_eq!(refused(&tested, "3 1 0 0  0 -1 0  0 0 0  9 9 0"), (12, 0));
}

#[test]
fn room() {
    let (table, given) = (parse(DIVIDES).unwrap(), parse(&divides("2..10")).unwrap());
    let mut alarms = [7, 7, 7];
    for short in 0..2 {
        let verdict = check(&table, &given, &mut alarms[..short]);
        assert_eq!(verdict, Verdict::Refused { rule: 17, place: 2 });
        assert_eq!(alarms, [7, 7, 7]);
    }
    assert_eq!(check(&table, &given, &mut alarms), Verdict::Accepted { count: 1 });
    assert_eq!(alarms, [3, 2, 7]);
    let none = check(&parse(BARE).unwrap(), &parse(GIVEN).unwrap(), &mut []);
    assert_eq!(none, Verdict::Accepted { count: 0 });
}

/// Lock 0, lock 1, unlock 0, write, end.
const LOCKS: &str = "1 1 2 5 1  5  0  3 0 1 0  3 1 2 0  4 0 3 0  1 0 0 4  0 0 0 0  0 1 0 0";

fn locks(set: i32) -> String {
    format!("5 1 2 1  0 1 3 2 2  0 {set} 0  0 0 0 0 1 0 0 1  0 0 0 0 1 1 0 1")
}

#[test]
fn a_write_under_a_lock_given_back() {
    assert_eq!(accepted(LOCKS, &locks(2)), []);
    assert_eq!(refused(LOCKS, &locks(3)), (14, 3));
    assert_eq!(refused(LOCKS, &locks(0)), (14, 3));
}

#[test]
fn refusals_of_the_words() {
    assert_eq!(refused(BARE, "3 1 0"), (7, 3));
    assert_eq!(refused(BARE, "2 1 0 1"), (8, 0));
    assert_eq!(refused(BARE, "3 2 0 1"), (8, 1));
    assert_eq!(refused(BARE, "3 1 1 1"), (8, 2));
    assert_eq!(refused(BARE, "3 1 0 -1"), (8, 3));
    assert_eq!(refused(BARE, "3 1 0 513"), (8, 3));
    assert_eq!(refused(BARE, &format!("{GIVEN} 0")), (7, 19));
    assert_eq!(refused(BARE, "3 1 0 512"), (7, 4));
    for (at, word) in [(4, -2), (5, 1), (7, 2), (7, -1), (8, 1), (8, -1), (9, 1), (9, -1)] {
        assert_eq!(refused(BARE, &with(GIVEN, at, word)), (9, at));
    }
    // Also the row of an unreached point has its ends in order.
    let unreached = with(&with(GIVEN, 5, -1), 15, 4);
    assert_eq!(refused(BARE, &unreached), (9, 11));
    let twice = "3 1 0 2  0 0 0  0 0 0  0 0 0  0 5 0 5 5  0 5 5 5 5";
    assert_eq!(refused(BARE, twice), (10, 1));
    let falling = "3 1 0 2  0 0 0  1 0 0  0 0 0  0 5 0 5 5  0 5 5 5 5";
    assert_eq!(refused(BARE, falling), (10, 1));
}

#[test]
fn refusals_of_the_start() {
    assert_eq!(refused(BARE, &with(GIVEN, 4, -1)), (11, 0));
    assert_eq!(refused(BARE, &with(GIVEN, 6, -1)), (11, 2));
    assert_eq!(refused(BARE, &with(GIVEN, 12, 1)), (11, 2));
    let lows_of_rests = 4 + 5 + 3 + 5;
    let high_again = |at: usize| with(&with(&locks(2), at, 1), at + 8, 1);
    assert_eq!(refused(LOCKS, &high_again(lows_of_rests)), (11, 5));
    assert_eq!(refused(LOCKS, &high_again(lows_of_rests + 1)), (11, 6));
}

#[test]
fn refusals_of_locks_and_rest() {
    // Each held word but the first is needed by the point before.
    for point in 1..5 {
        assert_eq!(refused(LOCKS, &with(&locks(2), 4 + point, 0)), (12, point - 1));
        assert_eq!(refused(LOCKS, &with(&locks(2), 4 + point, -1)), (12, point - 1));
    }
    // The entry is written without mutex 0 and does not fit its rest row.
    let highs = 4 + 5 + 3 + 8;
    assert_eq!(refused(LOCKS, &with(&locks(2), highs + 5, 0)), (16, 5));
    // The write goes before the unlock, so the rest row has to take its value.
    let table = "1 1 1 4 1  4  0  3 0 1 0  1 0 0 2  4 0 3 0  0 0 0 0  0 1 0 0";
    let rest = |high| format!("4 1 1 1  0 1 1 0  0 1 0  0 0 1 1 0 1  0 0 1 1 {high} 1");
    assert_eq!(refused(table, &rest(0)), (16, 2));
    // With the rest row 0..1 the lock lets in 0..0 only from its own row.
    assert_eq!(accepted(table, &rest(1)), []);
}

#[test]
fn waiting_tasks_and_unreached_points() {
    // A lock that is held, and an unlock of one that is not, have no outcome.
    let table = "1 1 1 3 0  3  0  3 0 1 0  3 0 2 0  0 0 0 0";
    assert_eq!(accepted(table, "3 1 1 0  0 1 -1  0 0 9 0  0 0 9 0"), []);
    let table = "1 1 1 2 0  2  0  4 0 1 0  0 0 0 0";
    assert_eq!(accepted(table, "2 1 1 0  0 -1  0 9 0  0 9 0"), []);
    // The row met with the rest row is what flows on.
    let table = "1 1 1 2 0  2  0  3 0 1 0  0 0 0 0";
    assert_eq!(accepted(table, "2 1 1 0  0 1  -5 0 0  9 0 0"), []);
    assert_eq!(refused(table, "2 1 1 0  0 1  -5 0 0  9 0 1"), (13, 0));
}

#[test]
fn held_locks_keep_disturbance_out() {
    // Task 0 locks and ends; task 1 locks, writes 5 and ends.
    let table = "2 1 1 5 1  2 3  0  3 0 1 0  0 0 0 0  3 0 3 0  1 0 0 4  0 0 0 0  0 5 0 0";
    let with_high =
        |high: i32| format!("5 1 1 1  0 1 0 1 1  1 1 0  0 0 0 0 5 0 5  {high} 0 0 0 5 0 5");
    // Without the lock task 0 may see the 5, with it not.
    assert_eq!(accepted(table, &with_high(5)), []);
    assert_eq!(refused(table, &with_high(4)), (15, 0));
}

/// One outcome: the point it goes to, with which held set and row.
type Outcome = (u16, i32, Row);

fn outcomes(table: &Table, proposal: &Proposal, at: usize) -> Vec<Outcome> {
    let held = proposal.held[at];
    let row = proposal.row(at).row();
    if held == -1 {
        return vec![];
    }
    match table.points[at] {
        Point::End => vec![],
        Point::Assign { variable, node, next } => {
            let written = arithmetic(&table.nodes, node, &row, &mut Silent);
            let after = |written| {
                let mut row = row;
                row.set(variable, written);
                (next, held, row)
            };
            written.map(after).into_iter().collect()
        }
        Point::Test { condition, yes, no } => [(true, yes), (false, no)]
            .into_iter()
            .filter_map(|(wanted, next)| {
                let mut row = row;
                narrow(&table.nodes, condition, wanted, &mut row).then_some((next, held, row))
            })
            .collect(),
        Point::Lock { mutex, next } => {
            let mut row = row;
            let free = held & 1 << mutex == 0;
            let met = row.meet(proposal.rest(usize::from(mutex)));
            (free && met).then_some((next, held + (1 << mutex), row)).into_iter().collect()
        }
        Point::Unlock { mutex, next } => {
            let own = held & 1 << mutex != 0;
            own.then(|| (next, held - (1 << mutex), row)).into_iter().collect()
        }
    }
}

/// Refusals 12 to 16, each rule over all points before the next.
fn slowly(table: &Table, proposal: &Proposal) -> Option<Refusal> {
    let points = 0..table.points.len();
    let task_of = |point| (0..table.tasks).find(|&task| table.points_of(task).contains(&point));
    let any =
        |at: usize, bad: &dyn Fn(&Outcome) -> bool| outcomes(table, proposal, at).iter().any(bad);
    let fails = |rule: u32, at: usize| match rule {
        12 => any(at, &|(next, held, _)| proposal.held[usize::from(*next)] != *held),
        13 => any(at, &|(next, _, row)| !row.within(proposal.row(usize::from(*next)))),
        14 => match table.points[at] {
            Point::Assign { variable, .. } => any(at, &|(_, held, row)| {
                !proposal.entries.iter().any(|entry| {
                    Some(usize::from(entry.task)) == task_of(at)
                        && i32::from(entry.set) == *held
                        && entry.variable == variable
                        && row.get(variable).within(entry.interval)
                })
            }),
            _ => false,
        },
        15 => {
            let held = proposal.held[at];
            held != -1
                && proposal.entries.iter().any(|entry| {
                    Some(usize::from(entry.task)) != task_of(at)
                        && i32::from(entry.set) & held == 0
                        && !entry.interval.within(proposal.row(at).row().get(entry.variable))
                })
        }
        _ => match table.points[at] {
            Point::Unlock { mutex, .. } => {
                any(at, &|(_, _, row)| !row.within(proposal.rest(usize::from(mutex))))
            }
            _ => false,
        },
    };
    for rule in 12..=16 {
        if let Some(at) = points.clone().find(|&at| fails(rule, at)) {
            return Some((rule, at));
        }
    }
    let unfit = |entry: &Entry| {
        (0..table.mutexes).any(|mutex| {
            let rest = proposal.rest(mutex).row().get(entry.variable);
            entry.set & 1 << mutex == 0 && !entry.interval.within(rest)
        })
    };
    let entry = proposal.entries.iter().position(unfit)?;
    Some((16, table.points.len() + entry))
}

#[test]
fn one_pass_gives_what_the_rules_in_turn_give() {
    let mut random = Random::new(5);
    let mut seen = 0;
    for _ in 0..6000 {
        let case = case(&mut random);
        let mut alarms = vec![0; case.room];
        let verdict = check(&case.table, &case.proposal, &mut alarms);
        let early = matches!(verdict, Verdict::Refused { rule, .. } if rule < 12);
        if !early {
            let table = Table::decode(&case.table).unwrap();
            let proposal = Proposal::decode(&case.proposal, &table).unwrap();
            let expected = slowly(&table, &proposal);
            match verdict {
                Verdict::Refused { rule: 12..=16, .. } => seen += 1,
                _ => assert_eq!(expected, None),
            }
            if let Some((rule, place)) = expected {
                assert_eq!(verdict, Verdict::Refused { rule, place });
            }
        }
    }
    assert!(seen > 200, "{seen}");
}
