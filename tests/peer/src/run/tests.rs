//! The run's rules one by one, and the claim that binds it to the check.

use super::*;
use crate::check::{check, Proposal, Verdict};
use crate::generate::{case, schedule, Random};
use crate::words::{parse, ALARM_WORDS};

fn played(table: &str, schedule: &str) -> State {
    run(&parse(table).unwrap(), &parse(schedule).unwrap()).unwrap()
}

#[test]
fn it_starts_at_the_start() {
    let state = played("2 2 1 3 1  2 1  4 -5  1 0 0 1  0 0 0 0  0 0 0 0  0 5 0 0", "");
    assert_eq!(state.points, [0, 2, 0, 0, 0, 0, 0, 0]);
    assert_eq!(state.values[..3], [4, -5, 0]);
    assert_eq!(state.owners, [-1, 0, 0, 0, 0, 0, 0, 0]);
    assert_eq!(state.stop_nodes, [-1, -1, 0, 0, 0, 0, 0, 0]);
    assert_eq!(state.stop_kinds, [0; 8]);
    assert_eq!(state.words().len(), 48);
}

#[test]
fn words_that_change_nothing() {
    let table = "2 1 0 3 1  2 1  0  1 0 0 1  0 0 0 0  0 0 0 0  0 5 0 0";
    let start = played(table, "");
    // No tasks, and a task that has ended.
    assert_eq!(played(table, "-1 2 8 2147483647 -2147483648 1 1"), start);
    let after = played(table, "7 0");
    assert_eq!((after.points[0], after.values[0]), (1, 5));
    assert_eq!(played(table, "0 0 0"), after);
}

#[test]
fn refusals() {
    assert_eq!(run(&[], &[0]), Err((1, 0)));
    let table = parse("1 1 0 1 1  1  0  0 0 0 0  0 5 0 0").unwrap();
    assert_eq!(run(&table, &[]), Err((6, 0)));
}

#[test]
fn locks() {
    // Each task: lock, lock the same again, end; task 1: unlock first.
    let table = "2 1 1 5 0  3 2  0  3 0 1 0  3 0 2 0  0 0 0 0  4 0 4 0  0 0 0 0";
    let state = played(table, "1 0 0 0 1");
    assert_eq!(state.points[..2], [1, 3]);
    assert_eq!(state.owners[0], 0);
    let table = "2 1 1 5 0  3 2  0  3 0 1 0  4 0 2 0  0 0 0 0  3 0 4 0  0 0 0 0";
    assert_eq!(played(table, "0 1").points[..2], [1, 3]);
    let state = played(table, "0 1 0 1");
    assert_eq!((&state.points[..2], state.owners[0]), (&[2, 4][..], 1));
}

/// One task with one variable, which is assigned node `top` over and over.
fn assigning(top: usize, nodes: &[&str]) -> String {
    format!("1 1 0 1 {}  1  3  1 0 {top} 0  {}", nodes.len(), nodes.join("  "))
}

#[test]
fn inputs_use_up_words() {
    let table = assigning(2, &["1 -2 2 0", "1 10 20 0", "5 0 1 0"]);
    // -1 - 15, and then 0 is a task again, whose inputs lie outside.
    assert_eq!(played(&table, "0 -1 15").values[0], -16);
    assert_eq!(played(&table, "0 -1 15 0 3 9").values[0], -12);
    assert_eq!(played(&table, "0 2").values[0], -8);
    assert_eq!(played(&table, "0").values[0], -12);
    assert_eq!(played(&table, "9 0 0 12 9").values[0], -12);
}

#[test]
fn the_first_error_ends_the_evaluation() {
    // 1 / (v - 3) + input: the input word is not used up, so it is a step.
    let nodes = ["0 1 0 0", "2 0 0 0", "0 3 0 0", "5 1 2 0", "7 0 3 0", "1 0 9 0", "4 4 5 0"];
    let state = played(&assigning(6, &nodes), "0 0 0");
    assert_eq!((state.stop_nodes[0], state.stop_kinds[0], state.values[0]), (4, 2, 3));
    assert_eq!(state.points[0], 0);
    // The other way round the word is used up before.
    let nodes = ["1 0 9 0", "0 1 0 0", "2 0 0 0", "0 3 0 0", "5 2 3 0", "7 1 4 0", "4 0 5 0"];
    let table = Table::decode(&parse(&assigning(6, &nodes)).unwrap()).unwrap();
    let mut state = State::start(&table);
    assert_eq!(state.step(&table, &[0, 5, 0], 0), 2);
    assert_eq!((state.stop_nodes[0], state.stop_kinds[0]), (5, 2));
    let before = state;
    assert_eq!(state.step(&table, &[0, 5, 0], 2), 3);
    assert_eq!(state, before);
}

#[test]
fn remainders_take_their_words_from_left_to_right() {
    // input -9..9 % input -9..9, + input 0..9
    let nodes = ["1 -9 9 0", "1 -9 9 0", "9 0 1 0", "1 0 9 0", "4 2 3 0"];
    let table = Table::decode(&parse(&assigning(4, &nodes)).unwrap()).unwrap();
    let after = |schedule: &[i32]| {
        let mut state = State::start(&table);
        let at = state.step(&table, schedule, 0);
        (at, state.values[0], (state.stop_nodes[0], state.stop_kinds[0]))
    };
    assert_eq!(after(&[0, -8, 3, 5]), (4, 3, (-1, 0)));
    assert_eq!(after(&[0, 3, -8, 5]), (4, 8, (-1, 0)));
    // By 0 both operands have used up their words, and the last input none.
    assert_eq!(after(&[0, 3, 0, 5]), (3, 3, (2, 2)));
    // An error in the dividend comes before the divisor's word.
    let nodes = ["0 1 0 0", "0 0 0 0", "9 0 1 0", "1 0 9 0", "9 2 3 0"];
    let state = played(&assigning(4, &nodes), "0 0 0");
    assert_eq!((state.stop_nodes[0], state.stop_kinds[0], state.values[0]), (2, 2, 3));
}

#[test]
fn exact_results() {
    let two = |kind: i32, a: i32, b: i32| {
        let nodes = [format!("0 {a} 0 0"), format!("0 {b} 0 0"), format!("{kind} 0 1 0")];
        let state = played(&assigning(2, &[&nodes[0], &nodes[1], &nodes[2]]), "0");
        (state.values[0], state.stop_nodes[0], state.stop_kinds[0])
    };
    let (min, max) = (i32::MIN, i32::MAX);
    assert_eq!(two(7, -7, 2), (-3, -1, 0));
    assert_eq!(two(7, 7, -2), (-3, -1, 0));
    assert_eq!(two(7, min, -1), (3, 2, 1));
    assert_eq!(two(7, min, 0), (3, 2, 2));
    assert_eq!(two(7, 0, 0), (3, 2, 2));
    // A remainder has the dividend's sign, and MIN by -1 is no error.
    assert_eq!(two(9, 7, 2), (1, -1, 0));
    assert_eq!(two(9, 7, -2), (1, -1, 0));
    assert_eq!(two(9, -7, 2), (-1, -1, 0));
    assert_eq!(two(9, -7, -2), (-1, -1, 0));
    assert_eq!(two(9, 6, -3), (0, -1, 0));
    assert_eq!(two(9, min, -1), (0, -1, 0));
    assert_eq!(two(9, min, max), (-1, -1, 0));
    assert_eq!(two(9, max, min), (max, -1, 0));
    assert_eq!(two(9, min, min), (0, -1, 0));
    assert_eq!(two(9, 7, 0), (3, 2, 2));
    assert_eq!(two(9, min, 0), (3, 2, 2));
    assert_eq!(two(9, 0, 0), (3, 2, 2));
    assert_eq!(two(4, max, 1), (3, 2, 1));
    assert_eq!(two(4, max, -1), (max - 1, -1, 0));
    assert_eq!(two(5, min, 1), (3, 2, 1));
    assert_eq!(two(5, -1, min), (max, -1, 0));
    assert_eq!(two(6, 46341, 46341), (3, 2, 1));
    assert_eq!(two(6, min, 1), (min, -1, 0));
    let state = played(&assigning(1, &["0 -2147483648 0 0", "3 0 0 0"]), "0");
    assert_eq!((state.stop_nodes[0], state.stop_kinds[0]), (1, 1));
}

#[test]
fn one_branch_of_a_choice_and_both_sides_of_a_condition() {
    // input 0..1 = 1 ? input 5..9 : 1 / 0
    let nodes =
        ["1 0 1 0", "0 1 0 0", "18 0 1 0", "1 5 9 0", "0 1 0 0", "0 0 0 0", "7 4 5 0", "8 2 3 6"];
    assert_eq!(played(&assigning(7, &nodes), "0 1 8").values[0], 8);
    assert_eq!(played(&assigning(7, &nodes), "0 0 8").stop_nodes[0], 6);
    // 1 < 0 and input 0..9 = 4: the input is read although the first says no.
    let both = "1 1 0 3 7  3  0  2 6 1 2  0 0 0 0  0 0 0 0
        0 1 0 0  0 0 0 0  16 0 1 0  1 0 9 0  0 4 0 0  18 3 4 0  20 2 5 0";
    let table = Table::decode(&parse(both).unwrap()).unwrap();
    let mut state = State::start(&table);
    assert_eq!(state.step(&table, &[0, 4, 0], 0), 2);
    assert_eq!(state.points[0], 2);
    let either = both.replace("16 0 1 0", "16 1 0 0").replace("20 2 5 0", "21 2 5 0");
    let table = Table::decode(&parse(&either).unwrap()).unwrap();
    let mut state = State::start(&table);
    assert_eq!(state.step(&table, &[0, 7, 0], 0), 2);
    assert_eq!(state.points[0], 1);
}

/// What demand 3 says of one state of a run under an accepted proposal.
fn claim(table: &Table, proposal: &Proposal, alarms: &[[i32; 2]], state: &State) {
    for task in 0..table.tasks {
        let point = state.points[task];
        assert!(table.points_of(task).contains(&point));
        let held = proposal.held[point];
        assert_ne!(held, -1, "an unreached point");
        for mutex in 0..table.mutexes {
            let owns = state.owners[mutex] == task as i32;
            assert_eq!(owns, held >> mutex & 1 == 1, "mutex {mutex} at point {point}");
        }
        assert!(proposal.row(point).hold(&state.values), "a value outside point {point}");
        if state.stop_kinds[task] != 0 {
            let alarm = [state.stop_nodes[task], state.stop_kinds[task] as i32];
            assert!(alarms.contains(&alarm), "{alarm:?}");
        } else {
            assert_eq!(state.stop_nodes[task], -1);
        }
    }
    for mutex in 0..table.mutexes {
        if state.owners[mutex] == -1 {
            assert!(proposal.rest(mutex).hold(&state.values), "a value outside rest {mutex}");
        }
    }
    // Slots past the sizes.
    assert!(state.points[table.tasks..].iter().all(|&point| point == 0));
    assert!(state.values[table.variables..].iter().all(|&value| value == 0));
    assert!(state.owners[table.mutexes..].iter().all(|&owner| owner == 0));
    assert!(state.stop_nodes[table.tasks..].iter().all(|&node| node == 0));
    assert!(state.stop_kinds[table.tasks..].iter().all(|&kind| kind == 0));
}

#[test]
fn the_claim_over_whole_schedules() {
    let mut random = Random::new(3);
    let (mut accepted, mut steps, mut moved, mut locked, mut stopped) = (0, 0, 0, 0, 0);
    for _ in 0..6000 {
        let case = case(&mut random);
        let mut alarms = vec![0; ALARM_WORDS];
        let verdict = check(&case.table, &case.proposal, &mut alarms);
        let Verdict::Accepted { count } = verdict else { continue };
        accepted += 1;
        let alarms = &alarms.as_chunks().0[..count];
        let table = Table::decode(&case.table).unwrap();
        let proposal = Proposal::decode(&case.proposal, &table).unwrap();
        for _ in 0..4 {
            let schedule = schedule(&mut random, table.tasks as i32);
            let mut state = State::start(&table);
            claim(&table, &proposal, alarms, &state);
            let mut at = 0;
            while at < schedule.len() {
                let before = state;
                at = state.step(&table, &schedule, at);
                claim(&table, &proposal, alarms, &state);
                steps += 1;
                moved += usize::from(state != before);
                locked += usize::from(state.owners[..table.mutexes].iter().any(|&o| o != -1));
            }
            stopped += usize::from(state.stop_kinds != [0; 8]);
            assert_eq!(run(&case.table, &schedule), Ok(state));
        }
    }
    println!(
        "{accepted} proposals, {steps} steps, {moved} moved, {locked} locked, {stopped} stopped"
    );
    assert!(accepted > 1000 && moved > 10_000 && locked > 10_000 && stopped > 200);
}
