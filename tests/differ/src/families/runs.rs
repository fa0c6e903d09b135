//! Runs of tables by schedules: for each sentence of 'The run' cases with the
//! state written out, the given vectors, and drawn schedules.

use super::checks::shown;
use super::{vectors, Tally};
use crate::answers::{differences, Answer};
use crate::build::*;
use peer::generate::Random;
use peer::words::{parse, Refusal};
use peer::State;
use rangecheck::STATE_WORDS;
use std::path::Path;

pub struct Run {
    pub table: Vec<i32>,
    pub schedule: Vec<i32>,
    pub wanted: Result<State, Refusal>,
}

impl Run {
    /// With an answer of 48 numbers, or `refused N at PLACE`.
    pub fn told(table: Vec<i32>, schedule: Vec<i32>, answer: &str) -> Run {
        let wanted = match answer.split(' ').collect::<Vec<_>>()[..] {
            ["refused", rule, "at", place] => {
                Err((rule.parse().expect("a rule"), place.parse().expect("a place")))
            }
            _ => Ok(state_of_words(&parse(answer).expect("numbers"))),
        };
        Run { table, schedule, wanted }
    }

    /// One that nobody wrote an answer for.
    pub fn by_peer(table: Vec<i32>, schedule: Vec<i32>) -> Run {
        let wanted = peer::run(&table, &schedule);
        Run { table, schedule, wanted }
    }

    /// How both sides differ from the answer, on an answer slice of that size.
    pub fn differences(&self, room: usize) -> Vec<String> {
        let run = Answer::run(&self.table, &self.schedule, room);
        let mut found = differences("run", &run, &Answer::run_by_peer(&self.wanted, room));
        let by_peer = peer::run(&self.table, &self.schedule);
        if by_peer != self.wanted {
            found.push(format!("the peer's run: {by_peer:?}, not {:?}", self.wanted));
        }
        found
    }

    pub fn shown(&self) -> String {
        format!("{} | {}", shown(&self.table), shown(&self.schedule))
    }
}

fn state_of_words(words: &[i32]) -> State {
    assert_eq!(words.len(), STATE_WORDS);
    let number = |at: usize| words[at] as usize;
    State {
        points: std::array::from_fn(number),
        values: std::array::from_fn(|k| words[8 + k]),
        owners: std::array::from_fn(|k| words[24 + k]),
        stop_nodes: std::array::from_fn(|k| words[32 + k]),
        stop_kinds: std::array::from_fn(|k| number(40 + k)),
    }
}

/// A state whose slots past these are 0; a stop is a node and a kind.
fn state(points: &[i32], values: &[i32], owners: &[i32], stops: &[(i32, i32)]) -> State {
    let mut words = [0; STATE_WORDS];
    words[..points.len()].copy_from_slice(points);
    words[8..8 + values.len()].copy_from_slice(values);
    words[24..24 + owners.len()].copy_from_slice(owners);
    for (task, &(node, kind)) in stops.iter().enumerate() {
        (words[32 + task], words[40 + task]) = (node, kind);
    }
    state_of_words(&words)
}

/// Of a task that hasn't stopped.
const NONE: (i32, i32) = (-1, 0);

/// The schedule leads to that state.
fn played(table: &[i32], schedule: &[i32], wanted: State) -> Run {
    Run { table: table.to_vec(), schedule: schedule.to_vec(), wanted: Ok(wanted) }
}

/// One task that assigns a tree to variable 0 and ends.
fn one(tree: Tree, schedule: &[i32], wanted: State) -> Run {
    played(&table(&[2], &[0, 0], 0, &[assign(0, tree, 1), end()]), schedule, wanted)
}

/// That task has assigned the value.
fn done(value: i32) -> State {
    state(&[1], &[value, 0], &[], &[NONE])
}

/// That task has stopped.
fn stuck(node: i32, kind: i32) -> State {
    state(&[0], &[0, 0], &[], &[(node, kind)])
}

pub fn by_hand() -> Vec<Run> {
    let mut cases = refused_and_started();
    cases.extend(inputs());
    cases.extend(operations());
    cases.extend(order_of_evaluation());
    cases.extend(tests_and_locks());
    cases
}

fn refused_and_started() -> Vec<Run> {
    let small = table(&[1], &[0], 0, &[end()]);
    let large_first = [&[9], &small[1..]].concat();
    let refused = |table: &[i32], rule, place| Run {
        table: table.to_vec(),
        schedule: vec![0],
        wanted: Err((rule, place)),
    };
    // The start; a number that is no task, an ended task.
    let stays = |schedule: &[i32]| played(&small, schedule, state(&[0], &[0], &[], &[NONE]));
    vec![
        refused(&[], 1, 0),
        refused(&small[..10], 1, 10),
        refused(&large_first, 2, 0),
        stays(&[]),
        stays(&[-1, 1, 8, MAX, MIN, 0, 0]),
    ]
}

/// In its range, out of it, at its ends, with no word left.
fn inputs() -> Vec<Run> {
    let run = |schedule: &[i32], value| one(input(-2, 5), schedule, done(value));
    vec![run(&[0, 3], 3), run(&[0, 6], -2), run(&[0, -3], -2), run(&[0, 5], 5), run(&[0], -2)]
}

/// Cut towards zero, remainders with the dividend's sign, and their errors at
/// the node.
fn operations() -> Vec<Run> {
    vec![
        one(quotient(num(-7), num(2)), &[0], done(-3)),
        one(quotient(num(7), num(-2)), &[0], done(-3)),
        one(quotient(num(MIN), num(-1)), &[0, 0], stuck(2, 1)),
        one(quotient(num(1), num(0)), &[0], stuck(2, 2)),
        one(remainder(num(7), num(3)), &[0], done(1)),
        one(remainder(num(7), num(-3)), &[0], done(1)),
        one(remainder(num(-7), num(3)), &[0], done(-1)),
        one(remainder(num(-7), num(-3)), &[0], done(-1)),
        one(remainder(num(6), num(-3)), &[0], done(0)),
        one(remainder(num(MIN), num(MAX)), &[0], done(-1)),
        one(remainder(num(MAX), num(MIN)), &[0], done(MAX)),
        one(remainder(num(MIN), num(MIN)), &[0], done(0)),
        // MIN by -1 gives 0, and what it stands in goes on.
        one(remainder(num(MIN), num(-1)), &[0], done(0)),
        one(sum(remainder(num(MIN), num(-1)), num(5)), &[0], done(5)),
        one(remainder(num(1), num(0)), &[0], stuck(2, 2)),
        one(remainder(num(MIN), num(0)), &[0, 0], stuck(2, 2)),
        one(remainder(num(0), num(0)), &[0], stuck(2, 2)),
        one(negation(num(MIN)), &[0], stuck(1, 1)),
        one(negation(num(MAX)), &[0], done(-MAX)),
        one(sum(num(MAX), num(1)), &[0], stuck(2, 1)),
        one(difference(num(MIN), num(1)), &[0], stuck(2, 1)),
        one(product(num(65536), num(32768)), &[0], stuck(2, 1)),
        one(product(num(-65536), num(32768)), &[0], done(MIN)),
    ]
}

fn order_of_evaluation() -> Vec<Run> {
    let digit = || input(0, 9);
    let asked = |otherwise| choice(less(num(1), digit()), digit(), otherwise);
    // Variable 0 is 0, so that only the branch with the input is evaluated.
    let by_zero = || quotient(num(1), num(0));
    let tested = || choice(equal(var(0), num(0)), difference(digit(), num(3)), by_zero());
    let divides = assign(0, sum(remainder(num(9), digit()), digit()), 0);
    let divides = table(&[1, 2], &[3, 0], 0, &[divides, assign(1, num(8), 2), end()]);
    vec![
        // Left to right; the first error ends the evaluation, so that 4 is a
        // task word and not an input.
        one(difference(digit(), digit()), &[0, 7, 4], done(3)),
        one(remainder(digit(), digit()), &[0, 9, 5], done(4)),
        one(remainder(digit(), digit()), &[0, 5, 0], stuck(2, 2)),
        one(sum(negation(num(MIN)), digit()), &[0, 4], stuck(1, 1)),
        one(remainder(remainder(num(1), num(0)), digit()), &[0, 4], stuck(2, 2)),
        // 1 is an input after a remainder, and task 1's word after one by 0.
        played(&divides, &[0, 5, 1], state(&[0, 1], &[5, 0], &[], &[NONE, NONE])),
        played(&divides, &[0, 0, 1], state(&[0, 2], &[3, 8], &[], &[(2, 2), NONE])),
        // Both sides always, of a choice one branch.
        one(asked(digit()), &[0, 5, 6], done(6)),
        one(asked(input(10, 19)), &[0, 1, 12], done(12)),
        one(tested(), &[0, 5], done(2)),
        one(choice(not_equal(var(0), num(0)), by_zero(), digit()), &[0, 5], done(5)),
    ]
}

fn tests_and_locks() -> Vec<Run> {
    let tests = test(at_most(var(0), input(0, 9)), 1, 2);
    let tests = table(&[3], &[7, 0], 0, &[tests, end(), end()]);
    let tested = |point| state(&[point], &[7, 0], &[], &[NONE]);
    let locks = [lock(0, 1), unlock(0, 2), end(), unlock(0, 4), lock(0, 5), end()];
    let locks = table(&[3, 3], &[0], 1, &locks);
    let locked = |point, owner| state(&[point, 3], &[0], &[owner], &[NONE, NONE]);
    let twice = table(&[2], &[0], 1, &[lock(0, 1), lock(0, 0)]);
    let stops = [lock(0, 1), assign(0, negation(num(MIN)), 0), lock(0, 2)];
    let stops = table(&[2, 1], &[0], 1, &stops);
    vec![
        // A test that holds and one that does not.
        played(&tests, &[0, 7], tested(1)),
        played(&tests, &[0, 6], tested(2)),
        // An unlock by a non-owner, a lock that is taken by another and by the
        // task itself, an unlock by the owner.
        played(&locks, &[1], locked(0, -1)),
        played(&locks, &[0], locked(1, 0)),
        played(&locks, &[0, 1, 0], locked(2, -1)),
        played(&locks, &[0, 1, 1], locked(1, 0)),
        played(&twice, &[0, 0, 0], state(&[1], &[0], &[0], &[NONE])),
        // An error stops the task at its point with its locks, and the others
        // go on.
        played(&stops, &[0, 0, 0, 1, 1], state(&[1, 2], &[0], &[0], &[(1, 1), NONE])),
    ]
}

/// With an answer that somebody wrote out or gave.
pub fn given() -> Vec<Run> {
    let mut cases = by_hand();
    cases.extend(vectors::runs());
    cases
}

/// Schedules for the tables of those that are played: mostly task words, with
/// words of any size between them, some of which become inputs.
pub fn drawn(given: &[Run]) -> Vec<Run> {
    let mut random = Random::new(20261117);
    let mut cases = Vec::new();
    for run in given.iter().filter(|run| run.wanted.is_ok()) {
        for length in [7, 60, 400] {
            let schedule = (0..length).map(|_| word(&mut random, run.table[0])).collect();
            cases.push(Run::by_peer(run.table.clone(), schedule));
        }
    }
    cases
}

fn word(random: &mut Random, tasks: i32) -> i32 {
    if random.chance(80) {
        return random.below(tasks as usize) as i32;
    }
    match random.below(6) {
        0 => -1,
        1 => 0,
        2 => 1,
        3 => tasks,
        4 => random.below(40) as i32 - 20,
        _ => random.any(),
    }
}

pub fn run(_bin: &Path, tally: &mut Tally) {
    let given = given();
    let drawn = drawn(&given);
    for run in given.iter().chain(&drawn) {
        match run.wanted {
            Err(_) => tally.count("refused"),
            Ok(state) if state.stop_kinds != [0; 8] => tally.count("with a task stopped"),
            Ok(_) => tally.count("without"),
        }
        tally.case(run.differences(STATE_WORDS), || run.shown());
    }
}
