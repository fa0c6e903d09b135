//! Schedules that keep a table's tasks going. On words drawn blindly most
//! tasks soon end, stop or wait for ever, and such a run only reads words.

use peer::generate::Random;
use peer::table::{Point, Table, TASKS};
use peer::State;
use std::collections::BTreeSet;

/// How often a step that moves no task, or stops one, is drawn again.
const TRIES: usize = 40;

/// Words that inputs may use up in one step.
const TAIL: usize = 1024;

/// A schedule of drawn words in which, as far as that can be, each step moves
/// a task and stops none.
pub fn schedule(random: &mut Random, table: &Table, length: usize) -> Vec<i32> {
    let mut words: Vec<i32> = (0..length + TAIL).map(|_| random.word()).collect();
    let mut state = State::start(table);
    let mut at = 0;
    while at < length {
        for _ in 0..TRIES {
            let task = random.below(table.tasks);
            words[at] = task as i32;
            if !moves(&state, table, task) {
                continue;
            }
            words[at + 1..at + 5].fill_with(|| random.word());
            let mut next = state;
            next.step(table, &words, at);
            if next.stop_kinds[task] == 0 {
                break;
            }
        }
        at = state.step(table, &words, at);
    }
    words.truncate(length);
    words
}

/// What a run does.
#[derive(Clone, Copy, Default)]
pub struct Motion {
    pub steps: usize,
    /// The steps that move a task or stop it.
    pub moved: usize,
    /// The points of such steps in the second half: small, if all that goes on
    /// is one short loop.
    pub points: usize,
}

impl Motion {
    pub fn of(table: &Table, schedule: &[i32]) -> Motion {
        let mut state = State::start(table);
        let mut motion = Motion::default();
        let mut points = BTreeSet::new();
        let mut at = 0;
        while at < schedule.len() {
            motion.steps += 1;
            let task = usize::try_from(schedule[at]).unwrap_or(TASKS);
            if moves(&state, table, task) {
                motion.moved += 1;
                if at >= schedule.len() / 2 {
                    points.insert(state.points[task]);
                }
            }
            at = state.step(table, schedule, at);
        }
        motion.points = points.len();
        motion
    }

    /// Whether nearly every step moves a task.
    pub fn keeps_on(&self) -> bool {
        100 * self.moved >= 95 * self.steps
    }
}

fn moves(state: &State, table: &Table, task: usize) -> bool {
    if task >= table.tasks || state.stop_kinds[task] != 0 {
        return false;
    }
    match table.points[state.points[task]] {
        Point::End => false,
        Point::Assign { .. } | Point::Test { .. } => true,
        Point::Lock { mutex, .. } => state.owners[usize::from(mutex)] == -1,
        Point::Unlock { mutex, .. } => state.owners[usize::from(mutex)] == task as i32,
    }
}
