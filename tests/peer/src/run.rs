//! The run: a schedule played on plain numbers.

mod evaluate;

use crate::table::{Point, Table, MUTEXES, TASKS, VARIABLES};
use crate::words::Refusal;
use evaluate::Evaluation;

/// All there is between two steps, in the document's numbers. Slots past the
/// table's sizes are 0 and stay so.
#[derive(Clone, Copy, Debug, PartialEq, Eq)]
pub struct State {
    pub points: [usize; TASKS],
    pub values: [i32; VARIABLES],
    /// The task that owns each mutex, or -1.
    pub owners: [i32; MUTEXES],
    /// Where and how each task stopped, or -1 and 0.
    pub stop_nodes: [i32; TASKS],
    pub stop_kinds: [usize; TASKS],
}

/// Plays the whole schedule, or gives the refusal, 1 to 6.
pub fn run(table: &[i32], schedule: &[i32]) -> Result<State, Refusal> {
    let table = Table::decode(table)?;
    let mut state = State::start(&table);
    let mut at = 0;
    while at < schedule.len() {
        at = state.step(&table, schedule, at);
    }
    Ok(state)
}

impl State {
    pub fn start(table: &Table) -> State {
        let mut state = State {
            points: [0; TASKS],
            values: table.starts,
            owners: [0; MUTEXES],
            stop_nodes: [0; TASKS],
            stop_kinds: [0; TASKS],
        };
        for task in 0..table.tasks {
            state.points[task] = table.first(task);
        }
        state.owners[..table.mutexes].fill(-1);
        state.stop_nodes[..table.tasks].fill(-1);
        state
    }

    /// Takes the step whose task word stands at `at`, which is in the schedule,
    /// and gives the place of the next one.
    pub fn step(&mut self, table: &Table, schedule: &[i32], at: usize) -> usize {
        let word = schedule[at];
        let at = at + 1;
        let Some(task) = usize::try_from(word).ok().filter(|&task| task < table.tasks) else {
            return at;
        };
        if self.stop_kinds[task] != 0 {
            return at;
        }
        match table.points[self.points[task]] {
            Point::End => at,
            Point::Assign { variable, node, next } => {
                let mut evaluation = Evaluation::new(&table.nodes, &self.values, schedule, at);
                let result = evaluation.arithmetic(node);
                let at = evaluation.at();
                match result {
                    Ok(value) => {
                        self.values[usize::from(variable)] = value;
                        self.points[task] = usize::from(next);
                    }
                    Err(stop) => self.stop(task, stop),
                }
                at
            }
            Point::Test { condition, yes, no } => {
                let mut evaluation = Evaluation::new(&table.nodes, &self.values, schedule, at);
                let result = evaluation.condition(condition);
                let at = evaluation.at();
                match result {
                    Ok(answer) => self.points[task] = usize::from(if answer { yes } else { no }),
                    Err(stop) => self.stop(task, stop),
                }
                at
            }
            Point::Lock { mutex, next } => {
                let owner = &mut self.owners[usize::from(mutex)];
                if *owner == -1 {
                    *owner = word;
                    self.points[task] = usize::from(next);
                }
                at
            }
            Point::Unlock { mutex, next } => {
                let owner = &mut self.owners[usize::from(mutex)];
                if *owner == word {
                    *owner = -1;
                    self.points[task] = usize::from(next);
                }
                at
            }
        }
    }

    #[cold]
    fn stop(&mut self, task: usize, (node, kind): evaluate::Stop) {
        self.stop_nodes[task] = i32::from(node);
        self.stop_kinds[task] = usize::from(kind);
    }

    /// The 48 words of a state: points, values, owners, stop nodes, stop kinds.
    pub fn words(&self) -> Vec<i32> {
        let numbers = |numbers: [usize; TASKS]| numbers.map(|number| number as i32);
        [
            &numbers(self.points)[..],
            &self.values,
            &self.owners,
            &self.stop_nodes,
            &numbers(self.stop_kinds),
        ]
        .concat()
    }
}

#[cfg(test)]
mod tests;
