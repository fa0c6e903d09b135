//! Demand 3 at every state: proposals that are accepted, several schedules for
//! each, and each state that one of them leads to, which is the last state of
//! some of the schedule's first words.

use super::checks::{self, shown};
use super::choices::{branches, drawn, LEAST};
use super::Tally;
use crate::answers::{differences, Answer};
use crate::build::{self, assign, input, lock, test, unlock};
use peer::analysis::Ends;
use peer::check::Proposal;
use peer::generate::{table, Draft, Random};
use peer::table::{Node, Point, Table};
use peer::words::ALARM_WORDS;
use rangecheck::STATE_WORDS;
use std::path::Path;

/// How many proposals that fit are drawn, for any tables and for those in which
/// tasks assign and test choices, and schedules for each.
const DRAWN: usize = 600;
const GUARDED: usize = 300;
const SCHEDULES: usize = 4;

/// A proposal that the library accepts, with the list that it wrote.
struct Accepted<'a> {
    table: &'a Table,
    proposal: Proposal<'a>,
    alarms: &'a [i32],
}

/// The five parts of a state's words.
struct State<'a> {
    points: &'a [i64],
    values: &'a [i64],
    owners: &'a [i64],
    stop_nodes: &'a [i64],
    stop_kinds: &'a [i64],
}

impl State<'_> {
    fn new(words: &[i64]) -> State<'_> {
        State {
            points: &words[..8],
            values: &words[8..24],
            owners: &words[24..32],
            stop_nodes: &words[32..40],
            stop_kinds: &words[40..48],
        }
    }

    /// The nodes at which tasks have stopped.
    fn stops(&self) -> impl Iterator<Item = usize> + '_ {
        let stops = self.stop_nodes.iter().zip(self.stop_kinds).filter(|(_, &kind)| kind != 0);
        stops.map(|(&node, _)| node as usize)
    }

    fn lies_in(&self, row: Ends) -> bool {
        let mut ends = self.values.iter().zip(row.lows.iter().zip(row.highs));
        ends.all(|(value, (&low, &high))| (low.into()..=high.into()).contains(value))
    }
}

impl Accepted<'_> {
    /// The points with a choice of which it shows, in an interval or an alarm,
    /// that a branch is read on a part of the row.
    fn narrowed_choices(&self) -> Vec<i64> {
        let narrows = |point: &usize| match self.table.points[*point] {
            _ if self.proposal.held[*point] == -1 => false,
            Point::Assign { node, .. } | Point::Test { condition: node, .. } => {
                branches::narrows(&self.table.nodes, node, &self.proposal.row(*point).row())
            }
            _ => false,
        };
        let points = 0..self.table.points.len();
        points.filter(narrows).map(|point| point as i64).collect()
    }

    /// The sentences of demand 3 that a state breaks.
    fn broken(&self, state: &State) -> Vec<String> {
        let mut found = Vec::new();
        for task in 0..self.table.tasks {
            self.task(task, state, &mut found);
        }
        for mutex in 0..self.table.mutexes {
            if state.owners[mutex] == -1 && !state.lies_in(self.proposal.rest(mutex)) {
                found.push(format!("mutex {mutex} is free: values outside the rest row"));
            }
        }
        found
    }

    fn task(&self, task: usize, state: &State, found: &mut Vec<String>) {
        let point = state.points[task];
        let held = usize::try_from(point).ok().and_then(|point| self.proposal.held.get(point));
        let Some(&held) = held.filter(|&&held| held != -1) else {
            found.push(format!("task {task} stands at {point}, which isn't reached"));
            return;
        };
        for mutex in 0..self.table.mutexes {
            let named = held >> mutex & 1 == 1;
            if (state.owners[mutex] == task as i64) != named {
                found.push(format!("task {task} at {point}, mutex {mutex}"));
            }
        }
        if !state.lies_in(self.proposal.row(point as usize)) {
            found.push(format!("task {task} at {point}: values outside the row"));
        }
        let stop = [state.stop_nodes[task], state.stop_kinds[task]];
        let is_stop = |alarm: &[i32]| stop == [alarm[0].into(), alarm[1].into()];
        if stop[1] != 0 && !self.alarms.chunks_exact(2).any(is_stop) {
            found.push(format!("task {task} stopped at an unlisted {stop:?}"));
        }
    }
}

/// Task words with words for inputs among them, few of them numbers that are
/// no task.
fn schedule(random: &mut Random, tasks: usize) -> Vec<i32> {
    let length = random.below(60);
    let mut word = || match random.below(4) {
        0..=1 => random.below(tasks) as i32,
        2 => random.below(18) as i32 - 6,
        _ => random.pick(&[i32::MIN, i32::MAX, -1, tasks as i32]),
    };
    (0..length).map(|_| word()).collect()
}

/// Two tasks that share two variables. Each goes round: it takes in a word,
/// assigns a choice, tests one and, if that holds, assigns another under a lock.
fn guarded_table(random: &mut Random) -> Vec<i32> {
    let mut points = Vec::new();
    for first in [0, 6] {
        let (own, other) = (random.below(2) as i32, random.below(2) as i32);
        let low = random.below(7) as i32 - 5;
        points.extend([
            assign(own, input(low, low + random.below(12) as i32), first + 1),
            assign(other, drawn::choice_of(random, &[0, 1], 1), first + 2),
            test(drawn::condition_of(random, &[0, 1], 1), first + 3, first),
            lock(0, first + 4),
            assign(own, drawn::choice_of(random, &[0, 1], 2), first + 5),
            unlock(0, first),
        ]);
    }
    let starts = [0, 1].map(|_| random.below(7) as i32 - 2);
    build::table(&[6, 6], &starts, 1, &points)
}

fn fitting(random: &mut Random, table: Vec<i32>) -> (Vec<i32>, Vec<i32>) {
    let decoded = Table::decode(&table).expect("generated tables are valid");
    let proposal = Draft::settle(&decoded, random).words();
    (table, proposal)
}

pub fn run(_bin: &Path, tally: &mut Tally) {
    let mut random = Random::new(20261115);
    let mut cases: Vec<_> =
        checks::given().into_iter().map(|case| (case.table, case.proposal)).collect();
    for _ in 0..DRAWN {
        let table = table(&mut random);
        cases.push(fitting(&mut random, table));
    }
    for _ in 0..GUARDED {
        let table = guarded_table(&mut random);
        cases.push(fitting(&mut random, table));
    }
    for (table, proposal) in &cases {
        let answer = Answer::check(table, proposal, ALARM_WORDS);
        let Ok(count) = answer.said else { continue };
        tally.count("accepted proposals");
        if count > 0 {
            tally.count("proposals with alarms");
        }
        match Table::decode(table) {
            Ok(decoded) => {
                let alarms = &answer.slice()[..2 * count];
                play(&mut random, tally, (table, proposal), &decoded, alarms);
            }
            Err(refused) => tally.case(vec![format!("accepted, not {refused:?}")], || shown(table)),
        }
    }
    // Else little was asked of the states.
    tally.expect("proposals with alarms", 1);
    tally.expect("states with a stopped task", 1);
    tally.expect("states with a stop at a remainder", 1);
    tally.expect("steps by a choice on a part of the row", LEAST);
}

/// Plays schedules of an accepted proposal.
fn play(
    random: &mut Random,
    tally: &mut Tally,
    (table, proposal): (&[i32], &[i32]),
    decoded: &Table,
    alarms: &[i32],
) {
    let on = |words: &[i32]| format!("{} | {} | {}", shown(table), shown(proposal), shown(words));
    let proposal = match Proposal::decode(proposal, decoded) {
        Ok(proposal) => proposal,
        Err(refused) => return tally.case(vec![format!("accepted, not {refused:?}")], || on(&[])),
    };
    let accepted = Accepted { table: decoded, proposal, alarms };
    let narrowed = accepted.narrowed_choices();
    for _ in 0..SCHEDULES {
        let schedule = schedule(random, decoded.tasks);
        let mut before = Vec::new();
        for length in 0..=schedule.len() {
            let words = &schedule[..length];
            let run = Answer::run(table, words, STATE_WORDS);
            let by_peer = Answer::run_by_peer(&peer::run(table, words), STATE_WORDS);
            let state = State::new(run.slice());
            let mut found = accepted.broken(&state);
            found.extend(differences("run", &run, &by_peer));
            count(tally, decoded, &state);
            let mut moved = state.points.iter().zip(&before).filter(|(to, from)| to != from);
            if moved.any(|(_, from)| narrowed.contains(from)) {
                tally.count("steps by a choice on a part of the row");
            }
            before = state.points.to_vec();
            tally.case(found, || on(words));
        }
    }
}

/// What there is to ask of a state.
fn count(tally: &mut Tally, table: &Table, state: &State) {
    if state.stops().count() > 0 {
        tally.count("states with a stopped task");
    }
    let is_remainder = |node| matches!(table.nodes.get(node), Some(Node::Remainder(..)));
    if state.stops().any(is_remainder) {
        tally.count("states with a stop at a remainder");
    }
}
