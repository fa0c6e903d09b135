//! Cases for tests and benchmarks, made from a seed alone: valid tables with
//! proposals that fit, the same with one thing nudged, damaged ones, buffers
//! around the needed length, schedules, and asks of a proposer.

mod ask;
pub mod changes;
mod draft;
mod random;
mod settle;
mod tables;
mod trees;

pub use ask::{ask, Ask};
pub use draft::Draft;
pub use random::Random;
pub use tables::table;

use crate::check::{check, Verdict};
use crate::table::Table;
use crate::words::ALARM_WORDS;

#[derive(Clone, Debug, PartialEq, Eq)]
pub struct Case {
    pub table: Vec<i32>,
    pub proposal: Vec<i32>,
    /// The length of the alarm buffer to lend.
    pub room: usize,
    pub schedule: Vec<i32>,
}

/// A case of any sort. Most proposals fit or nearly fit, since the later
/// refusals are only reached by those.
pub fn case(random: &mut Random) -> Case {
    let mut table = table(random);
    let schedule = schedule(random, table[0]);
    let decoded = Table::decode(&table).expect("generated tables are valid");
    let mut proposal = match random.below(100) {
        0..15 => Draft::settle_flawed(&decoded, random),
        15..30 => {
            let mut draft = Draft::settle(&decoded, random);
            changes::nudge_draft(random, &mut draft);
            draft
        }
        _ => Draft::settle(&decoded, random),
    }
    .words();
    match random.below(100) {
        0..15 => changes::nudge_proposal(random, &mut proposal),
        15..27 => changes::nudge_table(random, &mut table),
        27..37 => changes::damage(random, &mut table, &mut proposal),
        _ => {}
    }
    let room = room(random, &table, &proposal);
    Case { table, proposal, room, schedule }
}

/// A table of every greatest size, with an accepted proposal of 512 entries
/// and few points unreached, so that the check has the most to do.
pub fn largest(seed: u64) -> (Vec<i32>, Vec<i32>) {
    let mut random = Random::new(seed);
    loop {
        let words = tables::largest(&mut random);
        let table = Table::decode(&words).expect("generated tables are valid");
        let mut draft = Draft::settle_with(&table, &mut random, 64, None);
        let unreached = draft.held.iter().filter(|&&held| held == -1).count();
        if unreached <= 16 {
            draft.fill(&table, &mut random, 512);
            return (words, draft.words());
        }
    }
}

/// Task words and, in between, words for inputs: which is which shows only as
/// the schedule is played, so they are mixed without a plan.
pub fn schedule(random: &mut Random, tasks: i32) -> Vec<i32> {
    let tasks = tasks.clamp(1, 8) as usize;
    let length = match random.below(10) {
        0 => random.below(3),
        1..=7 => random.below(60),
        _ => random.below(300),
    };
    // A schedule that dwells on few tasks goes further in them.
    let dwell = 1 + random.below(tasks);
    (0..length)
        .map(|_| match random.below(20) {
            0..=9 => random.below(tasks) as i32,
            10..=15 => random.below(dwell) as i32,
            16 => random.below(12) as i32,
            17 => -1 - random.below(9) as i32,
            _ => random.word(),
        })
        .collect()
}

/// The length of a buffer, mostly a large one, else around what is needed.
fn room(random: &mut Random, table: &[i32], proposal: &[i32]) -> usize {
    let needed = match check(table, proposal, &mut [0; ALARM_WORDS]) {
        Verdict::Accepted { count } => 2 * count,
        Verdict::Refused { .. } => 0,
    };
    match random.below(10) {
        0 => needed.saturating_sub(1 + random.below(3)),
        1 => needed + random.below(3),
        2 => random.below(needed + 1),
        _ => ALARM_WORDS,
    }
}

#[cfg(test)]
mod tests {
    use super::*;

    #[test]
    fn a_seed_gives_the_same_cases_again() {
        let cases = |seed| {
            let mut random = Random::new(seed);
            (0..20).map(|_| case(&mut random)).collect::<Vec<_>>()
        };
        assert_eq!(cases(1), cases(1));
        assert_ne!(cases(1), cases(2));
    }

    /// Every refusal and both alarm kinds; `census` gives the numbers.
    #[test]
    fn all_answers_are_reached() {
        let mut random = Random::new(9);
        let mut refused = [0; 18];
        let mut kinds = [0; 3];
        for _ in 0..4000 {
            let case = case(&mut random);
            let mut alarms = vec![0; case.room];
            match check(&case.table, &case.proposal, &mut alarms) {
                Verdict::Refused { rule, .. } => refused[rule as usize] += 1,
                Verdict::Accepted { count } => {
                    alarms.chunks(2).take(count).for_each(|pair| kinds[pair[1] as usize] += 1);
                }
            }
        }
        assert!(refused[1..].iter().all(|&count| count >= 4), "{refused:?}");
        assert!(kinds[1..].iter().all(|&count| count >= 100), "{kinds:?}");
    }

    #[test]
    fn the_largest_is_as_large_as_it_gets() {
        let (table, proposal) = largest(1);
        assert_eq!((table.len(), proposal.len()), (5149, 11268));
        let verdict = check(&table, &proposal, &mut [0; ALARM_WORDS]);
        assert!(matches!(verdict, Verdict::Accepted { .. }), "{verdict:?}");
    }
}
