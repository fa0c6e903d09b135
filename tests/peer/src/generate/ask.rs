//! What a proposer is asked: a table, thresholds and the room for a proposal.

use super::{changes, table, Random};
use crate::check::length;
use crate::table::Table;
use crate::words::PROPOSAL_WORDS;
use std::collections::BTreeSet;

#[derive(Clone, Debug, PartialEq, Eq)]
pub struct Ask {
    pub table: Vec<i32>,
    pub thresholds: Vec<i32>,
    /// The length of the buffer to lend.
    pub room: usize,
}

/// An ask of any sort. Most can be met; the others have a target where another
/// held set arrives, thresholds that don't rise or are too many, too little room
/// or a table that isn't valid, and some have two of these.
pub fn ask(random: &mut Random) -> Ask {
    let mut table = table(random);
    for _ in 0..random.pick(&[0, 0, 0, 0, 0, 0, 1, 3]) {
        changes::retarget(random, &mut table);
    }
    let decoded = Table::decode(&table).expect("targets in the same task are valid");
    let needed = length(&decoded, decoded.points.len());
    let room = match random.below(40) {
        0 => needed - 1,
        1 => random.below(needed),
        2..=8 => needed,
        9..=11 => needed + random.between(1, 3),
        _ => PROPOSAL_WORDS,
    };
    let mut thresholds = thresholds(random, &table);
    if random.chance(8) {
        spoil(random, &mut thresholds);
    }
    if random.chance(5) {
        changes::nudge_table(random, &mut table);
    }
    Ask { table, thresholds, room }
}

/// Rising thresholds, 32 at most. Many lie at or beside a word of the table, so
/// that ends come to rest at them.
fn thresholds(random: &mut Random, table: &[i32]) -> Vec<i32> {
    let count = match random.below(10) {
        0 => 0,
        1..=7 => random.between(1, 6),
        8 => random.between(1, 32),
        _ => 32,
    };
    rising(random, table, count)
}

fn rising(random: &mut Random, table: &[i32], count: usize) -> Vec<i32> {
    let mut rising = BTreeSet::new();
    while rising.len() < count {
        rising.insert(match random.below(4) {
            0 => random.pick(table),
            1 => random.pick(table).wrapping_add(random.pick(&[-1, 1])),
            2 => random.word(),
            _ => random.any() >> random.below(32),
        });
    }
    rising.into_iter().collect()
}

/// One that is the same as before or falls, or too many.
fn spoil(random: &mut Random, thresholds: &mut Vec<i32>) {
    if random.chance(40) || thresholds.is_empty() {
        let count = random.between(33, 35);
        *thresholds = rising(random, &[0], count);
    }
    if random.chance(70) {
        let at = random.below(thresholds.len());
        let lower = random.pick(&[0, 0, 1]);
        thresholds.insert(at + 1, thresholds[at].saturating_sub(lower));
    }
}

#[cfg(test)]
mod tests {
    use super::*;
    use crate::propose;

    /// The refusals of the table, 18, 19 and 20, and thresholds that matter;
    /// `census` gives the numbers.
    #[test]
    fn all_answers_are_reached() {
        let mut random = Random::new(4);
        let mut refused = [0; 21];
        let (mut met, mut matter) = (0, 0);
        for _ in 0..3000 {
            let Ask { table, thresholds, room } = ask(&mut random);
            match propose(&table, &thresholds, room) {
                Err((rule, _)) => refused[rule as usize] += 1,
                Ok(proposed) => {
                    met += 1;
                    let without = propose(&table, &[], room).unwrap();
                    matter += usize::from(proposed.words != without.words);
                }
            }
        }
        assert!(refused[1..=6].iter().sum::<usize>() >= 50, "{refused:?}");
        assert!(refused[18..].iter().all(|&count| count >= 50), "{refused:?}");
        assert!(met >= 1500 && matter >= 300, "{met} {matter}");
    }
}
