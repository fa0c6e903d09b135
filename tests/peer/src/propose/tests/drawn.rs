//! What holds of every proposal and refusal, on drawn tables.

use super::*;
use crate::generate::{ask, largest, Ask, Random};
use crate::outcome::ways;
use std::collections::BTreeSet;

/// The most passes that the request allows.
fn most_passes(table: &[i32], thresholds: usize) -> usize {
    let [variables, mutexes, points] = [1, 2, 3].map(|at| table[at] as usize);
    let ends = points * variables + mutexes * variables + points;
    1 + 2 * points + 2 * (thresholds + 1) * ends
}

#[test]
fn the_check_accepts_what_is_proposed() {
    let mut random = Random::new(11);
    let mut proposals = 0;
    for _ in 0..4000 {
        let Ask { table, thresholds, room } = ask(&mut random);
        let Ok(Proposed { words, passes }) = propose(&table, &thresholds, room) else { continue };
        proposals += 1;
        assert!(accepted(&table, &words), "{table:?} {thresholds:?}");
        assert!(words.len() <= room && words[3] <= words[0]);
        assert!(passes <= most_passes(&table, thresholds.len()));
        let given = given(&table, &thresholds);
        let unreached = given.held.iter().zip(&given.rows).filter(|(&held, _)| held == -1);
        assert!(unreached.flat_map(|(_, row)| row).all(|&ends| ends == [0, 0]));
    }
    assert!(proposals > 3000, "{proposals}");
}

/// An end that moves to no other threshold goes to MIN or MAX in any case.
#[test]
fn thresholds_at_the_ends_change_nothing() {
    let mut random = Random::new(12);
    for _ in 0..500 {
        let Ask { table, .. } = ask(&mut random);
        let without = propose(&table, &[], PROPOSAL_WORDS);
        assert_eq!(propose(&table, &[MIN, MAX], PROPOSAL_WORDS), without);
        assert_eq!(propose(&table, &[MIN], PROPOSAL_WORDS), without);
        assert_eq!(propose(&table, &[MAX], PROPOSAL_WORDS), without);
    }
}

#[test]
fn the_largest_table() {
    let (table, _) = largest(1);
    let thresholds: Vec<i32> = (-16..16).map(|step| 1000 * step).collect();
    let proposed = propose(&table, &thresholds, PROPOSAL_WORDS).unwrap();
    assert!(accepted(&table, &proposed.words));
    assert!(proposed.passes <= most_passes(&table, 32));
}

/// All pairs of a point and a held set, by sweeps over what is known so far until
/// a sweep adds nothing.
fn brought(table: &Table) -> BTreeSet<(usize, u8)> {
    let mut known: BTreeSet<_> = (0..table.tasks).map(|task| (table.first(task), 0)).collect();
    loop {
        let on = |&(at, held): &(usize, u8)| ways(table.points[at], held).into_iter().flatten();
        let more: BTreeSet<_> = known.iter().flat_map(on).collect();
        if more.is_subset(&known) {
            return known;
        }
        known.extend(more);
    }
}

#[test]
fn eighteen_at_the_smallest_point_with_two_sets() {
    let mut random = Random::new(13);
    let mut refused = 0;
    for _ in 0..3000 {
        let Ask { table, .. } = ask(&mut random);
        let Ok(decoded) = Table::decode(&table) else { continue };
        let brought: Vec<_> = brought(&decoded).into_iter().collect();
        let two = brought.windows(2).find(|pair| pair[0].0 == pair[1].0);
        match (propose(&table, &[], PROPOSAL_WORDS), two) {
            (Err(refusal), Some(two)) => {
                assert_eq!(refusal, (18, two[0].0));
                refused += 1;
            }
            (Ok(Proposed { words, .. }), None) => {
                for (at, &held) in words[4..4 + decoded.points.len()].iter().enumerate() {
                    assert!(held == -1 || brought.contains(&(at, held as u8)));
                }
            }
            other => panic!("{other:?}"),
        }
    }
    assert!(refused > 100, "{refused}");
}
