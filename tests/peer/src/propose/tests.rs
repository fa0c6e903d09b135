//! Request 4 sentence by sentence, with answers by hand, and what holds of every
//! proposal on drawn tables.

mod drawn;
mod growing;
mod refusals;

use super::*;
use crate::words::{parse, proposed, ALARM_WORDS, PROPOSAL_WORDS};
use crate::{check, Verdict};

const MIN: i32 = i32::MIN;
const MAX: i32 = i32::MAX;

/// A table by its parts: shares of the tasks, starting values, number of mutexes,
/// points and nodes.
fn table(shares: &str, starts: &str, mutexes: usize, points: &str, nodes: &str) -> Vec<i32> {
    let parts = [shares, starts, points, nodes].map(|part| parse(part).unwrap());
    let [tasks, variables, points, nodes] = [0, 1, 2, 3].map(|part| parts[part].len());
    let sizes = [tasks, variables, mutexes, points / 4, nodes / 4].map(|size| size as i32);
    [&sizes[..], &parts.concat()].concat()
}

/// Document 01's: task 0 writes 5, task 1 has one point.
fn bare() -> Vec<i32> {
    table("2 1", "0", 0, "1 0 0 1  0 0 0 0  0 0 0 0", "0 5 0 0")
}

/// Whether the check accepts these words, with an ample alarm buffer.
fn accepted(table: &[i32], proposal: &[i32]) -> bool {
    matches!(check(table, proposal, &mut [0; ALARM_WORDS]), Verdict::Accepted { .. })
}

/// Low and high end.
type Ends = [i32; 2];

/// A proposal taken apart.
#[derive(Debug)]
struct Given {
    held: Vec<i32>,
    /// Of each point, the ends of each variable.
    rows: Vec<Vec<Ends>>,
    rests: Vec<Vec<Ends>>,
    /// Task, set and variable, and the ends.
    entries: Vec<([i32; 3], Ends)>,
    passes: usize,
}

/// What is proposed, which the check accepts.
fn given(table: &[i32], thresholds: &[i32]) -> Given {
    let Proposed { words, passes } = propose(table, thresholds, PROPOSAL_WORDS).unwrap();
    assert!(accepted(table, &words), "{words:?}");
    let [points, variables, mutexes, entries] = [0, 1, 2, 3].map(|at| words[at] as usize);
    let (held, rest) = words[4..].split_at(points);
    let (heads, ends) = rest.split_at(3 * entries);
    let (lows, highs) = ends.split_at(ends.len() / 2);
    let ends: Vec<Ends> = lows.iter().zip(highs).map(|(&low, &high)| [low, high]).collect();
    let (rows, ends) = ends.split_at((points + mutexes) * variables);
    let mut rows: Vec<Vec<Ends>> = rows.chunks(variables).map(<[Ends]>::to_vec).collect();
    let rests = rows.split_off(points);
    let heads = heads.as_chunks().0.iter().copied();
    let entries = heads.zip(ends.iter().copied()).collect();
    Given { held: held.to_vec(), rows, rests, entries, passes }
}

impl Given {
    /// The ends of the only variable at each point.
    fn points(&self) -> Vec<Ends> {
        self.rows.iter().map(|row| row[0]).collect()
    }
}

#[test]
fn the_given_vectors() {
    let text = include_str!("../../../vectors/after-request-4/propose.txt");
    for line in text.lines() {
        let parts: Vec<&str> = line.split('|').map(str::trim).collect();
        let [table, thresholds, room, expected] = parts[..] else { panic!("four parts: {line}") };
        let [table, thresholds] = [table, thresholds].map(|words| parse(words).unwrap());
        let answer = propose(&table, &thresholds, room.parse().unwrap());
        assert_eq!(proposed(&answer), expected, "{line}");
        if let Ok(Proposed { words, .. }) = answer {
            assert!(accepted(&table, &words), "{line}");
        }
    }
    assert_eq!(text.lines().count(), 160);
}
