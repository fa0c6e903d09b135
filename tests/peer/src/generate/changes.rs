//! Changes to what fits: one word nudged, one target or one thing of a draft
//! moved, or parts damaged beyond use.

use super::{draft, Draft, Random};
use crate::interval::Interval;

/// Moves a word by a little or puts an edge in its place.
fn nudge(random: &mut Random, word: &mut i32) {
    *word = match random.below(8) {
        0..=1 => word.wrapping_add(1),
        2..=3 => word.wrapping_sub(1),
        4 => word.wrapping_add(random.below(9) as i32 - 4),
        5..=6 => random.pick(&[i32::MIN, i32::MAX, 0, -1]),
        _ => random.word(),
    };
}

/// Nudges a word in one of some parts of the words, each part as likely as the
/// others however long; a part may be empty.
fn nudge_part(random: &mut Random, words: &mut [i32], lengths: &[usize]) {
    let parts: Vec<usize> = (0..lengths.len()).filter(|&part| lengths[part] > 0).collect();
    let part = random.pick(&parts);
    let from: usize = lengths[..part].iter().sum();
    let at = from + random.below(lengths[part]);
    nudge(random, &mut words[at]);
}

/// Nudges one word of a valid table.
pub fn nudge_table(random: &mut Random, words: &mut [i32]) {
    let size = |at: usize| words[at] as usize;
    let lengths = [5, size(0), size(1), 4 * size(3), 4 * size(4), 4 * size(4)];
    let nodes = 5 + size(0) + size(1) + 4 * size(3);
    if size(4) > 0 && random.chance(25) {
        // A child's number set to another below: often of the right sort, so
        // that only the number of uses is wrong.
        let node = random.below(size(4));
        let fields = super::trees::children(&[words[nodes + 4 * node], 0, 0, 0]);
        if !fields.is_empty() && node > 0 {
            let at = nodes + 4 * node + random.between(fields.start, fields.end - 1);
            words[at] = random.below(node) as i32;
            return;
        }
    }
    nudge_part(random, words, &lengths[..5]);
}

/// Lets a point of a valid table go on to any point of its task, where it may
/// arrive with another held set than others do.
pub fn retarget(random: &mut Random, words: &mut [i32]) {
    let [tasks, variables] = [0, 1].map(|at| words[at] as usize);
    let task = random.below(tasks);
    let first: i32 = words[5..5 + task].iter().sum();
    let share = words[5 + task] as usize;
    let own = |random: &mut Random| first + random.below(share) as i32;
    let point = 5 + tasks + variables + 4 * own(random) as usize;
    let field = match words[point] {
        0 => return,
        1 => 3,
        2 => random.between(2, 3),
        _ => 2,
    };
    words[point + field] = own(random);
}

/// Nudges one word of a valid proposal.
pub fn nudge_proposal(random: &mut Random, words: &mut [i32]) {
    let [points, variables, mutexes, entries] = [0, 1, 2, 3].map(|at| words[at] as usize);
    let rests = mutexes * variables;
    let rows = points * variables;
    let lengths = [4, points, 3 * entries, rows, rests, entries, rows, rests, entries];
    if entries > 1 && random.chance(10) {
        // Two neighbours exchanged, or one written over the other.
        let at = 4 + points + 3 * random.below(entries - 1);
        let copy = random.chance(50);
        for field in at..at + 3 {
            if copy {
                words[field + 3] = words[field];
            } else {
                words.swap(field, field + 3);
            }
        }
        return;
    }
    nudge_part(random, words, &lengths);
}

/// Changes one thing of a draft and keeps its words well formed, so that one
/// of the refusals from 11 on is likely.
pub fn nudge_draft(random: &mut Random, draft: &mut Draft) {
    let entry = (!draft.entries.is_empty()).then(|| {
        let at = random.below(draft.entries.len());
        *draft.entries.keys().nth(at).expect("below the length")
    });
    let points = draft.held.len();
    match (random.below(8), entry) {
        (0, Some(head)) => {
            draft.entries.remove(&head);
        }
        (1, Some((task, set, variable))) => {
            // The same write under another held set.
            let interval = draft.entries.remove(&(task, set, variable)).expect("it is there");
            let mutexes = draft.rows.len() - points;
            let other = random.below(1 << mutexes) as u8;
            draft.entries.insert((task, other, variable), interval);
        }
        (2, Some(head)) => {
            let entry = draft.entries.get_mut(&head).expect("it is there");
            *entry = if random.chance(50) {
                shrunk(random, *entry)
            } else {
                entry.join(draft::any_interval(random))
            };
        }
        (3, _) => {
            let mutexes = draft.rows.len() - points;
            let at = random.below(points);
            draft.held[at] = random.below((1 << mutexes) + 1) as i32 - 1;
        }
        (4, _) if draft.rows.len() > points => {
            let at = random.between(points, draft.rows.len() - 1);
            shrink_row(random, draft, at);
        }
        _ => {
            let at = random.below(points);
            shrink_row(random, draft, at);
        }
    }
}

fn shrink_row(random: &mut Random, draft: &mut Draft, row: usize) {
    let variable = random.below(draft.variables) as u8;
    let less = shrunk(random, draft.rows[row].get(variable));
    draft.rows[row].set(variable, less);
}

/// One end moved inwards by one, or all but one value taken away.
fn shrunk(random: &mut Random, interval: Interval) -> Interval {
    let (low, high) = (interval.low(), interval.high());
    match random.below(5) {
        _ if interval.is_single() => Interval::single(low.wrapping_add(1)),
        0..=1 => Interval::ordered(low + 1, high),
        2..=3 => Interval::ordered(low, high - 1),
        _ => Interval::single(if random.chance(50) { low } else { high }),
    }
}

/// Damages the table, the proposal or both.
pub fn damage(random: &mut Random, table: &mut Vec<i32>, proposal: &mut Vec<i32>) {
    match random.below(10) {
        0..=3 => damage_words(random, table),
        4..=7 => damage_words(random, proposal),
        8 => std::mem::swap(table, proposal),
        _ => {
            damage_words(random, table);
            damage_words(random, proposal);
        }
    }
}

fn damage_words(random: &mut Random, words: &mut Vec<i32>) {
    match random.below(6) {
        0 => words.truncate(random.below(words.len() + 1)),
        1 => words.truncate(random.below(8)),
        2 => {
            let more = random.between(1, 5);
            words.extend((0..more).map(|_| random.word()));
        }
        3 => {
            let length = random.below(60);
            *words = (0..length).map(|_| random.word()).collect();
        }
        4 if words.len() > 1 => {
            // Two parts of the same length exchanged.
            let half = random.between(1, words.len() / 2);
            let (left, right) = words.split_at_mut(half);
            let length = random.between(1, half.min(right.len()));
            let to = random.below(right.len() - length + 1);
            left[..length].swap_with_slice(&mut right[to..to + length]);
        }
        _ => {
            for _ in 0..random.between(2, 6) {
                if let Some(last) = words.len().checked_sub(1) {
                    let at = random.between(0, last);
                    words[at] = random.word();
                }
            }
        }
    }
}
