//! Buffers of many sizes: 17 at a first, a middle and a last place; a list in a
//! buffer of just its length, or longer, whose later words keep their contents;
//! and refusals, which change no word, also where 17 would be due too. For one
//! long list every size is tried, and for the run's answer too.

use super::checks::{self, largest, sort, Check};
use super::{runs, Tally};
use crate::answers::{Answer, Wanted};
use crate::build::*;
use peer::words::ALARM_WORDS;
use rangecheck::STATE_WORDS;
use std::collections::BTreeSet;
use std::path::Path;

/// A check with the sizes of the buffer to try on it.
pub type Case = (Check, Vec<usize>);

/// One point that writes the tree to the only variable and goes on to itself;
/// every value is possible, but for rests.
fn around(tree: Tree, rests: &[Ends], wanted: Wanted) -> Check {
    let table = table(&[1], &[0], rests.len() as i32, &[assign(0, tree, 0)]);
    let rests: Vec<Row> = rests.iter().map(|&ends| vec![ends]).collect();
    let proposal = proposal(1, &[0], &rests, &rows(1, &[FULL]), &[([0, 0, 0], FULL)]);
    Check::wanting(table, proposal, wanted)
}

/// So many operations, each on the variable and the one before. Where every
/// value is possible, each can overflow and give every value, and a quotient
/// can be by 0 too. A remainder can only be by 0: its interval is narrower, but
/// holds 0 for the next.
fn chain(kind: i32, count: i32, left: bool) -> Tree {
    let more = |tree, _| match left {
        true => binary(kind, tree, var(0)),
        false => binary(kind, var(0), tree),
    };
    (0..count).fold(var(0), more)
}

fn chain_alarms(kind: i32, count: i32, left: bool) -> Vec<[i32; 2]> {
    let node = |k: i32| if left { 2 * k } else { count + k };
    let kinds = match kind {
        7 => 1..=2,
        9 => 2..=2,
        _ => 1..=1,
    };
    (1..=count).flat_map(|k| kinds.clone().map(move |kind| [node(k), kind])).collect()
}

/// The most alarms that there can be, 1023: no node has more of them than
/// operands, and of 1024 nodes all but one are an operand, of one node.
fn longest(left: bool) -> Check {
    let mut alarms = chain_alarms(7, 511, left);
    alarms.push([1023, 1]);
    around(negation(chain(7, 511, left)), &[], Ok(alarms))
}

fn chains(left: bool) -> Vec<Check> {
    let mut cases = Vec::new();
    for kind in [4, 5, 6, 7, 9] {
        for count in [1, 2, 3, 5, 17, 100, 256, 400, 510, 511] {
            let alarms = chain_alarms(kind, count, left);
            cases.push(around(chain(kind, count, left), &[], Ok(alarms)));
        }
    }
    cases.push(longest(left));
    // 16 where there may be no room either: the only entry, at place 1, is
    // wider than a rest row.
    let last = [&[FULL; 7][..], &[(MIN, MAX - 1)]].concat();
    for rests in [&[(0, 0)][..], &last] {
        for tree in [chain(4, 1, left), chain(4, 511, left), negation(chain(7, 511, left))] {
            cases.push(around(tree, rests, Err((16, 1))));
        }
    }
    cases
}

/// Parts that are longer than any table or proposal.
fn too_long() -> Vec<Check> {
    let (table, proposal) = (largest::table_words(), largest::proposal_words());
    let longer = |words: &[i32], more: usize| [words, &vec![0; more]].concat();
    let tables = [1, 51].map(|more| {
        let answer = format!("refused 1 length at {}", 5149 + more);
        Check::new(longer(&table, more), &*proposal, answer)
    });
    let proposals = [1, 32].map(|more| {
        let answer = format!("refused 7 reach at {}", 11268 + more);
        Check::new(&*table, longer(&proposal, more), answer)
    });
    tables.into_iter().chain(proposals).collect()
}

/// A refusal is the same with each size, also where a list would have had no
/// room.
fn sizes(wanted: &Wanted) -> Vec<usize> {
    match wanted {
        Err((16, _)) => vec![0, 1, 2, 3, 6, 1535, 2045, 2046, ALARM_WORDS],
        Err(_) => vec![0, 1, 3, 6],
        Ok(alarms) => {
            let need = 2 * alarms.len();
            let below = [need.saturating_sub(2), need.saturating_sub(1)];
            let sizes = [&[0, 1, need, need + 1, need + 5, ALARM_WORDS], &below[..]].concat();
            BTreeSet::from_iter(sizes).into_iter().collect()
        }
    }
}

pub fn cases(tables: usize) -> Vec<Case> {
    let mut cases = checks::given();
    cases.extend(chains(true));
    cases.extend(chains(false));
    cases.extend(too_long());
    cases.extend(checks::drawn(20261118, tables));
    let with_sizes = |check: Check| {
        let sizes = sizes(&check.wanted);
        (check, sizes)
    };
    cases.into_iter().map(with_sizes).collect()
}

/// Every size of a buffer up to the largest that anybody lends.
fn every_size(left: bool) -> Case {
    (longest(left), (0..=ALARM_WORDS).collect())
}

pub fn run(_bin: &Path, tally: &mut Tally) {
    let mut places = BTreeSet::new();
    for (check, sizes) in cases(checks::TABLES).into_iter().chain([true, false].map(every_size)) {
        for room in sizes {
            let answer = Answer::check_by_hand(&check.wanted, room);
            let no_room = answer.said.err().filter(|refusal| refusal.number == 17);
            places.extend(no_room.map(|refusal| refusal.place));
            tally.count(sort(&answer));
            tally.case(check.differences(room), || format!("{room} words, {}", check.shown()));
        }
    }
    let ends = (places.first().unwrap_or(&0), places.last().unwrap_or(&0));
    tally.note(format!("17 at {} places, from {} to {}", places.len(), ends.0, ends.1));
    for run in runs::by_hand() {
        for room in 0..=STATE_WORDS + 8 {
            tally.count("answers of runs");
            tally.case(run.differences(room), || format!("{room} words, {}", run.shown()));
        }
    }
}
