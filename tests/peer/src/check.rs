//! The check of a proposal against a table.

mod proposal;

pub use proposal::{encode, length, Entry, Proposal};

use crate::analysis::{Ends, Raised};
use crate::outcome::{Outcome, Outcomes};
use crate::table::{Point, Table};
use crate::words::Refusal;

#[derive(Clone, Copy, Debug, PartialEq, Eq)]
pub enum Verdict {
    /// As many (node, kind) pairs stand at the front of the buffer.
    Accepted {
        count: usize,
    },
    Refused {
        rule: u32,
        place: usize,
    },
}

/// Checks a proposal. Only an acceptance writes to the buffer.
pub fn check(table: &[i32], proposal: &[i32], alarms: &mut [i32]) -> Verdict {
    match judge(table, proposal, alarms) {
        Ok(count) => Verdict::Accepted { count },
        Err((rule, place)) => Verdict::Refused { rule, place },
    }
}

fn judge(table: &[i32], proposal: &[i32], alarms: &mut [i32]) -> Result<usize, Refusal> {
    let table = Table::decode(table)?;
    let proposal = Proposal::decode(proposal, &table)?;
    start(&table, &proposal)?;
    let raised = points(&table, &proposal)?;
    let count = raised.count();
    let room = alarms.get_mut(..2 * count).ok_or((17, 2 * count))?;
    for (place, pair) in room.as_chunks_mut().0.iter_mut().zip(raised.pairs()) {
        *place = pair;
    }
    Ok(count)
}

/// Refusal 11.
fn start(table: &Table, proposal: &Proposal) -> Result<(), Refusal> {
    for task in 0..table.tasks {
        let first = table.first(task);
        if proposal.held[first] != 0 || !proposal.row(first).hold(&table.starts) {
            return Err((11, first));
        }
    }
    match (0..table.mutexes).find(|&mutex| !proposal.rest(mutex).hold(&table.starts)) {
        Some(mutex) => Err((11, table.points.len() + mutex)),
        None => Ok(()),
    }
}

/// Refusals 12 to 16. One pass makes every outcome once: the first failure of
/// 12 ends it, as nothing goes before; the others wait for the pass to end.
fn points(table: &Table, proposal: &Proposal) -> Result<Raised, Refusal> {
    let mut pass =
        Pass { proposal, raised: Raised::default(), flow: None, write: None, rest: None };
    for task in 0..table.tasks {
        for point in table.points_of(task) {
            // The row of a point that is never reached says nothing.
            if let Ok(held) = u8::try_from(proposal.held[point]) {
                pass.point(table, task as u8, point, held)?;
            }
        }
    }
    if let Some(refusal) = pass.flow.or(pass.write) {
        return Err(refusal);
    }
    disturb(table, proposal)?;
    if let Some(refusal) = pass.rest {
        return Err(refusal);
    }
    rest_of_entries(table, proposal)?;
    Ok(pass.raised)
}

struct Pass<'a> {
    proposal: &'a Proposal<'a>,
    raised: Raised,
    /// The first failures of 13, 14 and, for unlocks, 16.
    flow: Option<Refusal>,
    write: Option<Refusal>,
    rest: Option<Refusal>,
}

impl Pass<'_> {
    fn point(&mut self, table: &Table, task: u8, at: usize, held: u8) -> Result<(), Refusal> {
        let proposal = self.proposal;
        let row = proposal.row(at).row();
        let rest = |mutex| proposal.rest(mutex);
        let outcomes = Outcomes::of(table, at, held, row, rest, &mut self.raised);
        for Outcome { next, held, row } in outcomes.iter() {
            if proposal.held[next] != i32::from(held) {
                return Err((12, at));
            }
            if !row.within(proposal.row(next)) {
                self.flow.get_or_insert((13, at));
            }
            match table.points[at] {
                Point::Assign { variable, .. } => {
                    let entry = proposal.entry((task, held, variable));
                    if !entry.is_some_and(|entry| row.get(variable).within(entry)) {
                        self.write.get_or_insert((14, at));
                    }
                }
                Point::Unlock { mutex, .. } if !row.within(proposal.rest(usize::from(mutex))) => {
                    self.rest.get_or_insert((16, at));
                }
                _ => {}
            }
        }
        Ok(())
    }
}

/// Refusal 15. Two tasks that hold a mutex in common never stand at their
/// points together, so only entries with a disjoint held set can disturb.
fn disturb(table: &Table, proposal: &Proposal) -> Result<(), Refusal> {
    for task in 0..table.tasks {
        let before = proposal.entries.partition_point(|entry| usize::from(entry.task) < task);
        let after = proposal.entries.partition_point(|entry| usize::from(entry.task) <= task);
        let others = [&proposal.entries[..before], &proposal.entries[after..]];
        for point in table.points_of(task) {
            let Ok(held) = u8::try_from(proposal.held[point]) else { continue };
            let row = proposal.row(point).row();
            // Most entries lie within the row, so that question comes first:
            // the processor can foresee its answer, but not that on the sets.
            let lacks = |entry: &Entry| {
                !entry.interval.within(row.get(entry.variable)) && entry.set & held == 0
            };
            if others.iter().any(|entries| entries.iter().any(lacks)) {
                return Err((15, point));
            }
        }
    }
    Ok(())
}

/// Refusal 16 for entries: what is written without a mutex has to fit what
/// holds while that mutex is free.
fn rest_of_entries(table: &Table, proposal: &Proposal) -> Result<(), Refusal> {
    for (number, entry) in proposal.entries.iter().enumerate() {
        let variable = usize::from(entry.variable);
        let fits = |rest: Ends| {
            rest.lows[variable] <= entry.interval.low()
                && entry.interval.high() <= rest.highs[variable]
        };
        let mut free = (0..table.mutexes).filter(|mutex| entry.set >> mutex & 1 == 0);
        if !free.all(|mutex| fits(proposal.rest(mutex))) {
            return Err((16, table.points.len() + number));
        }
    }
    Ok(())
}

#[cfg(test)]
mod tests;
