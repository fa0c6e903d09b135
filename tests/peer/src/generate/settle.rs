//! Lets the rows, rest rows and entries of a draft grow until nothing changes.

use super::draft::{Draft, Head};
use super::Random;
use crate::analysis::{Row, Silent};
use crate::interval::Interval;
use crate::outcome::{Outcome, Outcomes};
use crate::table::{Point, Table};

/// Where an end may come to rest after it is widened; its negative, less one,
/// for a low end. None at all is no widening.
type Steps = &'static [i32];
static STEPS: [i32; 6] = [0, 9, 99, 999, 65535, i32::MAX];

/// What a flawed analysis forgets: the errors this trade makes.
#[derive(Clone, Copy, Debug, PartialEq, Eq)]
pub enum Flaw {
    /// The write of this point.
    Write(usize),
    /// That this point no longer holds a mutex when it writes.
    Release(usize, u8),
    /// What this point's outcomes bring to a row that is already there.
    Flow(usize),
    /// That others disturb this point.
    Disturb(usize),
    /// What stands in the row when this mutex is given back.
    Unlock(u8),
    /// What is written while this mutex is free.
    Rest(u8),
}

impl Flaw {
    /// A flaw at some point, of a sort that can matter there. Unlocks are few,
    /// so they are looked for on purpose.
    pub fn any(table: &Table, random: &mut Random) -> Flaw {
        let unlock = |at: &usize| matches!(table.points[*at], Point::Unlock { .. });
        let unlocks: Vec<usize> = (0..table.points.len()).filter(unlock).collect();
        let at = if !unlocks.is_empty() && random.chance(40) {
            random.pick(&unlocks)
        } else {
            random.below(table.points.len())
        };
        let of_any = [Flaw::Flow(at), Flaw::Disturb(at)];
        match table.points[at] {
            Point::Assign { .. } if table.mutexes > 0 && random.chance(50) => {
                Flaw::Release(at, random.below(table.mutexes) as u8)
            }
            Point::Assign { .. } if random.chance(50) => Flaw::Write(at),
            Point::Lock { mutex, .. } if random.chance(70) => Flaw::Rest(mutex),
            Point::Unlock { mutex, .. } if random.chance(90) => Flaw::Unlock(mutex),
            _ => random.pick(&of_any),
        }
    }
}

pub struct Growth<'a> {
    table: &'a Table,
    draft: &'a mut Draft,
    flaw: Option<Flaw>,
    widen: Steps,
}

impl Growth<'_> {
    /// After some rounds an end that still moves goes on to the next of a few
    /// steps, so that this comes to an end; a test against a small number can
    /// still keep it from going all the way.
    pub fn settle(table: &Table, draft: &mut Draft, random: &mut Random, flaw: Option<Flaw>) {
        let mut growth = Growth { table, draft, flaw, widen: &[] };
        let patience = random.between(2, 8);
        let steps = random.pick(&[&STEPS[..], &STEPS[..], &STEPS[4..]]);
        let mut round = 0;
        while growth.round() {
            round += 1;
            if round == patience {
                growth.widen = steps;
            }
        }
    }

    fn round(&mut self) -> bool {
        let mut changed = false;
        for task in 0..self.table.tasks {
            for point in self.table.points_of(task) {
                if let Ok(held) = u8::try_from(self.draft.held[point]) {
                    changed |= self.point(task as u8, point, held);
                }
            }
        }
        changed | self.disturb() | self.rest()
    }

    /// Lets the outcomes of one reached point flow on.
    fn point(&mut self, task: u8, at: usize, held: u8) -> bool {
        let table = self.table;
        let row = self.draft.rows[at];
        let rest_of = |mutex: usize| table.points.len() + mutex;
        let rest = |mutex| self.draft.rows[rest_of(mutex)].ends();
        let mut changed = false;
        let outcomes = Outcomes::of(table, at, held, row, rest, &mut Silent);
        for Outcome { next, held, row } in outcomes.iter() {
            changed |= self.flow(at, next, held, row);
            changed |= match table.points[at] {
                Point::Assign { variable, .. } => {
                    let written = row.get(variable);
                    match self.flaw {
                        Some(Flaw::Write(point)) if point == at => false,
                        Some(Flaw::Release(point, mutex)) if point == at => {
                            self.enter((task, held | 1 << mutex, variable), written)
                        }
                        _ => self.enter((task, held, variable), written),
                    }
                }
                Point::Unlock { mutex, .. } => {
                    self.flaw != Some(Flaw::Unlock(mutex))
                        && self.grow_row(rest_of(usize::from(mutex)), row)
                }
                _ => false,
            };
        }
        changed
    }

    fn flow(&mut self, at: usize, next: usize, held: u8, row: &Row) -> bool {
        if self.draft.held[next] == -1 {
            self.draft.held[next] = i32::from(held);
            self.draft.rows[next] = *row;
            return true;
        }
        self.flaw != Some(Flaw::Flow(at)) && self.grow_row(next, row)
    }

    fn enter(&mut self, head: Head, written: Interval) -> bool {
        match self.draft.entries.get_mut(&head) {
            None => {
                self.draft.entries.insert(head, written);
                true
            }
            Some(entry) => grow(entry, written, self.widen),
        }
    }

    fn disturb(&mut self) -> bool {
        let mut changed = false;
        for task in 0..self.table.tasks {
            for point in self.table.points_of(task) {
                let Ok(held) = u8::try_from(self.draft.held[point]) else { continue };
                if self.flaw == Some(Flaw::Disturb(point)) {
                    continue;
                }
                let row = &mut self.draft.rows[point];
                for (&(other, set, variable), &interval) in &self.draft.entries {
                    if usize::from(other) != task && set & held == 0 {
                        changed |= grow_at(row, variable, interval, self.widen);
                    }
                }
            }
        }
        changed
    }

    fn rest(&mut self) -> bool {
        let mut changed = false;
        for mutex in 0..self.table.mutexes {
            if self.flaw == Some(Flaw::Rest(mutex as u8)) {
                continue;
            }
            let row = &mut self.draft.rows[self.table.points.len() + mutex];
            for (&(_, set, variable), &interval) in &self.draft.entries {
                if set >> mutex & 1 == 0 {
                    changed |= grow_at(row, variable, interval, self.widen);
                }
            }
        }
        changed
    }

    fn grow_row(&mut self, row: usize, more: &Row) -> bool {
        let row = &mut self.draft.rows[row];
        (0..self.table.variables as u8).fold(false, |changed, variable| {
            grow_at(row, variable, more.get(variable), self.widen) | changed
        })
    }
}

fn grow_at(row: &mut Row, variable: u8, more: Interval, widen: Steps) -> bool {
    let mut interval = row.get(variable);
    let changed = grow(&mut interval, more, widen);
    row.set(variable, interval);
    changed
}

fn grow(interval: &mut Interval, more: Interval, widen: Steps) -> bool {
    let joined = interval.join(more);
    if joined == *interval {
        return false;
    }
    // `!step` is -1 - step: the steps of low ends reach from -1 to MIN.
    let step = |end: i32| widen.iter().copied().find(|&step| step >= end).unwrap_or(end);
    let low = if joined.low() < interval.low() { !step(!joined.low()) } else { joined.low() };
    let high = if joined.high() > interval.high() { step(joined.high()) } else { joined.high() };
    *interval = Interval::ordered(low, high);
    true
}
