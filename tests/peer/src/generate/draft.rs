//! A proposal that can still be changed.

use super::settle::{Flaw, Growth};
use super::Random;
use crate::analysis::Row;
use crate::check::{encode, Entry};
use crate::interval::Interval;
use crate::table::Table;
use std::collections::BTreeMap;

/// Task, held set, variable: in this order the map is sorted as entries are.
pub type Head = (u8, u8, u8);

#[derive(Clone, Debug)]
pub struct Draft {
    pub variables: usize,
    pub held: Vec<i32>,
    /// Of all points and then of all mutexes.
    pub rows: Vec<Row>,
    pub entries: BTreeMap<Head, Interval>,
}

impl Draft {
    /// A draft that fits, if the locks let one fit at all.
    pub fn settle(table: &Table, random: &mut Random) -> Draft {
        let idle = if random.chance(15) { random.between(1, 4) } else { 0 };
        Draft::settle_with(table, random, idle, None)
    }

    /// A draft by an analysis that forgets one thing. Everything else is as
    /// tight as in a draft that fits, so only one rule stands in its way.
    pub fn settle_flawed(table: &Table, random: &mut Random) -> Draft {
        let flaw = Flaw::any(table, random);
        Draft::settle_with(table, random, 0, Some(flaw))
    }

    /// A draft with some entries that nobody need write.
    pub fn settle_with(
        table: &Table,
        random: &mut Random,
        idle: usize,
        flaw: Option<Flaw>,
    ) -> Draft {
        let mut draft = Draft::start(table, random);
        for _ in 0..idle {
            let head = any_head(table, random);
            draft.entries.insert(head, any_interval(random));
        }
        Growth::settle(table, &mut draft, random, flaw);
        draft
    }

    /// Every row at the starting values, sometimes with more room than needed;
    /// rows of points that stay unreached say anything.
    fn start(table: &Table, random: &mut Random) -> Draft {
        let points = table.points.len();
        let mut draft = Draft {
            variables: table.variables,
            held: vec![-1; points],
            rows: vec![Row::at(&table.starts); points + table.mutexes],
            entries: BTreeMap::new(),
        };
        if random.chance(50) {
            for row in &mut draft.rows[..points] {
                let variable = random.below(table.variables) as u8;
                row.set(variable, any_interval(random));
            }
        }
        for task in 0..table.tasks {
            draft.held[table.first(task)] = 0;
            draft.rows[table.first(task)] = Row::at(&table.starts);
        }
        if random.chance(20) {
            let row = random.below(draft.rows.len());
            let variable = random.below(table.variables) as u8;
            let more = draft.rows[row].get(variable).join(any_interval(random));
            draft.rows[row].set(variable, more);
        }
        draft
    }

    /// Adds entries up to a number of them, each so that it disturbs nothing.
    /// For each head there is a greatest such interval, unless it is empty.
    pub fn fill(&mut self, table: &Table, random: &mut Random, entries: usize) {
        while self.entries.len() < entries {
            let head = any_head(table, random);
            if let Some(interval) = self.undisturbing(table, head) {
                self.entries.entry(head).or_insert(interval);
            }
        }
    }

    fn undisturbing(&self, table: &Table, (task, set, variable): Head) -> Option<Interval> {
        let points = table.points.len();
        let own = table.points_of(usize::from(task));
        let at_points = (0..points).filter(|point| {
            let held = self.held[*point];
            held != -1 && !own.contains(point) && held & i32::from(set) == 0
        });
        let at_rest = (0..table.mutexes).filter(|mutex| set >> mutex & 1 == 0);
        let mut rows = at_points.chain(at_rest.map(|mutex| points + mutex));
        rows.try_fold(Interval::FULL, |all, row| all.meet(self.rows[row].get(variable)))
    }

    pub fn words(&self) -> Vec<i32> {
        let entry = |(&(task, set, variable), &interval): (&Head, &Interval)| Entry {
            task,
            set,
            variable,
            interval,
        };
        let entries: Vec<Entry> = self.entries.iter().map(entry).collect();
        encode(self.variables, &self.held, &self.rows, &entries)
    }
}

fn any_head(table: &Table, random: &mut Random) -> Head {
    (
        random.below(table.tasks) as u8,
        random.below(1 << table.mutexes) as u8,
        random.below(table.variables) as u8,
    )
}

pub fn any_interval(random: &mut Random) -> Interval {
    let (low, high) = random.ends();
    Interval::ordered(low, high)
}
