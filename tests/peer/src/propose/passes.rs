//! Passes over the points of a table, each of which lets rows, rest rows and
//! entries grow by what comes of the points reached by then.

use super::widen::Thresholds;
use crate::analysis::{Row, Silent};
use crate::check::{encode, Entry};
use crate::interval::Interval;
use crate::outcome::{Outcome, Outcomes};
use crate::table::{Point, Table};

pub struct Passes<'a> {
    table: &'a Table,
    thresholds: Thresholds<'a>,
    /// By walking, whether or not a pass comes there.
    held: Vec<i32>,
    reached: Vec<bool>,
    /// Of all points, 0 until they are reached, and then of all mutexes.
    rows: Vec<Row>,
    /// Rising by head.
    entries: Vec<Entry>,
}

impl<'a> Passes<'a> {
    /// First points and rest rows begin at the starting values.
    pub fn start(table: &'a Table, thresholds: Thresholds<'a>, held: Vec<i32>) -> Passes<'a> {
        let points = table.points.len();
        let starting = Row::at(&table.starts);
        let mut reached = vec![false; points];
        let mut rows = vec![Row::of(&[]); points];
        rows.resize(points + table.mutexes, starting);
        for first in (0..table.tasks).map(|task| table.first(task)) {
            reached[first] = true;
            rows[first] = starting;
        }
        Passes { table, thresholds, held, reached, rows, entries: Vec::with_capacity(points) }
    }

    /// Makes a pass, and says whether it changed anything.
    pub fn pass(&mut self) -> bool {
        let mut changed = false;
        for task in 0..self.table.tasks {
            for at in self.table.points_of(task) {
                if self.reached[at] {
                    changed |= self.disturb(task as u8, at);
                    changed |= self.follow(task as u8, at);
                }
            }
        }
        changed | self.rest()
    }

    /// Widens a point's row by what other tasks write under a disjoint set.
    fn disturb(&mut self, task: u8, at: usize) -> bool {
        let before = self.entries.partition_point(|entry| entry.task < task);
        let after = self.entries.partition_point(|entry| entry.task <= task);
        let row = &mut self.rows[at];
        let mut changed = false;
        for entry in self.entries[..before].iter().chain(&self.entries[after..]) {
            if i32::from(entry.set) & self.held[at] == 0 {
                changed |= self.thresholds.widen_at(row, entry.variable, entry.interval);
            }
        }
        changed
    }

    /// From a point's row, widens each target by its outcome, the entry by what
    /// is written and the rest row by what an unlock leaves there.
    fn follow(&mut self, task: u8, at: usize) -> bool {
        let (table, row, held) = (self.table, self.rows[at], self.held[at] as u8);
        let rest_of = |mutex: usize| table.points.len() + mutex;
        let rest = |mutex| self.rows[rest_of(mutex)].ends();
        let mut changed = false;
        let outcomes = Outcomes::of(table, at, held, row, rest, &mut Silent);
        for Outcome { next, row, .. } in outcomes.iter() {
            changed |= self.arrive(next, row);
            changed |= match table.points[at] {
                Point::Assign { variable, .. } => {
                    self.enter((task, held, variable), row.get(variable))
                }
                Point::Unlock { mutex, .. } => self.widen(rest_of(usize::from(mutex)), row),
                _ => false,
            };
        }
        changed
    }

    /// A new target takes the row as it is.
    fn arrive(&mut self, next: usize, row: &Row) -> bool {
        if self.reached[next] {
            return self.widen(next, row);
        }
        self.reached[next] = true;
        self.rows[next] = *row;
        true
    }

    /// A new entry takes the interval as it is.
    fn enter(&mut self, head: (u8, u8, u8), written: Interval) -> bool {
        match self.entries.binary_search_by_key(&head, Entry::head) {
            Ok(found) => self.thresholds.widen(&mut self.entries[found].interval, written),
            Err(place) => {
                let (task, set, variable) = head;
                self.entries.insert(place, Entry { task, set, variable, interval: written });
                true
            }
        }
    }

    fn widen(&mut self, row: usize, by: &Row) -> bool {
        self.thresholds.widen_row(&mut self.rows[row], by, self.table.variables)
    }

    /// Widens each rest row by what is written without its mutex.
    fn rest(&mut self) -> bool {
        let rests = &mut self.rows[self.table.points.len()..];
        let mut changed = false;
        for (mutex, row) in rests.iter_mut().enumerate() {
            for entry in self.entries.iter().filter(|entry| entry.set >> mutex & 1 == 0) {
                changed |= self.thresholds.widen_at(row, entry.variable, entry.interval);
            }
        }
        changed
    }

    /// The proposal as it stands; what no pass has reached is marked.
    pub fn words(&self) -> Vec<i32> {
        let word = |(&held, &reached)| if reached { held } else { -1 };
        let held: Vec<i32> = self.held.iter().zip(&self.reached).map(word).collect();
        encode(self.table.variables, &held, &self.rows, &self.entries)
    }
}
