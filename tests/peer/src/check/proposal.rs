//! A proposal in its own words: rows stay where they lie, only the entries are
//! decoded, since each of them is read again for every point.

use crate::analysis::{Ends, Row};
use crate::interval::Interval;
use crate::table::Table;
use crate::words::Refusal;

const ENTRIES: i32 = 512;

/// What a task writes to a variable under a held set. Eight mutexes at most,
/// so a held set is a byte.
#[derive(Clone, Copy, Debug)]
pub struct Entry {
    pub task: u8,
    pub set: u8,
    pub variable: u8,
    pub interval: Interval,
}

impl Entry {
    /// What entries are sorted by.
    #[inline]
    pub fn head(&self) -> (u8, u8, u8) {
        (self.task, self.set, self.variable)
    }
}

/// The words of a proposal for `table` with so many entries: four sizes, a held
/// word a point, three words a head, and a low and a high end for each variable
/// of each row and for each entry.
pub fn length(table: &Table, entries: usize) -> usize {
    let points = table.points.len();
    let rows = points + table.mutexes;
    4 + points + 3 * entries + 2 * (rows * table.variables + entries)
}

/// The words of a proposal. The rows are those of all points and then of all
/// mutexes, and the entries rise by head.
pub fn encode(variables: usize, held: &[i32], rows: &[Row], entries: &[Entry]) -> Vec<i32> {
    let sizes = [held.len(), variables, rows.len() - held.len(), entries.len()];
    let mut words: Vec<i32> = sizes.iter().map(|&size| size as i32).collect();
    words.extend(held);
    words.extend(entries.iter().flat_map(|entry| {
        let (task, set, variable) = entry.head();
        [task, set, variable].map(i32::from)
    }));
    words.extend(rows.iter().flat_map(|row| &row.ends().lows[..variables]));
    words.extend(entries.iter().map(|entry| entry.interval.low()));
    words.extend(rows.iter().flat_map(|row| &row.ends().highs[..variables]));
    words.extend(entries.iter().map(|entry| entry.interval.high()));
    words
}

#[derive(Debug)]
pub struct Proposal<'a> {
    variables: usize,
    /// -1 for a point that is never reached, else the mutexes held there.
    pub held: &'a [i32],
    /// The rows of all points and then of all mutexes.
    lows: &'a [i32],
    highs: &'a [i32],
    /// Rising by head.
    pub entries: Vec<Entry>,
}

impl<'a> Proposal<'a> {
    /// Reads a proposal for `table`, or gives the refusal, 7 to 10.
    pub fn decode(words: &'a [i32], table: &Table) -> Result<Proposal<'a>, Refusal> {
        let reach = (7, words.len());
        let sizes = words.first_chunk::<4>().ok_or(reach)?;
        let own = [table.points.len(), table.variables, table.mutexes].map(|size| size as i32);
        if let Some(place) = sizes.iter().zip(&own).position(|(given, own)| given != own) {
            return Err((8, place));
        }
        if !(0..=ENTRIES).contains(&sizes[3]) {
            return Err((8, 3));
        }
        let [points, variables, mutexes, entries] = sizes.map(|size| size as usize);
        if words.len() != length(table, entries) {
            return Err(reach);
        }
        let rows = (points + mutexes) * variables;
        let ends = rows + entries;
        let (held, rest) = words[4..].split_at(points);
        let (heads, rest) = rest.split_at(3 * entries);
        let (lows, highs) = rest.split_at(ends);
        let heads = heads.as_chunks().0;

        let sets = 1 << mutexes;
        if let Some(point) = held.iter().position(|held| !(-1..sets).contains(held)) {
            return Err((9, 4 + point));
        }
        let limits = [table.tasks as i32, sets, variables as i32];
        let outside = |(word, limit): (&i32, &i32)| !(0..*limit).contains(word);
        for (entry, head) in heads.iter().enumerate() {
            let head: &[i32; 3] = head;
            if let Some(field) = head.iter().zip(&limits).position(outside) {
                return Err((9, 4 + points + 3 * entry + field));
            }
        }
        if let Some(end) = lows.iter().zip(highs).position(|(low, high)| low > high) {
            return Err((9, 4 + points + 3 * entries + end));
        }

        let (lows, entry_lows) = lows.split_at(rows);
        let (highs, entry_highs) = highs.split_at(rows);
        let entries: Vec<Entry> = heads
            .iter()
            .zip(entry_lows.iter().zip(entry_highs))
            .map(|(head, (&low, &high))| {
                let [task, set, variable] = head.map(|word| word as u8);
                Entry { task, set, variable, interval: Interval::ordered(low, high) }
            })
            .collect();
        if let Some(before) = entries.windows(2).position(|pair| pair[1].head() <= pair[0].head()) {
            return Err((10, before + 1));
        }
        Ok(Proposal { variables, held, lows, highs, entries })
    }

    /// The row of a point.
    #[inline]
    pub fn row(&self, point: usize) -> Ends<'a> {
        let at = point * self.variables;
        let row = at..at + self.variables;
        Ends { lows: &self.lows[row.clone()], highs: &self.highs[row] }
    }

    /// The rest row of a mutex.
    #[inline]
    pub fn rest(&self, mutex: usize) -> Ends<'a> {
        self.row(self.held.len() + mutex)
    }

    /// The interval of an entry, if there is one with this head.
    #[inline]
    pub fn entry(&self, head: (u8, u8, u8)) -> Option<Interval> {
        let found = self.entries.binary_search_by_key(&head, Entry::head).ok()?;
        Some(self.entries[found].interval)
    }
}
