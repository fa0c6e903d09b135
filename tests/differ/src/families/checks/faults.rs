//! Faults of one table and its proposal: each of refusals 1 to 16 at a first,
//! a middle and a last place, and two of them at once.
//!
//! Three tasks of four points, each in a circle: lock 0, write variable 0,
//! unlock 0, write variable 1; mutex 1 is never taken. Tasks 1 and 2 have an
//! alarm each.

use super::Check;
use crate::build::{
    self, assign, difference, input, lock, num, product, quotient, rows, unlock, var,
};
use crate::build::{proposal, table, Ends, Tree, MAX, MIN};
use peer::words::trade;
use Change::*;

/// What stands at a place in the sound ones is replaced by something else.
#[derive(Clone)]
enum Change {
    Point(usize, Tree),
    Held(usize, i32),
    /// The ends of a variable in a row; the mutexes are rows 12 and 13.
    Row(usize, usize, Ends),
    Head(usize, [i32; 3]),
    Entry(usize, Ends),
    /// Any word of the table or of the proposal, after all of these.
    Table(usize, i32),
    Word(usize, i32),
    /// Fewer words of the table, or fewer or one more of the proposal.
    TableLength(usize),
    Length(usize),
}

/// A number, a place, and the changes that break the rule there.
struct Fault(u32, usize, Vec<Change>);

impl Change {
    /// Two changes at the same place can't be made at once.
    fn is_at_place_of(&self, other: &Change) -> bool {
        match (self, other) {
            (Row(a, v, _), Row(b, w, _)) => a == b && v == w,
            (Point(a, _), Point(b, _))
            | (Held(a, _), Held(b, _))
            | (Head(a, _), Head(b, _))
            | (Entry(a, _), Entry(b, _))
            | (Table(a, _), Table(b, _))
            | (Word(a, _), Word(b, _)) => a == b,
            (TableLength(_), TableLength(_)) | (Length(_), Length(_)) => true,
            _ => false,
        }
    }
}

impl Fault {
    /// This fault and the other, unless they change the same.
    fn with(&self, other: &Fault) -> Option<Vec<Change>> {
        let clash = |change: &Change| other.2.iter().any(|more| more.is_at_place_of(change));
        (!self.2.iter().any(clash)).then(|| [&self.2[..], &other.2].concat())
    }
}

/// What point 11 writes: an overflow is possible.
fn overflows() -> Tree {
    difference(product(input(1, 2), num(MAX)), num(MAX))
}

/// The parts of the sound table and its proposal.
struct Parts {
    points: Vec<Tree>,
    held: Vec<i32>,
    /// Of points, then of mutexes.
    rows: Vec<build::Row>,
    entries: Vec<build::Entry>,
}

impl Parts {
    fn sound() -> Parts {
        let trees = [input(-3, 3), quotient(num(3), var(0)), overflows()];
        let (mut points, mut entries) = (Vec::new(), Vec::new());
        for (task, tree) in (0..).zip(trees) {
            let first = 4 * task;
            points.extend([
                lock(0, first + 1),
                assign(0, input(0, 9), first + 2),
                unlock(0, first + 3),
                assign(1, tree, first),
            ]);
            entries.extend([([task, 0, 1], (-3, 3)), ([task, 1, 0], (0, 9))]);
        }
        let held = [0, 1, 1, 0].repeat(3);
        Parts { points, held, rows: rows(14, &[(0, 9), (-3, 3)]), entries }
    }

    fn change(&mut self, change: &Change) {
        match change {
            Point(at, point) => self.points[*at] = point.clone(),
            Held(at, word) => self.held[*at] = *word,
            Row(at, variable, ends) => self.rows[*at][*variable] = *ends,
            Head(at, head) => self.entries[*at].0 = *head,
            Entry(at, ends) => self.entries[*at].1 = *ends,
            Table(..) | Word(..) | TableLength(_) | Length(_) => {}
        }
    }

    fn table(&self) -> Vec<i32> {
        table(&[4, 4, 4], &[0, 0], 2, &self.points)
    }

    fn proposal(&self) -> Vec<i32> {
        proposal(2, &self.held, &self.rows[12..], &self.rows[..12], &self.entries)
    }
}

/// The words of the table and of the proposal with those changes.
fn spelled(changes: &[Change]) -> (Vec<i32>, Vec<i32>) {
    let mut parts = Parts::sound();
    changes.iter().for_each(|change| parts.change(change));
    let (mut table, mut proposal) = (parts.table(), parts.proposal());
    for change in changes {
        match *change {
            Table(at, word) => table[at] = word,
            Word(at, word) => proposal[at] = word,
            _ => {}
        }
    }
    for change in changes {
        match *change {
            TableLength(length) => table.truncate(length),
            Length(length) => proposal.resize(length, 0),
            _ => {}
        }
    }
    (table, proposal)
}

fn refused(changes: &[Change], rule: u32, place: usize) -> Check {
    let (table, proposal) = spelled(changes);
    Check::new(table, proposal, format!("refused {rule} {} at {place}", trade(rule)))
}

/// Without a change, and each fault alone.
pub fn cases() -> Vec<Check> {
    let (table, proposal) = spelled(&[]);
    let sound = Check::new(table, proposal, "accepted 2;node 5 zero;node 9 overflow");
    let alone =
        faults().into_iter().map(|Fault(rule, place, changes)| refused(&changes, rule, place));
    std::iter::once(sound).chain(alone).collect()
}

/// Two at once: the one that is tried first is told, and of one number the
/// smaller place.
pub fn pairs() -> Vec<Check> {
    let in_turn = in_turn();
    let mut cases = Vec::new();
    for (k, first) in in_turn.iter().enumerate() {
        let changes = in_turn[k + 1..].iter().filter_map(|later| first.with(later));
        cases.extend(changes.map(|changes| refused(&changes, first.0, first.1)));
    }
    let faults = faults();
    for (k, one) in faults.iter().enumerate() {
        let same_rule = |other: &&Fault| 8 <= one.0 && one.0 == other.0 && one.1 != other.1;
        for other in faults[k + 1..].iter().filter(same_rule) {
            let changes = one.with(other);
            cases.extend(changes.map(|changes| refused(&changes, one.0, one.1.min(other.1))));
        }
    }
    cases
}

#[rustfmt::skip]
fn faults() -> Vec<Fault> {
    // Point 11 going on to 9 in place of 8; a point that writes 0..8.
    let astray = || assign(1, overflows(), 9);
    let lower = |next| assign(0, input(0, 8), next);
    vec![
        // 1 to 6, of a table of 106 words: points from word 10, nodes from 58.
        Fault(1, 4, vec![TableLength(4)]),
        Fault(1, 105, vec![TableLength(105)]),
        Fault(2, 4, vec![Table(4, 1025)]),
        Fault(3, 1, vec![Table(6, 0)]),
        Fault(3, 3, vec![Table(7, 5)]),
        Fault(4, 5, vec![Table(78, 10)]),
        Fault(5, 7, vec![Table(38, 5)]),
        Fault(6, 9, vec![Table(56, 9)]),
        // 7 reach: of 102 words.
        Fault(7, 0, vec![Length(0)]),
        Fault(7, 1, vec![Length(1)]),
        Fault(7, 3, vec![Length(3)]),
        Fault(7, 4, vec![Length(4)]),
        Fault(7, 101, vec![Length(101)]),
        Fault(7, 103, vec![Length(103)]),
        Fault(7, 102, vec![Word(3, 5)]),
        Fault(7, 102, vec![Word(3, 7)]),
        Fault(7, 102, vec![Word(3, 0)]),
        Fault(7, 102, vec![Word(3, 512)]),
        // 8 match.
        Fault(8, 0, vec![Word(0, 11)]),
        Fault(8, 0, vec![Word(0, -1)]),
        Fault(8, 1, vec![Word(1, 3)]),
        Fault(8, 1, vec![Word(1, MIN)]),
        Fault(8, 2, vec![Word(2, 1)]),
        Fault(8, 2, vec![Word(2, MAX)]),
        Fault(8, 3, vec![Word(3, 513)]),
        Fault(8, 3, vec![Word(3, -1)]),
        // 9 range: held words from 4, heads from 16, low ends from 34.
        Fault(9, 4, vec![Held(0, -2)]),
        Fault(9, 10, vec![Held(6, 4)]),
        Fault(9, 15, vec![Held(11, MAX)]),
        Fault(9, 15, vec![Held(11, MIN)]),
        Fault(9, 16, vec![Head(0, [-1, 0, 1])]),
        Fault(9, 16, vec![Head(0, [3, 0, 1])]),
        Fault(9, 26, vec![Head(3, [1, 4, 0])]),
        Fault(9, 26, vec![Head(3, [1, -1, 0])]),
        Fault(9, 33, vec![Head(5, [2, 1, 2])]),
        Fault(9, 33, vec![Head(5, [2, 1, -1])]),
        Fault(9, 34, vec![Row(0, 0, (1, 0))]),
        Fault(9, 47, vec![Row(6, 1, (4, 3))]),
        Fault(9, 57, vec![Row(11, 1, (MAX, MIN))]),
        Fault(9, 61, vec![Row(13, 1, (4, 3))]),
        Fault(9, 62, vec![Entry(0, (4, 3))]),
        Fault(9, 65, vec![Entry(3, (10, 9))]),
        Fault(9, 67, vec![Entry(5, (10, 9))]),
        // 10 order: by task, set, variable.
        Fault(10, 1, vec![Head(1, [0, 0, 1])]),
        Fault(10, 1, vec![Head(1, [0, 0, 0])]),
        Fault(10, 3, vec![Head(3, [1, 0, 1])]),
        Fault(10, 4, vec![Head(4, [0, 1, 1])]),
        Fault(10, 5, vec![Head(5, [2, 0, 0])]),
        Fault(10, 5, vec![Head(5, [1, 3, 1])]),
        // 11 start: first points 0, 4, 8; mutexes at 12 and 13.
        Fault(11, 0, vec![Held(0, 1)]),
        Fault(11, 4, vec![Held(4, -1)]),
        Fault(11, 8, vec![Held(8, 2)]),
        Fault(11, 0, vec![Row(0, 0, (1, 9))]),
        Fault(11, 4, vec![Row(4, 1, (-3, -1))]),
        Fault(11, 8, vec![Row(8, 1, (1, 3))]),
        Fault(11, 12, vec![Row(12, 0, (1, 9))]),
        Fault(11, 12, vec![Row(12, 1, (-3, -1))]),
        Fault(11, 13, vec![Row(13, 1, (1, 3))]),
        // 12 locks.
        Fault(12, 0, vec![Held(1, 0)]),
        Fault(12, 0, vec![Held(1, -1)]),
        Fault(12, 0, vec![Held(1, 3)]),
        Fault(12, 2, vec![Held(3, 2)]),
        Fault(12, 5, vec![Held(6, 3)]),
        Fault(12, 5, vec![Held(6, -1)]),
        Fault(12, 9, vec![Held(10, 0)]),
        Fault(12, 10, vec![Held(11, 1)]),
        Fault(12, 11, vec![Point(11, astray())]),
        // 13 flow.
        Fault(13, 0, vec![Row(1, 1, (-3, 2))]),
        Fault(13, 1, vec![Row(2, 0, (1, 9))]),
        Fault(13, 2, vec![Row(3, 0, (0, 8))]),
        Fault(13, 5, vec![Row(6, 0, (0, 8))]),
        Fault(13, 9, vec![Row(10, 0, (0, 8))]),
        Fault(13, 11, vec![Row(8, 0, (0, 8))]),
        // 14 write: written are 0..9 at 1, 5, 9, then -3..3 at 3, 0..3 at 7,
        // 0..0 at 11.
        Fault(14, 1, vec![Entry(1, (0, 8))]),
        Fault(14, 1, vec![Entry(1, (1, 9))]),
        Fault(14, 1, vec![Head(1, [0, 1, 1])]),
        Fault(14, 1, vec![Head(1, [0, 3, 0])]),
        Fault(14, 3, vec![Head(0, [0, 0, 0])]),
        Fault(14, 5, vec![Head(3, [1, 2, 0])]),
        Fault(14, 7, vec![Entry(2, (-3, 2))]),
        Fault(14, 7, vec![Entry(2, (1, 3))]),
        Fault(14, 9, vec![Head(5, [2, 3, 0])]),
        Fault(14, 11, vec![Entry(4, (1, 3))]),
        // 15 disturb: an entry of another task that is wider than what it
        // writes. Under mutex 0 it doesn't disturb the points that hold it.
        Fault(15, 0, vec![Entry(5, (0, 12))]),
        Fault(15, 0, vec![Entry(4, (-4, 3))]),
        Fault(15, 4, vec![Entry(1, (-1, 9))]),
        Fault(15, 7, vec![Entry(1, (0, 12)), Row(4, 0, (0, 12))]),
        Fault(15, 11, vec![
            Entry(1, (0, 12)), Row(4, 0, (0, 12)), Row(7, 0, (0, 12)), Row(8, 0, (0, 12)),
        ]),
        // 16 rest: unlocks at 2, 6 and 10, with the rest row of mutex 0 at 12;
        // entries from 12 on, with that of mutex 1 at 13.
        Fault(16, 2, vec![Row(12, 0, (0, 8))]),
        Fault(16, 2, vec![Row(12, 1, (-2, 3))]),
        Fault(16, 6, vec![Row(12, 0, (0, 8)), Point(1, lower(2)), Row(2, 0, (0, 8))]),
        Fault(16, 10, vec![
            Row(12, 0, (0, 8)), Point(1, lower(2)), Row(2, 0, (0, 8)),
            Point(5, lower(6)), Row(6, 0, (0, 8)),
        ]),
        Fault(16, 12, vec![Row(13, 1, (-2, 3))]),
        Fault(16, 12, vec![Row(13, 1, (-3, 2))]),
        Fault(16, 13, vec![Row(13, 0, (0, 8))]),
        Fault(16, 15, vec![Row(13, 0, (0, 8)), Point(1, lower(2)), Entry(1, (0, 8))]),
        Fault(16, 17, vec![
            Row(13, 0, (0, 8)), Point(1, lower(2)), Entry(1, (0, 8)),
            Point(5, lower(6)), Entry(3, (0, 8)),
        ]),
    ]
}

/// One of each, in the order in which they are tried.
fn in_turn() -> Vec<Fault> {
    vec![
        Fault(1, 4, vec![TableLength(4)]),
        Fault(2, 4, vec![Table(4, 1025)]),
        Fault(1, 105, vec![TableLength(105)]),
        Fault(3, 1, vec![Table(6, 0)]),
        Fault(3, 3, vec![Table(7, 5)]),
        Fault(4, 5, vec![Table(78, 10)]),
        Fault(5, 7, vec![Table(38, 5)]),
        Fault(6, 9, vec![Table(56, 9)]),
        Fault(7, 3, vec![Length(3)]),
        Fault(8, 1, vec![Word(1, 3)]),
        Fault(7, 101, vec![Length(101)]),
        Fault(9, 47, vec![Row(6, 1, (4, 3))]),
        Fault(10, 3, vec![Head(3, [1, 0, 0])]),
        Fault(11, 4, vec![Row(4, 1, (-3, -1))]),
        Fault(11, 13, vec![Row(13, 0, (1, 9))]),
        Fault(12, 5, vec![Held(6, 3)]),
        Fault(13, 9, vec![Row(10, 0, (0, 8))]),
        Fault(14, 7, vec![Entry(2, (-3, 2))]),
        Fault(15, 0, vec![Entry(5, (0, 12))]),
        Fault(16, 2, vec![Row(12, 0, (0, 8))]),
        Fault(16, 12, vec![Row(13, 1, (-2, 3))]),
    ]
}
