//! Request 3's law: two rows that agree on every variable read anywhere in a
//! condition give it the same decision and alarms. More than that holds, and is
//! tried here: also of rows with empty intervals, which agree whatever their ends
//! are; also of the value and alarms of arithmetic; and the rows that a condition
//! leaves of the two agree on what it reads.

mod by_hand;
mod drawn;
mod places;

use super::choices::LEAST;
use super::trees::{answers, decoded, Case, Mode};
use super::Tally;
use crate::build::Ends;
use peer::analysis::reads;
use peer::generate::Random;
use std::path::Path;

/// How many trees are drawn. More than half of them are conditions, and of those
/// three things are asked.
const DRAWN: usize = 36_000;

/// What is asked of a tree on three rows: on any, on one that agrees with it on
/// what the tree reads and differs in all else, and on one that differs from the
/// first in a single variable.
pub struct Question {
    cases: [Case; 3],
    changed: usize,
}

/// What is counted of the first two rows.
const WHOLE: &str = "rows without empty intervals";
const EMPTY_UNREAD: &str = "rows with an empty interval that isn't read";
const EMPTY_READ: &str = "rows with an empty interval that is read";

/// What is counted of the answer on the first, and of that on the third.
const SAID: [(&str, &str); 5] = [
    ("decision 1 0", "only true"),
    ("decision 0 1", "only false"),
    ("decision 1 1", "undecided"),
    ("decision 0 0", "no decision"),
    ("value none", "no value"),
];
const ALARM: &str = "with an alarm";
const ANOTHER: &str = "another answer by one variable";

pub fn run(bin: &Path, tally: &mut Tally) {
    let mut random = Random::new(20261122);
    let mut questions = by_hand::questions();
    questions.extend((0..DRAWN).flat_map(|_| drawn::questions(&mut random)));
    let cases: Vec<&Case> = questions.iter().flat_map(|question| &question.cases).collect();
    let lines = answers(bin, tally, &cases);
    for (question, lines) in questions.iter().zip(lines.as_chunks().0) {
        question.answered(tally, lines);
    }
    let said = SAID.map(|(_, name)| name);
    let others = [WHOLE, EMPTY_UNREAD, EMPTY_READ, ALARM, ANOTHER];
    for name in places::names().into_iter().chain(said).chain(others) {
        tally.expect(name, LEAST);
    }
}

impl Question {
    fn answered(&self, tally: &mut Tally, lines: &[String; 3]) {
        let [first, second, _] = &self.cases;
        let read = reads(&decoded(&first.nodes), first.node as u16);
        let mut unchanged = read;
        unchanged[self.changed] = false;
        let shows = !agree(&lines[0], &lines[2], &unchanged);
        let by_hand = first.answer.is_some();
        let mut found = self.differences(&read, lines);
        if shows && !read[self.changed] {
            found.push(format!("{}, but {} by what isn't read", lines[0], lines[2]));
        }
        if by_hand && !shows {
            found.push(format!("{} and no other answer by what is read", lines[0]));
        }
        if by_hand {
            tally.count("by hand");
        } else if !matches!(first.mode, Mode::Narrowed(_)) {
            self.count(tally, &read, &lines[0], shows);
        }
        tally.case(found, || format!("{:?} and {:?}", first.words(), second.words()));
    }

    /// How the answers differ from the peer's or from those written out, the
    /// second from the first, and what is read from what a walk over the words
    /// finds.
    fn differences(&self, read: &[bool], lines: &[String; 3]) -> Vec<String> {
        let each = self.cases.iter().zip(lines).flat_map(|(case, line)| case.differences(line));
        let mut found: Vec<String> = each.collect();
        if !agree(&lines[0], &lines[1], read) {
            found.push(format!("{}, but {} on a row that agrees", lines[0], lines[1]));
        }
        let only = self.only();
        if (0..read.len()).any(|variable| read[variable] != only.contains_key(&variable)) {
            found.push(format!("{read:?} are read, not {:?}", only.keys()));
        }
        found
    }

    fn only(&self) -> places::Only {
        places::only(&self.cases[0].nodes, self.cases[0].node)
    }

    /// Counts what a value or a decision is an example of. A place in which alone
    /// the changed variable is read counts where that has given another answer.
    fn count(&self, tally: &mut Tally, read: &[bool], line: &str, shows: bool) {
        let [first, second, _] = &self.cases;
        tally.count(row_sort(read, [&first.row, &second.row]));
        let said = SAID.iter().filter(|(start, _)| line.starts_with(start));
        said.for_each(|(_, name)| tally.count(*name));
        if line.contains("alarm") {
            tally.count(ALARM);
        }
        if shows {
            tally.count(ANOTHER);
            let places = self.only().remove(&self.changed).into_iter().flatten();
            places.for_each(|place| tally.count(place));
        }
    }
}

fn empty((low, high): Ends) -> bool {
    low > high
}

fn row_sort(read: &[bool], rows: [&[Ends]; 2]) -> &'static str {
    let any = |wanted| {
        let ends = rows.into_iter().flat_map(|row| row.iter().zip(read));
        ends.filter(|(_, &read)| read == wanted).any(|(&ends, _)| empty(ends))
    };
    match (any(true), any(false)) {
        (true, _) => EMPTY_READ,
        (_, true) => EMPTY_UNREAD,
        _ => WHOLE,
    }
}

/// Whether two answers are the same, of rows those of the marked variables: both
/// rows none, or with the same intervals.
fn agree(one: &str, other: &str, on: &[bool]) -> bool {
    let same = |(&a, &b): (&Ends, &Ends)| a == b || empty(a) && empty(b);
    match (row_of(one), row_of(other)) {
        (Some(one), Some(other)) => {
            let mut pairs = one.iter().zip(&other).zip(on).filter(|(_, &on)| on);
            one.len() == other.len() && pairs.all(|(pair, _)| same(pair))
        }
        _ => one == other,
    }
}

/// The ends in a line, if it is that of a row that is left.
fn row_of(line: &str) -> Option<Vec<Ends>> {
    let words = line.strip_prefix("row ")?.split(' ').map(str::parse);
    let words: Vec<i32> = words.collect::<Result<_, _>>().ok()?;
    Some(words.as_chunks().0.iter().map(|&[low, high]| (low, high)).collect())
}

#[cfg(test)]
mod tests {
    use super::*;

    #[test]
    fn values_and_decisions_agree_by_their_texts() {
        assert!(agree("value 0 4 alarm 2 2", "value 0 4 alarm 2 2", &[true]));
        assert!(!agree("value 0 4 alarm 2 2", "value 0 4", &[false]));
        assert!(!agree("decision 1 0", "decision 1 1", &[false]));
        assert!(!agree("value none", "value 3 2", &[true]));
    }

    #[test]
    fn rows_agree_by_the_intervals_of_marked_variables() {
        assert!(agree("row none", "row none", &[true, true]));
        assert!(!agree("row none", "row 0 4 0 9", &[false, false]));
        assert!(agree("row 0 4 0 9", "row 0 4 1 9", &[true, false]));
        assert!(!agree("row 0 4 0 9", "row 0 4 1 9", &[false, true]));
        assert!(!agree("row 0 4", "row 0 4 0 9", &[true, true]));
        // Empty ones, of any ends.
        assert!(agree("row 3 2 0 9", "row 9 -9 0 9", &[true, true]));
        assert!(!agree("row 3 2 0 9", "row 2 3 0 9", &[true, true]));
    }
}
