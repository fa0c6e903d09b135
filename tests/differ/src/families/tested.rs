//! Tests of one comparison, for which the check makes no rows: it compares the
//! targets' rows with the point's, in which at most two intervals are cut. And
//! tests of more than that, for most of which rows are made, so that both ways are held
//! to the same answers.

pub mod by_hand;
pub mod drawn;

use super::checks::{sort, Check};
use super::choices::LEAST;
use super::Tally;
use crate::answers::{Answer, Wanted};
use crate::build::*;
use peer::analysis::{condition, narrow, Ends as Lent, Raised};
use peer::generate::Random;
use peer::table::Table;
use peer::words::ALARM_WORDS;
use std::path::Path;

/// How many comparisons are drawn, and how many checks are made at least of
/// them alone, and of conditions that hold them.
const DRAWN: usize = 48_000;
const LEAST_ALONE: usize = 20_000;
const LEAST_WITHIN: usize = 5_000;

/// What is checked: a comparison alone, or a condition that it is in.
const ALONE: &str = "alone";
const WITHIN: &str = "in a condition";

/// The mutexes of a table, which only a test's held set speaks of.
const MUTEXES: usize = 2;

/// A held word and a row.
pub type Target = (i32, Row);

/// Some points that end, and one that tests a condition under a held set and
/// goes on to two more that end.
#[derive(Clone)]
pub struct Tested {
    pub condition: Tree,
    pub row: Row,
    pub before: usize,
    /// No mutex, where the test comes first.
    pub held: i32,
}

/// What a condition leaves of a row where it is true and where it is false, if
/// anything; and its alarms, which it has whichever way it goes.
#[derive(Clone)]
pub struct Left {
    pub rows: [Option<Row>; 2],
    pub alarms: Vec<[i32; 2]>,
}

impl Tested {
    fn table(&self) -> Vec<i32> {
        let at = self.before as i32;
        let tests = test(self.condition.clone(), at + 1, at + 2);
        let points = [vec![end(); self.before], vec![tests, end(), end()]].concat();
        let starts: Vec<i32> = self.row.iter().map(|&(low, _)| low).collect();
        table(&[points.len() as i32], &starts, MUTEXES as i32, &points)
    }

    pub fn check(&self, [yes, no]: [Target; 2], wanted: Wanted) -> Check {
        let held = [&vec![0; self.before], &[self.held, yes.0, no.0][..]].concat();
        let all = [rows(self.before + 1, &self.row), vec![yes.1, no.1]].concat();
        let rests = rows(MUTEXES, &self.row);
        let words = proposal(self.row.len() as i32, &held, &rests, &all, &[]);
        Check::wanting(self.table(), words, wanted)
    }

    /// By the peer's analysis.
    pub fn left(&self) -> Left {
        let nodes = Table::decode(&self.table()).expect("a valid table").nodes;
        let node = nodes.len() as u16 - 1;
        let (lows, highs): (Vec<i32>, Vec<i32>) = self.row.iter().copied().unzip();
        let row = Lent { lows: &lows, highs: &highs }.row();
        let rows = [true, false].map(|wanted| {
            let mut row = row;
            let some = narrow(&nodes, node, wanted, &mut row);
            let Lent { lows, highs } = row.ends();
            let ends = lows.iter().copied().zip(highs.iter().copied());
            some.then(|| ends.take(self.row.len()).collect())
        });
        let mut raised = Raised::default();
        condition(&nodes, node, &row, &mut raised);
        Left { rows, alarms: raised.pairs().collect() }
    }

    fn refused(&self, rule: u32) -> Wanted {
        Err((rule, self.before))
    }
}

impl Left {
    fn accepted(&self) -> Wanted {
        Ok(self.alarms.clone())
    }

    /// The sides that have an outcome, with their rows.
    fn outcomes(&self) -> impl Iterator<Item = (usize, &Row)> {
        let sides = self.rows.iter().enumerate();
        sides.filter_map(|(side, row)| Some((side, row.as_ref()?)))
    }
}

/// These targets with other ends of one variable in one of them.
fn with(targets: &[Target; 2], side: usize, variable: usize, ends: Ends) -> [Target; 2] {
    let mut targets = targets.clone();
    targets[side].1[variable] = ends;
    targets
}

/// These targets with another held word of one of them.
fn with_held(targets: &[Target; 2], side: usize, held: i32) -> [Target; 2] {
    let mut targets = targets.clone();
    targets[side].0 = held;
    targets
}

/// One more at the low end, and one more at the high end, where there is room.
fn wider((low, high): Ends) -> Vec<Ends> {
    let below = low.checked_sub(1).map(|low| (low, high));
    let above = high.checked_add(1).map(|high| (low, high));
    [below, above].into_iter().flatten().collect()
}

pub fn run(_bin: &Path, tally: &mut Tally) {
    for check in by_hand::cases() {
        tally.count("by hand");
        tally.case(check.differences(ALARM_WORDS), || check.shown());
    }
    let mut random = Random::new(20261123);
    for _ in 0..DRAWN {
        compare(tally, &mut random);
    }
    expect(tally);
}

/// A drawn comparison alone, in a condition that leaves the same rows, and with
/// another comparison, where the peer says what they leave.
fn compare(tally: &mut Tally, random: &mut Random) {
    let tested = drawn::comparison(random);
    let left = tested.left();
    drawn::sorts(&tested, &left).into_iter().for_each(|sort| tally.count(sort));
    checks(tally, random, &tested, &left, ALONE);
    let (alike, same) = drawn::alike(random, &tested, &left);
    tally.count(drawn::top(&alike));
    checks(tally, random, &alike, &same, WITHIN);
    let more = drawn::with_another(random, &tested);
    tally.count(drawn::top(&more));
    checks(tally, random, &more, &more.left(), WITHIN);
}

/// Whole checks of a test, by the answer that is wanted.
pub fn checks(tally: &mut Tally, random: &mut Random, tested: &Tested, left: &Left, whose: &str) {
    for check in drawn::checks(random, tested, left) {
        let said = sort(&Answer::check_by_hand(&check.wanted, ALARM_WORDS));
        tally.count(format!("checks {whose}"));
        tally.count(format!("{whose}: {said}"));
        tally.case(check.differences(ALARM_WORDS), || check.shown());
    }
}

fn expect(tally: &mut Tally) {
    tally.expect(&format!("checks {ALONE}"), LEAST_ALONE);
    tally.expect(&format!("checks {WITHIN}"), LEAST_WITHIN);
    for whose in [ALONE, WITHIN] {
        for said in ["accepted", "refused 12", "refused 13"] {
            tally.expect(&format!("{whose}: {said}"), LEAST);
        }
    }
    for (name, least) in drawn::names() {
        tally.expect(name, least);
    }
}
