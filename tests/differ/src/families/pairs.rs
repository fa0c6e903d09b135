//! Conditions of both, either and not in one another. The analysis narrows one
//! row in its place by the truth that is asked for, and joins what the opposite
//! leaves to another; each way on which that can go is counted. A condition is
//! asked of the program `cases_test`, is the test of a point, and is that of a
//! choice whose branches read the row.

mod by_hand;
mod drawn;
mod paths;

use super::choices::LEAST;
use super::tested::{self, by_hand::every_check, Tested};
use super::trees::{answers, decoded, Case, Mode, WITH_NONE};
use super::Tally;
use crate::build::{flatten, Row};
use peer::analysis::Ends as Lent;
use peer::generate::Random;
use peer::words::ALARM_WORDS;
use std::path::Path;

/// How many conditions are drawn.
const DRAWN: usize = 24_000;

/// How a condition is checked whole.
const TEST: &str = "as a test";
const CHOICE: &str = "as a choice";

/// What is asked of a condition on a row.
const MODES: [Mode; 3] = [Mode::Decision, Mode::Narrowed(false), Mode::Narrowed(true)];

pub fn run(bin: &Path, tally: &mut Tally) {
    let mut cases = Vec::new();
    for given in by_hand::given() {
        cases.extend(given.cases());
        check_given(tally, &given);
    }
    cases.extend(by_hand::with_none());
    let mut random = Random::new(20261124);
    for _ in 0..DRAWN {
        let tested = drawn::tested(&mut random);
        cases.extend(asked(&mut random, &tested));
        count_paths(tally, &tested);
        tested::checks(tally, &mut random, &tested, &tested.left(), TEST);
        check_choice(tally, &mut random, &tested);
    }
    let lines = answers(bin, tally, &cases.iter().collect::<Vec<_>>());
    for (case, line) in cases.iter().zip(&lines) {
        tally.count(case.sort());
        tally.case(case.differences(line), || format!("{:?}", case.words()));
    }
    expect(tally);
}

/// A condition by hand as a test, at a first point and at a later one, and as a
/// choice.
fn check_given(tally: &mut Tally, given: &by_hand::Given) {
    tally.count("by hand");
    for (before, held) in [(0, 0), (2, 3)] {
        let (condition, row) = (given.condition.clone(), given.row.clone());
        let tested = Tested { condition, row, before, held };
        for check in every_check(&tested, &given.left) {
            tally.case(check.differences(ALARM_WORDS), || check.shown());
        }
    }
    for (choice, foreseen) in given.choices() {
        choice.check(tally, &foreseen);
    }
}

/// A drawn condition on its row, and on the row with an interval of which the
/// ends are handed the wrong way round.
fn asked(random: &mut Random, tested: &Tested) -> Vec<Case> {
    let rows = [tested.row.clone(), drawn::with_none(random, &tested.row)];
    let of = |row: &Row| MODES.map(|mode| Case::of(mode, &tested.condition, row, None));
    rows.iter().flat_map(of).collect()
}

/// As the program and a choice take it. A test starts under the 'not' around it.
fn count_paths(tally: &mut Tally, tested: &Tested) {
    let mut nodes = Vec::new();
    let node = flatten(&tested.condition, &mut nodes) as u16;
    let (lows, highs): (Vec<i32>, Vec<i32>) = tested.row.iter().copied().unzip();
    let row = Lent { lows: &lows, highs: &highs }.row();
    paths::taken(&decoded(&nodes), node, &row).into_iter().for_each(|name| tally.count(name));
}

/// As the condition of a choice, by the peer's analysis.
fn check_choice(tally: &mut Tally, random: &mut Random, tested: &Tested) {
    let choice = drawn::choice_by(random, tested);
    let foreseen = choice.foreseen();
    let said = if foreseen.written.is_some() { "written" } else { "none" };
    tally.count(format!("{CHOICE}: {said}"));
    choice.check(tally, &foreseen);
}

fn expect(tally: &mut Tally) {
    for said in ["accepted", "refused 12", "refused 13"] {
        tally.expect(&format!("{TEST}: {said}"), LEAST);
    }
    for said in ["written", "none"] {
        tally.expect(&format!("{CHOICE}: {said}"), LEAST);
    }
    for mode in ["decision", "narrowed no", "narrowed yes"] {
        tally.expect(&format!("{mode}{WITH_NONE}"), LEAST);
    }
    for name in paths::names() {
        tally.expect(name, LEAST);
    }
}
