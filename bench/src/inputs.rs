//! What is checked, proposed and run. Everything drawn depends on the seed alone.

use crate::schedule::{schedule, Motion};
use peer::generate::{case, largest, table, Random};
use peer::propose;
use peer::table::{Node, Table};
use peer::words::{ALARM_WORDS, PROPOSAL_WORDS};
use peer::Verdict;
use std::collections::BTreeSet;
use std::path::Path;
use std::process::Command;

const SEED: u64 = 1;

/// How many drawn tables and proposals are summed up.
const DRAWN: usize = 200;

/// The most that a proposer takes.
const THRESHOLDS: usize = 32;

const LONG: usize = 100_000;
const SHORT: usize = 1_000;

/// A drawn table is taken if its run keeps so many points in use: one that
/// goes round at a single point shows little.
const BUSY: usize = 6;

/// How many of the largest tables are looked at for one that keeps on.
const LARGEST: u64 = 40;

/// A table, and a proposal, thresholds or a schedule.
pub type Pair = (Vec<i32>, Vec<i32>);

pub struct Check {
    pub name: String,
    pub pairs: Vec<Pair>,
}

pub struct Proposal {
    pub name: String,
    pub pairs: Vec<Pair>,
    /// Of all together.
    pub passes: usize,
}

pub struct Run {
    pub name: String,
    pub pairs: Vec<Pair>,
    pub motions: Vec<Motion>,
}

/// The tower's table and proposal.
pub fn tower(root: &Path) -> Pair {
    let output = Command::new(root.join("tools/tower"))
        .arg("encode")
        .arg(root.join("examples/tower/tower.txt"))
        .output()
        .expect("tools/tower starts");
    assert!(output.status.success(), "{}", String::from_utf8_lossy(&output.stderr));
    let word = |bytes: &[u8; 4]| i32::from_le_bytes(*bytes);
    let words: Vec<i32> = output.stdout.as_chunks().0.iter().map(word).collect();
    let (table, proposal) = words[2..].split_at(words[0] as usize);
    (table.to_vec(), proposal.to_vec())
}

/// The table and proposal with the most to do in a check.
pub fn largest_pair() -> Pair {
    largest(SEED)
}

pub fn checks(tower: &Pair) -> Vec<Check> {
    let check = |name: String, pairs| Check { name, pairs };
    vec![
        check("check of the tower".into(), vec![tower.clone()]),
        check(format!("checks of {DRAWN} drawn proposals, accepted"), accepted()),
        check("check of the largest".into(), vec![largest_pair()]),
    ]
}

fn accepted() -> Vec<Pair> {
    let mut random = Random::new(SEED);
    let pairs =
        std::iter::repeat_with(|| case(&mut random)).map(|case| (case.table, case.proposal));
    let fits = |(table, proposal): &Pair| {
        let verdict = peer::check(table, proposal, &mut [0; ALARM_WORDS]);
        matches!(verdict, Verdict::Accepted { .. })
    };
    pairs.filter(fits).take(DRAWN).collect()
}

pub fn proposals(tower: &Pair) -> Vec<Proposal> {
    let proposal = |name: String, tables: Vec<Vec<i32>>| {
        let pairs: Vec<Pair> = tables.into_iter().map(with_thresholds).collect();
        let passes = pairs.iter().filter_map(passes).sum();
        Proposal { name, pairs, passes }
    };
    vec![
        proposal("proposal for the tower".into(), vec![tower.0.clone()]),
        proposal(format!("proposals for {DRAWN} drawn tables"), joinless()),
        proposal("proposal for a largest table".into(), vec![largest_pair().0]),
    ]
}

/// With the table's own numbers and those beside them, as `tools/tower` takes
/// them: of more than 32 as many, at equal steps.
fn with_thresholds(words: Vec<i32>) -> Pair {
    let table = Table::decode(&words).expect("a valid table");
    let mut numbers = table.starts[..table.variables].to_vec();
    for node in &table.nodes {
        match *node {
            Node::Constant(value) => numbers.push(value),
            Node::Input(interval) => numbers.extend([interval.low(), interval.high()]),
            _ => {}
        }
    }
    let beside = |z: i32| [z.saturating_sub(1), z, z.saturating_add(1)];
    let rising: BTreeSet<i32> = numbers.into_iter().flat_map(beside).collect();
    let within = |z: &i32| ![i32::MIN, i32::MAX].contains(z);
    let rising: Vec<i32> = rising.into_iter().filter(within).collect();
    let thresholds = match rising.len() {
        ..=THRESHOLDS => rising,
        count => (0..THRESHOLDS).map(|k| rising[k * (count - 1) / (THRESHOLDS - 1)]).collect(),
    };
    (words, thresholds)
}

fn passes((table, thresholds): &Pair) -> Option<usize> {
    propose(table, thresholds, PROPOSAL_WORDS).ok().map(|proposed| proposed.passes)
}

/// Drawn tables to whose points no two walks bring different held sets.
fn joinless() -> Vec<Vec<i32>> {
    let mut random = Random::new(SEED);
    let tables = std::iter::repeat_with(|| table(&mut random));
    tables.filter(|table| propose(table, &[], PROPOSAL_WORDS).is_ok()).take(DRAWN).collect()
}

pub fn runs(tower: &Pair) -> Vec<Run> {
    let mut random = Random::new(SEED);
    let run = |name: String, played: Vec<(Pair, Motion)>| {
        let (pairs, motions) = played.into_iter().unzip();
        Run { name, pairs, motions }
    };
    vec![
        run(format!("run of the tower, {LONG} words"), vec![play(&mut random, &tower.0, LONG)]),
        run(format!("runs of {DRAWN} drawn tables, {SHORT} words each"), drawn(&mut random)),
        run(format!("run of a largest table, {LONG} words"), vec![busiest(&mut random)]),
    ]
}

fn play(random: &mut Random, words: &[i32], length: usize) -> (Pair, Motion) {
    let table = Table::decode(words).expect("a valid table");
    let schedule = schedule(random, &table, length);
    let motion = Motion::of(&table, &schedule);
    ((words.to_vec(), schedule), motion)
}

/// Drawn tables whose tasks keep on, in loops that are not too short.
fn drawn(random: &mut Random) -> Vec<(Pair, Motion)> {
    let plays = std::iter::repeat_with(|| {
        let words = table(random);
        play(random, &words, SHORT)
    });
    let takes = |motion: &Motion| motion.keeps_on() && motion.points >= BUSY;
    plays.filter(|(_, motion)| takes(motion)).take(DRAWN).collect()
}

/// Of some largest tables the one that keeps the most points in use.
fn busiest(random: &mut Random) -> (Pair, Motion) {
    (SEED..SEED + LARGEST)
        .map(|seed| play(random, &largest(seed).0, LONG))
        .filter(|(_, motion)| motion.keeps_on())
        .max_by_key(|(_, motion)| motion.points)
        .expect("some largest table keeps on")
}
