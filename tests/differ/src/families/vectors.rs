//! The given vectors: lines of two parts of words and an answer, apart by `|`;
//! those of proposals have the room before the answer.

use super::checks::Check;
use super::proposals::Proposal;
use super::runs::Run;
use peer::words::parse;

/// The first ones, and those given with requests 1 and 2. Line 12 of request 1's
/// checks, which came with `node 52 overflow` too, has the answer by request 2:
/// where its `v < v` is true, v isn't MIN, and the branch's quotient fits.
const CHECKS: [&str; 3] = [
    include_str!("../../../vectors/check.txt"),
    include_str!("../../../vectors/after-request-1/check.txt"),
    include_str!("../../../vectors/after-request-2/check.txt"),
];
const RUNS: [&str; 3] = [
    include_str!("../../../vectors/run.txt"),
    include_str!("../../../vectors/after-request-1/run.txt"),
    include_str!("../../../vectors/after-request-2/run.txt"),
];

const PROPOSALS: &str = include_str!("../../../vectors/after-request-4/propose.txt");

pub fn checks() -> Vec<Check> {
    parts(CHECKS).map(|(table, proposal, answer)| Check::new(table, proposal, answer)).collect()
}

pub fn runs() -> Vec<Run> {
    parts(RUNS).map(|(table, schedule, answer)| Run::told(table, schedule, answer)).collect()
}

/// With the room of each.
pub fn proposals() -> Vec<(Proposal, usize)> {
    let words = |text: &str| parse(text).expect("words");
    let proposal = |line: &'static str| {
        let parts: Vec<&str> = line.split('|').map(str::trim).collect();
        let [table, thresholds, room, answer] = parts[..] else { panic!("four parts: {line}") };
        let proposal = Proposal::told(words(table), words(thresholds), answer);
        (proposal, room.parse().expect("a room"))
    };
    PROPOSALS.lines().map(proposal).collect()
}

type Parts = (Vec<i32>, Vec<i32>, &'static str);

fn parts(texts: [&'static str; 3]) -> impl Iterator<Item = Parts> {
    texts.into_iter().flat_map(str::lines).map(|line| {
        let parts: Vec<&str> = line.split('|').map(str::trim).collect();
        let [first, second, answer] = parts[..] else { panic!("three parts: {line}") };
        let words = |text| parse(text).expect("words");
        (words(first), words(second), answer)
    })
}
