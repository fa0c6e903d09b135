//! Compares the proved check and run with the independent implementation in
//! one process, case by case: `differ CASES SEED [SECONDS]`. With SECONDS,
//! rounds of CASES go on until so many have passed. `differ families BIN` runs
//! the families of cases, also on the programs in that folder, and `differ
//! cases` prints those of checks by hand.

mod answers;
mod build;
mod counts;
mod families;

use answers::{differences, Answer};
use counts::Counts;
use peer::generate::{case, Case, Random};
use rangecheck::STATE_WORDS;
use std::path::Path;
use std::process::ExitCode;
use std::time::{Duration, Instant};

/// How many differing cases are printed.
const SHOWN: usize = 5;

fn main() -> ExitCode {
    let given: Vec<String> = std::env::args().skip(1).collect();
    let given: Vec<&str> = given.iter().map(String::as_str).collect();
    let right = match given[..] {
        ["families", bin] => families::run(Path::new(bin)),
        ["cases"] => {
            families::print_cases();
            true
        }
        _ => match numbers(&given).as_deref() {
            Some(&[cases, seed]) => drawn(cases, seed, 0),
            Some(&[cases, seed, seconds]) => drawn(cases, seed, seconds),
            _ => {
                eprintln!("usage: differ CASES SEED [SECONDS] | families BIN | cases");
                return ExitCode::from(2);
            }
        },
    };
    ExitCode::from(u8::from(!right))
}

fn numbers(given: &[&str]) -> Option<Vec<u64>> {
    given.iter().map(|text| text.parse().ok()).collect()
}

/// Compares drawn cases, and says whether all were right.
fn drawn(cases: u64, seed: u64, seconds: u64) -> bool {
    let start = Instant::now();
    let mut random = Random::new(seed);
    // Of their own, so that the cases are those that the peer's census counts.
    let mut rooms = Random::new(!seed);
    let mut counts = Counts::default();
    loop {
        for _ in 0..cases {
            compare(&mut counts, &case(&mut random), answer_room(&mut rooms));
        }
        if start.elapsed() >= Duration::from_secs(seconds) {
            break;
        }
    }
    counts.print();
    counts.wrong == 0
}

/// The length of an answer slice: mostly just enough, else more or too few.
fn answer_room(random: &mut Random) -> usize {
    match random.below(10) {
        0 => random.below(STATE_WORDS),
        1 => STATE_WORDS + random.between(1, 16),
        _ => STATE_WORDS,
    }
}

fn compare(counts: &mut Counts, case: &Case, room: usize) {
    let checked = Answer::check_by_peer(&case.table, &case.proposal, case.room);
    let played = peer::run(&case.table, &case.schedule);
    let ran = Answer::run_by_peer(&played, room);
    counts.check(&checked);
    counts.run(&ran, &played);
    counts.remainders(&case.table, &checked, &played);
    let check = Answer::check(&case.table, &case.proposal, case.room);
    let run = Answer::run(&case.table, &case.schedule, room);
    let mut found = differences("check", &check, &checked);
    found.extend(differences("run", &run, &ran));
    if !found.is_empty() {
        counts.wrong += 1;
        if counts.wrong <= SHOWN {
            println!("{}\n  on an answer of {room} words and {case:?}", found.join("\n"));
        }
    }
}
