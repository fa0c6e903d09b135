//! Times the proved check, proposer and run against the independent implementation, in
//! one process and on the same inputs, the whole program against `cat`, and how
//! checks grow with their sizes and with deep formulas: `bench [RANGECHECK]`.

mod growth;
mod inputs;
mod nests;
mod program;
mod schedule;
mod timing;

use inputs::{Check, Pair, Proposal, Run};
use peer::words::ALARM_WORDS;
use peer::{Proposed, Verdict};
use rangecheck::{check_into, propose_into, run_into, PROPOSAL_WORDS, STATE_WORDS};
use std::hint::black_box;
use std::path::{Path, PathBuf};
use timing::{in_turns, ratio, Times};

fn main() {
    let root = Path::new(env!("CARGO_MANIFEST_DIR")).join("..");
    let program = std::env::args_os().nth(1).map(PathBuf::from);
    let program = program.unwrap_or_else(|| root.join("target/bin/rangecheck"));
    let tower = inputs::tower(&root);

    head("peer");
    for check in inputs::checks(&tower) {
        line(&check.name, words(&check.pairs), &time_check(&check));
    }
    let proposals = inputs::proposals(&tower);
    for proposal in &proposals {
        line(&proposal.name, words(&proposal.pairs), &time_proposal(proposal));
    }
    let runs = inputs::runs(&tower);
    for run in &runs {
        line(&run.name, words(&run.pairs), &time_run(run));
    }
    println!();
    for Proposal { name, passes, .. } in &proposals {
        println!("{name}: {passes} passes");
    }
    runs.iter().for_each(describe);
    println!();

    let files = root.join("target/bench");
    std::fs::create_dir_all(&files).expect("a directory for the inputs");
    head("cat");
    for (name, pair) in [("tower", tower), ("largest", inputs::largest_pair())] {
        let times = program::compare(&program, &files.join(format!("{name}.bin")), &pair);
        line(&format!("program on the {name}"), words(&[pair]), &times);
    }
    println!();

    head("peer");
    for check in growth::checks().iter().chain(&nests::checks()) {
        line(&check.name, words(&check.pairs), &time_check(check));
    }
}

/// Both sides' checks of the same proposals, after a look that they agree.
fn time_check(check: &Check) -> [Times; 2] {
    let (mut ours, mut theirs) = ([0; ALARM_WORDS], [0; ALARM_WORDS]);
    for (table, proposal) in &check.pairs {
        let count = check_into(table, proposal, &mut ours).expect("it is accepted");
        assert_eq!(peer::check(table, proposal, &mut theirs), Verdict::Accepted { count });
        assert_eq!(ours, theirs, "{}", check.name);
    }
    in_turns(
        || {
            for (table, proposal) in &check.pairs {
                let (table, proposal) = (black_box(table), black_box(proposal));
                let _ = black_box(check_into(table, proposal, black_box(&mut ours)));
            }
        },
        || {
            for (table, proposal) in &check.pairs {
                let (table, proposal) = (black_box(table), black_box(proposal));
                black_box(peer::check(table, proposal, black_box(&mut theirs)));
            }
        },
    )
}

/// The same for proposals.
fn time_proposal(proposal: &Proposal) -> [Times; 2] {
    let mut words = [0; PROPOSAL_WORDS];
    for (table, thresholds) in &proposal.pairs {
        let written = propose_into(table, thresholds, &mut words).expect("it is made");
        let by_peer = peer::propose(table, thresholds, PROPOSAL_WORDS).expect("it is made");
        let ours =
            Proposed { words: words[..written.words].into(), passes: written.passes as usize };
        assert_eq!(ours, by_peer, "{}", proposal.name);
    }
    in_turns(
        || {
            for (table, thresholds) in &proposal.pairs {
                let (table, thresholds) = (black_box(table), black_box(thresholds));
                let _ = black_box(propose_into(table, thresholds, black_box(&mut words)));
            }
        },
        || {
            for (table, thresholds) in &proposal.pairs {
                let (table, thresholds) = (black_box(table), black_box(thresholds));
                let _ = black_box(peer::propose(table, thresholds, PROPOSAL_WORDS));
            }
        },
    )
}

/// The same for runs.
fn time_run(run: &Run) -> [Times; 2] {
    let mut state = [0; STATE_WORDS];
    for (table, schedule) in &run.pairs {
        run_into(table, schedule, &mut state).expect("a valid table");
        let words = peer::run(table, schedule).expect("a valid table").words();
        assert!(words.into_iter().map(i64::from).eq(state), "{}", run.name);
    }
    in_turns(
        || {
            for (table, schedule) in &run.pairs {
                let (table, schedule) = (black_box(table), black_box(schedule));
                let _ = black_box(run_into(table, schedule, black_box(&mut state)));
            }
        },
        || {
            for (table, schedule) in &run.pairs {
                let _ = black_box(peer::run(black_box(table), black_box(schedule)));
            }
        },
    )
}

fn words(pairs: &[Pair]) -> usize {
    pairs.iter().map(|(table, other)| table.len() + other.len()).sum()
}

fn head(other: &str) {
    println!(
        "| {:<43} | {:>6} | {:>9} | {other:>9} | {:>5} | {:>13} | {:>13} |",
        "case",
        "words",
        "proved",
        "ratio",
        "proved median",
        format!("{other} median"),
    );
    println!("|---|---:|---:|---:|---:|---:|---:|");
}

fn line(name: &str, words: usize, times: &[Times; 2]) {
    let [proved, other] = times;
    println!(
        "| {name:<43} | {words:>6} | {:>9.2?} | {:>9.2?} | {:>5.2} | {:>13.2?} | {:>13.2?} |",
        proved.least,
        other.least,
        ratio(times),
        proved.median,
        other.median,
    );
}

/// What a run was of: a run in which no task moves would only read words.
fn describe(run: &Run) {
    let [steps, moved, points] = run.motions.iter().fold([0; 3], |sum, motion| {
        [sum[0] + motion.steps, sum[1] + motion.moved, sum[2] + motion.points]
    });
    let tables = run.motions.len() as f64;
    println!(
        "{}: {steps} steps, of which {moved} move a task, and in the second half {:.1} points a table in use",
        run.name,
        points as f64 / tables,
    );
}
