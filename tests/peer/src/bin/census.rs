//! What the generator reaches: `census CASES SEED` counts verdicts, alarms and
//! stops of so many cases, and what a proposer says to as many asks.

use peer::generate::{ask, case, Random};
use peer::words::{trade, ALARM_WORDS};
use peer::Verdict;

fn main() {
    let mut arguments = std::env::args().skip(1).map(|text| text.parse().expect("a number"));
    let cases: u64 = arguments.next().unwrap_or(20_000);
    let seed: u64 = arguments.next().unwrap_or(1);
    let mut random = Random::new(seed);
    let mut refused = [0; 17];
    let (mut accepted, mut alarming) = (0, 0);
    let mut alarms = [0; 2];
    // Refusals 11 and 16 name a row or entry past the points, 3 the tasks.
    let mut past = [0; 17];
    let (mut played, mut stops) = (0, [0; 2]);
    for _ in 0..cases {
        let case = case(&mut random);
        let mut buffer = vec![0; case.room];
        match peer::check(&case.table, &case.proposal, &mut buffer) {
            Verdict::Accepted { count } => {
                accepted += 1;
                alarming += usize::from(count > 0);
                buffer
                    .chunks_exact(2)
                    .take(count)
                    .for_each(|pair| alarms[pair[1] as usize - 1] += 1);
            }
            Verdict::Refused { rule, place } => {
                refused[rule as usize - 1] += 1;
                let limit = match rule {
                    3 => case.table[0],
                    11 | 16 => case.table[3],
                    _ => i32::MAX,
                };
                past[rule as usize - 1] += usize::from(place as i64 >= i64::from(limit));
            }
        }
        if let Ok(state) = peer::run(&case.table, &case.schedule) {
            played += 1;
            state
                .stop_kinds
                .iter()
                .filter(|&&kind| kind != 0)
                .for_each(|kind| stops[kind - 1] += 1);
        }
    }
    println!("cases {cases}, seed {seed}");
    for (rule, (count, past)) in (1..).zip(refused.into_iter().zip(past)) {
        let word = trade(rule);
        match rule {
            3 => println!("refused {rule} {word}: {count}, of these for the sum: {past}"),
            11 => println!("refused {rule} {word}: {count}, of these for a rest row: {past}"),
            16 => println!("refused {rule} {word}: {count}, of these for an entry: {past}"),
            _ => println!("refused {rule} {word}: {count}"),
        }
    }
    println!("accepted: {accepted}, of these with alarms: {alarming}");
    println!("alarms: overflow {}, zero {}", alarms[0], alarms[1]);
    println!("runs played: {played}, stops: overflow {}, zero {}", stops[0], stops[1]);
    proposals(cases, seed);
}

/// The proposer's answers, and how far its proposals go.
fn proposals(asks: u64, seed: u64) {
    let mut random = Random::new(seed);
    let mut refused = [0; 21];
    let (mut made, mut taken, mut unreached, mut passes, mut most) = (0, 0, 0, 0, 0);
    for _ in 0..asks {
        let ask = ask(&mut random);
        match peer::propose(&ask.table, &ask.thresholds, ask.room) {
            Ok(proposed) => {
                made += 1;
                let verdict = peer::check(&ask.table, &proposed.words, &mut [0; ALARM_WORDS]);
                taken += usize::from(matches!(verdict, Verdict::Accepted { .. }));
                let points = proposed.words[0] as usize;
                unreached += usize::from(proposed.words[4..4 + points].contains(&-1));
                passes += proposed.passes;
                most = most.max(proposed.passes);
            }
            Err((rule, _)) => refused[rule as usize] += 1,
        }
    }
    let of_tables: usize = refused[1..=6].iter().sum();
    println!("asks of a proposer: {asks}, refused for the table: {of_tables}");
    for (rule, count) in refused.iter().enumerate().skip(18) {
        println!("refused {rule}: {count}");
    }
    println!("proposed: {made}, of these accepted: {taken}, with an unreached point: {unreached}");
    println!("passes: {passes}, at most {most} for one");
}
