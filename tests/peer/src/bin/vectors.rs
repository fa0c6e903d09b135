//! Runs given vectors: `vectors KIND FILE ..`, where a kind is check, run or
//! propose. The parts of a line are apart by `|`, the last of them the answer.

use peer::words::{lines, parse, proposed, shown, ALARM_WORDS};
use std::process::ExitCode;

fn main() -> ExitCode {
    let arguments: Vec<String> = std::env::args().skip(1).collect();
    let pairs = arguments.chunks_exact(2);
    if arguments.is_empty() || !pairs.remainder().is_empty() {
        eprintln!("usage: vectors KIND FILE ..");
        return ExitCode::FAILURE;
    }
    let wrong: usize = pairs.map(|pair| compare(&pair[0], &pair[1])).sum();
    ExitCode::from(u8::from(wrong > 0))
}

/// Of the parts before the answer, if there are as many as the kind has.
type Answer = fn(&[Vec<i32>]) -> Option<String>;

fn checked(parts: &[Vec<i32>]) -> Option<String> {
    let [table, proposal] = parts else { return None };
    let mut alarms = [0; ALARM_WORDS];
    let verdict = peer::check(table, proposal, &mut alarms);
    Some(lines(verdict, &alarms).join(";"))
}

fn played(parts: &[Vec<i32>]) -> Option<String> {
    let [table, schedule] = parts else { return None };
    Some(match peer::run(table, schedule) {
        Ok(state) => shown(&state.words()),
        Err((rule, place)) => format!("refused {rule} at {place}"),
    })
}

fn propose(parts: &[Vec<i32>]) -> Option<String> {
    let [table, thresholds, room] = parts else { return None };
    let &[room] = &room[..] else { return None };
    Some(proposed(&peer::propose(table, thresholds, usize::try_from(room).ok()?)))
}

/// Says which lines differ and gives their number.
fn compare(kind: &str, path: &str) -> usize {
    let answer: Answer = match kind {
        "check" => checked,
        "run" => played,
        "propose" => propose,
        _ => panic!("{kind} is no kind: check, run or propose"),
    };
    let text = std::fs::read_to_string(path).unwrap_or_else(|error| panic!("{path}: {error}"));
    let (mut seen, mut wrong) = (0, 0);
    for (number, line) in (1..).zip(text.lines()) {
        let mut parts: Vec<&str> = line.split('|').map(str::trim).collect();
        let expected = parts.pop().expect("a line has a part");
        let words: Option<Vec<Vec<i32>>> = parts.into_iter().map(parse).collect();
        let given = words.and_then(|words| answer(&words));
        let given = given.unwrap_or_else(|| panic!("{path}: line {number} is no {kind}"));
        seen += 1;
        if given != expected {
            wrong += 1;
            println!("{kind} line {number}: {given}, expected {expected}");
        }
    }
    println!("{kind}: {seen} lines, {wrong} mismatches");
    wrong
}
