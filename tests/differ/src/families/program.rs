//! The printing program as a process: all checks of the other families, input
//! that is short, long or comes in small pieces, and input that doesn't end.

use super::checks::{self, largest, sort, Check};
use super::Tally;
use crate::answers::Answer;
use crate::build::{MAX, MIN};
use peer::words::ALARM_WORDS;
use std::io::{Read, Write};
use std::path::Path;
use std::process::{Child, Command, Stdio};
use std::sync::mpsc;
use std::time::Duration;

/// Longer than any pipe holds.
const WHOLE: usize = 1 << 20;

/// How long a program may take over one input.
const PATIENCE: Duration = Duration::from_secs(15);

/// Words as bytes, little-endian.
pub fn bytes(parts: &[&[i32]]) -> Vec<u8> {
    parts.iter().copied().flatten().flat_map(|word| word.to_le_bytes()).collect()
}

fn input(table: &[i32], proposal: &[i32]) -> Vec<u8> {
    bytes(&[&[table.len() as i32, proposal.len() as i32], table, proposal])
}

fn started(program: &Path) -> Child {
    let command = Command::new(program).stdin(Stdio::piped()).stdout(Stdio::piped()).spawn();
    command.unwrap_or_else(|error| panic!("{}: {error}", program.display()))
}

/// Everything that is printed, or what went wrong. The program is ended if it
/// takes too long.
fn printed(mut child: Child) -> String {
    let mut output = child.stdout.take().expect("a pipe");
    let (send, received) = mpsc::channel();
    let reader = std::thread::spawn(move || {
        let mut text = String::new();
        let read = output.read_to_string(&mut text).map(|_| text);
        // Nobody listens any more if it took too long.
        let _ = send.send(read);
    });
    let text = received.recv_timeout(PATIENCE);
    if text.is_err() {
        child.kill().expect("it can be ended");
    }
    reader.join().expect("the reader ends with the program");
    let status = child.wait().expect("it was started");
    match text {
        Ok(Ok(text)) if status.success() => text,
        Ok(Ok(_)) => format!("{status}"),
        Ok(Err(error)) => format!("{error}"),
        Err(_) => "nothing in time".to_string(),
    }
}

/// What is printed, where the input comes in pieces of so many bytes.
fn answer(program: &Path, given: &[u8], piece: usize) -> String {
    let mut child = started(program);
    let mut to = child.stdin.take().expect("a pipe");
    for part in given.chunks(piece) {
        if to.write_all(part).is_err() {
            // It has all it wants.
            break;
        }
        if piece < 1000 {
            // So that it does read them one by one.
            std::thread::sleep(Duration::from_micros(100));
        }
    }
    drop(to);
    printed(child)
}

/// What is printed once the parts are in, though more could come.
fn early_answer(program: &Path, given: &[u8]) -> String {
    let mut child = started(program);
    let mut to = child.stdin.take().expect("a pipe");
    to.write_all(given).expect("it reads");
    let text = printed(child);
    drop(to);
    text
}

/// Bytes and the lines that are printed, joined by `;`.
fn inputs() -> Vec<(Vec<u8>, String)> {
    let bare = &checks::plain()[0];
    let given = input(&bare.table, &bare.proposal);
    let zeros = vec![0; 70000];
    let lengths = |table, proposal, rest: &[u8]| [&bytes(&[&[table, proposal]]), rest].concat();
    let large = input(&largest::table_words(), &largest::proposal_words());
    let mut cases: Vec<(Vec<u8>, &str)> = vec![
        (vec![], "unread"),
        (vec![0; 4], "unread"),
        (vec![0; 7], "unread"),
        (vec![0; 8], "refused 1 length at 0"),
        (lengths(5149, 0, &zeros), "refused 2 size at 0"),
        (lengths(0, 11268, &zeros), "refused 1 length at 0"),
        (given[..8].to_vec(), "unread"),
        (given[..given.len() - 4].to_vec(), "unread"),
        (given[..given.len() - 1].to_vec(), "unread"),
        (given.clone(), "accepted 0"),
        ([&given[..], b"t"].concat(), "accepted 0"),
        ([&given[..], &given].concat(), "accepted 0"),
        ([&given[..], &zeros].concat(), "accepted 0"),
        (large[..large.len() - 1].to_vec(), "unread"),
    ];
    cases.extend(
        [(5150, 0), (65536, 18), (MAX, 18)].map(|(t, p)| (lengths(t, p, &zeros), "unread")),
    );
    cases.extend([11269, 65536, MAX].map(|p| (lengths(24, p, &zeros), "unread")));
    cases.extend([-1, MIN].map(|t| (lengths(t, 18, &given[8..]), "unread")));
    cases.extend([-1, MIN].map(|p| (lengths(24, p, &given[8..]), "unread")));
    let answer = largest::answer();
    let tail = [&large[..], b"tail"].concat();
    cases.extend([(large, &*answer), (tail, &*answer)]);
    cases.into_iter().map(|(bytes, answer)| (bytes, answer.to_string())).collect()
}

fn lines(answer: &str) -> String {
    answer.replace(';', "\n") + "\n"
}

fn compared(got: &str, wanted: &str) -> Vec<String> {
    match got == lines(wanted) {
        true => vec![],
        false => vec![format!("{got:.200?}, not {:.200?}", lines(wanted))],
    }
}

pub fn run(bin: &Path, tally: &mut Tally) {
    let program = &bin.join("rangecheck");
    whole(program, tally);
    in_pieces(program, tally);
    let example = concat!(env!("CARGO_MANIFEST_DIR"), "/../../examples/nested.bin");
    let given = std::fs::read(example).expect("an example");
    let got = answer(program, &given, WHOLE);
    tally.count("the README's example");
    tally.case(compared(&got, "accepted 2;node 4 zero;node 5 overflow"), || example.to_string());
    let bare = &checks::plain()[0];
    let got = early_answer(program, &input(&bare.table, &bare.proposal));
    tally.count("without an end");
    tally.case(compared(&got, &bare.answer), || "input that doesn't end".to_string());
}

fn whole(program: &Path, tally: &mut Tally) {
    let mut cases = checks::given();
    cases.extend(checks::drawn(20261117, checks::TABLES));
    for (case, got) in cases.iter().zip(answers(program, &cases)) {
        tally.count(sort(&Answer::check_by_hand(&case.wanted, ALARM_WORDS)));
        tally.case(compared(&got, &case.answer), || case.shown());
    }
}

/// What is printed of each, by two programs at a time: starting them takes
/// longer than all else.
fn answers(program: &Path, cases: &[Check]) -> Vec<String> {
    let one = |case: &Check| answer(program, &input(&case.table, &case.proposal), WHOLE);
    let (left, right) = cases.split_at(cases.len() / 2);
    std::thread::scope(|scope| {
        let left = scope.spawn(|| left.iter().map(one).collect::<Vec<_>>());
        let right: Vec<_> = right.iter().map(one).collect();
        [left.join().expect("it only runs programs"), right].concat()
    })
}

fn in_pieces(program: &Path, tally: &mut Tally) {
    for (given, wanted) in inputs() {
        for piece in [WHOLE, 1000, 3, 1] {
            if piece >= 1000 || given.len() < 5000 {
                let got = answer(program, &given, piece);
                let on = || format!("{} bytes in pieces of {piece}", given.len());
                tally.count("in pieces");
                tally.case(compared(&got, &wanted), on);
            }
        }
    }
}
