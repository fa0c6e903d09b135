//! The given cases of tests/vectors through the wrapper.
use rangecheck::{
    check, propose, propose_into, run, run_into, Alarm, Kind, Written, PROPOSAL_WORDS, STATE_WORDS,
};

fn words(text: &str) -> Vec<i32> {
    text.split_whitespace()
        .map(|w| w.parse().unwrap())
        .collect()
}

/// The first vectors, and those given with requests 1 and 2. One line of request 1's checks has the answer by request 2.
const SETS: [&str; 3] = [".", "after-request-1", "after-request-2"];

/// Each line as its parts.
fn cases<const N: usize>(sets: &[&str], file: &str) -> Vec<[String; N]> {
    let folder = concat!(env!("CARGO_MANIFEST_DIR"), "/../../tests/vectors");
    let read = |set| std::fs::read_to_string(format!("{folder}/{set}/{file}")).unwrap();
    let text: String = sets.iter().map(read).collect();
    let parts = |line: &str| {
        line.split('|')
            .map(|p| p.trim().to_string())
            .collect::<Vec<_>>()
            .try_into()
            .unwrap()
    };
    text.lines()
        .filter(|line| line.contains('|'))
        .map(parts)
        .collect()
}

fn line(alarm: &Alarm) -> String {
    let kind = match alarm.kind {
        Kind::Overflow => "overflow",
        Kind::Zero => "zero",
    };
    format!(";node {} {kind}", alarm.node)
}

#[test]
fn checks() {
    let cases = cases(&SETS, "check.txt");
    assert!(cases.len() > 10);
    for [table, proposal, want] in cases {
        let got = match check(&words(&table), &words(&proposal)) {
            Ok(alarms) => format!(
                "accepted {}{}",
                alarms.len(),
                alarms.iter().map(line).collect::<String>()
            ),
            Err(refusal) => refusal.to_string(),
        };
        assert_eq!(got, want);
    }
}

#[test]
fn runs() {
    let cases = cases(&SETS, "run.txt");
    assert!(cases.len() > 10);
    for [table, schedule, want] in cases {
        let (table, schedule) = (words(&table), words(&schedule));
        let mut state = [7; STATE_WORDS];
        let got = match run_into(&table, &schedule, &mut state) {
            Ok(()) => state.map(|z| z.to_string()).join(" "),
            Err(refusal) => format!("refused {} at {}", refusal.number, refusal.place),
        };
        assert_eq!(got, want);
        if let Ok(s) = run(&table, &schedule) {
            let signed = |n: usize| n as i64;
            let parts = [
                &s.points.map(signed)[..],
                &s.values.map(i64::from),
                &s.owners,
                &s.stop_nodes,
                &s.stop_kinds.map(signed),
            ];
            assert_eq!(parts.concat(), state);
        } else {
            assert_eq!(state, [7; STATE_WORDS]);
        }
    }
}

#[test]
fn proposals() {
    let cases = cases(&["after-request-4"], "propose.txt");
    assert!(cases.len() > 10);
    for [table, thresholds, room, want] in cases {
        let (table, thresholds) = (words(&table), words(&thresholds));
        let mut proposal = vec![77; room.parse().unwrap()];
        let got = match propose_into(&table, &thresholds, &mut proposal) {
            Ok(Written { words, passes }) => {
                let text: Vec<String> = proposal[..words].iter().map(i32::to_string).collect();
                assert!(proposal[words..].iter().all(|&word| word == 77));
                assert!(check(&table, &proposal[..words]).is_ok());
                let made = propose(&table, &thresholds).unwrap();
                assert_eq!((&made.words[..], made.passes), (&proposal[..words], passes));
                format!("words {} passes {passes}", text.join(" "))
            }
            Err(refusal) => {
                assert!(proposal.iter().all(|&word| word == 77));
                format!("refused {} at {}", refusal.number, refusal.place)
            }
        };
        assert_eq!(got, want);
    }
}

/// The words of the refusals that only a proposer gives.
#[test]
fn refusals_to_propose() {
    // Lock 0, and back to the start.
    let table = [1, 1, 1, 2, 1, 2, 0, 3, 0, 1, 0, 1, 0, 0, 0, 0, 1, 0, 0];
    let mut proposal = [77; PROPOSAL_WORDS];
    let mut said = |thresholds: &[i32], room| {
        let refusal = propose_into(&table, thresholds, &mut proposal[..room]).unwrap_err();
        refusal.to_string()
    };
    assert_eq!(said(&[2, 1], 0), "refused 19 rise at 1");
    assert_eq!(said(&[1, 2], 21), "refused 20 space at 22");
    assert_eq!(said(&[1, 2], 22), "refused 18 walks at 0");
    assert_eq!(said(&[], PROPOSAL_WORDS), "refused 18 walks at 0");
    assert_eq!(proposal, [77; PROPOSAL_WORDS]);
}
