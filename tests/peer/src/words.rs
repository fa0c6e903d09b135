//! Words as they are written outside: the trade's words for the refusals, lines
//! of numbers, and the printing program's reading and writing.

use crate::check::{check, Verdict};
use crate::propose::Proposed;

/// A refusal's number and place.
pub type Refusal = (u32, usize);

/// The longest table and proposal, and the alarm words that always suffice:
/// two words for each of two kinds at each of 1024 nodes.
pub const TABLE_WORDS: usize = 5149;
pub const PROPOSAL_WORDS: usize = 11268;
pub const ALARM_WORDS: usize = 4096;

const TRADE: [&str; 17] = [
    "length", "size", "share", "node", "point", "use", "reach", "match", "range", "order", "start",
    "locks", "flow", "write", "disturb", "rest", "room",
];

/// The trade's word for refusal `rule`, which is 1 to 17.
pub fn trade(rule: u32) -> &'static str {
    TRADE[rule as usize - 1]
}

/// Numbers apart by blanks; `None` if one is no word.
pub fn parse(text: &str) -> Option<Vec<i32>> {
    text.split_whitespace().map(|number| number.parse().ok()).collect()
}

/// Words as numbers apart by blanks.
pub fn shown(words: &[i32]) -> String {
    words.iter().map(i32::to_string).collect::<Vec<_>>().join(" ")
}

/// An answer of the proposer, as the vectors have it.
pub fn proposed(answer: &Result<Proposed, Refusal>) -> String {
    match answer {
        Ok(Proposed { words, passes }) => format!("words {} passes {passes}", shown(words)),
        Err((rule, place)) => format!("refused {rule} at {place}"),
    }
}

/// The lines that the printing program gives for a verdict.
pub fn lines(verdict: Verdict, alarms: &[i32]) -> Vec<String> {
    match verdict {
        Verdict::Refused { rule, place } => {
            vec![format!("refused {rule} {} at {place}", trade(rule))]
        }
        Verdict::Accepted { count } => {
            let pairs = alarms.chunks_exact(2).take(count);
            let kind = |kind: i32| if kind == 1 { "overflow" } else { "zero" };
            std::iter::once(format!("accepted {count}"))
                .chain(pairs.map(|pair| format!("node {} {}", pair[0], kind(pair[1]))))
                .collect()
        }
    }
}

/// The printing program: its input's bytes to its lines.
pub fn program(bytes: &[u8]) -> Vec<String> {
    let Some((table, proposal)) = parts(bytes) else {
        return vec!["unread".to_string()];
    };
    let mut alarms = vec![0; ALARM_WORDS];
    let verdict = check(&table, &proposal, &mut alarms);
    lines(verdict, &alarms)
}

fn parts(bytes: &[u8]) -> Option<(Vec<i32>, Vec<i32>)> {
    let (words, _) = bytes.as_chunks::<4>();
    let length = |at: usize, most: usize| {
        let word = i32::from_le_bytes(*words.get(at)?);
        usize::try_from(word).ok().filter(|&length| length <= most)
    };
    let table = length(0, TABLE_WORDS)?;
    let proposal = length(1, PROPOSAL_WORDS)?;
    let part = |from: usize, length: usize| {
        let part = words.get(from..from + length)?;
        Some(part.iter().map(|word| i32::from_le_bytes(*word)).collect())
    };
    Some((part(2, table)?, part(2 + table, proposal)?))
}

#[cfg(test)]
mod tests {
    use super::*;

    const BARE: &str = "2 1 0 3 1  2 1  0  1 0 0 1  0 0 0 0  0 0 0 0  0 5 0 0";
    const GIVEN: &str = "3 1 0 1  0 0 0  0 0 0  0 5 0 5  0 5 5 5";

    fn bytes(text: &str) -> Vec<u8> {
        parse(text).unwrap().iter().flat_map(|word| word.to_le_bytes()).collect()
    }

    #[test]
    fn the_program_prints_bare() {
        let mut input = bytes(&format!("24 18 {BARE} {GIVEN}"));
        assert_eq!(program(&input), ["accepted 0"]);
        input.extend([1, 2, 3]);
        assert_eq!(program(&input), ["accepted 0"]);
        let third = GIVEN.replace("0 5 5 5", "0 5 4 5");
        assert_eq!(program(&bytes(&format!("24 18 {BARE} {third}"))), ["refused 15 disturb at 2"]);
    }

    #[test]
    fn what_the_program_cannot_read() {
        let whole = bytes(&format!("24 18 {BARE} {GIVEN}"));
        for short in [0, 3, 4, 7, 8, whole.len() - 1] {
            assert_eq!(program(&whole[..short]), ["unread"]);
        }
        for lengths in ["-1 0", "0 -1", "5150 0", "0 11269"] {
            let mut input = bytes(lengths);
            input.resize(100_000, 0);
            assert_eq!(program(&input), ["unread"]);
        }
        assert_eq!(program(&bytes("0 0")), ["refused 1 length at 0"]);
        let mut longest = bytes("5149 11268");
        longest.resize(4 * (2 + TABLE_WORDS + PROPOSAL_WORDS), 0);
        assert_eq!(program(&longest), ["refused 2 size at 0"]);
    }
}
