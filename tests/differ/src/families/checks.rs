//! Whole checks with the answers that the printing program would give.

mod by_hand;
mod faults;
pub mod largest;

use super::{draw, vectors, Tally};
use crate::answers::{differences, Answer, Wanted};
use peer::generate::{changes, table, Draft, Random};
use peer::table::Table;
use peer::words::{lines, ALARM_WORDS};
use peer::Verdict;
use std::path::Path;

pub use by_hand::bare;

/// A table and a proposal, and what the check says of them.
pub struct Check {
    pub table: Vec<i32>,
    pub proposal: Vec<i32>,
    /// The lines that the program prints, joined by `;`.
    pub answer: String,
    /// What these lines mean.
    pub wanted: Wanted,
}

impl Check {
    pub fn new(
        table: impl Into<Vec<i32>>,
        proposal: impl Into<Vec<i32>>,
        answer: impl Into<String>,
    ) -> Check {
        let answer = answer.into();
        let wanted = meaning(&answer);
        Check { table: table.into(), proposal: proposal.into(), answer, wanted }
    }

    /// One whose answer is given by what it means.
    pub fn wanting(table: Vec<i32>, proposal: Vec<i32>, wanted: Wanted) -> Check {
        let answer = printed(&Answer::check_by_hand(&wanted, ALARM_WORDS));
        Check { table, proposal, answer, wanted }
    }

    /// One that nobody wrote an answer for.
    pub fn by_peer(table: Vec<i32>, proposal: Vec<i32>) -> Check {
        let answer = printed(&Answer::check_by_peer(&table, &proposal, ALARM_WORDS));
        Check::new(table, proposal, answer)
    }

    /// How both sides differ from the answer on a buffer of that size.
    pub fn differences(&self, room: usize) -> Vec<String> {
        let wanted = Answer::check_by_hand(&self.wanted, room);
        let check = Answer::check(&self.table, &self.proposal, room);
        let by_peer = Answer::check_by_peer(&self.table, &self.proposal, room);
        let mut found = differences("check", &check, &wanted);
        found.extend(differences("the peer's check", &by_peer, &wanted));
        // A list that has no room isn't printed; else the lines are told in
        // the trade's words.
        let no_room = wanted.said.is_err_and(|refusal| refusal.number == 17);
        if found.is_empty() && !no_room && printed(&check) != self.answer {
            found.push(format!("printed {}, not {}", printed(&check), self.answer));
        }
        found
    }

    /// What was given, as in the files of vectors.
    pub fn shown(&self) -> String {
        format!("{} | {} | {}", shown(&self.table), shown(&self.proposal), self.answer)
    }
}

/// What an answer is counted as: accepted or one of the refusals.
pub fn sort(answer: &Answer<i32>) -> String {
    match answer.said {
        Err(refusal) => format!("refused {}", refusal.number),
        Ok(_) => "accepted".to_string(),
    }
}

pub fn shown(words: &[i32]) -> String {
    words.iter().map(i32::to_string).collect::<Vec<_>>().join(" ")
}

/// What printed lines mean.
fn meaning(answer: &str) -> Wanted {
    let mut lines = answer.split(';').map(|line| line.split(' ').collect::<Vec<_>>());
    let number = |text: &str| text.parse::<usize>().expect("a number");
    match lines.next().expect("a first line")[..] {
        ["refused", rule, _, "at", place] => Err((number(rule) as u32, number(place))),
        ["accepted", _] => {
            let kind = |name| if name == "overflow" { 1 } else { 2 };
            Ok(lines.map(|line| [number(line[1]) as i32, kind(line[2])]).collect())
        }
        _ => panic!("no answer: {answer}"),
    }
}

/// The lines that the program prints of an answer, joined by `;`.
pub fn printed(answer: &Answer<i32>) -> String {
    match answer.said {
        Err(refusal) => refusal.to_string(),
        Ok(count) => lines(Verdict::Accepted { count }, answer.slice()).join(";"),
    }
}

/// Those with an answer that somebody wrote out, but for pairs of faults and
/// the largest.
pub fn plain() -> Vec<Check> {
    let mut cases = by_hand::cases();
    cases.extend(faults::cases());
    cases
}

/// All that have an answer that somebody wrote out or gave.
pub fn given() -> Vec<Check> {
    let mut cases = plain();
    cases.extend(faults::pairs());
    cases.extend(largest::cases());
    cases.extend(vectors::checks());
    cases
}

/// How many tables are drawn, with six checks for each.
pub const TABLES: usize = 1000;

/// Proposals that fit drawn tables, nearly fit them or don't, and the given
/// vectors with words changed.
pub fn drawn(seed: u64, tables: usize) -> Vec<Check> {
    let random = &mut Random::new(seed);
    let mut cases = Vec::new();
    for _ in 0..tables {
        draw_around_one_table(random, &mut cases);
    }
    let bare = &by_hand::cases()[0];
    let vectors = vectors::checks();
    for Check { table, proposal, .. } in vectors.iter().chain(std::iter::repeat_n(bare, 20)) {
        cases.push(Check::by_peer(draw::changed(random, table, 1), proposal.clone()));
        for times in [1, 1, 2] {
            let proposal = draw::changed(random, proposal, times);
            cases.push(Check::by_peer(table.clone(), proposal));
        }
    }
    cases
}

/// A proposal that fits or only fails at a lock, and changes of it and of its
/// table.
fn draw_around_one_table(random: &mut Random, cases: &mut Vec<Check>) {
    let mut table = table(random);
    for _ in 0..random.below(3) {
        changes::retarget(random, &mut table);
    }
    let decoded = Table::decode(&table).expect("generated tables are valid");
    let mut draft = Draft::settle(&decoded, random);
    let fits = draft.words();
    for _ in 0..3 {
        cases.push(Check::by_peer(table.clone(), draw::nudged(random, &fits)));
    }
    let mut changed = table.clone();
    if random.chance(50) {
        changes::nudge_table(random, &mut changed);
    } else {
        changed = draw::changed(random, &changed, 1);
    }
    cases.push(Check::by_peer(changed, fits.clone()));
    cases.push(Check::by_peer(table.clone(), fits.clone()));
    let other = match random.below(3) {
        0 => Draft::settle_flawed(&decoded, random).words(),
        1 => {
            changes::nudge_draft(random, &mut draft);
            draft.words()
        }
        _ => {
            let mut words = fits;
            changes::nudge_proposal(random, &mut words);
            words
        }
    };
    cases.push(Check::by_peer(table, other));
}

pub fn run(_bin: &Path, tally: &mut Tally) {
    for case in given().into_iter().chain(drawn(20261117, TABLES)) {
        tally.count(sort(&Answer::check_by_hand(&case.wanted, ALARM_WORDS)));
        tally.case(case.differences(ALARM_WORDS), || case.shown());
    }
}
