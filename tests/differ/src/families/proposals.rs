//! Proposals: for each sentence of request 4 cases with the words and the passes
//! written out, the given vectors, buffers of many sizes, and drawn tables and
//! thresholds, whole and damaged. The check accepts every one that is made.

mod by_hand;

use super::checks::{largest, shown};
use super::{draw, vectors, Tally};
use crate::answers::{differences, Answer};
use peer::generate::{ask, Ask, Random};
use peer::table::Table;
use peer::words::{parse, Refusal, ALARM_WORDS};
use peer::Proposed;
use rangecheck::{Written, PROPOSAL_WORDS};
use std::path::Path;

/// How many are drawn, and how many of each sort there are at least.
const DRAWN: usize = 40_000;
const LEAST: usize = 1_000;

/// What is asked, and what is answered to it.
pub struct Proposal {
    table: Vec<i32>,
    thresholds: Vec<i32>,
    wanted: Result<Proposed, Refusal>,
}

impl Proposal {
    /// With an answer `words .. passes N`, or `refused N at PLACE`.
    pub fn told(table: Vec<i32>, thresholds: Vec<i32>, answer: &str) -> Proposal {
        let number = |text: &str| text.parse().expect("a number");
        let wanted = match answer.split(' ').collect::<Vec<_>>()[..] {
            ["refused", rule, "at", place] => Err((number(rule) as u32, number(place))),
            ["words", ref words @ .., "passes", passes] => {
                let words = parse(&words.join(" ")).expect("words");
                Ok(Proposed { words, passes: number(passes) })
            }
            _ => panic!("no answer: {answer}"),
        };
        Proposal { table, thresholds, wanted }
    }

    /// One that nobody wrote an answer for, in an ample buffer.
    fn by_peer(table: Vec<i32>, thresholds: Vec<i32>) -> Proposal {
        let wanted = peer::propose(&table, &thresholds, PROPOSAL_WORDS);
        Proposal { table, thresholds, wanted }
    }

    /// The answer in a buffer of that size, if it is given for an ample one: 20
    /// comes after the refusals of the table and of the thresholds, before 18.
    fn in_room(&self, room: usize) -> Result<Proposed, Refusal> {
        match &self.wanted {
            Ok(_) | Err((18, _)) if room < needed(&self.table) => Err((20, needed(&self.table))),
            wanted => wanted.clone(),
        }
    }

    /// How both sides differ from the answer in a buffer of that size, and from
    /// what holds of every proposal.
    fn differences(&self, room: usize, wanted: &Result<Proposed, Refusal>) -> Vec<String> {
        let made = Answer::propose(&self.table, &self.thresholds, room);
        let by_peer = peer::propose(&self.table, &self.thresholds, room);
        let wanted = Answer::proposed(wanted, room);
        let mut found = differences("propose", &made, &wanted);
        found.extend(differences("the peer's", &Answer::proposed(&by_peer, room), &wanted));
        if let Ok(Written { words, passes }) = made.said {
            let proposal = &made.slice()[..words];
            let check = Answer::check(&self.table, proposal, ALARM_WORDS);
            let by_peer = Answer::check_by_peer(&self.table, proposal, ALARM_WORDS);
            found.extend(differences("check", &check, &by_peer));
            found.extend(check.said.err().map(|refusal| format!("check: {refusal}")));
            if passes > most_passes(&self.table, self.thresholds.len()) {
                found.push(format!("{passes} passes"));
            }
        }
        found
    }

    fn shown(&self, room: usize) -> String {
        format!("{} | {} | {room}", shown(&self.table), shown(&self.thresholds))
    }
}

/// The points, mutexes and variables of a table with sizes.
fn sizes(table: &[i32]) -> [usize; 3] {
    [3, 2, 1].map(|at| table[at] as usize)
}

/// The words of a proposal with one entry a point.
fn needed(table: &[i32]) -> usize {
    let [points, mutexes, variables] = sizes(table);
    4 + 4 * points + 2 * ((points + mutexes) * variables + points)
}

/// The bound of the request.
fn most_passes(table: &[i32], thresholds: usize) -> u64 {
    let [points, mutexes, variables] = sizes(table);
    let ends = points * variables + mutexes * variables + points;
    (1 + 2 * points + 2 * (thresholds + 1) * ends) as u64
}

/// What the passes did, as the words and their number show it.
fn sorts(proposal: &Proposal, made: &Proposed) -> Vec<&'static str> {
    let [points, mutexes, variables] = sizes(&proposal.table);
    let entries = made.words[3] as usize;
    let (held, rest) = made.words[4..].split_at(points);
    let ends = &rest[3 * entries..];
    let (lows, highs) = ends.split_at(ends.len() / 2);
    let starts = &proposal.table[5 + proposal.table[0] as usize..][..variables];
    let rests = points * variables..(points + mutexes) * variables;
    let moved = |at: usize| [lows[at], highs[at]] != [starts[at % variables]; 2];
    let any = |test: &dyn Fn(&i32) -> bool| ends.iter().any(test);
    let told = [
        ("with an unreached point", held.contains(&-1)),
        ("with a held set", held.iter().any(|&set| set > 0)),
        ("with an entry", entries > 0),
        (
            "with a task that writes under two sets or variables",
            entries > proposal.table[0] as usize,
        ),
        ("with a rest row that moved", rests.into_iter().any(moved)),
        ("with an end at a threshold", any(&|end| proposal.thresholds.contains(end))),
        ("with an end at MIN or MAX", any(&|end| [i32::MIN, i32::MAX].contains(end))),
        ("by no threshold", proposal.thresholds.is_empty()),
        ("by thresholds", !proposal.thresholds.is_empty()),
        ("in one or two passes", made.passes <= 2),
        ("in three passes", made.passes == 3),
        ("in more passes", made.passes > 3),
    ];
    told.iter().filter(|(_, holds)| *holds).map(|&(name, _)| name).collect()
}

fn case(tally: &mut Tally, proposal: &Proposal, room: usize, wanted: &Result<Proposed, Refusal>) {
    match wanted {
        Ok(made) => {
            tally.count("made".to_string());
            for sort in sorts(proposal, made) {
                tally.count(format!("made {sort}"));
            }
        }
        Err((rule, _)) => tally.count(format!("refused {rule}")),
    }
    tally.case(proposal.differences(room, wanted), || proposal.shown(room));
}

/// Buffers of no words, one word short, just enough, and more.
fn in_rooms(tally: &mut Tally, proposal: &Proposal) {
    let needed = Table::decode(&proposal.table).map_or(1, |_| needed(&proposal.table));
    for room in [0, 1, needed - 1, needed, needed + 1, PROPOSAL_WORDS] {
        case(tally, proposal, room, &proposal.in_room(room));
    }
}

/// The table of every greatest size: by no threshold, by one and by 32.
fn largest_ones() -> Vec<Proposal> {
    let thresholds: Vec<i32> = (-16..16).map(|step| 1000 * step).collect();
    let tables = [largest::table_words(), peer::generate::largest(1).0];
    let each = |table: &Vec<i32>| {
        [0, 1, 32].map(|count| Proposal::by_peer(table.clone(), thresholds[..count].to_vec()))
    };
    tables.iter().flat_map(each).collect()
}

/// Asks of any sort; each tenth has a word of its table or of its thresholds
/// changed as well.
fn drawn(random: &mut Random) -> (Proposal, usize) {
    let Ask { mut table, mut thresholds, room } = ask(random);
    match random.below(20) {
        0 => table = draw::damaged(random, &table),
        1 => thresholds = draw::changed(random, &thresholds, 1),
        _ => {}
    }
    let wanted = peer::propose(&table, &thresholds, room);
    (Proposal { table, thresholds, wanted }, room)
}

pub fn run(_bin: &Path, tally: &mut Tally) {
    by_hand::cases().iter().chain(&largest_ones()).for_each(|proposal| in_rooms(tally, proposal));
    for (proposal, room) in vectors::proposals() {
        case(tally, &proposal, room, &proposal.wanted);
    }
    let random = &mut Random::new(20261118);
    for _ in 0..DRAWN {
        let (proposal, room) = drawn(random);
        case(tally, &proposal, room, &proposal.wanted);
    }
    for sort in [
        "refused 18",
        "refused 19",
        "refused 20",
        "made with an unreached point",
        "made with a held set",
        "made with an entry",
        "made with a task that writes under two sets or variables",
        "made with a rest row that moved",
        "made with an end at a threshold",
        "made with an end at MIN or MAX",
        "made by no threshold",
        "made by thresholds",
        "made in one or two passes",
        "made in three passes",
        "made in more passes",
    ] {
        tally.expect(sort, LEAST);
    }
}
