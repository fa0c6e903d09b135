//! What both sides say of a case, and all that they write.

use peer::words::Refusal as PeerRefusal;
use peer::{Proposed, State, Verdict};
use rangecheck::{check_into, propose_into, run_into, Refusal, Written, STATE_WORDS};
use std::fmt::Debug;

/// Words on both sides of a lent slice, which nobody may write.
const MARGIN: usize = 8;

/// What a check should say: its alarms as pairs of a node and a kind, or the
/// refusal, of which 17 is left to the room there is.
pub type Wanted = Result<Vec<[i32; 2]>, PeerRefusal>;

pub struct Answer<T, S = usize> {
    /// How many alarms there are, for a run 0, for a proposal its words and
    /// passes, or the refusal.
    pub said: Result<S, Refusal>,
    /// The lent slice afterwards, between its margins.
    words: Vec<T>,
}

impl<T, S> Answer<T, S> {
    pub fn slice(&self) -> &[T] {
        &self.words[MARGIN..self.words.len() - MARGIN]
    }
}

impl Answer<i32> {
    pub fn check(table: &[i32], proposal: &[i32], room: usize) -> Answer<i32> {
        let mut words = alarm_words(room);
        let said = check_into(table, proposal, lent(&mut words));
        Answer { said, words }
    }

    pub fn check_by_peer(table: &[i32], proposal: &[i32], room: usize) -> Answer<i32> {
        let mut words = alarm_words(room);
        let said = match peer::check(table, proposal, lent(&mut words)) {
            Verdict::Accepted { count } => Ok(count),
            Verdict::Refused { rule, place } => Err(refusal((rule, place))),
        };
        Answer { said, words }
    }

    /// A list that is written out, in a buffer that it fits or doesn't.
    pub fn check_by_hand(wanted: &Wanted, room: usize) -> Answer<i32> {
        let mut words = alarm_words(room);
        let said = match wanted {
            Err(refused) => Err(refusal(*refused)),
            Ok(alarms) if room < 2 * alarms.len() => Err(refusal((17, 2 * alarms.len()))),
            Ok(alarms) => {
                let list = alarms.as_flattened();
                lent(&mut words)[..list.len()].copy_from_slice(list);
                Ok(alarms.len())
            }
        };
        Answer { said, words }
    }
}

impl Answer<i32, Written> {
    pub fn propose(table: &[i32], thresholds: &[i32], room: usize) -> Answer<i32, Written> {
        let mut words = proposal_words(room);
        let said = propose_into(table, thresholds, lent(&mut words));
        Answer { said, words }
    }

    /// What the peer proposes, or a proposal that is written out, in a buffer
    /// that it fits.
    pub fn proposed(proposed: &Result<Proposed, PeerRefusal>, room: usize) -> Answer<i32, Written> {
        let mut words = proposal_words(room);
        let said = match proposed {
            Err(refused) => Err(refusal(*refused)),
            Ok(Proposed { words: proposal, passes }) => {
                lent(&mut words)[..proposal.len()].copy_from_slice(proposal);
                Ok(Written { words: proposal.len(), passes: *passes as u64 })
            }
        };
        Answer { said, words }
    }
}

impl Answer<i64> {
    pub fn run(table: &[i32], schedule: &[i32], room: usize) -> Answer<i64> {
        let mut words = state_words(room);
        let said = run_into(table, schedule, lent(&mut words)).map(|()| 0);
        Answer { said, words }
    }

    /// The peer knows nothing of answer slices, so what the header promises of
    /// them is written out here: the table's refusal is told first, then that of
    /// a short slice, and neither changes a word.
    pub fn run_by_peer(played: &Result<State, PeerRefusal>, room: usize) -> Answer<i64> {
        let mut words = state_words(room);
        let said = match played {
            Err(refused) => Err(refusal(*refused)),
            Ok(_) if room < STATE_WORDS => Err(refusal((31, STATE_WORDS))),
            Ok(state) => {
                let slots = lent(&mut words).iter_mut().zip(state.words());
                slots.for_each(|(to, word)| *to = word.into());
                Ok(0)
            }
        };
        Answer { said, words }
    }
}

fn refusal((number, place): PeerRefusal) -> Refusal {
    Refusal { number, place: place as u64 }
}

/// Distinct words, so that a stray write or a missing one shows; no alarm has
/// a negative word.
fn alarm_words(room: usize) -> Vec<i32> {
    (1..).map(|place: i32| -place).take(room + 2 * MARGIN).collect()
}

/// The same for a proposal, which seldom has words like these.
fn proposal_words(room: usize) -> Vec<i32> {
    (1..).map(|place: i32| 1_234_500_000 + place).take(room + 2 * MARGIN).collect()
}

/// The same for a state, whose words are all small.
fn state_words(room: usize) -> Vec<i64> {
    (1..).map(|place: i64| i64::MIN + place).take(room + 2 * MARGIN).collect()
}

fn lent<T>(words: &mut [T]) -> &mut [T] {
    let end = words.len() - MARGIN;
    &mut words[MARGIN..end]
}

/// Says how an answer differs from the wanted one: nothing if it doesn't.
pub fn differences<T: PartialEq + Debug, S: PartialEq + Debug>(
    what: &str,
    got: &Answer<T, S>,
    want: &Answer<T, S>,
) -> Vec<String> {
    let mut found = Vec::new();
    if got.said != want.said {
        found.push(format!("{what}: {:?}, not {:?}", got.said, want.said));
    }
    if got.words != want.words {
        let pairs = got.words.iter().zip(&want.words).enumerate();
        for (at, (got, want)) in pairs.filter(|(_, (got, want))| got != want).take(8) {
            let place = at as i64 - MARGIN as i64;
            found.push(format!("{what}: word {place} is {got:?}, not {want:?}"));
        }
    }
    found
}
