//! A safe wrapper of `librangecheck_c.a`, the proved check, proposer and run, with the standard library alone.
//!
//! All three take any words whatever and always come back: each is proved equal to a definition, for every table, proposal, list of thresholds and schedule.
//! Formulas that are nested as deep as a table can have them were measured to take 0.8 MB of stack, so a thread of the usual 2 MB is enough.
//!
//! ```
//! use rangecheck::{check, propose, run, Refusal};
//!
//! // Two tasks and one variable; the first task writes 5 to it.
//! let table = [2, 1, 0, 3, 1, 2, 1, 0, 1, 0, 0, 1, 0, 0, 0, 0, 0, 0, 0, 0, 0, 5, 0, 0];
//! let proposal = [3, 1, 0, 1, 0, 0, 0, 0, 0, 0, 0, 5, 0, 5, 0, 5, 5, 5];
//! assert_eq!(check(&table, &proposal), Ok(vec![]));
//! assert_eq!(propose(&table, &[5]).unwrap().words, proposal);
//! assert_eq!(run(&table, &[0]).unwrap().values[0], 5);
//!
//! // The second task's row must hold what the first writes.
//! let mut narrow = proposal;
//! narrow[16] = 4;
//! let refusal = check(&table, &narrow).unwrap_err();
//! assert_eq!(refusal, Refusal { number: 15, place: 2 });
//! assert_eq!(refusal.to_string(), "refused 15 disturb at 2");
//! ```
#![deny(missing_docs, unsafe_op_in_unsafe_fn)]

use std::fmt;

#[repr(C)]
struct Answer {
    number: u32,
    place: u64,
    count: u64,
}

#[repr(C)]
struct Proposed {
    number: u32,
    place: u64,
    words: u64,
    passes: u64,
}

extern "C" {
    fn rangecheck_check(
        table: *const i32,
        table_len: usize,
        proposal: *const i32,
        proposal_len: usize,
        alarms: *mut i32,
        alarms_len: usize,
    ) -> Answer;

    fn rangecheck_propose(
        table: *const i32,
        table_len: usize,
        thresholds: *const i32,
        thresholds_len: usize,
        proposal: *mut i32,
        proposal_len: usize,
    ) -> Proposed;

    fn rangecheck_run(
        table: *const i32,
        table_len: usize,
        schedule: *const i32,
        schedule_len: usize,
        answer: *mut i64,
        answer_len: usize,
    ) -> Answer;
}

/// Words that hold any alarm list.
pub const ALARM_WORDS: usize = 4096;

/// Words that hold any proposal that [`propose`] makes.
pub const PROPOSAL_WORDS: usize = 9988;

/// Words of a state: 8 points, 16 values, 8 owners, 8 stop nodes, 8 stop kinds.
pub const STATE_WORDS: usize = 48;

/// The first broken rule and its smallest place.
#[derive(Clone, Copy, Debug, PartialEq, Eq, Hash)]
pub struct Refusal {
    /// 1 to 17, 18 to 20 of [`propose`], or 31 of [`run_into`].
    pub number: u32,
    /// A word, task, node, point, entry or count of words, by the number.
    pub place: u64,
}

impl Refusal {
    /// The trade's word for the rule.
    pub fn word(&self) -> &'static str {
        const WORDS: [&str; 20] = [
            "length", "size", "share", "node", "point", "use", "reach", "match", "range", "order",
            "start", "locks", "flow", "write", "disturb", "rest", "room", "walks", "rise", "space",
        ];
        match self.number {
            n @ 1..=20 => WORDS[n as usize - 1],
            _ => "short",
        }
    }
}

impl fmt::Display for Refusal {
    fn fmt(&self, f: &mut fmt::Formatter<'_>) -> fmt::Result {
        write!(
            f,
            "refused {} {} at {}",
            self.number,
            self.word(),
            self.place
        )
    }
}

impl std::error::Error for Refusal {}

/// What can go wrong at a node.
#[derive(Clone, Copy, Debug, PartialEq, Eq, PartialOrd, Ord, Hash)]
pub enum Kind {
    /// The exact result can lie outside an `i32`.
    Overflow,
    /// The divisor can be 0.
    Zero,
}

/// A node that needs a guard, and against what.
#[derive(Clone, Copy, Debug, PartialEq, Eq, PartialOrd, Ord, Hash)]
pub struct Alarm {
    /// The node's number in the table.
    pub node: usize,
    /// What can go wrong there.
    pub kind: Kind,
}

/// A proposal that was made for a table.
#[derive(Clone, Debug, PartialEq, Eq, Hash)]
pub struct Proposal {
    /// Its words, which [`check`] accepts.
    pub words: Vec<i32>,
    /// How many passes over the points were made; the last one changed nothing.
    pub passes: u64,
}

/// What [`propose_into`] wrote.
#[derive(Clone, Copy, Debug, PartialEq, Eq, Hash)]
pub struct Written {
    /// How many words of the slice are the proposal.
    pub words: usize,
    /// How many passes over the points were made; the last one changed nothing.
    pub passes: u64,
}

/// A state of a run. Slots past the table's sizes are 0.
#[derive(Clone, Copy, Debug, PartialEq, Eq, Hash)]
pub struct State {
    /// Each task's point.
    pub points: [usize; 8],
    /// Each variable.
    pub values: [i32; 16],
    /// Each mutex's owner, or -1.
    pub owners: [i64; 8],
    /// The node at which each task stopped, or -1.
    pub stop_nodes: [i64; 8],
    /// The kind of its error (1 overflow, 2 zero), or 0.
    pub stop_kinds: [usize; 8],
}

/// Checks a proposal against a table, and gives the exact list of possible alarms, by node, then kind.
///
/// ```
/// use rangecheck::{check, Alarm, Kind};
///
/// // One task divides 10 by its variable, which is 0; the point after that is never reached.
/// let table = [1, 1, 0, 2, 3, 2, 0, 1, 0, 2, 1, 0, 0, 0, 0, 0, 10, 0, 0, 2, 0, 0, 0, 7, 0, 1, 0];
/// let alarms = check(&table, &[2, 1, 0, 0, 0, -1, 0, 0, 0, 0]);
/// assert_eq!(alarms, Ok(vec![Alarm { node: 2, kind: Kind::Zero }]));
/// ```
pub fn check(table: &[i32], proposal: &[i32]) -> Result<Vec<Alarm>, Refusal> {
    let mut words = [0; ALARM_WORDS];
    let count = check_into(table, proposal, &mut words)?;
    let alarm = |pair: &[i32]| Alarm {
        node: pair[0] as usize,
        kind: if pair[1] == 1 {
            Kind::Overflow
        } else {
            Kind::Zero
        },
    };
    Ok(words[..2 * count].chunks_exact(2).map(alarm).collect())
}

/// The same, without an allocation: gives the number of alarms, which stand at the buffer's front in pairs of a node and a kind (1 overflow, 2 zero).
/// Later words keep their contents, and a refusal changes none.
///
/// ```
/// use rangecheck::{check_into, Refusal};
///
/// let table = [1, 1, 0, 2, 3, 2, 0, 1, 0, 2, 1, 0, 0, 0, 0, 0, 10, 0, 0, 2, 0, 0, 0, 7, 0, 1, 0];
/// let proposal = [2, 1, 0, 0, 0, -1, 0, 0, 0, 0];
/// let mut alarms = [9; 3];
/// assert_eq!(check_into(&table, &proposal, &mut alarms), Ok(1));
/// assert_eq!(alarms, [2, 2, 9]);
/// assert_eq!(check_into(&table, &proposal, &mut []), Err(Refusal { number: 17, place: 2 }));
/// ```
pub fn check_into(table: &[i32], proposal: &[i32], alarms: &mut [i32]) -> Result<usize, Refusal> {
    // SAFETY: the function takes any words; a slice is a pointer that is not null and a length, and the borrow of `alarms` shows that it overlaps
    // neither of the others.
    let answer = unsafe {
        rangecheck_check(
            table.as_ptr(),
            table.len(),
            proposal.as_ptr(),
            proposal.len(),
            alarms.as_mut_ptr(),
            alarms.len(),
        )
    };
    told(answer.number, answer.place)?;
    Ok(answer.count as usize)
}

/// Makes a proposal for a table, one that [`check`] accepts. Thresholds rise strictly, and are 32 at most: the end of a range that must move goes to the
/// nearest one that covers it, or to `i32::MIN` or `i32::MAX`.
///
/// ```
/// use rangecheck::{check, propose, Refusal};
///
/// // One task goes from 0 up to 9, round and round: if v < 9 then v + 1 else 0.
/// let nodes = [[2, 0, 0, 0], [0, 9, 0, 0], [16, 0, 1, 0], [2, 0, 0, 0], [0, 1, 0, 0], [4, 3, 4, 0], [0, 0, 0, 0], [8, 2, 5, 6]];
/// let table = [&[1, 1, 0, 1, 8, 1, 0, 1, 0, 7, 0], nodes.as_flattened()].concat();
/// let proposal = propose(&table, &[0, 9]).unwrap();
/// assert_eq!(proposal.words, [1, 1, 0, 1, 0, 0, 0, 0, 0, 0, 9, 9]);
/// assert_eq!(check(&table, &proposal.words), Ok(vec![]));
/// assert_eq!(propose(&table, &[9, 0]), Err(Refusal { number: 19, place: 1 }));
/// ```
pub fn propose(table: &[i32], thresholds: &[i32]) -> Result<Proposal, Refusal> {
    let mut words = vec![0; PROPOSAL_WORDS];
    let written = propose_into(table, thresholds, &mut words)?;
    words.truncate(written.words);
    Ok(Proposal {
        words,
        passes: written.passes,
    })
}

/// The same, without an allocation: the proposal stands at the slice's front. Later words keep their contents, and a refusal changes none. A slice that has
/// no room for one entry a point is refused by 20, at the words that it needs; [`PROPOSAL_WORDS`] are always enough.
///
/// ```
/// use rangecheck::{propose_into, Refusal, Written};
///
/// let table = [1, 1, 0, 1, 0, 1, 7, 0, 0, 0, 0];
/// let mut words = [9; 13];
/// assert_eq!(propose_into(&table, &[], &mut words[..11]), Err(Refusal { number: 20, place: 12 }));
/// assert_eq!(words, [9; 13]);
/// assert_eq!(propose_into(&table, &[], &mut words), Ok(Written { words: 7, passes: 1 }));
/// assert_eq!(words, [1, 1, 0, 0, 0, 7, 7, 9, 9, 9, 9, 9, 9]);
/// ```
pub fn propose_into(
    table: &[i32],
    thresholds: &[i32],
    proposal: &mut [i32],
) -> Result<Written, Refusal> {
    // SAFETY: as in `check_into`.
    let answer = unsafe {
        rangecheck_propose(
            table.as_ptr(),
            table.len(),
            thresholds.as_ptr(),
            thresholds.len(),
            proposal.as_mut_ptr(),
            proposal.len(),
        )
    };
    told(answer.number, answer.place)?;
    Ok(Written {
        words: answer.words as usize,
        passes: answer.passes,
    })
}

/// Plays a table by a schedule, and gives the last state.
///
/// ```
/// use rangecheck::{run, Refusal};
///
/// let table = [1, 1, 0, 2, 3, 2, 0, 1, 0, 2, 1, 0, 0, 0, 0, 0, 10, 0, 0, 2, 0, 0, 0, 7, 0, 1, 0];
/// let state = run(&table, &[0, 0]).unwrap();
/// assert_eq!((state.stop_nodes[0], state.stop_kinds[0]), (2, 2));
/// assert_eq!(run(&table[..26], &[]), Err(Refusal { number: 1, place: 26 }));
/// ```
pub fn run(table: &[i32], schedule: &[i32]) -> Result<State, Refusal> {
    let mut words = [0; STATE_WORDS];
    run_into(table, schedule, &mut words)?;
    Ok(State {
        points: part(&words, 0).map(|z| z as usize),
        values: part(&words, 8).map(|z| z as i32),
        owners: part(&words, 24),
        stop_nodes: part(&words, 32),
        stop_kinds: part(&words, 40).map(|z| z as usize),
    })
}

/// The same, with the state's [`STATE_WORDS`] words written to the front of a slice; later words keep their contents, and a refusal changes none. A
/// slice that is too short is refused by 31, after the table's refusals.
///
/// ```
/// use rangecheck::{run_into, Refusal};
///
/// let table = [1, 1, 0, 1, 0, 1, 7, 0, 0, 0, 0];
/// let mut words = [9; 49];
/// assert_eq!(run_into(&table, &[], &mut words[..47]), Err(Refusal { number: 31, place: 48 }));
/// assert_eq!(run_into(&table[..10], &[], &mut words), Err(Refusal { number: 1, place: 10 }));
/// assert_eq!(words, [9; 49]);
/// assert_eq!(run_into(&table, &[], &mut words), Ok(()));
/// assert_eq!((words[8], words[48]), (7, 9));
/// ```
pub fn run_into(table: &[i32], schedule: &[i32], answer: &mut [i64]) -> Result<(), Refusal> {
    // SAFETY: as in `check_into`.
    let answered = unsafe {
        rangecheck_run(
            table.as_ptr(),
            table.len(),
            schedule.as_ptr(),
            schedule.len(),
            answer.as_mut_ptr(),
            answer.len(),
        )
    };
    told(answered.number, answered.place)
}

// The refusal that an answer tells, if it tells one.
fn told(number: u32, place: u64) -> Result<(), Refusal> {
    match number {
        0 => Ok(()),
        number => Err(Refusal { number, place }),
    }
}

// The words of a part of a state, from its first on.
fn part<const N: usize>(words: &[i64; STATE_WORDS], from: usize) -> [i64; N] {
    std::array::from_fn(|k| words[from + k])
}
