//! A checker of proposed ranges and alarms for tasks that share variables, a
//! proposer of such ranges and a run of the same tasks, written from the scope
//! document and the requests alone.
//!
//! The modules go from the bottom up: intervals know nothing of tables, the
//! analysis evaluates a table's nodes on rows of intervals, with it outcomes say
//! what comes of a point, the check judges a proposal by them and the proposer
//! makes one, and the run plays a schedule on plain numbers.

pub mod analysis;
pub mod check;
pub mod generate;
pub mod interval;
pub mod outcome;
pub mod propose;
pub mod run;
pub mod table;
pub mod words;

pub use check::{check, Verdict};
pub use propose::{propose, Proposed};
pub use run::{run, State};
