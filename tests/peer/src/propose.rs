//! The proposer of request 4: a table's held sets by walking its instructions,
//! then passes over its points that widen rows and entries until nothing changes.

mod passes;
mod walk;
mod widen;

use crate::check::length;
use crate::table::Table;
use crate::words::Refusal;
use passes::Passes;
use widen::Thresholds;

#[derive(Clone, Debug, PartialEq, Eq)]
pub struct Proposed {
    /// A proposal that the check accepts.
    pub words: Vec<i32>,
    /// How many passes were made, the last of which changed nothing.
    pub passes: usize,
}

/// Proposes for a buffer of `room` words, or gives the refusal: 1 to 6, then 19,
/// 20 and 18.
pub fn propose(table: &[i32], thresholds: &[i32], room: usize) -> Result<Proposed, Refusal> {
    let table = Table::decode(table)?;
    let thresholds = Thresholds::rising(thresholds)?;
    let needed = length(&table, table.points.len());
    if room < needed {
        return Err((20, needed));
    }
    let mut passes = Passes::start(&table, thresholds, walk::held(&table)?);
    let mut made = 1;
    while passes.pass() {
        made += 1;
    }
    Ok(Proposed { words: passes.words(), passes: made })
}

#[cfg(test)]
mod tests;
