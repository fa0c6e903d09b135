//! The outcomes of a reached point: where its instruction may lead, with which
//! held set and with which row. The check holds a proposal against them, the
//! proposer and the generator of cases make one out of them.

use crate::analysis::{arithmetic, split, Alarms, Ends, Row, Side};
use crate::table::{Point, Table};

#[derive(Clone, Copy, Debug)]
pub struct Outcome<'a> {
    pub next: usize,
    pub held: u8,
    pub row: &'a Row,
}

/// A way on from a point: its target and the held set that is brought there.
type Way = (usize, u8);

/// Where a point leads by the locks alone, of a test yes before no.
#[inline]
pub fn ways(point: Point, held: u8) -> [Option<Way>; 2] {
    let to = |next: u16, held: u8| Some((usize::from(next), held));
    let bit = |mutex: u8| 1 << mutex;
    match point {
        Point::Assign { next, .. } => [to(next, held), None],
        Point::Test { yes, no, .. } => [to(yes, held), to(no, held)],
        Point::Lock { mutex, next } if held & bit(mutex) == 0 => {
            [to(next, held | bit(mutex)), None]
        }
        Point::Unlock { mutex, next } if held & bit(mutex) != 0 => {
            [to(next, held & !bit(mutex)), None]
        }
        Point::End | Point::Lock { .. } | Point::Unlock { .. } => [None, None],
    }
}

/// The outcomes of one point, which are its ways on as far as they leave a row.
pub struct Outcomes {
    ways: [Option<Way>; 2],
    row: Row,
    /// What is left of the row on each way.
    left: [Side; 2],
}

impl Outcomes {
    /// Those of point `at`, reached with this held set and row. `rest` gives the
    /// rest row of a mutex.
    #[inline]
    pub fn of<'a>(
        table: &Table,
        at: usize,
        held: u8,
        row: Row,
        rest: impl FnOnce(usize) -> Ends<'a>,
        alarms: &mut impl Alarms,
    ) -> Outcomes {
        let point = table.points[at];
        let left = [Side::Whole, Side::Whole];
        let mut outcomes = Outcomes { ways: ways(point, held), row, left };
        let Outcomes { row, left: [yes, no], .. } = &mut outcomes;
        match point {
            Point::End | Point::Unlock { .. } => {}
            Point::Assign { variable, node, .. } => {
                match arithmetic(&table.nodes, node, row, alarms) {
                    Some(written) => row.set(variable, written),
                    None => *yes = Side::Nothing,
                }
            }
            Point::Test { condition, .. } => {
                split(&table.nodes, condition, row, yes, no, alarms);
            }
            Point::Lock { mutex, .. } => {
                if !row.meet(rest(usize::from(mutex))) {
                    *yes = Side::Nothing;
                }
            }
        }
        outcomes
    }

    #[inline]
    pub fn iter(&self) -> impl Iterator<Item = Outcome<'_>> {
        self.ways.iter().zip(&self.left).filter_map(|(way, left)| {
            let (next, held) = (*way)?;
            Some(Outcome { next, held, row: left.row(&self.row)? })
        })
    }
}
