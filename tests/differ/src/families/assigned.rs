//! A drawn tree of some variables that is assigned to another, as whole checks
//! and runs. The target's row is what the peer's analysis writes: that is
//! accepted, and without either end it is refused; and whatever a run comes to
//! was foreseen.

use super::checks::Check;
use super::runs::Run;
use super::Tally;
use crate::build::*;
use peer::analysis::{arithmetic, Ends as Lent, Raised, Row};
use peer::generate::Random;
use peer::interval::Interval;
use peer::table::{Node, Table, VARIABLES};
use peer::words::ALARM_WORDS;
use peer::State;
use rangecheck::STATE_WORDS;

/// One task assigns a tree of some variables to the next one, or to the last of
/// them where a table has no more, and ends.
pub struct Assigned {
    pub tree: Tree,
    /// Of the variables, and a value in each.
    pub spans: Vec<Ends>,
    pub values: Vec<i32>,
}

/// What the check says of an assignment.
pub struct Foreseen {
    pub written: Option<Interval>,
    pub alarms: Vec<[i32; 2]>,
}

impl Assigned {
    /// The variable that is assigned to.
    fn to(&self) -> usize {
        self.spans.len().min(VARIABLES - 1)
    }

    fn table(&self, values: &[i32]) -> Vec<i32> {
        let mut starts = values.to_vec();
        starts.resize(self.to() + 1, 0);
        let points = [assign(self.to() as i32, self.tree.clone(), 1), end()];
        table(&[2], &starts, 0, &points)
    }

    /// Before the assignment.
    fn row(&self) -> Vec<Ends> {
        let mut row = self.spans.clone();
        row.resize(self.to() + 1, (0, 0));
        row
    }

    /// A proposal with those ends of the variable after the assignment, and that
    /// entry.
    fn proposal(&self, written: Option<Ends>, target: Ends) -> Vec<i32> {
        let mut after = self.row();
        after[self.to()] = target;
        let variables = after.len() as i32;
        let held = [0, if written.is_some() { 0 } else { -1 }];
        let entry = |ends| ([0, 0, self.to() as i32], ends);
        let entries: Vec<Entry> = written.map(entry).into_iter().collect();
        proposal(variables, &held, &[], &[self.row(), after], &entries)
    }

    /// The tree's nodes, of which the last is its own, and the row.
    pub fn parts(&self) -> (Vec<Node>, Row) {
        let nodes = Table::decode(&self.table(&self.values)).expect("a valid table").nodes;
        let (lows, highs): (Vec<i32>, Vec<i32>) = self.row().into_iter().unzip();
        (nodes, Lent { lows: &lows, highs: &highs }.row())
    }

    /// By the peer's analysis.
    pub fn foreseen(&self) -> Foreseen {
        let (nodes, row) = self.parts();
        let mut raised = Raised::default();
        let written = arithmetic(&nodes, nodes.len() as u16 - 1, &row, &mut raised);
        Foreseen { written, alarms: raised.pairs().collect() }
    }

    /// With the row and the entry that are written, and with those that lack an
    /// end of it.
    pub fn check(&self, tally: &mut Tally, foreseen: &Foreseen) {
        let ends = foreseen.written.map(|interval| (interval.low(), interval.high()));
        let check = |entry, target, wanted| {
            Check::wanting(self.table(&self.values), self.proposal(entry, target), wanted)
        };
        let exact = check(ends, ends.unwrap_or((0, 0)), Ok(foreseen.alarms.clone()));
        let less = ends.into_iter().flat_map(|written| {
            let lack = narrower(written).into_iter().flat_map(move |less| {
                [(written, less, Err((13, 0))), (less, written, Err((14, 0)))]
            });
            lack.map(|(entry, target, wanted)| check(Some(entry), target, wanted))
        });
        for check in std::iter::once(exact).chain(less) {
            tally.case(check.differences(ALARM_WORDS), || check.shown());
        }
    }

    /// Plays the assignment on values in the spans, and gives the last state.
    pub fn run(&self, tally: &mut Tally, values: &[i32], foreseen: &Foreseen) -> State {
        let run = Run::by_peer(self.table(values), vec![0]);
        let state = run.wanted.expect("a valid table");
        let mut found = run.differences(STATE_WORDS);
        if !foreseen.holds(&state, self.to()) {
            found.push(format!("not foreseen: {state:?}"));
        }
        tally.case(found, || run.shown());
        state
    }

    /// One end of each span.
    pub fn ends(&self, random: &mut Random) -> Vec<i32> {
        self.spans.iter().map(|&(low, high)| random.pick(&[low, high])).collect()
    }
}

impl Foreseen {
    /// Of a run that assigns to that variable.
    fn holds(&self, state: &State, to: usize) -> bool {
        match state.stop_kinds[0] {
            0 => self.written.is_some_and(|interval| interval.holds(state.values[to])),
            kind => self.alarms.contains(&[state.stop_nodes[0], kind as i32]),
        }
    }
}
