//! What the choices of a formula come to on a row, by the peer's analysis.

use peer::analysis::{arithmetic, condition, narrow, Raised, Row, Silent};
use peer::table::Node;

/// What request 2 tells apart of a branch. 'Whole' is the row that came in, on
/// which no branch is read any more.
struct Branch {
    not_allowed: &'static str,
    no_row: &'static str,
    taken: &'static str,
    interval: &'static str,
    alarm: &'static str,
}

const THEN: Branch = Branch {
    not_allowed: "then: not allowed",
    no_row: "then: allowed, no row left",
    taken: "then: taken",
    interval: "then: not the interval on the whole row",
    alarm: "then: an alarm less than on the whole row",
};

const ELSE: Branch = Branch {
    not_allowed: "else: not allowed",
    no_row: "else: allowed, no row left",
    taken: "else: taken",
    interval: "else: not the interval on the whole row",
    alarm: "else: an alarm less than on the whole row",
};

const NO_DECISION: &str = "condition: none";
const BOTH_TAKEN: &str = "both branches taken";
const RIGHT_OF_BOTH: &str = "both: right side on a part of the row";
const RIGHT_OF_EITHER: &str = "either: right side on a part of the row";
const TURNED: &str = "condition: turned by 'not'";
const TURNED_BACK: &str = "condition: turned and turned back";

/// All of them.
pub fn names() -> Vec<&'static str> {
    let of = |branch: Branch| {
        [branch.not_allowed, branch.no_row, branch.taken, branch.interval, branch.alarm]
    };
    let others =
        [NO_DECISION, BOTH_TAKEN, RIGHT_OF_BOTH, RIGHT_OF_EITHER, TURNED, TURNED_BACK];
    [&of(THEN)[..], &of(ELSE), &others].concat()
}

/// Those that each choice and each both and either of a tree reach.
pub fn reached(nodes: &[Node], node: u16, row: &Row) -> Vec<&'static str> {
    let mut walk = Walk { nodes, reached: Vec::new() };
    walk.node(node, row);
    walk.reached
}

/// Whether it shows that a branch of the tree is read on a part of the row.
pub fn narrows(nodes: &[Node], node: u16, row: &Row) -> bool {
    let shows = [THEN.interval, THEN.alarm, ELSE.interval, ELSE.alarm];
    reached(nodes, node, row).iter().any(|name| shows.contains(name))
}

struct Walk<'a> {
    nodes: &'a [Node],
    reached: Vec<&'static str>,
}

impl Walk<'_> {
    fn node(&mut self, node: u16, row: &Row) {
        match self.nodes[usize::from(node)] {
            Node::Both(a, b) => self.sides(RIGHT_OF_BOTH, [a, b], true, row),
            Node::Either(a, b) => self.sides(RIGHT_OF_EITHER, [a, b], false, row),
            Node::Choice { condition, then, otherwise } => {
                self.node(condition, row);
                self.choice(condition, [then, otherwise], row);
            }
            other => other.children().into_iter().for_each(|child| self.node(child, row)),
        }
    }

    /// The row that the condition leaves where it is as wanted.
    fn left(&self, condition: u16, wanted: bool, row: &Row) -> Option<Row> {
        let mut row = *row;
        narrow(self.nodes, condition, wanted, &mut row).then_some(row)
    }

    fn sides(&mut self, name: &'static str, [a, b]: [u16; 2], wanted: bool, row: &Row) {
        if self.left(a, wanted, row).is_some_and(|left| left != *row) {
            self.reached.push(name);
        }
        self.node(a, row);
        self.node(b, row);
    }

    /// How many 'not' stand around a condition.
    fn nots(&self, asked: u16) -> usize {
        match self.nodes[usize::from(asked)] {
            Node::Not(under) => 1 + self.nots(under),
            _ => 0,
        }
    }

    fn choice(&mut self, asked: u16, [then, otherwise]: [u16; 2], row: &Row) {
        match self.nots(asked) {
            0 => (),
            nots if nots % 2 == 1 => self.reached.push(TURNED),
            _ => self.reached.push(TURNED_BACK),
        }
        match condition(self.nodes, asked, row, &mut Silent) {
            None => self.reached.push(NO_DECISION),
            Some(truth) => {
                let yes = self.left(asked, true, row);
                let no = self.left(asked, false, row);
                if truth.yes && truth.no && yes.is_some() && no.is_some() {
                    self.reached.push(BOTH_TAKEN);
                }
                self.branch(&THEN, truth.yes, then, row, yes);
                self.branch(&ELSE, truth.no, otherwise, row, no);
            }
        }
    }

    /// A branch, and how it is read otherwise than on the whole row.
    fn branch(&mut self, of: &Branch, allowed: bool, node: u16, whole: &Row, left: Option<Row>) {
        if !allowed {
            return self.reached.push(of.not_allowed);
        }
        let Some(left) = left else { return self.reached.push(of.no_row) };
        self.reached.push(of.taken);
        let [on_whole, on_left] = [whole, &left].map(|row| {
            let mut raised = Raised::default();
            (arithmetic(self.nodes, node, row, &mut raised), raised.count())
        });
        if on_whole.0 != on_left.0 {
            self.reached.push(of.interval);
        }
        if on_whole.1 > on_left.1 {
            self.reached.push(of.alarm);
        }
        self.node(node, &left);
    }
}
