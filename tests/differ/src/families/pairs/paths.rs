//! The ways on which a condition of a row goes in the analysis. At each node one
//! row is narrowed by the truth that is asked for; what the opposite leaves of
//! another is joined to what was joined before. Both are, at first, the row that
//! is read. What is left at each node is the peer's.

use peer::analysis::{arithmetic, narrow, Row, Silent};
use peer::table::Node;

/// The ways of a pair.
struct Pair {
    in_turn: &'static str,
    /// Joined where the row to narrow is the row that is read, or a part of it;
    /// and where nothing was joined before, or something was.
    in_place: &'static str,
    of_a_part: &'static str,
    to_a_row: &'static str,
    of_a_part_to_a_row: &'static str,
    /// Joined where nothing was before, and nothing is left.
    nothing: &'static str,
}

const BOTH: Pair = Pair {
    in_turn: "both: narrowed in turn",
    in_place: "both: joined in both places",
    of_a_part: "both: joined of a part of the row",
    to_a_row: "both: joined after a row",
    of_a_part_to_a_row: "both: joined of a part of the row, after a row",
    nothing: "both: joined to nothing, nothing left",
};

const EITHER: Pair = Pair {
    in_turn: "either: narrowed in turn",
    in_place: "either: joined in both places",
    of_a_part: "either: joined of a part of the row",
    to_a_row: "either: joined after a row",
    of_a_part_to_a_row: "either: joined of a part of the row, after a row",
    nothing: "either: joined to nothing, nothing left",
};

/// By what the left side leaves before the right one narrows it: nothing of the
/// row that is read, or of a part of it; all of that row; or a part.
const LEFT_NONE: &str = "left side: nothing left";
const LEFT_NONE_OF_A_PART: &str = "left side: nothing left of a part of the row";
const LEFT_COPY: &str = "left side: the whole row left";
const LEFT_PART: &str = "left side: a part of the row left";

/// By what a comparison adds, and its sides.
struct Added {
    row: &'static str,
    no_cut: &'static str,
    no_meet: &'static str,
    same: &'static str,
    two: &'static str,
    left: &'static str,
    right: &'static str,
    neither: &'static str,
}

const TO_NOTHING: Added = Added {
    row: "comparison: joined to nothing",
    no_cut: "comparison: no cut joined to nothing",
    no_meet: "comparison: no meet of two cuts joined to nothing",
    same: "joined to nothing: one variable on both sides",
    two: "joined to nothing: two variables",
    left: "joined to nothing: no variable on the right",
    right: "joined to nothing: no variable on the left",
    neither: "joined to nothing: no variable",
};

const TO_A_ROW: Added = Added {
    row: "comparison: joined to a row",
    no_cut: "comparison: no cut joined to a row",
    no_meet: "comparison: no meet of two cuts joined to a row",
    same: "joined to a row: one variable on both sides",
    two: "joined to a row: two variables",
    left: "joined to a row: no variable on the right",
    right: "joined to a row: no variable on the left",
    neither: "joined to a row: no variable",
};

const WIDENS: &str = "comparison: widens the row that it is joined to";

/// By the rows on which its sides are read again: for another interval, or not.
const AGAIN: &str = "read again: the narrowed row";
const AGAIN_OTHER: &str = "read again: the narrowed row, another interval";
const AGAIN_FROM: &str = "read again: the row of the opposite";
const AGAIN_FROM_OTHER: &str = "read again: the row of the opposite, another interval";

/// All of them.
pub fn names() -> Vec<&'static str> {
    let of = |pair: Pair| {
        let joined = [pair.in_place, pair.of_a_part, pair.to_a_row, pair.of_a_part_to_a_row];
        [&[pair.in_turn, pair.nothing][..], &joined].concat()
    };
    let left = [LEFT_NONE, LEFT_NONE_OF_A_PART, LEFT_COPY, LEFT_PART];
    let added = |to: Added| {
        let sides = [to.same, to.two, to.left, to.right, to.neither];
        [&[to.row, to.no_cut, to.no_meet][..], &sides].concat()
    };
    let again = [AGAIN, AGAIN_OTHER, AGAIN_FROM, AGAIN_FROM_OTHER];
    let joined = [&added(TO_NOTHING)[..], &added(TO_A_ROW), &[WIDENS]].concat();
    [&of(BOTH)[..], &of(EITHER), &left, &joined, &again].concat()
}

/// Those that a condition takes on a row.
pub fn taken(nodes: &[Node], node: u16, row: &Row) -> Vec<&'static str> {
    let mut walk = Walk { nodes, read: *row, taken: Vec::new() };
    walk.condition(node, Asked { truth: true, narrowed: *row, from: *row, joined: None });
    walk.taken
}

/// The truth by which a row is narrowed; the row of which the opposite is joined,
/// and to what.
#[derive(Clone, Copy)]
struct Asked {
    truth: bool,
    narrowed: Row,
    from: Row,
    joined: Option<Row>,
}

struct Walk<'a> {
    nodes: &'a [Node],
    /// The row on which the condition is decided.
    read: Row,
    taken: Vec<&'static str>,
}

impl Walk<'_> {
    fn condition(&mut self, node: u16, asked: Asked) {
        match self.nodes[usize::from(node)] {
            Node::Both(..) => self.pair(&BOTH, node, asked.truth, asked),
            Node::Either(..) => self.pair(&EITHER, node, !asked.truth, asked),
            Node::Not(a) => self.condition(a, Asked { truth: !asked.truth, ..asked }),
            _ => self.comparison(node, asked),
        }
    }

    /// What the condition leaves of a row where it is as wanted.
    fn left(&self, node: u16, wanted: bool, row: &Row) -> Option<Row> {
        let mut row = *row;
        narrow(self.nodes, node, wanted, &mut row).then_some(row)
    }

    fn pair(&mut self, of: &Pair, node: u16, in_turn: bool, asked: Asked) {
        let sides = self.operands(node);
        if in_turn {
            self.taken.push(of.in_turn);
            return self.in_turn(sides, asked);
        }
        self.taken.push(match (asked.narrowed == self.read, asked.joined) {
            (true, None) => of.in_place,
            (false, None) => of.of_a_part,
            (true, Some(_)) => of.to_a_row,
            (false, Some(_)) => of.of_a_part_to_a_row,
        });
        if asked.joined.is_none() && self.left(node, !asked.truth, &asked.from).is_none() {
            self.taken.push(of.nothing);
        }
        // The opposites are narrowed in turn, and the sides' rows are joined.
        let (truth, narrowed, from) = (!asked.truth, asked.from, asked.narrowed);
        self.in_turn(sides, Asked { truth, narrowed, from, joined: None });
    }

    fn in_turn(&mut self, [a, b]: [u16; 2], asked: Asked) {
        self.condition(a, asked);
        let left = self.left(a, asked.truth, &asked.narrowed);
        self.taken.push(match left {
            None if asked.narrowed == self.read => LEFT_NONE,
            None => LEFT_NONE_OF_A_PART,
            Some(row) if row == self.read => LEFT_COPY,
            Some(_) => LEFT_PART,
        });
        let joined = together(asked.joined, self.left(a, !asked.truth, &asked.from));
        // Where nothing is left, the right side starts from all of the row.
        let narrowed = left.unwrap_or(self.read);
        self.condition(b, Asked { narrowed, joined, ..asked });
    }

    fn comparison(&mut self, node: u16, asked: Asked) {
        self.read_again(node, &asked.narrowed, [AGAIN, AGAIN_OTHER]);
        self.read_again(node, &asked.from, [AGAIN_FROM, AGAIN_FROM_OTHER]);
        let left = self.left(node, !asked.truth, &asked.from);
        let to = if asked.joined.is_some() { &TO_A_ROW } else { &TO_NOTHING };
        self.taken.push(self.sides(node, to));
        self.taken.push(match left {
            Some(_) => to.row,
            None if self.has_cuts(node, !asked.truth, &asked.from) => to.no_meet,
            None => to.no_cut,
        });
        if asked.joined.is_some() && together(asked.joined, left) != asked.joined {
            self.taken.push(WIDENS);
        }
    }

    /// Whether a row is a part of the one that is read, so that the sides of a
    /// comparison have to be read on it too.
    fn read_again(&mut self, node: u16, row: &Row, [again, other]: [&'static str; 2]) {
        if *row == self.read {
            return;
        }
        self.taken.push(again);
        let on =
            |row| self.operands(node).map(|side| arithmetic(self.nodes, side, row, &mut Silent));
        if on(row) != on(&self.read) {
            self.taken.push(other);
        }
    }

    fn operands(&self, node: u16) -> [u16; 2] {
        let sides = self.nodes[usize::from(node)].children();
        [sides[0], sides[1]]
    }

    fn sides(&self, node: u16, to: &Added) -> &'static str {
        match self.operands(node).map(|side| self.nodes[usize::from(side)]) {
            [Node::Variable(v), Node::Variable(w)] if v == w => to.same,
            [Node::Variable(_), Node::Variable(_)] => to.two,
            [Node::Variable(_), _] => to.left,
            [_, Node::Variable(_)] => to.right,
            _ => to.neither,
        }
    }

    /// Whether the comparison would leave something of its sides if they were two
    /// variables with their intervals on the row.
    fn has_cuts(&self, node: u16, wanted: bool, row: &Row) -> bool {
        let value = |side| arithmetic(self.nodes, side, row, &mut Silent);
        let [Some(a), Some(b)] = self.operands(node).map(value) else { return false };
        let apart = match self.nodes[usize::from(node)] {
            Node::Less(..) => Node::Less(0, 1),
            Node::AtMost(..) => Node::AtMost(0, 1),
            Node::Equal(..) => Node::Equal(0, 1),
            _ => Node::NotEqual(0, 1),
        };
        let nodes = [Node::Variable(0), Node::Variable(1), apart];
        narrow(&nodes, 2, wanted, &mut Row::of(&[a, b]))
    }
}

/// Two rows, of which none adds nothing.
fn together(a: Option<Row>, b: Option<Row>) -> Option<Row> {
    match (a, b) {
        (Some(mut row), Some(more)) => {
            row.join(&more);
            Some(row)
        }
        (a, b) => a.or(b),
    }
}
