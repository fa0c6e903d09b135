//! Formulas in which choices and conditions stand in one another, each with a
//! quarter, half and all of the nodes that a table can have: how its check's time
//! grows with the depth. Then the one form that doubles it with each level.

use crate::inputs::{Check, Pair};

const SIZES: [usize; 3] = [256, 512, 1024];

type Node = [i32; 4];

const V: Node = [2, 0, 0, 0];

fn num(value: i32) -> Node {
    [0, value, 0, 0]
}

/// Nodes of which each can name those before it.
struct Nodes(Vec<Node>);

impl Nodes {
    fn add(&mut self, node: Node) -> i32 {
        self.0.push(node);
        self.last()
    }

    fn last(&self) -> i32 {
        self.0.len() as i32 - 1
    }

    /// V below a number.
    fn under(&mut self, limit: i32) -> i32 {
        let (a, b) = (self.add(V), self.add(num(limit)));
        self.add([16, a, b, 0])
    }

    /// A choice between two leaves.
    fn choice(&mut self, condition: i32, then: Node, otherwise: Node) {
        let (then, otherwise) = (self.add(then), self.add(otherwise));
        self.add([8, condition, then, otherwise]);
    }
}

/// Adds a level, whose number it is given, over the last node.
type Level = fn(&mut Nodes, i32);

struct Form {
    name: &'static str,
    /// Whether it is arithmetic that a point assigns, and not a condition that
    /// it tests.
    assigned: bool,
    level: Level,
}

const FORMS: [Form; 7] = [
    Form { name: "(.. < 5) ? 1 : 9", assigned: true, level: in_condition },
    Form { name: "(v < ..) ? v : 9", assigned: true, level: that_cuts },
    Form { name: "v < 999 ? .. : -1", assigned: true, level: in_then },
    Form { name: "v < -999 ? 2000 : ..", assigned: true, level: in_else },
    Form { name: "in turn, also left of a both", assigned: true, level: mixed },
    Form { name: "not ..", assigned: false, level: negated },
    Form { name: "v < 999 and ..", assigned: false, level: in_right_side },
];

/// The form whose time doubles with each level, of so many.
const DOUBLING: Form =
    Form { name: "(v < 20 and .. < 5) ? 1 : 9", assigned: true, level: in_cut_right_side };
const LEVELS: [usize; 4] = [4, 8, 12, 16];

fn in_condition(nodes: &mut Nodes, _: i32) {
    let inner = nodes.last();
    let five = nodes.add(num(5));
    let less = nodes.add([16, inner, five, 0]);
    nodes.choice(less, num(1), num(9));
}

fn that_cuts(nodes: &mut Nodes, _: i32) {
    let inner = nodes.last();
    let v = nodes.add(V);
    let less = nodes.add([16, v, inner, 0]);
    nodes.choice(less, V, num(9));
}

/// From outside with 999, 998 and so on, if the nest is the largest.
fn in_then(nodes: &mut Nodes, level: i32) {
    let inner = nodes.last();
    let less = nodes.under(795 + level);
    let otherwise = nodes.add(num(-1));
    nodes.add([8, less, inner, otherwise]);
}

fn in_else(nodes: &mut Nodes, level: i32) {
    let inner = nodes.last();
    let less = nodes.under(-795 - level);
    let then = nodes.add(num(2000));
    nodes.add([8, less, then, inner]);
}

fn in_left_side(nodes: &mut Nodes, _: i32) {
    let inner = nodes.last();
    let five = nodes.add(num(5));
    let less = nodes.add([16, inner, five, 0]);
    let under = nodes.under(900);
    let both = nodes.add([20, less, under, 0]);
    nodes.choice(both, num(1), num(9));
}

fn mixed(nodes: &mut Nodes, level: i32) {
    let levels: [Level; 5] = [in_left_side, in_then, in_condition, in_else, that_cuts];
    levels[level as usize % levels.len()](nodes, level);
}

fn negated(nodes: &mut Nodes, _: i32) {
    nodes.add([22, nodes.last(), 0, 0]);
}

fn in_right_side(nodes: &mut Nodes, level: i32) {
    let inner = nodes.last();
    let less = nodes.under(999 - level);
    nodes.add([20, less, inner, 0]);
}

/// V is cut more than by the level around it, so that the right side is read
/// again on what is left.
fn in_cut_right_side(nodes: &mut Nodes, level: i32) {
    let inner = nodes.last();
    let under = nodes.under(7 + level);
    let five = nodes.add(num(5));
    let less = nodes.add([16, inner, five, 0]);
    let both = nodes.add([20, under, less, 0]);
    nodes.choice(both, num(1), num(9));
}

impl Form {
    /// The leaf, V or V below 999, with as many levels as there is room for.
    fn nodes(&self, most: usize) -> Vec<Node> {
        let mut nodes = Nodes(vec![]);
        if self.assigned {
            nodes.add(V);
        } else {
            nodes.under(999);
        }
        for level in 1.. {
            let before = nodes.0.len();
            (self.level)(&mut nodes, level);
            if nodes.0.len() > most {
                nodes.0.truncate(before);
                break;
            }
        }
        nodes.0
    }

    /// One task with a point for the formula and an end, and a proposal in which
    /// V is -1000..1000 before it and anything afterwards.
    fn pair(&self, nodes: &[Node]) -> Pair {
        let last = nodes.len() as i32 - 1;
        let point = if self.assigned { [1, 0, last, 1] } else { [2, last, 1, 1] };
        let sizes = [1, 1, 0, 2, nodes.len() as i32, 2, 0];
        let table = [&sizes[..], &point, &[0; 4], nodes.as_flattened()].concat();
        let (lows, highs) = ([-1000, i32::MIN, i32::MIN], [1000, i32::MAX, i32::MAX]);
        let proposal = [&[2, 1, 0, 1, 0, 0, 0, 0, 0], &lows[..], &highs].concat();
        (table, proposal)
    }

    fn check(&self, most: usize) -> Check {
        let nodes = self.nodes(most);
        let name = format!("{}, {} nodes", self.name, nodes.len());
        Check { name, pairs: vec![self.pair(&nodes)] }
    }
}

pub fn checks() -> Vec<Check> {
    let linear = FORMS.iter().flat_map(|form| SIZES.map(|most| form.check(most)));
    linear.chain(LEVELS.map(|levels| DOUBLING.check(1 + 9 * levels))).collect()
}
