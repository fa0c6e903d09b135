//! Formulas nested as deep as a table can have them, on a thread with 2 MB of stack.
use rangecheck::{check, propose, run, Refusal};

const NODES: usize = 1024;

/// So many choices fit in one another, of five nodes each.
const LEVELS: i32 = 204;

type Node = [i32; 4];

const V: Node = [2, 0, 0, 0];

fn num(value: i32) -> Node {
    [0, value, 0, 0]
}

/// Nodes of which each can name those before it; the last one is the formula.
struct Nodes(Vec<Node>);

impl Nodes {
    fn add(&mut self, node: Node) -> i32 {
        self.0.push(node);
        self.0.len() as i32 - 1
    }

    /// A comparison of two leaves.
    fn compared(&mut self, kind: i32, a: Node, b: Node) -> i32 {
        let (a, b) = (self.add(a), self.add(b));
        self.add([kind, a, b, 0])
    }

    /// A choice that asks a condition which is there.
    fn choice(&mut self, condition: i32, then: Node, otherwise: Node) {
        let (then, otherwise) = (self.add(then), self.add(otherwise));
        self.add([8, condition, then, otherwise]);
    }
}

/// So many levels, each over the last node of the one before.
fn nest(leaf: Node, levels: i32, level: impl Fn(&mut Nodes, i32, i32)) -> Nodes {
    let mut nodes = Nodes(vec![leaf]);
    for k in 1..=levels {
        let inner = nodes.0.len() as i32 - 1;
        level(&mut nodes, inner, k);
    }
    nodes
}

/// A task with one point that uses the last node, and one after it.
fn table(point: Node, nodes: &Nodes) -> Vec<i32> {
    let count = nodes.0.len();
    assert!((NODES - 5..=NODES).contains(&count), "{count} nodes");
    let mut words = vec![1, 1, 0, 2, count as i32, 2, 0];
    words.extend(point);
    words.extend([0; 4]);
    words.extend(nodes.0.iter().flatten());
    words
}

/// Both points are reached, and task 0 writes what the second row has.
fn proposal(before: (i32, i32), after: (i32, i32)) -> Vec<i32> {
    let lows = [before.0, after.0, after.0];
    let highs = [before.1, after.1, after.1];
    let head = [2, 1, 0, 1, 0, 0, 0, 0, 0];
    [&head[..], &lows, &highs].concat()
}

/// The variable, 0 at the start, lies in the first row; in the second it lies afterwards, and in none that lacks an end. What is proposed is accepted, and a
/// run brings it to the value.
fn answers(table: Vec<i32>, before: (i32, i32), after: (i32, i32), value: i32) {
    let thread = std::thread::Builder::new().stack_size(2 << 20);
    let calls = move || {
        let checked = |after| check(&table, &proposal(before, after));
        let refused = Err(Refusal {
            number: 13,
            place: 0,
        });
        assert_eq!(checked(after), Ok(vec![]));
        assert_eq!(checked((after.0 + 1, after.1)), refused);
        assert_eq!(checked((after.0, after.1 - 1)), refused);
        let proposal = propose(&table, &[]).unwrap();
        assert_eq!(check(&table, &proposal.words), Ok(vec![]));
        let state = run(&table, &[0]).unwrap();
        assert_eq!((state.points[0], state.values[0]), (1, value));
    };
    thread.spawn(calls).unwrap().join().unwrap();
}

/// Of a point that assigns the last node.
fn assigned(nodes: Nodes, before: (i32, i32), after: (i32, i32), value: i32) {
    let last = nodes.0.len() as i32 - 1;
    answers(table([1, 0, last, 1], &nodes), before, after, value);
}

#[test]
fn negations() {
    let nodes = nest(V, NODES as i32 - 1, |nodes, inner, _| {
        nodes.add([3, inner, 0, 0]);
    });
    assigned(nodes, (-9, 8), (-8, 9), 0);
}

/// In a test, both sides of which go on, and in a choice.
#[test]
fn nots() {
    let chain = |count| {
        let mut nodes = Nodes(vec![]);
        nodes.compared(17, V, num(5));
        for _ in 0..count {
            let inner = nodes.0.len() as i32 - 1;
            nodes.add([22, inner, 0, 0]);
        }
        nodes
    };
    let tested = chain(NODES - 3);
    answers(
        table([2, NODES as i32 - 1, 1, 1], &tested),
        (-9, 9),
        (-9, 9),
        0,
    );
    // An even number of them: v at most 5, else 7.
    let mut nodes = chain(NODES - 6);
    nodes.choice(NODES as i32 - 4, V, num(7));
    assigned(nodes, (-9, 9), (-9, 7), 0);
}

/// (.. < 5) ? 1 : 9, of v.
#[test]
fn choices_in_conditions() {
    let nodes = nest(V, LEVELS, |nodes, inner, _| {
        let five = nodes.add(num(5));
        let less = nodes.add([16, inner, five, 0]);
        nodes.choice(less, num(1), num(9));
    });
    assigned(nodes, (-9, 9), (1, 9), 1);
}

/// (v < ..) ? v : 9, of v: the innermost is -8..8 or 9, and from the next on v is cut to -9..8. In a run, where v is 0, they are 9 and 0 by turns.
#[test]
fn choices_that_cut() {
    let nodes = nest(V, LEVELS, |nodes, inner, _| {
        let v = nodes.add(V);
        let less = nodes.add([16, v, inner, 0]);
        nodes.choice(less, V, num(9));
    });
    assigned(nodes, (-9, 9), (-9, 9), 0);
}

/// v < 999 ? (v < 998 ? .. : -1) : -1, down to v where it is below 796.
#[test]
fn choices_in_then_branches() {
    let nodes = nest(V, LEVELS, |nodes, inner, level| {
        let less = nodes.compared(16, V, num(795 + level));
        let otherwise = nodes.add(num(-1));
        nodes.add([8, less, inner, otherwise]);
    });
    assigned(nodes, (-1000, 1000), (-1000, 795), 0);
}

/// v < -999 ? 2000 : (v < -998 ? 2000 : ..), up to v where it isn't below -796.
#[test]
fn choices_in_else_branches() {
    let nodes = nest(V, LEVELS, |nodes, inner, level| {
        let less = nodes.compared(16, V, num(-795 - level));
        let then = nodes.add(num(2000));
        nodes.add([8, less, then, inner]);
    });
    assigned(nodes, (-1000, 1000), (-796, 2000), 0);
}

/// 255 comparisons with 999 down to 745, on one side of one another, in a choice between two leaves.
fn chained(comparison: i32, connective: i32, right: bool, branches: [Node; 2]) -> Nodes {
    let mut nodes = Nodes(vec![]);
    let compared = |nodes: &mut Nodes, k: i32| match comparison {
        16 => nodes.compared(16, V, num(1000 - k)),
        _ => nodes.compared(17, num(1000 - k), V),
    };
    let mut chain = compared(&mut nodes, 1);
    for k in 2..=255 {
        let one = compared(&mut nodes, k);
        let (a, b) = if right { (one, chain) } else { (chain, one) };
        chain = nodes.add([connective, a, b, 0]);
    }
    nodes.choice(chain, branches[0], branches[1]);
    nodes
}

/// Below all of them.
#[test]
fn boths() {
    for right in [true, false] {
        let nodes = chained(16, 20, right, [V, num(-1)]);
        assigned(nodes, (-1000, 1000), (-1000, 744), 0);
    }
}

/// Not above or at any of them.
#[test]
fn eithers() {
    for right in [true, false] {
        let nodes = chained(17, 21, right, [num(-1), V]);
        assigned(nodes, (-1000, 1000), (-1000, 744), 0);
    }
}

/// (not (.. < 5) and v < 900) ? 1 : 9, of v; ten nodes each. In a run they are 9 and 1 by turns.
#[test]
fn choices_in_left_sides() {
    let nodes = nest(V, LEVELS / 2, |nodes, inner, _| {
        let five = nodes.add(num(5));
        let less = nodes.add([16, inner, five, 0]);
        let not = nodes.add([22, less, 0, 0]);
        let under = nodes.compared(16, V, num(900));
        let both = nodes.add([20, not, under, 0]);
        nodes.choice(both, num(1), num(9));
    });
    assigned(nodes, (-9, 9), (1, 9), 1);
}
