//! Tables and proposals as their parts: trees in place of node numbers, rows
//! and entries in place of parallel arrays.

pub const MIN: i32 = i32::MIN;
pub const MAX: i32 = i32::MAX;

/// A low end and a high end, in this order or not.
pub type Ends = (i32, i32);

/// The ends of each variable.
pub type Row = Vec<Ends>;

/// A task, a held set and a variable, with what that task writes there.
pub type Entry = ([i32; 3], Ends);

/// Any value at all.
pub const FULL: Ends = (MIN, MAX);

/// A node or a point: a kind, and up to three fields of which some are the
/// numbers of nodes that come with it. What isn't given is 0.
#[derive(Clone, Debug)]
pub struct Tree {
    kind: i32,
    fields: Vec<Field>,
}

/// Points have the form of nodes.
pub type Point = Tree;

#[derive(Clone, Debug)]
pub enum Field {
    Word(i32),
    Child(Tree),
}

impl From<i32> for Field {
    fn from(word: i32) -> Field {
        Field::Word(word)
    }
}

impl From<Tree> for Field {
    fn from(tree: Tree) -> Field {
        Field::Child(tree)
    }
}

/// A node or a point of any kind, right or wrong.
pub fn raw(kind: i32, fields: impl IntoIterator<Item = Field>) -> Tree {
    Tree { kind, fields: fields.into_iter().collect() }
}

/// A leaf, or a point without a node.
fn words<const N: usize>(kind: i32, words: [i32; N]) -> Tree {
    raw(kind, words.map(Field::Word))
}

/// An inner node.
fn over<const N: usize>(kind: i32, children: [Tree; N]) -> Tree {
    raw(kind, children.map(Field::Child))
}

pub fn num(value: i32) -> Tree {
    words(0, [value])
}

pub fn input(low: i32, high: i32) -> Tree {
    words(1, [low, high])
}

pub fn var(variable: i32) -> Tree {
    words(2, [variable])
}

pub fn negation(a: Tree) -> Tree {
    over(3, [a])
}

pub fn sum(a: Tree, b: Tree) -> Tree {
    over(4, [a, b])
}

pub fn difference(a: Tree, b: Tree) -> Tree {
    over(5, [a, b])
}

pub fn product(a: Tree, b: Tree) -> Tree {
    over(6, [a, b])
}

pub fn quotient(a: Tree, b: Tree) -> Tree {
    over(7, [a, b])
}

pub fn choice(condition: Tree, then: Tree, otherwise: Tree) -> Tree {
    over(8, [condition, then, otherwise])
}

pub fn remainder(a: Tree, b: Tree) -> Tree {
    over(9, [a, b])
}

pub fn less(a: Tree, b: Tree) -> Tree {
    over(16, [a, b])
}

pub fn at_most(a: Tree, b: Tree) -> Tree {
    over(17, [a, b])
}

pub fn equal(a: Tree, b: Tree) -> Tree {
    over(18, [a, b])
}

pub fn not_equal(a: Tree, b: Tree) -> Tree {
    over(19, [a, b])
}

pub fn both(a: Tree, b: Tree) -> Tree {
    over(20, [a, b])
}

pub fn either(a: Tree, b: Tree) -> Tree {
    over(21, [a, b])
}

pub fn not(a: Tree) -> Tree {
    over(22, [a])
}

/// An operation or a comparison by its kind: 4 to 7, 9, or 16 to 21.
pub fn binary(kind: i32, a: Tree, b: Tree) -> Tree {
    over(kind, [a, b])
}

pub fn end() -> Point {
    words(0, [])
}

pub fn assign(variable: i32, tree: Tree, next: i32) -> Point {
    raw(1, [variable.into(), tree.into(), next.into()])
}

pub fn test(condition: Tree, yes: i32, no: i32) -> Point {
    raw(2, [condition.into(), yes.into(), no.into()])
}

pub fn lock(mutex: i32, next: i32) -> Point {
    words(3, [mutex, next])
}

pub fn unlock(mutex: i32, next: i32) -> Point {
    words(4, [mutex, next])
}

/// Adds the nodes of a tree, children first and from left to right, and gives
/// the number of the last, which is the tree's own.
pub fn flatten(tree: &Tree, nodes: &mut Vec<[i32; 4]>) -> i32 {
    let own = quad(tree, nodes);
    nodes.push(own);
    nodes.len() as i32 - 1
}

/// The four words of a node or a point, once its children are added.
fn quad(tree: &Tree, nodes: &mut Vec<[i32; 4]>) -> [i32; 4] {
    let mut quad = [tree.kind, 0, 0, 0];
    for (to, field) in quad[1..].iter_mut().zip(&tree.fields) {
        *to = match field {
            Field::Word(word) => *word,
            Field::Child(child) => flatten(child, nodes),
        };
    }
    quad
}

/// The words of a table whose nodes are those of its points' trees, in the
/// order of the points.
pub fn table(shares: &[i32], starts: &[i32], mutexes: i32, points: &[Point]) -> Vec<i32> {
    let mut nodes = Vec::new();
    let points: Vec<[i32; 4]> = points.iter().map(|point| quad(point, &mut nodes)).collect();
    table_of_nodes(shares, starts, mutexes, &points, &nodes)
}

/// The same with nodes by their numbers, right or wrong.
pub fn table_of_nodes(
    shares: &[i32],
    starts: &[i32],
    mutexes: i32,
    points: &[[i32; 4]],
    nodes: &[[i32; 4]],
) -> Vec<i32> {
    let [tasks, variables] = [shares, starts].map(|part| part.len() as i32);
    let [point_count, node_count] = [points, nodes].map(|part| part.len() as i32);
    let sizes = [tasks, variables, mutexes, point_count, node_count];
    [&sizes, shares, starts, points.as_flattened(), nodes.as_flattened()].concat()
}

/// The words of a proposal: a held word and a row for each point, a rest row
/// for each mutex, and entries.
pub fn proposal(
    variables: i32,
    held: &[i32],
    rests: &[Row],
    rows: &[Row],
    entries: &[Entry],
) -> Vec<i32> {
    let sizes = [rows.len() as i32, variables, rests.len() as i32, entries.len() as i32];
    let ends = || rows.iter().chain(rests).flatten().chain(entries.iter().map(|(_, ends)| ends));
    let mut words = [&sizes, held].concat();
    words.extend(entries.iter().flat_map(|(head, _)| head));
    words.extend(ends().map(|&(low, _)| low));
    words.extend(ends().map(|&(_, high)| high));
    words
}

/// The same row for each of so many points or mutexes.
pub fn rows(count: usize, row: &[Ends]) -> Vec<Row> {
    vec![row.to_vec(); count]
}

/// What is left without the low end, and without the high end; in the place of
/// a single value its neighbours, of which a limit has one.
pub fn narrower((low, high): Ends) -> Vec<Ends> {
    let above = low.checked_add(1).map(|low| (low, high.max(low)));
    let below = high.checked_sub(1).map(|high| (low.min(high), high));
    [above, below].into_iter().flatten().collect()
}

#[cfg(test)]
mod tests {
    use super::*;

    /// Document 01's first example.
    #[test]
    fn bare_is_as_it_is_written_out() {
        let points = [assign(0, num(5), 1), end(), end()];
        let bare = "2 1 0 3 1  2 1  0  1 0 0 1  0 0 0 0  0 0 0 0  0 5 0 0";
        assert_eq!(table(&[2, 1], &[0], 0, &points), peer::words::parse(bare).unwrap());
        let rows = [vec![(0, 0)], vec![(5, 5)], vec![(0, 5)]];
        let words = proposal(1, &[0; 3], &[], &rows, &[([0, 0, 0], (5, 5))]);
        let given = "3 1 0 1  0 0 0  0 0 0  0 5 0 5  0 5 5 5";
        assert_eq!(words, peer::words::parse(given).unwrap());
    }

    #[test]
    fn what_is_narrower_lacks_an_end_and_has_a_value() {
        assert_eq!(narrower((-2, 2)), [(-1, 2), (-2, 1)]);
        assert_eq!(narrower((0, 0)), [(1, 1), (-1, -1)]);
        assert_eq!(narrower((MAX, MAX)), [(MAX - 1, MAX - 1)]);
        assert_eq!(narrower(FULL), [(MIN + 1, MAX), (MIN, MAX - 1)]);
    }

    #[test]
    fn children_go_before_their_parents_and_from_left_to_right() {
        let mut nodes = Vec::new();
        let tree = choice(less(var(3), num(7)), negation(input(-1, 1)), raw(10, [4.into()]));
        assert_eq!(flatten(&tree, &mut nodes), 6);
        let wanted = [
            [2, 3, 0, 0],
            [0, 7, 0, 0],
            [16, 0, 1, 0],
            [1, -1, 1, 0],
            [3, 3, 0, 0],
            [10, 4, 0, 0],
            [8, 2, 4, 5],
        ];
        assert_eq!(nodes, wanted);
    }
}
