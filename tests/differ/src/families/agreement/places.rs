//! In which places a tree reads its variables, by a walk over the nodes' words.

use crate::families::trees::operands;
use std::collections::{BTreeMap, BTreeSet};

pub type Places = BTreeSet<&'static str>;

/// The variables that a tree reads, each with the places that all its readings
/// lie in.
pub type Only = BTreeMap<usize, Places>;

const ASKED: &str = "read only in a choice's condition";
const LEFT: &str = "read only left in a comparison";
const RIGHT: &str = "read only right in a comparison";

/// A choice's condition that lies in another's.
const NESTED: &str = "read only in a condition within a choice's condition";
const COMPARED: &str = "read only in a choice that is compared";

/// All of them.
pub fn names() -> Vec<&'static str> {
    let of = |kind| (0..operands(kind).len()).map(move |operand| place(kind, operand));
    let all = [3, 4, 8, 16, 20, 21, 22].into_iter().flat_map(of);
    all.chain([NESTED, COMPARED]).collect()
}

fn place(kind: i32, operand: usize) -> &'static str {
    match (kind, operand) {
        (3, _) => "read only in a negation",
        (8, 0) => ASKED,
        (8, 1) => "read only in a then branch",
        (8, _) => "read only in an else branch",
        (16..=19, 0) => LEFT,
        (16..=19, _) => RIGHT,
        (20, 0) => "read only left in a both",
        (20, _) => "read only right in a both",
        (21, 0) => "read only left in an either",
        (21, _) => "read only right in an either",
        (22, _) => "read only in a not",
        (_, 0) => "read only left in an operation",
        _ => "read only right in an operation",
    }
}

pub fn only(nodes: &[[i32; 4]], node: i32) -> Only {
    let mut found = Only::new();
    for (reading, places) in readings(nodes, node) {
        let variable = nodes[reading][1] as usize;
        let all = found.entry(variable).or_insert_with(|| places.clone());
        all.retain(|place| places.contains(place));
    }
    found
}

/// The nodes of a tree that are variables, each with the places it lies in, at
/// any depth.
pub fn readings(nodes: &[[i32; 4]], node: i32) -> Vec<(usize, Places)> {
    let mut found = Vec::new();
    walk(nodes, node as usize, Places::new(), &mut found);
    found
}

fn walk(nodes: &[[i32; 4]], node: usize, within: Places, found: &mut Vec<(usize, Places)>) {
    let [kind, fields @ ..] = nodes[node];
    for (operand, &child) in fields[..operands(kind).len()].iter().enumerate() {
        let mut inside = within.clone();
        inside.insert(place(kind, operand));
        if (kind, operand) == (8, 0) && within.contains(ASKED) {
            inside.insert(NESTED);
        }
        if kind == 8 && (within.contains(LEFT) || within.contains(RIGHT)) {
            inside.insert(COMPARED);
        }
        walk(nodes, child as usize, inside, found);
    }
    if kind == 2 {
        found.push((node, within));
    }
}

#[cfg(test)]
mod tests {
    use super::*;
    use crate::build::*;

    fn of(tree: &Tree) -> Only {
        let mut nodes = Vec::new();
        let node = flatten(tree, &mut nodes);
        only(&nodes, node)
    }

    fn places<const N: usize>(names: [&'static str; N]) -> Places {
        Places::from(names)
    }

    #[test]
    fn a_place_is_one_of_all_readings() {
        let tree = choice(not(less(var(0), var(1))), var(1), sum(var(0), var(4)));
        let last = places([place(8, 2), place(4, 1)]);
        assert_eq!(of(&tree), Only::from([(0, places([])), (1, places([])), (4, last)]));
        let tree = either(less(var(0), var(1)), less(var(0), num(3)));
        let wanted = [(0, places([LEFT])), (1, places([place(21, 0), RIGHT]))];
        assert_eq!(of(&tree), Only::from(wanted));
    }

    #[test]
    fn choices_in_comparisons_and_conditions_in_conditions_are_told() {
        let inner = choice(less(var(0), num(5)), var(1), num(7));
        let then = place(8, 1);
        let wanted = [(0, places([ASKED, LEFT])), (1, places([then]))];
        assert_eq!(of(&inner), Only::from(wanted));
        let outer = choice(less(inner, num(3)), num(1), num(2));
        let first = places([ASKED, LEFT, COMPARED, NESTED]);
        let second = places([ASKED, LEFT, COMPARED, then]);
        assert_eq!(of(&outer), Only::from([(0, first), (1, second)]));
    }
}
