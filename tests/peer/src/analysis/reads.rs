//! Which variables a tree reads. That is a matter of its nodes alone: a branch
//! counts whether or not a row allows it.

use crate::table::{Node, VARIABLES};

/// The variables that are read anywhere in the tree of that node: in every
/// operand, in both sides of a condition, in a choice's condition and in both of
/// its branches.
pub fn reads(nodes: &[Node], node: u16) -> [bool; VARIABLES] {
    let mut read = [false; VARIABLES];
    mark(nodes, node, &mut read);
    read
}

fn mark(nodes: &[Node], node: u16, read: &mut [bool; VARIABLES]) {
    let node = nodes[usize::from(node)];
    if let Node::Variable(variable) = node {
        read[usize::from(variable)] = true;
    }
    node.children().into_iter().for_each(|child| mark(nodes, child, read));
}

#[cfg(test)]
mod tests {
    use super::*;
    use crate::interval::Interval;

    /// What the tree of the last node reads, by rising number.
    fn read(nodes: &[Node]) -> Vec<usize> {
        let read = reads(nodes, nodes.len() as u16 - 1);
        (0..VARIABLES).filter(|&variable| read[variable]).collect()
    }

    #[test]
    fn constants_and_inputs_read_nothing() {
        assert_eq!(read(&[Node::Constant(3)]), []);
        assert_eq!(read(&[Node::Input(Interval::FULL)]), []);
    }

    #[test]
    fn a_variable_reads_itself() {
        for variable in 0..VARIABLES {
            assert_eq!(read(&[Node::Variable(variable as u8)]), [variable]);
        }
    }

    #[test]
    fn a_negation_reads_what_its_operand_reads() {
        assert_eq!(read(&[Node::Variable(3), Node::Negation(0)]), [3]);
        assert_eq!(read(&[Node::Constant(3), Node::Negation(0)]), []);
    }

    #[test]
    fn operations_and_comparisons_read_both_operands() {
        let kinds: [fn(u16, u16) -> Node; 9] = [
            Node::Sum,
            Node::Difference,
            Node::Product,
            Node::Quotient,
            Node::Remainder,
            Node::Less,
            Node::AtMost,
            Node::Equal,
            Node::NotEqual,
        ];
        let (v, u, number) = (Node::Variable(2), Node::Variable(9), Node::Constant(9));
        for of in kinds {
            assert_eq!(read(&[v, u, of(0, 1)]), [2, 9]);
            assert_eq!(read(&[v, number, of(0, 1)]), [2]);
            assert_eq!(read(&[number, u, of(0, 1)]), [9]);
            assert_eq!(read(&[number, number, of(0, 1)]), []);
            // The first operand may have the higher number.
            assert_eq!(read(&[v, number, of(1, 0)]), [2]);
        }
    }

    /// A comparison of two leaves, and then one of two others; for both, either
    /// and not.
    fn compared(variables: [u8; 4]) -> Vec<Node> {
        let [a, b, c, d] = variables.map(Node::Variable);
        vec![a, b, Node::Less(0, 1), c, d, Node::Equal(3, 4)]
    }

    #[test]
    fn both_and_either_read_both_sides() {
        for of in [Node::Both, Node::Either] {
            let top = |nodes: Vec<Node>| read(&[nodes, vec![of(2, 5)]].concat());
            assert_eq!(top(compared([4, 1, 7, 0])), [0, 1, 4, 7]);
            assert_eq!(top(compared([1, 1, 7, 7])), [1, 7]);
            assert_eq!(top(compared([1, 7, 7, 1])), [1, 7]);
        }
    }

    #[test]
    fn not_reads_what_its_condition_reads() {
        let nodes = [compared([4, 1, 7, 0]), vec![Node::Not(5), Node::Not(6)]].concat();
        assert_eq!(read(&nodes[..7]), [0, 7]);
        assert_eq!(read(&nodes), [0, 7]);
    }

    /// A choice with these leaves as the compared one, the then and the else
    /// branch.
    fn choice_of([asked, then, otherwise]: [Node; 3]) -> [Node; 6] {
        let top = Node::Choice { condition: 2, then: 3, otherwise: 4 };
        [asked, Node::Constant(5), Node::Less(0, 1), then, otherwise, top]
    }

    #[test]
    fn a_choice_reads_its_condition_and_both_branches() {
        let (v, number) = (Node::Variable(6), Node::Constant(6));
        assert_eq!(read(&choice_of([v, number, number])), [6]);
        assert_eq!(read(&choice_of([number, v, number])), [6]);
        assert_eq!(read(&choice_of([number, number, v])), [6]);
        assert_eq!(read(&choice_of([number; 3])), []);
        assert_eq!(read(&choice_of([2, 0, 1].map(Node::Variable))), [0, 1, 2]);
    }

    /// No row allows the then branch of 6 < 5, and it counts all the same.
    #[test]
    fn a_branch_that_is_never_taken_counts() {
        let nodes = choice_of([Node::Constant(6), Node::Variable(1), Node::Variable(2)]);
        assert_eq!(read(&nodes), [1, 2]);
    }

    #[test]
    fn all_depths_count() {
        // v0 < ((v1 < 5 ? v2 : v3) < v4 and not v5 = 5 ? -v6 : v7 % v8)
        let inner = choice_of([1, 2, 3].map(Node::Variable));
        let outer = [
            Node::Variable(4),
            Node::Less(5, 6),
            Node::Variable(5),
            Node::Constant(5),
            Node::Equal(8, 9),
            Node::Not(10),
            Node::Both(7, 11),
            Node::Variable(6),
            Node::Negation(13),
            Node::Variable(7),
            Node::Variable(8),
            Node::Remainder(15, 16),
            Node::Choice { condition: 12, then: 14, otherwise: 17 },
            Node::Variable(0),
            Node::Less(19, 18),
        ];
        let nodes = [&inner[..], &outer].concat();
        assert_eq!(read(&nodes), [0, 1, 2, 3, 4, 5, 6, 7, 8]);
        let of = |node| reads(&nodes, node).iter().filter(|&&read| read).count();
        assert_eq!([5, 7, 11, 12, 14, 17, 18].map(of), [3, 4, 1, 5, 1, 2, 8]);
    }

    #[test]
    fn what_only_other_trees_read_is_not_read() {
        // v0 - v0 beside v1 = v2, of which no node is one of its own.
        let nodes = [
            Node::Variable(1),
            Node::Variable(0),
            Node::Variable(2),
            Node::Equal(0, 2),
            Node::Variable(0),
            Node::Difference(1, 4),
        ];
        assert_eq!(read(&nodes), [0]);
        assert_eq!(read(&nodes[..4]), [1, 2]);
    }

    /// The longest chain that a table has room for.
    #[test]
    fn a_long_chain_is_read_to_its_end() {
        let mut nodes = vec![Node::Variable(15)];
        nodes.extend((0..1023).map(Node::Negation));
        assert_eq!(read(&nodes), [15]);
    }
}
