//! Random trees of a given number of nodes. Children are pushed before their
//! parent, so that their numbers are below it.

use super::Random;

pub struct Trees {
    pub nodes: Vec<[i32; 4]>,
    variables: usize,
    /// A lean tree puts all it can on one side, and so grows deep.
    lean: bool,
}

/// The least nodes of a condition: a comparison of two leaves.
pub const LEAST_CONDITION: usize = 3;

impl Trees {
    pub fn new(variables: usize, lean: bool) -> Trees {
        Trees { nodes: Vec::new(), variables, lean }
    }

    fn push(&mut self, node: [i32; 4]) -> i32 {
        self.nodes.push(node);
        self.nodes.len() as i32 - 1
    }

    /// Splits `size` in two parts, none below `least`.
    fn split(&self, random: &mut Random, size: usize, least: usize) -> (usize, usize) {
        let left = match (self.lean, random.chance(50)) {
            (true, true) => least,
            (true, false) => size - least,
            (false, _) => random.between(least, size - least),
        };
        (left, size - left)
    }

    /// An arithmetic tree of `size` nodes, at least 1; gives its top.
    pub fn arithmetic(&mut self, random: &mut Random, size: usize) -> i32 {
        if size == 1 {
            return self.leaf(random);
        }
        if size == 2 || random.chance(15) {
            let a = self.arithmetic(random, size - 1);
            return self.push([3, a, 0, 0]);
        }
        if size >= LEAST_CONDITION + 3 && random.chance(30) {
            let asked = random.between(LEAST_CONDITION, size - 3);
            let (then, otherwise) = self.split(random, size - 1 - asked, 1);
            let a = self.condition(random, asked);
            let b = self.arithmetic(random, then);
            let c = self.arithmetic(random, otherwise);
            return self.push([8, a, b, c]);
        }
        let kind = random.pick(&[4, 4, 5, 5, 6, 7, 7, 9, 9]);
        let (left, right) = self.split(random, size - 1, 1);
        let a = self.arithmetic(random, left);
        let b = self.arithmetic(random, right);
        self.push([kind, a, b, 0])
    }

    /// A condition tree of `size` nodes; gives its top.
    pub fn condition(&mut self, random: &mut Random, size: usize) -> i32 {
        if size > LEAST_CONDITION && random.chance(20) {
            let a = self.condition(random, size - 1);
            return self.push([22, a, 0, 0]);
        }
        if size > 2 * LEAST_CONDITION && random.chance(60) {
            let kind = random.pick(&[20, 21]);
            let (left, right) = self.split(random, size - 1, LEAST_CONDITION);
            let a = self.condition(random, left);
            let b = self.condition(random, right);
            return self.push([kind, a, b, 0]);
        }
        let kind = random.pick(&[16, 17, 18, 19]);
        let (left, right) = self.split(random, size - 1, 1);
        let a = self.arithmetic(random, left);
        let b = self.arithmetic(random, right);
        self.push([kind, a, b, 0])
    }

    fn leaf(&mut self, random: &mut Random) -> i32 {
        let node = match random.below(10) {
            0..=1 => [0, random.word(), 0, 0],
            2..=4 => {
                let (low, high) = random.ends();
                [1, low, high, 0]
            }
            _ => [2, random.below(self.variables) as i32, 0, 0],
        };
        self.push(node)
    }

    /// Numbers the nodes anew at random, children still below their parents,
    /// so that a tree's nodes do not lie together. Gives the new numbers.
    pub fn shuffle(&mut self, random: &mut Random) -> Vec<i32> {
        let count = self.nodes.len();
        let mut keys: Vec<usize> = (0..count).map(|_| random.below(8 * count)).collect();
        for node in 0..count {
            for child in children(&self.nodes[node]) {
                let least = keys[self.nodes[node][child] as usize] + 1;
                keys[node] = keys[node].max(least);
            }
        }
        let mut order: Vec<usize> = (0..count).collect();
        order.sort_by_key(|&node| keys[node]);
        let mut numbers = vec![0; count];
        for (number, &node) in order.iter().enumerate() {
            numbers[node] = number as i32;
        }
        let renumbered = |mut node: [i32; 4]| {
            for child in children(&node) {
                node[child] = numbers[node[child] as usize];
            }
            node
        };
        self.nodes = order.iter().map(|&node| renumbered(self.nodes[node])).collect();
        numbers
    }
}

/// The fields of a node that name children.
pub fn children(node: &[i32; 4]) -> std::ops::Range<usize> {
    match node[0] {
        3 | 22 => 1..2,
        4..=7 | 9 | 16..=21 => 1..3,
        8 => 1..4,
        _ => 1..1,
    }
}
