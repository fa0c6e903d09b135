//! Choices by a seed. Words are small, and conditions and branches mostly read
//! the same variable, so that branches are cut.

use crate::build::*;
use peer::generate::Random;

/// A small word, seldom one at a limit.
pub fn word(random: &mut Random) -> i32 {
    match random.below(20) {
        0 => random.pick(&[MIN, MIN + 1, MAX - 1, MAX]),
        1..8 => random.pick(&[-1, 0, 0, 1]),
        _ => random.below(13) as i32 - 6,
    }
}

/// An interval around the value, mostly more than it alone.
pub fn around(random: &mut Random, value: i32) -> Ends {
    let [below, above] = [0, 1].map(|_| random.pick(&[0, 1, 2, 5, 9]));
    (value.saturating_sub(below), value.saturating_add(above))
}

/// A choice of those variables, with choices in it down to that depth.
pub fn choice_of(random: &mut Random, variables: &[i32], depth: usize) -> Tree {
    let mut drawing = Drawing::new(random, variables);
    drawing.choice(depth)
}

/// A condition in which a choice is compared.
pub fn condition_of(random: &mut Random, variables: &[i32], depth: usize) -> Tree {
    let mut drawing = Drawing::new(random, variables);
    let asked = drawing.comparison_of_choice(depth);
    match drawing.random.below(6) {
        0 => both(drawing.condition(depth), asked),
        1 => either(drawing.condition(depth), asked),
        2 => both(asked, drawing.condition(depth)),
        3 => not(asked),
        _ => asked,
    }
}

struct Drawing<'a> {
    random: &'a mut Random,
    variables: &'a [i32],
    /// The variable that is mostly read.
    tested: i32,
}

impl<'a> Drawing<'a> {
    fn new(random: &'a mut Random, variables: &'a [i32]) -> Drawing<'a> {
        let tested = random.pick(variables);
        Drawing { random, variables, tested }
    }

    fn variable(&mut self) -> Tree {
        let other = self.random.pick(self.variables);
        var(if self.random.chance(80) { self.tested } else { other })
    }

    fn number(&mut self) -> Tree {
        num(word(self.random))
    }

    fn choice(&mut self, depth: usize) -> Tree {
        let asked = self.condition(depth);
        choice(asked, self.branch(depth), self.branch(depth))
    }

    fn condition(&mut self, depth: usize) -> Tree {
        let within = depth.saturating_sub(1);
        match self.random.below(if depth == 0 { 8 } else { 14 }) {
            0..6 => self.comparison(),
            6..8 => self.apart(),
            8 => both(self.condition(within), self.condition(within)),
            9 => either(self.condition(within), self.condition(within)),
            10 => not(self.condition(within)),
            11 => not(not(self.condition(within))),
            _ => self.comparison_of_choice(within),
        }
    }

    /// Of a variable, with a number, a variable or a quotient.
    fn comparison(&mut self) -> Tree {
        let a = self.variable();
        let b = match self.random.below(20) {
            0..6 => num(self.random.pick(&[-1, 0, 1])),
            6..12 => self.number(),
            12..14 => self.variable(),
            14..16 => a.clone(),
            16..18 => self.division(),
            // It has none.
            _ => quotient(num(1), num(0)),
        };
        self.compared(a, b)
    }

    fn comparison_of_choice(&mut self, depth: usize) -> Tree {
        let a = self.choice(depth.saturating_sub(1));
        let b = if self.random.chance(50) { self.variable() } else { self.number() };
        self.compared(a, b)
    }

    fn compared(&mut self, a: Tree, b: Tree) -> Tree {
        let kind = self.random.pick(&[16, 17, 18, 19]);
        if self.random.chance(50) {
            binary(kind, a, b)
        } else {
            binary(kind, b, a)
        }
    }

    /// Two parts of a variable's range that don't meet, wanted both; or two that
    /// leave nothing between them, of which one is.
    fn apart(&mut self) -> Tree {
        let low = self.random.below(5) as i32 - 2;
        let high = low + self.random.below(3) as i32;
        let tested = self.variable();
        if self.random.chance(50) {
            both(less(tested.clone(), num(low)), less(num(high), tested))
        } else {
            either(at_most(tested.clone(), num(high)), at_most(num(low), tested))
        }
    }

    /// A quotient or a remainder by a variable.
    fn division(&mut self) -> Tree {
        let kind = self.random.pick(&[7, 7, 9]);
        binary(kind, self.number(), self.variable())
    }

    fn branch(&mut self, depth: usize) -> Tree {
        match self.random.below(12) {
            0 => self.number(),
            1..3 => self.variable(),
            3..8 => self.division(),
            8 => negation(self.variable()),
            9 => {
                let kind = self.random.pick(&[4, 5, 6]);
                binary(kind, self.variable(), self.number())
            }
            _ if depth > 0 => self.choice(depth - 1),
            _ => self.variable(),
        }
    }
}
