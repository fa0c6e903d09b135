//! Random valid tables.

use super::trees::{Trees, LEAST_CONDITION};
use super::Random;
use crate::table::NODES;

struct Shape {
    variables: usize,
    mutexes: usize,
    shares: Vec<usize>,
    /// Seldom, targets are chosen without regard to locks: then no proposal
    /// fits, which reaches the refusal of locks.
    wild: bool,
    /// How likely tasks are to end before their last point.
    ends: usize,
    /// How likely they are to be blocked there for good.
    blocks: usize,
    /// How likely a point is to go on to the next one.
    onward: usize,
    lean: bool,
    /// How many nodes to add to the fewest that the points need.
    extra: Extra,
}

enum Extra {
    UpTo(usize),
    All,
}

/// A valid table, mostly of few tasks and points.
pub fn table(random: &mut Random) -> Vec<i32> {
    let few = |random: &mut Random, few: usize, most: usize| {
        let most = if random.chance(90) { few } else { most };
        random.between(1, most)
    };
    let tasks = few(random, 3, 8);
    let most = few(random, 12, 256 / tasks).max(4);
    let lean = random.chance(5);
    let extra = if lean { random.pick(&[60, 300, NODES]) } else { few(random, 40, NODES) };
    let shape = Shape {
        variables: few(random, 4, 16),
        mutexes: few(random, 4, 9) - 1,
        shares: (0..tasks).map(|_| random.between(1, most)).collect(),
        wild: random.chance(6),
        ends: random.pick(&[0, 0, 5]),
        blocks: 3,
        onward: 70,
        lean,
        extra: Extra::UpTo(extra),
    };
    build(random, &shape)
}

/// A valid table with every size at its limit.
pub fn largest(random: &mut Random) -> Vec<i32> {
    build(
        random,
        &Shape {
            variables: 16,
            mutexes: 8,
            shares: vec![32; 8],
            wild: false,
            ends: 0,
            blocks: 0,
            onward: 100,
            lean: false,
            extra: Extra::All,
        },
    )
}

/// A point before its tree is made.
enum Plan {
    Assign { variable: i32, next: i32 },
    Test { yes: i32, no: i32 },
    Other([i32; 4]),
}

fn build(random: &mut Random, shape: &Shape) -> Vec<i32> {
    let mut plans = Vec::new();
    for &share in &shape.shares {
        task(random, shape, share, &mut plans);
    }
    let mut sizes: Vec<usize> = plans
        .iter()
        .map(|plan| match plan {
            Plan::Assign { .. } => 1,
            Plan::Test { .. } => LEAST_CONDITION,
            Plan::Other(_) => 0,
        })
        .collect();
    grow(random, shape, &mut sizes);

    let mut trees = Trees::new(shape.variables, shape.lean);
    let mut points: Vec<[i32; 4]> = plans
        .iter()
        .zip(sizes)
        .map(|(plan, size)| match *plan {
            Plan::Assign { variable, next } => [1, variable, trees.arithmetic(random, size), next],
            Plan::Test { yes, no } => [2, trees.condition(random, size), yes, no],
            Plan::Other(point) => point,
        })
        .collect();
    if random.chance(50) {
        let numbers = trees.shuffle(random);
        for point in &mut points {
            match point[0] {
                1 => point[2] = numbers[point[2] as usize],
                2 => point[1] = numbers[point[1] as usize],
                _ => {}
            }
        }
    }

    let sizes =
        [shape.shares.len(), shape.variables, shape.mutexes, points.len(), trees.nodes.len()];
    let mut words: Vec<i32> = sizes.iter().chain(&shape.shares).map(|&size| size as i32).collect();
    words.extend((0..shape.variables).map(|_| random.word()));
    words.extend(points.iter().chain(&trees.nodes).flatten());
    words
}

/// Hands the extra nodes out to the trees there are.
fn grow(random: &mut Random, shape: &Shape, sizes: &mut [usize]) {
    let trees: Vec<usize> = (0..sizes.len()).filter(|&point| sizes[point] != 0).collect();
    if trees.is_empty() {
        return;
    }
    let room = NODES - sizes.iter().sum::<usize>();
    let mut extra = match shape.extra {
        Extra::UpTo(most) => random.between(0, most.min(room)),
        Extra::All => room,
    };
    while extra > 0 {
        let part =
            if shape.lean { random.between(1, extra) } else { random.between(1, extra.min(4)) };
        sizes[random.pick(&trees)] += part;
        extra -= part;
    }
}

/// Plans one task. First a line of held sets, each from the one before by at
/// most one lock, and then points that follow it: a target is a point whose
/// set is the one to arrive with, so that a fitting proposal exists.
fn task(random: &mut Random, shape: &Shape, share: usize, plans: &mut Vec<Plan>) {
    let first = plans.len();
    let mut sets = vec![0usize];
    while sets.len() < share {
        let set = sets[sets.len() - 1];
        // Giving back is as likely as taking, or tasks would only gather locks.
        let held: Vec<usize> = (0..shape.mutexes).filter(|mutex| set >> mutex & 1 == 1).collect();
        let next = if !held.is_empty() && random.chance(20) {
            set & !(1 << random.pick(&held))
        } else if shape.mutexes > 0 && random.chance(25) {
            set | 1 << random.below(shape.mutexes)
        } else {
            set
        };
        sets.push(next);
    }
    for (at, &set) in sets.iter().enumerate() {
        let next = sets.get(at + 1).copied();
        let target_with = |random: &mut Random, set: usize, onward: usize| {
            let on = next == Some(set) && random.chance(onward);
            let fits = |&to: &usize| shape.wild || sets[to] == set;
            let to = if on {
                at + 1
            } else {
                let fitting: Vec<usize> = (0..share).filter(fits).collect();
                random.pick(&fitting)
            };
            (first + to) as i32
        };
        let target = |random: &mut Random, set: usize| target_with(random, set, shape.onward);
        plans.push(match next {
            Some(next) if next != set => {
                let mutex = (next ^ set).trailing_zeros() as i32;
                Plan::Other([if next > set { 3 } else { 4 }, mutex, target(random, next), 0])
            }
            _ => {
                // What ends a task, or blocks it for good, mostly stands last.
                let last = next.is_none();
                if random.chance(if last { 50 } else { shape.ends }) {
                    Plan::Other([0; 4])
                } else if shape.mutexes > 0 && random.chance(if last { 20 } else { shape.blocks }) {
                    let mutex = random.below(shape.mutexes);
                    let held = set >> mutex & 1 == 1;
                    let back = set ^ 1 << mutex;
                    let kind = if random.chance(50) == held { 3 } else { 4 };
                    // If no point has the set to arrive with, the kind that
                    // changes nothing is taken.
                    if sets.contains(&back) {
                        Plan::Other([kind, mutex as i32, target(random, back), 0])
                    } else {
                        Plan::Other([
                            if held { 3 } else { 4 },
                            mutex as i32,
                            target(random, set),
                            0,
                        ])
                    }
                } else if random.chance(60) {
                    let variable = random.below(shape.variables) as i32;
                    Plan::Assign { variable, next: target(random, set) }
                } else {
                    Plan::Test { yes: target(random, set), no: target_with(random, set, 70) }
                }
            }
        });
    }
}
