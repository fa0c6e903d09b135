//! Choices whose branches read what their conditions test, as whole checks and
//! runs. What request 2 tells apart is counted, and has to be reached often.

pub mod branches;
pub mod drawn;

use super::assigned::Assigned;
use super::Tally;
use peer::generate::Random;
use std::path::Path;

/// How many formulas are drawn, and how often each branch is reached at least.
const DRAWN: usize = 30_000;
pub const LEAST: usize = 1_000;

pub fn run(_bin: &Path, tally: &mut Tally) {
    let mut random = Random::new(20261120);
    for _ in 0..DRAWN {
        let case = draw(&mut random);
        let (nodes, row) = case.parts();
        let reached = branches::reached(&nodes, nodes.len() as u16 - 1, &row);
        reached.into_iter().for_each(|name| tally.count(name));
        let foreseen = case.foreseen();
        case.check(tally, &foreseen);
        for values in [case.values.clone(), case.ends(&mut random)] {
            let state = case.run(tally, &values, &foreseen);
            tally.count(if state.stop_kinds[0] == 0 { "run: to its end" } else { "run: stopped" });
        }
    }
    for name in branches::names().into_iter().chain(["run: to its end", "run: stopped"]) {
        tally.expect(name, LEAST);
    }
}

fn draw(random: &mut Random) -> Assigned {
    let values = vec![drawn::word(random), drawn::word(random)];
    let spans = values.iter().map(|&value| drawn::around(random, value)).collect();
    let tree = drawn::choice_of(random, &[0, 1], 2);
    Assigned { tree, spans, values }
}
