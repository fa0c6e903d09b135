//! What the cases reached, by the peer's answers.

use crate::answers::Answer;
use peer::table::{Node, Table};
use peer::words::{trade, Refusal as PeerRefusal};
use peer::State;

#[derive(Default)]
pub struct Counts {
    cases: usize,
    refused: [usize; 17],
    /// Refusals 31, of runs.
    short: usize,
    accepted: usize,
    alarms: [usize; 2],
    stops: [usize; 2],
    /// Tables with a remainder, and the alarms and stops at one.
    remainders: [usize; 3],
    pub wrong: usize,
}

impl Counts {
    pub fn check(&mut self, answer: &Answer<i32>) {
        self.cases += 1;
        match answer.said {
            Ok(count) => {
                self.accepted += 1;
                let pairs = answer.slice().chunks_exact(2).take(count);
                pairs.for_each(|pair| self.alarms[pair[1] as usize - 1] += 1);
            }
            Err(refusal) => self.refused[refusal.number as usize - 1] += 1,
        }
    }

    pub fn run(&mut self, answer: &Answer<i64>, played: &Result<State, PeerRefusal>) {
        self.short += usize::from(answer.said.is_err_and(|refusal| refusal.number == 31));
        if let Ok(state) = played {
            let kinds = state.stop_kinds.iter().filter(|&&kind| kind != 0);
            kinds.for_each(|kind| self.stops[kind - 1] += 1);
        }
    }

    /// How far the cases reach remainders.
    pub fn remainders(
        &mut self,
        table: &[i32],
        checked: &Answer<i32>,
        played: &Result<State, PeerRefusal>,
    ) {
        let Ok(table) = Table::decode(table) else { return };
        let is_remainder = |node: &Node| matches!(node, Node::Remainder(..));
        let at_one = |node: i32| is_remainder(&table.nodes[node as usize]);
        self.remainders[0] += usize::from(table.nodes.iter().any(is_remainder));
        if let Ok(count) = checked.said {
            let pairs = checked.slice().chunks_exact(2).take(count);
            self.remainders[1] += pairs.filter(|pair| at_one(pair[0])).count();
        }
        if let Ok(state) = played {
            let stops = state.stop_nodes.iter().zip(state.stop_kinds);
            let stops = stops.filter(|&(&node, kind)| kind != 0 && at_one(node));
            self.remainders[2] += stops.count();
        }
    }

    pub fn print(&self) {
        for (rule, count) in (1..).zip(self.refused) {
            println!("refused {rule} {}: {count}", trade(rule));
        }
        println!("refused 31 short: {}", self.short);
        println!("accepted: {}", self.accepted);
        println!("alarms: overflow {}, zero {}", self.alarms[0], self.alarms[1]);
        println!("stops: overflow {}, zero {}", self.stops[0], self.stops[1]);
        let [tables, alarms, stops] = self.remainders;
        println!("remainders: in {tables} tables, {alarms} alarms, {stops} stops");
        println!("differ: {} cases, {} wrong", self.cases, self.wrong);
    }
}
