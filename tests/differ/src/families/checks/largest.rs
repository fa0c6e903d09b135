//! The largest table and the largest proposal: 5149 and 11268 words, each
//! point dividing one variable by another and turning the sign.

use super::Check;
use crate::build::*;

pub fn table_words() -> Vec<i32> {
    let point = |p: i32| {
        let tree = negation(quotient(var(p * 7 % 16), var(p * 5 % 16)));
        assign(p % 16, tree, p - p % 32)
    };
    let points: Vec<Point> = (0..256).map(point).collect();
    let starts: Vec<i32> = (0..16).collect();
    table(&[32; 8], &starts, 8, &points)
}

fn filed() -> Vec<Entry> {
    let mut entries = Vec::new();
    for task in 0..8 {
        for set in [0, 1, 129, 255] {
            entries.extend((0..16).map(|variable| ([task, set, variable], FULL)));
        }
    }
    entries
}

/// Every value possible everywhere, but for the last entry and the last end
/// of the last mutex's rest row.
fn full(last_entry: Entry, last_rest: Ends) -> Vec<i32> {
    let mut entries = filed();
    entries[511] = last_entry;
    let mut rests = rows(8, &[FULL; 16]);
    rests[7][15] = last_rest;
    proposal(16, &[0; 256], &rests, &rows(256, &[FULL; 16]), &entries)
}

pub fn proposal_words() -> Vec<i32> {
    full(([7, 255, 15], FULL), FULL)
}

pub fn answer() -> String {
    let point = |n: i32| {
        let (divides, turns) = (n + 2, n + 3);
        format!(";node {divides} overflow;node {divides} zero;node {turns} overflow")
    };
    let points: String = (0..1024).step_by(4).map(point).collect();
    format!("accepted 768{points}")
}

pub fn cases() -> Vec<Check> {
    let (table, whole, answer) = (table_words(), proposal_words(), answer());
    assert_eq!((table.len(), whole.len()), (5149, 11268));
    let entry = |ends| full(([7, 255, 15], ends), FULL);
    let rest = |ends| full(([7, 255, 15], FULL), ends);
    let again = full(([7, 255, 14], FULL), FULL);
    vec![
        Check::new(&*table, &*whole, &answer),
        Check::new(&*table, entry((MAX, MAX)), &answer),
        Check::new(&*table, &whole[..11267], "refused 7 reach at 11267"),
        Check::new(&*table, entry((MAX, MIN)), "refused 9 range at 6531"),
        Check::new(&*table, again, "refused 10 order at 511"),
        Check::new(&*table, rest((0, 14)), "refused 11 start at 263"),
        Check::new(&*table, rest((0, 15)), "refused 16 rest at 271"),
        Check::new([1; 5149], [0; 11268], "refused 1 length at 5149"),
    ]
}
