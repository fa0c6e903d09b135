//! Families of cases: for each sentence of document 01 and of requests 1 to 4
//! some with the answer written out, and drawn ones whose answer is the peer's.
//! Whole answers are compared, and every word of a lent slice.

mod agreement;
mod assigned;
mod checks;
mod choices;
mod claim;
mod draw;
mod lines;
mod pairs;
mod program;
mod proposals;
mod remainders;
mod rooms;
mod runs;
mod tables;
mod tested;
mod tower;
mod trees;
mod vectors;

use std::collections::BTreeMap;
use std::path::Path;

/// A family runs its cases, of the library or of the programs in that folder.
type Family = fn(&Path, &mut Tally);

const FAMILIES: &[(&str, Family)] = &[
    ("tables", tables::run),
    ("checks", checks::run),
    ("rooms", rooms::run),
    ("runs", runs::run),
    ("claim", claim::run),
    ("program", program::run),
    ("lines", lines::run),
    ("trees", trees::run),
    ("remainders", remainders::run),
    ("choices", choices::run),
    ("tested", tested::run),
    ("pairs", pairs::run),
    ("agreement", agreement::run),
    ("proposals", proposals::run),
    ("tower", tower::run),
];

/// How many wrong cases of a family are printed.
const SHOWN: usize = 5;

/// What the cases of a family came to.
pub struct Tally {
    family: &'static str,
    cases: usize,
    wrong: usize,
    counts: BTreeMap<(usize, String), usize>,
    notes: Vec<String>,
}

impl Tally {
    fn new(family: &'static str) -> Tally {
        Tally { family, cases: 0, wrong: 0, counts: BTreeMap::new(), notes: Vec::new() }
    }

    /// One of some sort, say of an answer.
    pub fn count(&mut self, sort: impl Into<String>) {
        let sort = sort.into();
        // By length first, so that 10 comes after 9.
        *self.counts.entry((sort.len(), sort)).or_default() += 1;
    }

    /// One case and how it differs from what was wanted: not at all if it is
    /// right. What it was on is only asked for if it is shown.
    pub fn case(&mut self, found: Vec<String>, on: impl FnOnce() -> String) {
        self.cases += 1;
        if !found.is_empty() {
            self.wrong += 1;
            if self.wrong <= SHOWN {
                println!("{}: {}\n  on {}", self.family, found.join("\n  "), on());
            }
        }
    }

    /// It is wrong if there were fewer of this sort.
    pub fn expect(&mut self, sort: &str, least: usize) {
        let count = *self.counts.get(&(sort.len(), sort.to_string())).unwrap_or(&0);
        if count < least {
            self.wrong += 1;
            println!("{}: {sort}: {count}, not {least} or more", self.family);
        }
    }

    /// Something else to say of the family.
    pub fn note(&mut self, text: String) {
        self.notes.push(text);
    }

    fn print(&self) {
        let each = self.counts.iter().map(|((_, sort), count)| format!("{sort}: {count}"));
        let each = each.collect::<Vec<_>>().join(", ");
        let notes: String = self.notes.iter().map(|note| format!("; {note}")).collect();
        println!("{}: {} cases ({each}){notes}; {} wrong", self.family, self.cases, self.wrong);
    }
}

/// Runs every family, and says whether all was right. A family without a case
/// is wrong too.
pub fn run(bin: &Path) -> bool {
    let mut right = true;
    for &(name, family) in FAMILIES {
        let mut tally = Tally::new(name);
        family(bin, &mut tally);
        tally.print();
        right &= tally.wrong == 0 && tally.cases > 0;
    }
    right
}

/// Prints checks whose answers somebody wrote out, in the form of the vectors.
pub fn print_cases() {
    checks::plain().iter().for_each(|case| println!("{}", case.shown()));
}
