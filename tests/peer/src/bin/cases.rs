//! Drawn cases as lines: `cases COUNT SEED` prints a table, a proposal and what
//! the printing program prints of them, joined by `;`, apart by `|`.

use peer::generate::{case, Random};
use peer::words::{lines, shown, ALARM_WORDS};
use std::io::Write;

fn main() -> std::io::Result<()> {
    let mut arguments = std::env::args().skip(1).map(|text| text.parse().expect("a number"));
    let count: u64 = arguments.next().unwrap_or(20);
    let seed: u64 = arguments.next().unwrap_or(1);
    let mut random = Random::new(seed);
    let mut out = std::io::stdout().lock();
    for _ in 0..count {
        let case = case(&mut random);
        let mut alarms = [0; ALARM_WORDS];
        let verdict = peer::check(&case.table, &case.proposal, &mut alarms);
        let said = lines(verdict, &alarms).join(";");
        writeln!(out, "{} | {} | {said}", shown(&case.table), shown(&case.proposal))?;
    }
    Ok(())
}
