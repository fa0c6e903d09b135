//! Walks: the held sets that the instructions bring to each point, whatever the
//! tests answer. A walk ends where a lock is held already or an unlock isn't.

use crate::outcome::ways;
use crate::table::Table;
use crate::words::Refusal;

/// The held word that walks give each point, -1 where none comes, or refusal 18.
/// Every set that comes to a point is walked on with, since a second one may
/// bring another one to a smaller point.
pub fn held(table: &Table) -> Result<Vec<i32>, Refusal> {
    let mut brought = vec![Sets::default(); table.points.len()];
    let mut waiting = Vec::new();
    let mut arrive = |waiting: &mut Vec<_>, (at, held): (usize, u8)| {
        if brought[at].insert(held) {
            waiting.push((at, held));
        }
    };
    for task in 0..table.tasks {
        arrive(&mut waiting, (table.first(task), 0));
    }
    while let Some((at, held)) = waiting.pop() {
        for way in ways(table.points[at], held).into_iter().flatten() {
            arrive(&mut waiting, way);
        }
    }
    let word = |(at, sets): (usize, &Sets)| match sets.count() {
        0 => Ok(-1),
        1 => Ok(sets.least()),
        _ => Err((18, at)),
    };
    brought.iter().enumerate().map(word).collect()
}

/// Some of the 256 held sets, a bit for each.
#[derive(Clone, Copy, Default)]
struct Sets([u64; 4]);

impl Sets {
    /// Says whether the set is a new one.
    fn insert(&mut self, set: u8) -> bool {
        let word = &mut self.0[usize::from(set / 64)];
        let bit = 1 << (set % 64);
        let new = *word & bit == 0;
        *word |= bit;
        new
    }

    fn count(&self) -> u32 {
        self.0.iter().map(|word| word.count_ones()).sum()
    }

    /// The least of them; there is one.
    fn least(&self) -> i32 {
        let empty = self.0.iter().take_while(|&&word| word == 0).count();
        64 * empty as i32 + self.0[empty].trailing_zeros() as i32
    }
}
