//! Widening: an end that must move goes on to the nearest threshold that covers
//! it, or all the way.

use crate::analysis::Row;
use crate::interval::Interval;
use crate::words::Refusal;

const THRESHOLDS: usize = 32;

/// Where an end may come to rest, strictly rising.
#[derive(Clone, Copy, Debug)]
pub struct Thresholds<'a>(&'a [i32]);

impl<'a> Thresholds<'a> {
    /// Refusal 19.
    pub fn rising(words: &'a [i32]) -> Result<Thresholds<'a>, Refusal> {
        let stays = words.windows(2).position(|pair| pair[1] <= pair[0]).map(|before| before + 1);
        let surplus = (words.len() > THRESHOLDS).then_some(THRESHOLDS);
        match stays.into_iter().chain(surplus).min() {
            Some(place) => Err((19, place)),
            None => Ok(Thresholds(words)),
        }
    }

    /// The nearest low end that covers this one.
    fn below(self, low: i32) -> i32 {
        let covering = self.0.partition_point(|&threshold| threshold <= low);
        self.0[..covering].last().copied().unwrap_or(i32::MIN)
    }

    /// The nearest high end that covers this one.
    fn above(self, high: i32) -> i32 {
        let short = self.0.partition_point(|&threshold| threshold < high);
        self.0.get(short).copied().unwrap_or(i32::MAX)
    }

    /// Widens an interval by another, and says whether an end had to move.
    #[inline]
    pub fn widen(self, interval: &mut Interval, by: Interval) -> bool {
        if by.within(*interval) {
            return false;
        }
        let low = if by.low() < interval.low() { self.below(by.low()) } else { interval.low() };
        let high =
            if by.high() > interval.high() { self.above(by.high()) } else { interval.high() };
        *interval = Interval::ordered(low, high);
        true
    }

    /// Widens the interval of one variable of a row.
    #[inline]
    pub fn widen_at(self, row: &mut Row, variable: u8, by: Interval) -> bool {
        let mut interval = row.get(variable);
        let changed = self.widen(&mut interval, by);
        if changed {
            row.set(variable, interval);
        }
        changed
    }

    /// Widens a row of so many variables by another.
    #[inline]
    pub fn widen_row(self, row: &mut Row, by: &Row, variables: usize) -> bool {
        if by.within(row.ends()) {
            return false;
        }
        for variable in 0..variables as u8 {
            self.widen_at(row, variable, by.get(variable));
        }
        true
    }
}
