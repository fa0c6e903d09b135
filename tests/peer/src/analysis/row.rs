//! One interval for each variable, as a copy to work on and as lent ends.

use crate::interval::Interval;
use crate::table::VARIABLES;

/// A row that can be changed. The ends lie in two arrays of full length, as
/// they do in a proposal, so that copying and comparing go many at a time;
/// slots past the table's variables stay 0..0 and disturb nothing.
#[derive(Clone, Copy, Debug, PartialEq, Eq)]
pub struct Row {
    lows: [i32; VARIABLES],
    highs: [i32; VARIABLES],
}

/// A row where it lies in a proposal.
#[derive(Clone, Copy, Debug)]
pub struct Ends<'a> {
    pub lows: &'a [i32],
    pub highs: &'a [i32],
}

impl Row {
    pub fn of(intervals: &[Interval]) -> Row {
        let mut row = Row { lows: [0; VARIABLES], highs: [0; VARIABLES] };
        for (variable, &interval) in intervals.iter().enumerate() {
            row.set(variable as u8, interval);
        }
        row
    }

    /// The row of single values, one for each slot.
    pub fn at(values: &[i32; VARIABLES]) -> Row {
        Row { lows: *values, highs: *values }
    }

    /// The interval of a variable, for ends in any order: a low end above its
    /// high is taken as none. A row that is handed in can have such ends.
    #[inline]
    pub fn interval(&self, variable: u8) -> Option<Interval> {
        let variable = usize::from(variable);
        Interval::new(self.lows[variable], self.highs[variable])
    }

    /// The same for a row of a proposal, whose ends are in order once refusal 9
    /// is past.
    #[inline]
    pub fn get(&self, variable: u8) -> Interval {
        let variable = usize::from(variable);
        Interval::ordered(self.lows[variable], self.highs[variable])
    }

    #[inline]
    pub fn set(&mut self, variable: u8, interval: Interval) {
        self.lows[usize::from(variable)] = interval.low();
        self.highs[usize::from(variable)] = interval.high();
    }

    /// Every slot is looked at, also past a failure: without a way out of the
    /// loop it runs many slots at a time.
    #[inline]
    pub fn within(&self, outer: Ends) -> bool {
        let lows = self.lows.iter().zip(outer.lows).fold(true, |all, (a, b)| all & (a >= b));
        let highs = self.highs.iter().zip(outer.highs).fold(true, |all, (a, b)| all & (a <= b));
        lows & highs
    }

    /// Meets the row with another; false if a variable is left with nothing.
    #[inline]
    pub fn meet(&mut self, other: Ends) -> bool {
        self.lows.iter_mut().zip(other.lows).for_each(|(a, &b)| *a = b.max(*a));
        self.highs.iter_mut().zip(other.highs).for_each(|(a, &b)| *a = b.min(*a));
        self.lows.iter().zip(&self.highs).fold(true, |all, (low, high)| all & (low <= high))
    }

    #[inline]
    pub fn join(&mut self, other: &Row) {
        self.lows.iter_mut().zip(&other.lows).for_each(|(a, &b)| *a = b.min(*a));
        self.highs.iter_mut().zip(&other.highs).for_each(|(a, &b)| *a = b.max(*a));
    }

    pub fn ends(&self) -> Ends<'_> {
        Ends { lows: &self.lows, highs: &self.highs }
    }
}

impl Ends<'_> {
    #[inline]
    pub fn row(self) -> Row {
        let mut row = Row { lows: [0; VARIABLES], highs: [0; VARIABLES] };
        row.lows[..self.lows.len()].copy_from_slice(self.lows);
        row.highs[..self.highs.len()].copy_from_slice(self.highs);
        row
    }

    /// Whether these values lie within the ends; slots past the row are free.
    #[inline]
    pub fn hold(self, values: &[i32; VARIABLES]) -> bool {
        let lows = values.iter().zip(self.lows).all(|(value, low)| value >= low);
        lows && values.iter().zip(self.highs).all(|(value, high)| value <= high)
    }
}
