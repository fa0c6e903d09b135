//! Intervals of 32-bit numbers. "None" of the document is `Option::None`: an
//! `Interval` always holds at least one number, so no operation asks again.

/// Alarm kinds. Each is also its own bit, so that a set of kinds is a byte.
pub const OVERFLOW: u8 = 1;
pub const ZERO: u8 = 2;

#[derive(Clone, Copy, Debug, PartialEq, Eq)]
pub struct Interval {
    low: i32,
    high: i32,
}

/// What an arithmetic operation gives: the interval that is left after the cut
/// to 32 bits, and the alarm kinds that are possible at this operation.
#[derive(Clone, Copy, Debug, PartialEq, Eq)]
pub struct Computed {
    pub interval: Option<Interval>,
    pub alarms: u8,
}

impl Interval {
    pub const FULL: Interval = Interval { low: i32::MIN, high: i32::MAX };

    /// Ends in the wrong order are taken as none.
    #[inline]
    pub const fn new(low: i32, high: i32) -> Option<Interval> {
        if low <= high {
            Some(Interval { low, high })
        } else {
            None
        }
    }

    /// For ends that are known to be in order, so that hot paths ask nothing.
    #[inline]
    pub(crate) const fn ordered(low: i32, high: i32) -> Interval {
        debug_assert!(low <= high);
        Interval { low, high }
    }

    #[inline]
    pub const fn single(value: i32) -> Interval {
        Interval { low: value, high: value }
    }

    #[inline]
    pub const fn low(self) -> i32 {
        self.low
    }

    #[inline]
    pub const fn high(self) -> i32 {
        self.high
    }

    #[inline]
    pub const fn holds(self, value: i32) -> bool {
        self.low <= value && value <= self.high
    }

    #[inline]
    pub const fn within(self, outer: Interval) -> bool {
        outer.low <= self.low && self.high <= outer.high
    }

    #[inline]
    pub const fn is_single(self) -> bool {
        self.low == self.high
    }

    #[inline]
    pub fn meet(self, other: Interval) -> Option<Interval> {
        Interval::new(self.low.max(other.low), self.high.min(other.high))
    }

    #[inline]
    pub fn join(self, other: Interval) -> Interval {
        Interval { low: self.low.min(other.low), high: self.high.max(other.high) }
    }

    #[inline]
    pub fn negation(self) -> Computed {
        cut(-i64::from(self.high), -i64::from(self.low))
    }

    #[inline]
    pub fn sum(self, other: Interval) -> Computed {
        let (a, b) = self.wide();
        let (c, d) = other.wide();
        cut(a + c, b + d)
    }

    #[inline]
    pub fn difference(self, other: Interval) -> Computed {
        let (a, b) = self.wide();
        let (c, d) = other.wide();
        cut(a - d, b - c)
    }

    #[inline]
    pub fn product(self, other: Interval) -> Computed {
        let (a, b) = self.wide();
        let (c, d) = other.wide();
        let (least, greatest) = span([a * c, a * d, b * c, b * d]);
        cut(least, greatest)
    }

    /// Between the corners of one part of the divisor, which never holds zero,
    /// the quotient grows or falls steadily; so the corners bound it.
    #[inline]
    pub fn quotient(self, divisor: Interval) -> Computed {
        let (a, b) = self.wide();
        let (c, d) = divisor.wide();
        let corners = |c: i64, d: i64| span([a / c, a / d, b / c, b / d]);
        let below = (c < 0).then(|| corners(c, d.min(-1)));
        let above = (d > 0).then(|| corners(c.max(1), d));
        let zero = divisor.zero();
        let (least, greatest) = match (below, above) {
            (Some(p), Some(q)) => (p.0.min(q.0), p.1.max(q.1)),
            (Some(part), None) | (None, Some(part)) => part,
            (None, None) => return Computed { interval: None, alarms: zero },
        };
        let computed = cut(least, greatest);
        Computed { alarms: computed.alarms | zero, ..computed }
    }

    /// A remainder has the dividend's sign, is no further from 0 than the
    /// dividend and nearer than the divisor, so that it never leaves 32 bits.
    /// That is all the ends say: those of single values aren't the exact result.
    #[inline]
    pub fn remainder(self, divisor: Interval) -> Computed {
        let (a, b) = self.wide();
        let (c, d) = divisor.wide();
        let most = c.abs().max(d.abs()) - 1;
        let interval = (most >= 0).then(|| {
            let low = if a < 0 { a.max(-most) } else { 0 };
            let high = if b > 0 { b.min(most) } else { 0 };
            Interval::ordered(low as i32, high as i32)
        });
        Computed { interval, alarms: divisor.zero() }
    }

    /// The alarm of a division by this interval.
    #[inline]
    fn zero(self) -> u8 {
        if self.holds(0) {
            ZERO
        } else {
            0
        }
    }

    #[inline]
    fn wide(self) -> (i64, i64) {
        (i64::from(self.low), i64::from(self.high))
    }

    /// Cuts both sides of `self < other`, each by the other's ends from before.
    /// An end past 32 bits leaves nothing, so a failed step is none.
    #[inline]
    pub fn cut_less(self, other: Interval) -> Option<(Interval, Interval)> {
        let left = Interval::new(self.low, self.high.min(other.high.checked_sub(1)?))?;
        let right = Interval::new(other.low.max(self.low.checked_add(1)?), other.high)?;
        Some((left, right))
    }

    /// Cuts both sides of `self <= other`.
    #[inline]
    pub fn cut_at_most(self, other: Interval) -> Option<(Interval, Interval)> {
        let left = Interval::new(self.low, self.high.min(other.high))?;
        let right = Interval::new(other.low.max(self.low), other.high)?;
        Some((left, right))
    }

    /// Cuts both sides of `self = other`.
    #[inline]
    pub fn cut_equal(self, other: Interval) -> Option<(Interval, Interval)> {
        let meet = self.meet(other)?;
        Some((meet, meet))
    }

    /// Cuts both sides of `self != other`.
    #[inline]
    pub fn cut_not_equal(self, other: Interval) -> Option<(Interval, Interval)> {
        Some((self.without(other)?, other.without(self)?))
    }

    /// Only a single value can be taken away, and only from an end.
    #[inline]
    fn without(self, other: Interval) -> Option<Interval> {
        if !other.is_single() {
            return Some(self);
        }
        let low = if self.low == other.low { self.low.checked_add(1)? } else { self.low };
        let high = if self.high == other.low { self.high.checked_sub(1)? } else { self.high };
        Interval::new(low, high)
    }
}

#[inline]
fn span(corners: [i64; 4]) -> (i64, i64) {
    let [p, q, r, s] = corners;
    (p.min(q).min(r.min(s)), p.max(q).max(r.max(s)))
}

/// Cuts an exact pair to 32 bits. Corners of 32-bit ends fit 64 bits easily.
#[inline]
fn cut(least: i64, greatest: i64) -> Computed {
    const MIN: i64 = i32::MIN as i64;
    const MAX: i64 = i32::MAX as i64;
    if MIN <= least && greatest <= MAX {
        let interval = Some(Interval { low: least as i32, high: greatest as i32 });
        return Computed { interval, alarms: 0 };
    }
    let interval = if least <= MAX && greatest >= MIN {
        Some(Interval { low: least.max(MIN) as i32, high: greatest.min(MAX) as i32 })
    } else {
        None
    };
    Computed { interval, alarms: OVERFLOW }
}

/// Which answers of a condition are possible; at least one is.
#[derive(Clone, Copy, Debug, PartialEq, Eq)]
pub struct Truth {
    pub yes: bool,
    pub no: bool,
}

impl Truth {
    #[inline]
    pub fn less(a: Interval, b: Interval) -> Truth {
        Truth { yes: a.low < b.high, no: a.high >= b.low }
    }

    #[inline]
    pub fn at_most(a: Interval, b: Interval) -> Truth {
        Truth { yes: a.low <= b.high, no: a.high > b.low }
    }

    #[inline]
    pub fn equal(a: Interval, b: Interval) -> Truth {
        Truth { yes: a.low <= b.high && b.low <= a.high, no: !(a.is_single() && a == b) }
    }

    #[inline]
    pub fn opposite(self) -> Truth {
        Truth { yes: self.no, no: self.yes }
    }

    #[inline]
    pub fn both(self, other: Truth) -> Truth {
        Truth { yes: self.yes && other.yes, no: self.no || other.no }
    }

    #[inline]
    pub fn either(self, other: Truth) -> Truth {
        Truth { yes: self.yes || other.yes, no: self.no && other.no }
    }
}

#[cfg(test)]
mod tests {
    use super::*;

    fn of(low: i32, high: i32) -> Interval {
        Interval::new(low, high).unwrap()
    }

    fn computed(ends: Option<(i32, i32)>, alarms: u8) -> Computed {
        Computed { interval: ends.map(|(low, high)| of(low, high)), alarms }
    }

    #[test]
    fn the_documents_examples() {
        let (min, max) = (i32::MIN, i32::MAX);
        assert_eq!(of(min, 0).negation(), computed(Some((0, max)), OVERFLOW));
        assert_eq!(of(1, 2).product(of(max, max)), computed(Some((max, max)), OVERFLOW));
        assert_eq!(of(min, min).quotient(of(-1, -1)), computed(None, OVERFLOW));
        assert_eq!(of(-7, 7).quotient(of(-2, 3)), computed(Some((-7, 7)), ZERO));
        assert_eq!(of(10, 10).quotient(of(0, 5)), computed(Some((2, 10)), ZERO));
        assert_eq!(of(-7, -7).quotient(of(2, 2)), computed(Some((-3, -3)), 0));
        assert_eq!(of(1, 1).quotient(of(0, 0)), computed(None, ZERO));
        assert_eq!(Interval::new(1, 0), None);
    }

    /// All pairs of small intervals: the ends are those of the exact results
    /// where the document says so, and no exact result is missed.
    #[test]
    fn small_intervals_against_their_members() {
        let all = || (-4..=4).flat_map(|l| (l..=4).map(move |h| of(l, h)));
        for a in all() {
            for b in all() {
                let pairs = || (a.low..=a.high).flat_map(|x| (b.low..=b.high).map(move |y| (x, y)));
                let hull = |f: &dyn Fn(i32, i32) -> i32| {
                    let least = pairs().map(|(x, y)| f(x, y)).min().unwrap();
                    let most = pairs().map(|(x, y)| f(x, y)).max().unwrap();
                    computed(Some((least, most)), 0)
                };
                assert_eq!(a.sum(b), hull(&|x, y| x + y));
                assert_eq!(a.difference(b), hull(&|x, y| x - y));
                assert_eq!(a.product(b), hull(&|x, y| x * y));
                let quotient = a.quotient(b);
                let exact: Vec<i32> =
                    pairs().filter(|&(_, y)| y != 0).map(|(x, y)| x / y).collect();
                assert_eq!(quotient.interval.map(Interval::low), exact.iter().min().copied());
                assert_eq!(quotient.interval.map(Interval::high), exact.iter().max().copied());
                assert_eq!(quotient.alarms & ZERO != 0, b.holds(0));
                let truth = |f: &dyn Fn(i32, i32) -> bool| Truth {
                    yes: pairs().any(|(x, y)| f(x, y)),
                    no: pairs().any(|(x, y)| !f(x, y)),
                };
                assert_eq!(Truth::less(a, b), truth(&|x, y| x < y));
                assert_eq!(Truth::at_most(a, b), truth(&|x, y| x <= y));
                assert_eq!(Truth::equal(a, b), truth(&|x, y| x == y));
                let kept = |f: &dyn Fn(i32, i32) -> bool| {
                    let l: Vec<_> = pairs().filter(|&(x, y)| f(x, y)).collect();
                    let side = |s: fn(&(i32, i32)) -> i32| {
                        Some(of(l.iter().map(s).min()?, l.iter().map(s).max()?))
                    };
                    Some((side(|p| p.0)?, side(|p| p.1)?))
                };
                assert_eq!(a.cut_less(b), kept(&|x, y| x < y));
                assert_eq!(a.cut_at_most(b), kept(&|x, y| x <= y));
                assert_eq!(a.cut_equal(b), kept(&|x, y| x == y));
                assert_eq!(a.cut_not_equal(b), kept(&|x, y| x != y));
            }
        }
    }

    #[test]
    fn the_requests_sentences_on_remainders() {
        let (min, max) = (i32::MIN, i32::MAX);
        for (a, b, ends, alarms) in [
            // Zero is the only alarm, also where a quotient would overflow.
            ((min, min), (-1, -1), Some((0, 0)), 0),
            ((min, max), (-1, 1), Some((0, 0)), ZERO),
            ((-7, 7), (-2, 3), Some((-2, 2)), ZERO),
            // Ends by the greatest magnitude, at either end of the divisor.
            ((5, 5), (3, 3), Some((0, 2)), 0),
            ((5, 5), (-3, 1), Some((0, 2)), ZERO),
            ((0, 100), (12, 12), Some((0, 11)), 0),
            ((3, 4), (5, 9), Some((0, 4)), 0),
            ((-3, 100), (8, 8), Some((-3, 7)), 0),
            ((-100, 3), (-8, -8), Some((-7, 3)), 0),
            // A dividend on one side of 0, or with an end there.
            ((-9, -5), (2, 4), Some((-3, 0)), 0),
            ((-9, 0), (2, 4), Some((-3, 0)), 0),
            ((0, 9), (-4, -2), Some((0, 3)), 0),
            ((0, 0), (7, 7), Some((0, 0)), 0),
            // The magnitude of MIN, less 1, is MAX.
            ((min, max), (min, min), Some((-max, max)), 0),
            ((min, min), (min, max), Some((-max, 0)), ZERO),
            ((min, max), (0, max), Some((1 - max, max - 1)), ZERO),
            // A divisor of only 0.
            ((5, 5), (0, 0), None, ZERO),
            ((0, 0), (0, 0), None, ZERO),
            ((min, max), (0, 0), None, ZERO),
        ] {
            let (a, b) = (of(a.0, a.1), of(b.0, b.1));
            assert_eq!(a.remainder(b), computed(ends, alarms), "{a:?} by {b:?}");
        }
    }

    /// Members of an interval: all of a small one, else its ends and those by
    /// which signs and remainders turn.
    fn members(interval: Interval) -> Vec<i64> {
        let (low, high) = interval.wide();
        if high - low < 16 {
            return (low..=high).collect();
        }
        [low, -1, 0, 1, high].into_iter().filter(|m| (low..=high).contains(m)).collect()
    }

    /// All pairs of small intervals and of those with ends at the limits: no
    /// exact result is missed, zero and none come exactly where they should,
    /// and the ends are the request's, with D from the divisor's members.
    #[test]
    fn remainders_against_their_members() {
        let (min, max) = (i32::MIN, i32::MAX);
        let small: Vec<i32> = (-7..=7).collect();
        let grid = [min, min + 1, -7, -1, 0, 1, 2, 7, max - 1, max];
        let spans = |ends: &[i32]| -> Vec<Interval> {
            let pairs = ends.iter().flat_map(|&l| ends.iter().map(move |&h| (l, h)));
            pairs.filter_map(|(low, high)| Interval::new(low, high)).collect()
        };
        let all = [spans(&small), spans(&grid)].concat();
        for &a in &all {
            for &b in &all {
                let (xs, ys) = (members(a), members(b));
                let divisors = || ys.iter().filter(|&&y| y != 0);
                let exact: Vec<i64> =
                    xs.iter().flat_map(|x| divisors().map(move |y| x % y)).collect();
                let remainder = a.remainder(b);
                let zero = if ys.contains(&0) { ZERO } else { 0 };
                assert_eq!(remainder.alarms, zero, "{a:?} by {b:?}");
                assert_eq!(remainder.interval.is_none(), exact.is_empty(), "{a:?} by {b:?}");
                let Some(interval) = remainder.interval else { continue };
                let ((low, high), (least, greatest)) = (a.wide(), interval.wide());
                assert!(exact.iter().all(|r| (least..=greatest).contains(r)), "{a:?} by {b:?}");
                let most = ys.iter().map(|y| y.abs()).max().unwrap() - 1;
                assert_eq!(least, if low < 0 { low.max(-most) } else { 0 }, "{a:?} by {b:?}");
                assert_eq!(greatest, if high > 0 { high.min(most) } else { 0 }, "{a:?} by {b:?}");
            }
        }
    }

    #[test]
    fn the_edges_of_the_range() {
        let (min, max) = (i32::MIN, i32::MAX);
        assert_eq!(of(0, 5).cut_less(of(min, min)), None);
        assert_eq!(of(max, max).cut_less(of(0, max)), None);
        assert_eq!(of(min, min).cut_not_equal(of(min, min)), None);
        assert_eq!(of(max, max).cut_not_equal(of(max, max)), None);
        assert_eq!(of(max, max).sum(of(1, 1)), computed(None, OVERFLOW));
        assert_eq!(of(min, max).difference(of(min, max)), computed(Some((min, max)), OVERFLOW));
        assert_eq!(of(min, max).quotient(of(-1, 0)), computed(Some((-max, max)), OVERFLOW | ZERO));
    }
}
