//! Times two pieces of work against each other.

use std::hint::black_box;
use std::time::{Duration, Instant};

/// One timing takes about this long at least, so that reading the clock is
/// nothing beside it.
const ONE: Duration = Duration::from_micros(50);

/// All timings of one side take this long at least, and are at least so many.
const ALL: Duration = Duration::from_millis(700);
const COUNT: usize = 120;

/// The steps down the stack at which timings are taken, in turns as well:
/// together a page and more.
const LEVELS: usize = 20;

pub struct Times {
    pub least: Duration,
    pub median: Duration,
}

impl Times {
    fn of(mut taken: Vec<Duration>) -> Times {
        taken.sort();
        Times { least: taken[0], median: taken[taken.len() / 2] }
    }
}

/// Both in turns, so that whatever slows the machine down for a while slows
/// both down.
pub fn in_turns(mut first: impl FnMut(), mut second: impl FnMut()) -> [Times; 2] {
    let repeats = repeats(&mut first).max(repeats(&mut second));
    let mut taken = [Vec::new(), Vec::new()];
    let enough = |taken: &Vec<Duration>| {
        taken.len() >= COUNT && taken.iter().sum::<Duration>() * repeats >= ALL
    };
    while !taken.iter().all(enough) {
        for timing in 0..COUNT {
            deeper(timing % LEVELS, &mut || {
                taken[0].push(timed(repeats, &mut first));
                taken[1].push(timed(repeats, &mut second));
            });
        }
    }
    taken.map(Times::of)
}

/// Works so many steps further down the stack. Where in a page the stack stands
/// is chosen anew at each start of a program, and at some places the proved run
/// takes a third longer, so the times at one place alone would not come again.
#[inline(never)]
fn deeper(levels: usize, work: &mut dyn FnMut()) {
    let step = [0u8; 192];
    black_box(&step);
    match levels {
        0 => work(),
        _ => deeper(levels - 1, work),
    }
    black_box(&step);
}

/// The ratio of the least times. Others use the machine as well, and all that
/// they can do to a time is to lengthen it, so the least says the most.
pub fn ratio([first, second]: &[Times; 2]) -> f64 {
    first.least.as_secs_f64() / second.least.as_secs_f64()
}

fn repeats(work: &mut impl FnMut()) -> u32 {
    let least = (0..10).map(|_| timed(1, work)).min().expect("ten of them");
    (ONE.as_nanos() / least.as_nanos().max(1)) as u32 + 1
}

fn timed(repeats: u32, work: &mut impl FnMut()) -> Duration {
    let start = Instant::now();
    for _ in 0..repeats {
        work();
    }
    start.elapsed() / repeats
}
