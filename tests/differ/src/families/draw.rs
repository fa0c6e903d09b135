//! Small changes of words by a seed, wherever they lie.

use peer::generate::Random;

/// With so many words changed, a little or to any other.
pub fn changed(random: &mut Random, words: &[i32], times: usize) -> Vec<i32> {
    let mut words = words.to_vec();
    for _ in 0..times {
        change(random, &mut words);
    }
    words
}

fn change(random: &mut Random, words: &mut [i32]) {
    if words.is_empty() {
        return;
    }
    let at = random.below(words.len());
    words[at] = match random.below(11) {
        0..=1 => words[at].saturating_add(1),
        2..=3 => words[at].saturating_sub(1),
        4 => 0,
        5 => 1,
        6 => -1,
        7 => random.below(33) as i32 - 3,
        8 => random.pick(words),
        9 => i32::MIN,
        _ => i32::MAX,
    };
}

/// With one or two words changed or the last ones cut off.
pub fn damaged(random: &mut Random, words: &[i32]) -> Vec<i32> {
    let mut words = words.to_vec();
    for _ in 0..random.pick(&[1, 1, 2]) {
        if words.is_empty() {
            words.push(0);
        } else if random.chance(90) {
            change(random, &mut words);
        } else {
            words.pop();
        }
    }
    words
}

/// A proposal of the right length with an end moved by one, or another held
/// word, or an entry left out.
pub fn nudged(random: &mut Random, proposal: &[i32]) -> Vec<i32> {
    let mut words = proposal.to_vec();
    let [points, _, mutexes, entries] = [0, 1, 2, 3].map(|at| words[at] as usize);
    let heads = 4 + points;
    let lows = heads + 3 * entries;
    match random.below(10) {
        0 if entries > 0 => leave_out(&mut words, heads, random.below(entries)),
        1 => {
            let held = random.below(1 << mutexes) as i32;
            words[4 + random.below(points)] = random.pick(&[-1, 0, held]);
        }
        _ => {
            let at = random.between(lows, words.len() - 1);
            words[at] = words[at].saturating_add(random.pick(&[-1, 1]));
        }
    }
    words
}

/// Takes an entry out, of which there is one at least: its high end, its low
/// end and its head, from the last on.
fn leave_out(words: &mut Vec<i32>, heads: usize, entry: usize) {
    let entries = words[3] as usize;
    let lows = heads + 3 * entries;
    let highs = lows + (words.len() - lows) / 2;
    words.remove(words.len() - entries + entry);
    words.remove(highs - entries + entry);
    words.drain(heads + 3 * entry..heads + 3 * entry + 3);
    words[3] -= 1;
}
