//! Work tables for the stored and the random cases.

use super::random::Random;

/// The longest work.
const MOST: u8 = 255;

/// Every task has the same work length.
pub fn equal(work: u8, n: usize) -> Vec<u8> {
    vec![work; n]
}

/// Work lengths of 1 to 3; tasks next to each other have different ones.
pub fn unequal(n: usize) -> Vec<u8> {
    (0..n).map(|task| [2, 3, 1][task % 3]).collect()
}

/// Random work lengths of 1 to the most.
pub fn up_to(random: &mut Random, most: u8, n: usize) -> Vec<u8> {
    (0..n).map(|_| 1 + random.below(most.into()) as u8).collect()
}

/// No table, or one of a random manner; most work is short, so that there are rounds to see.
pub fn any(random: &mut Random, n: usize) -> Vec<u8> {
    match random.below(12) {
        0..=5 => Vec::new(),
        6 => equal(1, n),
        7 | 8 => up_to(random, 3, n),
        9 => up_to(random, 9, n),
        10 => up_to(random, MOST, n),
        _ => {
            let mut works = up_to(random, 2, n);
            works[random.length(0, n - 1)] = random.pick(&[3, 20, 127, 128, 254, MOST]);
            works
        }
    }
}
