//! Start tables of the symmetric barrier for the stored and the random cases.

use super::random::Random;
use super::schedules::uniform;

/// Every task starts at the same one.
pub fn equal(start: u8, n: usize) -> Vec<u8> {
    vec![start; n]
}

/// Each task starts at the next, and the last at 0.
pub fn next(n: usize) -> Vec<u8> {
    (1..=n).map(|next| (next % n) as u8).collect()
}

/// No table, or one of a random manner.
pub fn any(random: &mut Random, n: usize) -> Vec<u8> {
    match random.below(8) {
        0 | 1 => Vec::new(),
        2 => equal(random.below(n as u64) as u8, n),
        3 => next(n),
        _ => uniform(random, n, n),
    }
}
