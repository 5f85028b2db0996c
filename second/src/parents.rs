//! Parent tables for the stored and the random cases and for the sheet texts.

use super::random::Random;
use super::shapes::shape;

/// The parents of a shape; none where n is 0.
pub fn of_shape(number: u64, n: usize) -> Vec<u8> {
    let mut parents = vec![0; n];
    let _ = shape(number, n as u64, &mut parents);
    parents
}

/// The parents of a shape or of a random tree.
pub fn any(random: &mut Random, n: usize) -> Vec<u8> {
    if random.once_in(2) {
        return of_shape(random.below(4), n);
    }
    let mut parents = vec![0; n];
    for (task, parent) in parents.iter_mut().enumerate().skip(1) {
        *parent = random.below(task as u64) as u8;
    }
    parents
}
