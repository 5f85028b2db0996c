//! Schedules of several manners for the stored and the random cases.

use super::random::Random;

/// The tasks in their order, again and again.
pub fn cycle(n: usize, length: usize) -> Vec<u8> {
    (0..length).map(|place| (place % n) as u8).collect()
}

/// One task again and again.
pub fn repeat(task: u8, length: usize) -> Vec<u8> {
    vec![task; length]
}

/// So many turns of each task, one task after another.
pub fn each(tasks: impl Iterator<Item = u8>, turns: usize) -> Vec<u8> {
    tasks.flat_map(|task| repeat(task, turns)).collect()
}

/// A schedule of a random manner.
pub fn any(random: &mut Random, n: usize, length: usize) -> Vec<u8> {
    match random.below(6) {
        0 => cycle(n, length),
        1 => bursts(random, n, length),
        2 => shuffles(random, n, length),
        3 => favourite(random, n, length),
        _ => uniform(random, n, length),
    }
}

/// Every turn names any task.
pub fn uniform(random: &mut Random, n: usize, length: usize) -> Vec<u8> {
    (0..length).map(|_| random.below(n as u64) as u8).collect()
}

/// Each task named has several turns.
pub fn bursts(random: &mut Random, n: usize, length: usize) -> Vec<u8> {
    let mut schedule = Vec::new();
    while schedule.len() < length {
        let task = random.below(n as u64) as u8;
        schedule.resize(schedule.len() + random.length(1, 12), task);
    }
    schedule.truncate(length);
    schedule
}

/// All tasks in one random order, then in another.
pub fn shuffles(random: &mut Random, n: usize, length: usize) -> Vec<u8> {
    let mut schedule = Vec::new();
    while schedule.len() < length {
        let mut order = cycle(n, n);
        for place in (1..n).rev() {
            order.swap(place, random.length(0, place));
        }
        schedule.extend(order);
    }
    schedule.truncate(length);
    schedule
}

/// One task has most of the turns.
pub fn favourite(random: &mut Random, n: usize, length: usize) -> Vec<u8> {
    let task = random.below(n as u64) as u8;
    let mut schedule = uniform(random, n, length);
    for turn in &mut schedule {
        if !random.once_in(4) {
            *turn = task;
        }
    }
    schedule
}
