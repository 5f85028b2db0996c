//! Values that several parts of the cases use: task counts, tallies, numbers and lengths near the
//! ends of ranges, and schedules with a wrong turn.

use crate::random::Random;

/// The task counts of the stored random cases.
pub const TASK_COUNTS: [usize; 9] = [1, 2, 3, 5, 8, 12, 31, 63, 64];

/// Tallies around the limit and elsewhere.
pub const TALLIES: [u64; 8] =
    [0, 1, 2, 3_999_999_998, 3_999_999_999, 4_000_000_000, 4_000_000_001, 4_294_967_295];

/// Numbers around the ends of the ranges.
const NEAR: [u64; 21] =
    [0, 1, 2, 3, 4, 5, 10, 11, 15, 16, 17, 18, 19, 62, 63, 64, 65, 254, 255, 256, 257];

/// A number around the end of a range, or the largest of all.
pub fn near(random: &mut Random) -> u64 {
    if random.once_in(20) {
        u64::MAX
    } else {
        random.pick(&NEAR)
    }
}

/// A task count, most often a small one.
pub fn any_task_count(random: &mut Random) -> usize {
    match random.below(4) {
        0 => random.pick(&TASK_COUNTS),
        1 => random.length(1, 64),
        _ => random.length(1, 5),
    }
}

/// Now and then makes a turn or two name no task.
pub fn spoil(random: &mut Random, schedule: &mut [u8], n: usize) {
    while !schedule.is_empty() && random.once_in(12) {
        let place = random.length(0, schedule.len() - 1);
        schedule[place] = random.pick(&[n as u8, n as u8 + 1, 255]);
    }
}

/// A buffer's length, most often just enough.
pub fn near_length(random: &mut Random, enough: u64) -> u64 {
    match random.below(12) {
        0 => enough.saturating_sub(1),
        1 => enough.saturating_sub(2),
        2 => enough + 1,
        3 => enough + random.below(9),
        _ => enough,
    }
}
