//! Random requests that several parts of the cases make: single turns and runs.

use super::values::{near, near_length, spoil};
use crate::machine::ready;
use crate::random::Random;
use crate::recorder::Recorder;
use crate::schedules;

/// A single turn, most often of a task.
pub fn turn_of_someone(recorder: &mut Recorder, random: &mut Random) {
    let n = recorder.n().max(1) as u64;
    let task = if random.once_in(12) { near(random) } else { random.below(n) };
    recorder.turn(task);
}

/// The turn of the task that ready names, if it names one.
pub fn turn_of_ready(recorder: &mut Recorder) {
    recorder.ready();
    if let Ok(Some(task)) = ready(recorder.state()) {
        recorder.turn(task as u64);
    }
}

/// A run of the kept state; the schedule, the allowance or the log may be wrong.
pub fn any_run(recorder: &mut Recorder, random: &mut Random, longest: usize) {
    let n = recorder.n().clamp(1, 64);
    let length = random.length(0, longest);
    let mut schedule = schedules::any(random, n, length);
    spoil(random, &mut schedule, n);
    let length = length as u64;
    let allowance = match random.below(8) {
        0 => near(random),
        1 => random.below(length + 1),
        2 => length.saturating_sub(1),
        3 => length + 1,
        _ => length,
    };
    let log = 2 * allowance.min(length);
    recorder.run(allowance, near_length(random, log), &schedule);
}
