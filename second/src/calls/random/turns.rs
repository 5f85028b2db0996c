//! Stretches of single turns of a few tasks, so long that rounds close, and what is ready between.

use crate::calls::list::state_of;
use crate::calls::recorder::Recorder;
use crate::machine;
use crate::random::Random;
use crate::schedules;
use crate::setup::Setup;
use crate::works::up_to;

/// The turns of a stretch, for each task and for all.
const EACH: usize = 5;
const MORE: usize = 16;

/// Longer work than a move or two is left out, since little else would be seen.
pub fn add(recorder: &mut Recorder, random: &mut Random, setup: &Setup) {
    let n = setup.n as usize;
    let works = match random.once_in(2) {
        true => up_to(random, 2, n),
        false => Vec::new(),
    };
    recorder.begin(&Setup { works, ..setup.clone() });
    let length = random.length(0, n * (2 * n + 3));
    recorder.resume_all(n, &schedules::shuffles(random, n, length));
    for _ in 0..EACH * n + MORE {
        recorder.turn(next_task(recorder, random, n));
        if random.once_in(2) {
            recorder.ready();
        }
    }
}

/// The task that is ready, most often, or any.
fn next_task(recorder: &Recorder, random: &mut Random, n: usize) -> u64 {
    match state_of(recorder.list()).and_then(|state| machine::ready(&state)) {
        Ok(Some(task)) if !random.once_in(3) => task as u64,
        _ => random.below(n as u64),
    }
}
