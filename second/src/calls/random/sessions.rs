//! Every call of a scene: those that keep nothing, then a session of the kept state.

use super::scene::Scene;
use crate::calls::recorder::Recorder;
use crate::random::Random;
use crate::refusal::MAX_TASKS;

pub fn add(recorder: &mut Recorder, random: &mut Random, scene: &Scene) {
    nothing_kept(recorder, random, scene);
    recorder.fresh(&scene.setup, scene.length);
    session(recorder, random, scene);
}

fn nothing_kept(recorder: &mut Recorder, random: &mut Random, scene: &Scene) {
    let (setup, schedule) = (&scene.setup, &scene.schedule);
    recorder.run(setup, scene.for_tasks(), schedule);
    recorder.passes(setup.n, scene.for_pairs(), schedule);
    recorder.first_pass(setup.n, any_place(random, schedule.len()), schedule);
    recorder.first_pass(setup.n, random.below(schedule.len() as u64 / 2 + 1), schedule);
    recorder.shape(scene.shape, setup.n, scene.for_table());
    recorder.limit(setup.kind, setup.n, &setup.works);
}

/// A run, a turn, rows of the turns in their other order, and the run again.
fn session(recorder: &mut Recorder, random: &mut Random, scene: &Scene) {
    let back: Vec<u8> = scene.schedule.iter().rev().copied().collect();
    recorder.resume(scene.for_tasks(), &scene.schedule);
    recorder.ready();
    recorder.turn(any_task(random, scene.setup.n));
    recorder.rows(scene.for_rows(), &back);
    recorder.resume(scene.for_tasks(), &scene.schedule);
    recorder.ready();
}

/// A place in a schedule, at its end or beyond.
fn any_place(random: &mut Random, length: usize) -> u64 {
    match random.below(6) {
        0 => random.pick(&[1 << 32, u64::MAX]),
        _ => random.below(length as u64 + 3),
    }
}

/// A task, or now and then none.
pub fn any_task(random: &mut Random, n: u64) -> u64 {
    match random.below(6) {
        0 => random.pick(&[n, n.saturating_add(1), n.saturating_add(1 << 8), 1 << 32, u64::MAX]),
        _ => random.below(n.clamp(1, MAX_TASKS as u64)),
    }
}
