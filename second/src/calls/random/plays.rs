//! Play-backs: the trace of a run, the same with one thing wrong, and of a setup that is wrong; each
//! also with its state kept, and calls on that state.

use super::scene::Scene;
use super::states;
use crate::calls::list::{state_of, LENGTH};
use crate::calls::recorder::Recorder;
use crate::random::Random;

pub fn add(recorder: &mut Recorder, random: &mut Random, scene: &Scene, wrong: &Scene) {
    let trace = scene.setup.trace(&scene.schedule);
    let other = damaged(random, &trace);
    recorder.play(&scene.setup, &trace);
    recorder.play(&scene.setup, &other);
    recorder.play(&wrong.setup, &trace);
    recorder.play_state(&wrong.setup, wrong.length, &trace);
    kept(recorder, random, scene, &trace, scene.length);
    let length = any_length(random, scene, &other);
    kept(recorder, random, scene, &other, length);
}

/// A play-back that keeps its state, and in half of the rounds the calls on that state.
fn kept(recorder: &mut Recorder, random: &mut Random, scene: &Scene, trace: &[u8], length: usize) {
    recorder.play_state(&scene.setup, length, trace);
    if state_of(recorder.list()).is_ok() && random.once_in(2) {
        states::ask(recorder, random, scene.setup.n as usize);
    } else {
        recorder.ready();
    }
}

/// The numbers of the state list, now and then too few. Where it stays filled it is long to show, so
/// that most such are short.
fn any_length(random: &mut Random, scene: &Scene, trace: &[u8]) -> usize {
    match random.below(6) {
        0 => random.pick(&[0, 1, 3, LENGTH - 1]),
        1..=4 if trace.len() % 3 != 0 => random.length(0, 3),
        _ => scene.length,
    }
}

/// A byte is changed, or the trace is cut or lengthened.
fn damaged(random: &mut Random, trace: &[u8]) -> Vec<u8> {
    let mut trace = trace.to_vec();
    let bytes = random.length(1, 4);
    match random.below(4) {
        0 => trace.truncate(trace.len().saturating_sub(bytes)),
        1 => trace.extend_from_within(..bytes.min(trace.len())),
        _ if trace.is_empty() => trace.push(0),
        _ => {
            let place = random.length(0, trace.len() - 1);
            trace[place] = match random.below(3) {
                0 => trace[place] ^ 1,
                1 => trace[place].wrapping_add(1),
                _ => random.below(256) as u8,
            };
        }
    }
    trace
}
