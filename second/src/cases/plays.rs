//! Random play-backs: traces that agree, that are changed, cut or too long, and setups that may be
//! refused.

use super::fresh::{accepted_setup, any_setup};
use super::steps::{any_run, turn_of_someone};
use super::values::any_task_count;
use crate::machine::{KINDS, SYMMETRIC};
use crate::playback::MAX_TRACE;
use crate::random::Random;
use crate::recorder::Recorder;
use crate::schedules;
use crate::setup::Setup;

/// Play-backs of any kind. One of kind 0 has a start table: without one it would rely on what the
/// start is then, and of these only the named traces are stored.
pub fn any_plays(recorder: &mut Recorder, random: &mut Random) {
    for _ in 0..random.length(1, 3) {
        let mut setup = play_setup(random);
        if setup.kind == u64::from(SYMMETRIC) && setup.starts.is_empty() {
            let n = tasks(&setup);
            setup.starts = schedules::uniform(random, n, n);
        }
        any_play(recorder, random, &setup);
    }
}

/// Play-backs of kind 0 without a start table.
pub fn plays_without_starts(recorder: &mut Recorder, random: &mut Random) {
    let n = any_task_count(random);
    let setup = Setup { starts: Vec::new(), ..accepted_setup(random, SYMMETRIC, n) };
    any_play(recorder, random, &setup);
}

/// A trace that may be as long as traces can be, or too long. Its setup may be refused too.
pub fn long_play(recorder: &mut Recorder, random: &mut Random) {
    let kind = random.pick(&KINDS);
    let n = any_task_count(random);
    let mut setup = accepted_setup(random, kind, n);
    if random.once_in(4) {
        refuse(random, &mut setup);
    }
    let lengths = [9_999, MAX_TRACE - 1, MAX_TRACE, MAX_TRACE + 1, MAX_TRACE + 2, 70_000, 70_001];
    let length = random.pick(&lengths);
    let mut trace = setup.trace(&schedules::any(random, n, length / 3 + 1));
    trace.truncate(length);
    if random.once_in(3) {
        change(random, &mut trace, n as u8);
    }
    recorder.play(&setup, &trace);
    recorder.show();
}

/// Makes an accepted setup one that is refused, for any of its reasons.
fn refuse(random: &mut Random, setup: &mut Setup) {
    match random.below(7) {
        0 => setup.kind = 5,
        1 => setup.n = random.pick(&[0, 65]),
        2 => setup.modulus = 1,
        3 => setup.parents.push(0),
        4 if !setup.parents.is_empty() => setup.parents[0] = 1,
        5 => setup.starts.push(setup.n as u8),
        _ => setup.works.push(0),
    }
}

/// A setup, most often one that is accepted.
fn play_setup(random: &mut Random) -> Setup {
    if random.once_in(6) {
        return any_setup(random);
    }
    let kind = random.pick(&KINDS);
    let n = any_task_count(random);
    let mut setup = accepted_setup(random, kind, n);
    if random.once_in(10) {
        refuse(random, &mut setup);
    }
    setup
}

/// The tasks that a schedule of the setup may name, at least one.
fn tasks(setup: &Setup) -> usize {
    setup.n.clamp(1, 64) as usize
}

/// A play-back of a setup, the state after it, and now and then what comes of it.
fn any_play(recorder: &mut Recorder, random: &mut Random, setup: &Setup) {
    let n = tasks(setup);
    let length = random.length(0, 50 + 2 * n);
    let mut trace = setup.trace(&schedules::any(random, n, length));
    if !trace.is_empty() {
        spoil(random, &mut trace, n as u8);
    }
    recorder.play(setup, &trace);
    recorder.show();
    if random.once_in(3) {
        turn_of_someone(recorder, random);
        any_run(recorder, random, 20);
    }
}

/// Leaves the trace as it is, changes some of its bytes or triples, or cuts it.
fn spoil(random: &mut Random, trace: &mut Vec<u8>, n: u8) {
    match random.below(10) {
        0..=2 => {}
        3..=5 => change(random, trace, n),
        6 => {
            change(random, trace, n);
            change(random, trace, n);
        }
        7 => trace.truncate(random.length(0, trace.len())),
        8 => trace.truncate(3 * random.length(0, trace.len() / 3)),
        _ => mix_triples(random, trace),
    }
}

/// Changes a byte of any triple, or of the first or the last, to a value that is near.
fn change(random: &mut Random, trace: &mut [u8], n: u8) {
    let triples = trace.len().div_ceil(3);
    let triple = match random.below(4) {
        0 => 0,
        1 => triples - 1,
        _ => random.length(0, triples - 1),
    };
    let place = (3 * triple + random.length(0, 2)).min(trace.len() - 1);
    let byte = trace[place];
    trace[place] = match place % 3 {
        0 => random.pick(&[0, byte.wrapping_add(1) % n, n, n + 1, 255]),
        1 => random.pick(&[0, 11, byte.wrapping_sub(1), byte.wrapping_add(1), 255]),
        _ => random.pick(&[0, 1, 1_u8.wrapping_sub(byte), 2, 255]),
    };
}

/// Takes out a triple, puts it in once more, or lets it change places with the one before.
fn mix_triples(random: &mut Random, trace: &mut Vec<u8>) {
    let place = 3 * random.length(0, trace.len() / 3 - 1);
    match random.below(3) {
        0 => {
            trace.drain(place..place + 3);
        }
        1 => trace.extend_from_within(place..place + 3),
        _ => trace[place.saturating_sub(3)..place + 3].rotate_left(3),
    }
}
