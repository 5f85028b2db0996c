//! Single turns: whole rounds of every kind, with the task that is ready; task numbers around N.

use super::setups::{plain, worked};
use super::LARGE;
use crate::calls::recorder::Recorder;
use crate::machine::{CENTRALIZED, FETCH_AND_INCREMENT, KINDS, SYMMETRIC, TREE};
use crate::schedules::{cycle, each};
use crate::setup::Setup;

pub fn add(recorder: &mut Recorder) {
    for kind in KINDS {
        rounds(recorder, &plain(kind, 2), &cycle(2, 24));
        alone(recorder, kind);
        around_the_count(recorder, kind);
    }
    rounds(recorder, &worked(TREE, &[2, 1, 1]), &each((0..3).rev(), 6).repeat(2));
    let starts = vec![1, 2, 0];
    rounds(recorder, &Setup { starts, ..plain(SYMMETRIC, 3) }, &each(0..3, 4).repeat(3));
    rounds(recorder, &worked(FETCH_AND_INCREMENT, &[1, 3]), &each(0..2, 5).repeat(2));
    rounds(recorder, &worked(CENTRALIZED, &[1, 3]), &each(0..2, 5).repeat(2));
}

/// Turns that move, wait and close rounds, the ready task asked for after each.
fn rounds(recorder: &mut Recorder, setup: &Setup, turns: &[u8]) {
    recorder.begin(setup);
    for &task in turns {
        recorder.turn(task.into());
        recorder.ready();
    }
}

/// One task, which goes through all of its lines.
fn alone(recorder: &mut Recorder, kind: u8) {
    recorder.begin(&worked(kind, &[2]));
    for _ in 0..9 {
        recorder.turn(0);
        recorder.ready();
    }
}

/// Task numbers of N and more; cut to a byte or to 32 bits some would be tasks.
fn around_the_count(recorder: &mut Recorder, kind: u8) {
    for n in [1, 3, 64] {
        recorder.begin(&plain(kind, n));
        recorder.turn(n as u64 - 1);
        for task in [n as u64, n as u64 + 1].into_iter().chain(LARGE) {
            recorder.turn(task);
        }
    }
}
