//! Play-backs whose state is kept: the named traces, which agree, and such as differ at their first
//! triple, in the middle and at the last; calls on the state that they leave; state lists around
//! their length; every reason, and each before those after it.

use super::setups::{any, around, each_fault, faulty, plain, worked};
use crate::calls::list::LENGTH;
use crate::calls::recorder::Recorder;
use crate::machine::{FETCH_AND_INCREMENT, KINDS, RING};
use crate::random::Random;
use crate::schedules::{self, cycle, repeat};
use crate::setup::Setup;
use crate::traces::{self, Named};
use crate::works::unequal;

/// Of the changes of a named trace without a work table, one in so many is played.
const PLAYED: usize = 3;

pub fn add(recorder: &mut Recorder, random: &mut Random) {
    for named in traces::all() {
        whole(recorder, &named);
        changed(recorder, &named, PLAYED);
    }
    for named in traces::worked() {
        whole(recorder, &named);
        changed(recorder, &named, 1);
        broken_off(recorder, &named);
    }
    every_kind(recorder, random);
    for kind in KINDS {
        around_the_length(recorder, &worked(kind, &unequal(3)));
    }
    refused_setups(recorder);
    lengths(recorder);
    order(recorder);
    made_anew(recorder);
}

/// A trace that agrees, and some more turns.
fn whole(recorder: &mut Recorder, named: &Named) {
    recorder.play_kept(&named.setup, &named.trace);
    let n = named.setup.n as usize;
    go_on(recorder, n, &cycle(n, 2 * n + 5));
}

/// Traces with one byte changed, one in so many of them. Nearly all differ there.
fn changed(recorder: &mut Recorder, named: &Named, every: usize) {
    for changed in named.changes().iter().step_by(every) {
        recorder.play_kept(&named.setup, &changed.trace);
    }
}

/// A trace with a wrong line, from whose state the turns of the triples from there on are made.
fn broken_off(recorder: &mut Recorder, named: &Named) {
    for (_, index) in named.places() {
        let mut trace = named.trace.clone();
        trace[3 * index + 1] = 10;
        recorder.play_kept(&named.setup, &trace);
        go_on(recorder, named.setup.n as usize, &turns_of(&trace)[index..]);
    }
}

/// Each call that reads the state list: the schedule's first turn alone, then a run and rows.
fn go_on(recorder: &mut Recorder, n: usize, schedule: &[u8]) {
    recorder.ready();
    let (first, rest) = schedule.split_at(1);
    recorder.turn(first[0].into());
    let (run, rows) = rest.split_at(rest.len() / 2);
    recorder.resume_all(n, run);
    recorder.ready();
    recorder.rows_all(rows);
}

/// The turns of a trace.
fn turns_of(trace: &[u8]) -> Vec<u8> {
    trace.iter().step_by(3).copied().collect()
}

/// Every kind with few tasks and many and tables of any manner. A trace agrees, then has another
/// outcome in the middle, and the turns from there on are made.
fn every_kind(recorder: &mut Recorder, random: &mut Random) {
    for kind in KINDS {
        for n in [1, 2, 12, 63, 64] {
            let setup = any(random, kind, n);
            let schedule = schedules::any(random, n, 20 + 4 * n);
            let mut trace = setup.trace(&schedule);
            recorder.play_kept(&setup, &trace);
            let middle = schedule.len() / 2;
            trace[3 * middle + 2] ^= 1;
            recorder.play_kept(&setup, &trace);
            recorder.resume_all(n, &schedule[middle..]);
        }
    }
}

/// Lists too short by one, just long enough and longer, for a trace that agrees, one that differs
/// and one of no bytes.
fn around_the_length(recorder: &mut Recorder, setup: &Setup) {
    let trace = setup.trace(&cycle(3, 12));
    let differs = [&trace, &[3, 11, 1][..]].concat();
    for trace in [&trace[..], &differs, &[]] {
        for length in [0, 3, LENGTH - 1] {
            recorder.play_state(setup, length, trace);
            recorder.ready();
        }
        for length in [LENGTH, LENGTH + 1] {
            recorder.play_state(setup, length, trace);
            recorder.turn(2);
        }
    }
    recorder.play_state(setup, 1_100, &differs);
}

// ---- reasons ----

/// Setups around every end; a refused one shows the whole list, so that most have a short one. Then
/// every reason before every other, before 14 and before a short list; and each alone.
fn refused_setups(recorder: &mut Recorder) {
    for (number, setup) in around().iter().enumerate() {
        recorder.play_state(setup, number % 3, &[0, 11, 1]);
    }
    for setup in faulty() {
        recorder.play_state(&setup, 2, &[0, 11]);
    }
    for setup in each_fault() {
        recorder.play_kept(&setup, &[0, 11, 1]);
        recorder.play_state(&setup, 2, &[0, 11, 1]);
    }
}

/// Lengths that are multiples of three and others, and the longest. The last triple of the longest
/// trace differs, and is made then.
fn lengths(recorder: &mut Recorder) {
    let setup = plain(RING, 1);
    let mut trace = setup.trace(&repeat(0, 21_845));
    for length in [0, 1, 2, 3, 4, 5, 6, 65_535] {
        recorder.play_kept(&setup, &trace[..length]);
    }
    trace[65_534] = 0;
    recorder.play_kept(&setup, &trace);
    recorder.turn(0);
    for length in [65_536, 65_537] {
        recorder.play_kept(&setup, &repeat(0, length));
    }
}

/// The setup's reasons before 8 and 14, 8 before 14, both before a short list; a short list before
/// any triple is looked at.
fn order(recorder: &mut Recorder) {
    let setup = plain(FETCH_AND_INCREMENT, 1);
    recorder.play_state(&worked(FETCH_AND_INCREMENT, &[0]), 2, &repeat(9, 65_537));
    for length in [65_536, 65_537, 65_538] {
        recorder.play_state(&setup, 2, &repeat(9, length));
    }
    for trace in [&[9][..], &[9, 9], &[9; 4], &[9; 3], &[0, 11, 1, 0, 12, 2], &[0, 11, 1]] {
        recorder.play_state(&setup, 0, trace);
        recorder.play_state(&setup, 2, trace);
    }
    recorder.play_state(&setup, LENGTH - 1, &[9]);
    recorder.play_kept(&setup, &[9; 3]);
}

/// A refused one leaves nothing of the state that the list held.
fn made_anew(recorder: &mut Recorder) {
    let setup = plain(RING, 2);
    let trace = setup.trace(&cycle(2, 9));
    recorder.play_kept(&setup, &trace);
    recorder.play_kept(&setup, &trace[1..]);
    recorder.ready();
    recorder.turn(0);
    recorder.play_kept(&setup, &trace);
    recorder.play_state(&setup, LENGTH - 1, &trace);
    recorder.lengthen(LENGTH);
    recorder.ready();
    recorder.begin(&setup);
    recorder.play_kept(&worked(RING, &[1, 0]), &trace);
    recorder.play_state(&setup, LENGTH + 1, &trace);
    go_on(recorder, 2, &cycle(2, 9));
}
