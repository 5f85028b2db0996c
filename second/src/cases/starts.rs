//! Starts of the symmetric barrier: line 13 looks from the task's start on, each time anew, and goes
//! round to 0 after the last. Their refusals and ranges stand with the others.

use super::fields::{LINE, LIST, LOOKED, START};
use crate::machine::SYMMETRIC;
use crate::recorder::Recorder;
use crate::schedules::cycle;
use crate::starts::{equal, next};

pub fn cases(recorder: &mut Recorder) {
    round_robin(recorder);
    some_ahead(recorder);
    every_list(recorder);
    tables_of_the_same_state(recorder);
    one_task(recorder);
    last_of_64_tasks(recorder);
    lists_of_64_tasks(recorder);
    changed_between_turns(recorder);
    not_after_the_last_looked_at(recorder);
}

/// A whole round of three tasks that start at 1, 2 and 0, shown after each turn of all; then two
/// rounds by a run.
fn round_robin(recorder: &mut Recorder) {
    recorder.fresh_starts(3, &[1, 2, 0]);
    recorder.show();
    for _ in 0..9 {
        for task in 0..3 {
            recorder.turn(task);
        }
        recorder.show();
    }
    recorder.fresh_starts(3, &[1, 2, 0]);
    recorder.run_all(&cycle(3, 54));
    recorder.show();
}

/// Task 0 waits for task 1 although task 2 is there first, and later is a round ahead.
fn some_ahead(recorder: &mut Recorder) {
    recorder.fresh_starts(3, &[1, 2, 0]);
    for turns in [&[0, 0, 0, 0, 2, 2, 0][..], &[2, 2, 2, 2], &[1, 1, 0, 0, 0], &[0, 0, 0, 1, 2]] {
        for &task in turns {
            recorder.turn(task);
        }
        recorder.show();
    }
    recorder.run_all(&[0, 0, 1, 1, 1, 0, 0]);
    recorder.show();
}

/// Each list of four tasks from each start: the tasks stand at 13, and each starts at itself.
fn every_list(recorder: &mut Recorder) {
    recorder.fresh_starts(4, &[0, 1, 2, 3]);
    for list in 0..16 {
        turns_at_13(recorder, 4, list);
    }
}

/// The first tasks are put to 13 with the list, and each has a turn.
fn turns_at_13(recorder: &mut Recorder, tasks: usize, list: u64) {
    for task in 0..tasks {
        recorder.set(LINE, task, 13);
        recorder.set(LIST, task, list);
        recorder.turn(task as u64);
    }
    recorder.show();
}

/// Request 1, no start table and a table of zeros give the same state.
fn tables_of_the_same_state(recorder: &mut Recorder) {
    recorder.fresh(SYMMETRIC.into(), 3, 3, &[]);
    recorder.show();
    recorder.fresh_starts(3, &[]);
    recorder.show();
    recorder.fresh_starts(3, &equal(0, 3));
    recorder.show();
}

/// One task, whose start can only be 0.
fn one_task(recorder: &mut Recorder) {
    recorder.fresh_starts(1, &[0]);
    recorder.turns(&[0; 3]);
    recorder.run_all(&[0; 12]);
    recorder.show();
}

/// All of 64 tasks start at the last: the list goes round right after it.
fn last_of_64_tasks(recorder: &mut Recorder) {
    recorder.fresh_starts(64, &equal(63, 64));
    recorder.run_all(&[5, 5, 5, 5]);
    recorder.show();
    recorder.run_all(&[63, 63, 63, 63, 5, 5, 5]);
    recorder.show();
    recorder.run_all(&[0, 0, 5, 5, 5, 63, 63, 63]);
    recorder.show();
    recorder.fresh_starts(64, &next(64));
    recorder.run_all(&cycle(64, 448));
    recorder.show();
}

/// Lists at the ends of 64 tasks, from starts at and around the ends.
fn lists_of_64_tasks(recorder: &mut Recorder) {
    let last = 1 << 63;
    let mut starts = equal(0, 64);
    starts[..6].copy_from_slice(&[63, 62, 0, 1, 31, 32]);
    recorder.fresh_starts(64, &starts);
    for list in [1, 2, last, last | 1, last >> 1, last >> 1 | 1, 1 << 31, 1 << 32, u64::MAX, 0] {
        turns_at_13(recorder, 6, list);
    }
}

/// The start is changed before a turn at 13, and while the task waits at 14, where it says nothing.
fn changed_between_turns(recorder: &mut Recorder) {
    let (first, second) = (&[0, 0][..], &[0, 1, 1, 0, 0, 0]);
    let (third, last) = (&[0, 2, 2, 0], &[0, 0, 0]);
    recorder.fresh_starts(3, &[0, 0, 0]);
    recorder.turns(&[0, 0]);
    for (start, turns) in [(1, first), (2, second), (1, third), (2, last)] {
        recorder.change(START, 0, start);
        recorder.turns(turns);
    }
}

/// The list holds tasks on both sides of the one looked at last, and line 13 begins at the start.
fn not_after_the_last_looked_at(recorder: &mut Recorder) {
    recorder.fresh_starts(5, &[0, 1, 2, 3, 4]);
    for looked in 0..5 {
        for task in 0..5 {
            recorder.set(LINE, task, 13);
            recorder.set(LIST, task, 0b11111);
            recorder.set(LOOKED, task, looked);
            recorder.turn(task as u64);
        }
        recorder.show();
    }
}
