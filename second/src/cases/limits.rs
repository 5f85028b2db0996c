//! The refusals that a turn meets within a run: all arrivals at line 13, which is N of them in kind
//! 1 and none left in kind 4, and the count's limit at the counting line of each kind.

use super::fields::{ARRIVALS, COUNT, FLAG, LINE, TOGGLE};
use crate::machine::{CENTRALIZED, FETCH_AND_INCREMENT, KINDS, TREE};
use crate::recorder::Recorder;

pub fn cases(recorder: &mut Recorder) {
    for (kind, full, others) in [(FETCH_AND_INCREMENT, 3, [2, 3, 4]), (CENTRALIZED, 0, [1, 0, 4])] {
        for arrivals in 0..=4 {
            arrivals_at_13(recorder, kind, arrivals);
        }
        full_arrivals_at_each_line(recorder, kind, full);
        full_arrivals_and_full_count(recorder, kind, others);
    }
    for (kind, line) in KINDS.into_iter().zip([12, 13, 13, 15, 13]) {
        for count in [999_998, 999_999, 1_000_000, 1_000_001] {
            count_at_the_limit(recorder, kind, line, count);
        }
        stopped_by_the_limit(recorder, kind);
        nobody_ready(recorder, kind, line);
    }
}

/// A task at line 13 of kind 1 or 4 with each number of arrivals.
fn arrivals_at_13(recorder: &mut Recorder, kind: u8, arrivals: u64) {
    recorder.fresh_kind(kind, 3);
    recorder.run_all(&[1, 1, 2]);
    recorder.change(ARRIVALS, 0, arrivals);
    recorder.ready();
    recorder.run(4, 8, &[2, 1, 0, 0]);
    recorder.show();
    recorder.turn(1);
    recorder.turn(3);
    recorder.show();
    recorder.run_all(&[0, 0, 2, 2, 0, 0, 1]);
    recorder.show();
}

/// All have arrived: only line 13 is refused.
fn full_arrivals_at_each_line(recorder: &mut Recorder, kind: u8, full: u64) {
    for line in 11..=16 {
        recorder.fresh_kind(kind, 3);
        recorder.change(ARRIVALS, 0, full);
        for task in 0..3 {
            recorder.change(LINE, task, line);
        }
        recorder.ready();
        recorder.run(3, 6, &[0, 1, 2]);
        recorder.show();
        recorder.turn(0);
    }
}

/// Both refusals apply at line 13: 7 is given. So it is where the arrivals are out of range.
fn full_arrivals_and_full_count(recorder: &mut Recorder, kind: u8, others: [u64; 3]) {
    recorder.fresh_kind(kind, 3);
    recorder.run_all(&[1, 1]);
    recorder.change(COUNT, 1, 1_000_000);
    for arrivals in others {
        recorder.change(ARRIVALS, 0, arrivals);
        recorder.turn(1);
        recorder.ready();
        recorder.run_all(&[1]);
        recorder.run_all(&[0, 1]);
        recorder.change(LINE, 0, 11);
    }
    recorder.show();
}

/// Task 1 stands at the counting line with a count at or near the limit.
fn count_at_the_limit(recorder: &mut Recorder, kind: u8, line: u64, count: u64) {
    recorder.fresh_kind(kind, 3);
    recorder.change(LINE, 1, line);
    recorder.change(COUNT, 1, count);
    recorder.ready();
    recorder.turn(1);
    recorder.show();
    recorder.change(LINE, 1, line);
    recorder.turn(1);
    recorder.turn(3);
    recorder.change(LINE, 1, line);
    recorder.run_all(&[0, 1, 0, 2]);
    recorder.show();
    other_lines_at_the_limit(recorder, count);
}

/// At the lines that raise no count the limit refuses nothing.
fn other_lines_at_the_limit(recorder: &mut Recorder, count: u64) {
    recorder.change(COUNT, 1, count);
    for line in 11..=19 {
        recorder.change(LINE, 1, line);
        recorder.turn(1);
    }
    recorder.show();
}

/// A run that meets 11 at each place, and an allowance used up just before it.
fn stopped_by_the_limit(recorder: &mut Recorder, kind: u8) {
    let schedule = [2, 1, 0, 0, 0, 0, 0, 0, 1, 2];
    for allowance in 0..=10 {
        recorder.fresh_kind(kind, 3);
        recorder.change(COUNT, 0, 1_000_000);
        if kind == TREE {
            recorder.change(FLAG, 1, 1);
            recorder.change(FLAG, 2, 1);
        }
        recorder.run(allowance, 20, &schedule);
        recorder.turn(0);
        recorder.ready();
        recorder.show();
    }
}

/// Tasks at the limit aren't ready; with all there, nobody is.
fn nobody_ready(recorder: &mut Recorder, kind: u8, line: u64) {
    recorder.fresh_kind(kind, 3);
    for task in 0..3 {
        recorder.change(COUNT, task, 1_000_000);
        recorder.ready();
        recorder.change(LINE, task, line);
        recorder.ready();
    }
    recorder.run_all(&[2, 1, 0]);
    recorder.change(TOGGLE, 0, 1);
    recorder.ready();
    recorder.show();
}
