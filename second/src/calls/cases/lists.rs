//! State lists that are too short, just long enough and longer, for every call that reads one.

use super::setups::plain;
use crate::calls::list::{place, COUNT_OF_TASKS, KIND, LENGTH, LINE};
use crate::calls::recorder::{Lent, Recorder};
use crate::machine::{CENTRALIZED, KINDS};
use crate::schedules::cycle;

pub fn add(recorder: &mut Recorder) {
    for kind in KINDS {
        recorder.begin(&plain(kind, 2));
        shorter(recorder);
        longer(recorder);
    }
    cut_and_mended(recorder);
    short_before_others(recorder);
    short_ends_of_fresh(recorder);
}

/// Every call that reads the list, each lent just enough.
fn ask_all(recorder: &mut Recorder) {
    recorder.ready();
    recorder.turn(1);
    recorder.resume_all(2, &[0, 1]);
    recorder.rows_all(&[1, 0]);
}

/// One number too few. The one that takes its place is too large for its field, until it is mended.
fn shorter(recorder: &mut Recorder) {
    recorder.lengthen(LENGTH - 1);
    ask_all(recorder);
    recorder.lengthen(LENGTH);
    recorder.ready();
    recorder.set(LENGTH - 1, 0);
    ask_all(recorder);
}

/// What is beyond the numbers of a state isn't looked at and stays.
fn longer(recorder: &mut Recorder) {
    recorder.lengthen(LENGTH + 1);
    recorder.turn(0);
    recorder.set(LENGTH, 7);
    recorder.lengthen(1_100);
    ask_all(recorder);
}

/// A list that loses the numbers of its tasks and of its head, until none is left.
fn cut_and_mended(recorder: &mut Recorder) {
    recorder.begin(&plain(CENTRALIZED, 64));
    recorder.resume_all(64, &cycle(64, 200));
    for length in [LENGTH - 2, 512, 69, 5, 1, 0] {
        recorder.lengthen(length);
        recorder.ready();
        recorder.turn(0);
        recorder.resume_all(64, &[0]);
        recorder.rows_all(&[0]);
    }
    recorder.lengthen(3);
    recorder.ready();
    recorder.turn(u64::MAX);
}

/// 10 of the list comes before 7, 8, 9 and the 10 of a log.
fn short_before_others(recorder: &mut Recorder) {
    recorder.begin(&plain(CENTRALIZED, 2));
    recorder.set(KIND, 9);
    recorder.lengthen(LENGTH - 1);
    recorder.ready();
    recorder.turn(2);
    recorder.resume(Lent { allowance: 1, log: 0, list: 0 }, &[2]);
    recorder.rows(Lent { allowance: 1, log: 0, list: 0 }, &[2]);
    recorder.set(KIND, CENTRALIZED.into());
    recorder.resume(Lent { allowance: 9, log: 1, list: 7 }, &[2; 9]);
    recorder.rows(Lent { allowance: 9, log: 1, list: 7 }, &[2; 9]);
    recorder.lengthen(100);
    recorder.resume(Lent::tasks(2, 0), &vec![2; 65_537]);
}

/// 10 of `fresh` comes last, so that the lists of refused ones may be short too.
fn short_ends_of_fresh(recorder: &mut Recorder) {
    for length in [0, 1, 64, LENGTH - 1, LENGTH, LENGTH + 1, 1_100] {
        recorder.fresh(&plain(CENTRALIZED, 3), length);
        recorder.ready();
    }
    recorder.set(COUNT_OF_TASKS, 2);
    recorder.ready();
    recorder.set(COUNT_OF_TASKS, 3);
    recorder.set(place(63, LINE), 11);
    recorder.ready();
}
