//! Damaged state lists: every number of the head, some parents, and every number of some tasks, at
//! and beyond the end of its range and of its type.

use super::setups::plain;
use crate::calls::list::{place, ARRIVALS, COUNT, COUNT_OF_TASKS, KIND, LEFT, LENGTH, LINE};
use crate::calls::list::{LIST, MODULUS, MOVES, PARENTS, SENSE, WAITS, WORK};
use crate::calls::recorder::{Lent, Recorder};
use crate::machine::KINDS;
use crate::requests::TASK_FIELDS;
use crate::schedules::cycle;

/// Beyond a byte, and beyond 32 bits.
const BYTES: [u64; 3] = [255, 256, u64::MAX];
const WORDS: [u64; 3] = [(1 << 32) - 1, 1 << 32, u64::MAX];

pub fn add(recorder: &mut Recorder) {
    for kind in KINDS {
        recorder.begin(&plain(kind, 3));
        recorder.resume_all(3, &cycle(3, 5));
        head(recorder);
        parents(recorder);
        task(recorder, 1);
        unused(recorder);
        every_call(recorder, kind);
    }
    all_tasks_used(recorder);
}

/// Asks for the ranges with one number changed to each of the values.
fn probe(recorder: &mut Recorder, index: usize, values: &[u64]) {
    let before = recorder.list()[index];
    for &value in values {
        recorder.set(index, value);
        recorder.ready();
    }
    recorder.set(index, before);
}

/// Kind, N, R, arrivals and sense.
fn head(recorder: &mut Recorder) {
    for (index, values) in [
        (KIND, &[0, 1, 2, 3, 4, 5][..]),
        (COUNT_OF_TASKS, &[0, 2, 4, 65]),
        (MODULUS, &[0, 1, 2, 3, 4]),
        (ARRIVALS, &[0, 3, 4]),
        (SENSE, &[0, 1, 2]),
    ] {
        probe(recorder, index, &[values, &BYTES].concat());
    }
}

/// The root's entry, a used one and those from N on.
fn parents(recorder: &mut Recorder) {
    for task in [0, 2, 3, 63] {
        probe(recorder, PARENTS + task, &[0, 1, 2, 255, 256]);
    }
}

/// Each of a task's fifteen numbers. A count cut to 32 bits would be the one that it is.
fn task(recorder: &mut Recorder, task: usize) {
    for field in 0..TASK_FIELDS.len() {
        let index = place(task, field);
        let cut = recorder.list()[index] + (1 << 32);
        let values = match field {
            LINE => [&[0, 10, 14, 15, 16, 17, 18, 19, 267][..], &BYTES].concat(),
            COUNT => [&[999_999, 1_000_000, 1_000_001, cut][..], &WORDS].concat(),
            LIST => vec![0, 1, 2, 7, 8, 15, 1 << 32, 1 << 63, u64::MAX],
            MOVES | WAITS => {
                [&[4_000_000_000, 4_000_000_001, 3_999_999_999, cut][..], &WORDS].concat()
            }
            WORK | LEFT => [&[0, 2, 257][..], &BYTES].concat(),
            _ => [&[0, 1, 2, 3][..], &BYTES].concat(),
        };
        probe(recorder, index, &values);
    }
}

/// Tasks from N on have zeros alone.
fn unused(recorder: &mut Recorder) {
    for field in 0..TASK_FIELDS.len() {
        probe(recorder, place(3, field), &[1]);
        probe(recorder, place(63, field), &[1 << 32]);
    }
}

/// A number out of range and one too large for its type, for every call that reads the list.
fn every_call(recorder: &mut Recorder, kind: u8) {
    let one = [
        (KIND, 5),
        (KIND, 256 + u64::from(kind)),
        (place(2, LINE), 10),
        (place(2, COUNT), 1 << 32),
        (place(2, WAITS), 4_000_000_001),
        (place(3, LIST), 1),
        (LENGTH - 1, u64::MAX),
    ];
    for (index, value) in one {
        recorder.with(index, value, |recorder| {
            recorder.turn(0);
            recorder.resume(Lent { log: 5, list: 13, ..Lent::tasks(3, 2) }, &[0, 1]);
            recorder.rows(Lent { log: 5, list: 13, ..Lent::rows(2) }, &[0, 1]);
        });
    }
    recorder.resume_all(3, &cycle(3, 9));
}

/// The last task of 64.
fn all_tasks_used(recorder: &mut Recorder) {
    for kind in KINDS {
        recorder.begin(&plain(kind, 64));
        recorder.resume_all(64, &cycle(64, 190));
        for (field, values) in [
            (LINE, &[10, 14, 19, 256 + 11][..]),
            (COUNT, &[1_000_000, 1_000_001, 1 << 32]),
            (LIST, &[0, 1 << 63, u64::MAX]),
            (TASK_FIELDS.len() - 1, &[0, 1, 2, 256]),
        ] {
            probe(recorder, place(63, field), values);
        }
        probe(recorder, PARENTS + 63, &[0, 31, 62, 63, 64, 256]);
        probe(recorder, COUNT_OF_TASKS, &[63, 65]);
    }
}
