//! Damaged state lists: in the list that a session has left, a number is changed, in its range, at an
//! end of it or beyond; then the list is shorter or longer.

use super::sessions::any_task;
use crate::calls::list::{place, LENGTH, PARENTS};
use crate::calls::recorder::Recorder;
use crate::random::Random;
use crate::refusal::MAX_TASKS;
use crate::requests::TASK_FIELDS;
use crate::schedules;

/// Numbers at the ends of ranges and of types, and those next to them.
const ENDS: [u64; 25] = [
    10,
    11,
    13,
    14,
    15,
    16,
    17,
    18,
    19,
    63,
    64,
    65,
    254,
    255,
    256,
    999_999,
    1_000_000,
    1_000_001,
    3_999_999_999,
    4_000_000_000,
    4_000_000_001,
    (1 << 32) - 1,
    1 << 32,
    1 << 63,
    u64::MAX,
];

pub fn add(recorder: &mut Recorder, random: &mut Random, n: usize) {
    changed(recorder, random, n);
    changed(recorder, random, n);
    resized(recorder, random, n);
}

/// One number of the list is another for a while.
fn changed(recorder: &mut Recorder, random: &mut Random, n: usize) {
    let index = any_index(random, n);
    let before = recorder.list()[index];
    recorder.set(index, any_value(random, n as u64, before));
    ask(recorder, random, n);
    recorder.set(index, before);
}

/// The list is shorter or longer for a while. What it has lost then is filled.
fn resized(recorder: &mut Recorder, random: &mut Random, n: usize) {
    let length = match random.below(4) {
        0 => random.length(0, LENGTH - 1),
        1 => random.pick(&[0, 1, LENGTH - 2]),
        2 => LENGTH - 1,
        _ => random.pick(&[LENGTH + 1, LENGTH + 2, 1_100]),
    };
    recorder.lengthen(length);
    ask(recorder, random, n);
    recorder.lengthen(LENGTH);
    recorder.ready();
}

/// The calls that read the list, a run or its rows, lent just enough.
pub fn ask(recorder: &mut Recorder, random: &mut Random, n: usize) {
    let length = random.length(1, 6);
    let schedule = schedules::any(random, n, length);
    recorder.ready();
    if random.once_in(2) {
        recorder.resume_all(n, &schedule);
    } else {
        recorder.rows_all(&schedule);
    }
    recorder.turn(any_task(random, n as u64));
}

/// A place of the head, of the parents, of any task or, most often, of one below N.
fn any_index(random: &mut Random, n: usize) -> usize {
    let field = random.length(0, TASK_FIELDS.len() - 1);
    match random.below(6) {
        0 => random.length(0, PARENTS - 1),
        1 => PARENTS + random.length(0, MAX_TASKS - 1),
        2 => place(random.length(0, MAX_TASKS - 1), field),
        _ => place(random.length(0, n - 1), field),
    }
}

/// A small number, one next to N or to the one that is there, one that would be the same if it were
/// cut, or one at an end.
fn any_value(random: &mut Random, n: u64, before: u64) -> u64 {
    match random.below(5) {
        0 => random.below(4),
        1 => random.pick(&[n - 1, n, n + 1, before ^ 1]),
        2 => before.wrapping_add(random.pick(&[1, 1 << 8, 1 << 32])),
        _ => random.pick(&ENDS),
    }
}
