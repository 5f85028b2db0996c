//! The scope's "Cases for the table", in its order, and the traps that the paper sets. Those of
//! kind 1 are there of kind 4 too.

use crate::machine::{CENTRALIZED, FETCH_AND_INCREMENT, RING, SYMMETRIC, TREE};
use crate::recorder::Recorder;
use crate::schedules::repeat;

/// The cases for the table; the two longest schedules stand with the long cases.
pub fn cases(recorder: &mut Recorder) {
    state_cases(recorder);
    accepted_and_refused(recorder);
    recorder.passes(2, 8, &[0, 0, 1, 0, 1, 1]);
    recorder.shape(2, 6, 6);
    recorder.shape(3, 6, 6);
    empty_cases(recorder);
}

/// The cases that make turns, each by single turns and by a run.
fn state_cases(recorder: &mut Recorder) {
    turns_and_run(recorder, SYMMETRIC, 1, 3, &[], &[0; 5]);
    let sheet = [0, 0, 0, 0, 1, 1, 1, 1, 1, 0];
    turns_and_run(recorder, FETCH_AND_INCREMENT, 2, 0, &[], &sheet);
    turns_and_run(recorder, CENTRALIZED, 2, 0, &[], &sheet);
    turns_and_run(recorder, RING, 2, 0, &[], &[1, 1]);
    turns_and_run(recorder, RING, 2, 0, &[], &[0, 0, 0, 1, 1, 1, 0, 0, 1, 1]);
    turns_and_run(recorder, TREE, 2, 0, &[0, 0], &[0; 4]);
    turns_and_run(recorder, TREE, 1, 0, &[0], &[0; 7]);
}

/// The tasks' turns from a fresh state one by one, then by a run from a fresh state.
fn turns_and_run(
    recorder: &mut Recorder,
    kind: u8,
    n: u64,
    modulus: u64,
    parents: &[u8],
    tasks: &[u8],
) {
    recorder.fresh(kind.into(), n, modulus, parents);
    recorder.show();
    recorder.turns(tasks);
    recorder.ready();
    recorder.fresh(kind.into(), n, modulus, parents);
    recorder.run_all(tasks);
    recorder.show();
}

/// R 2 and 3, N 0, 64 and 65, parents 0 1 and 0 0.
fn accepted_and_refused(recorder: &mut Recorder) {
    for modulus in [2, 3] {
        recorder.fresh(SYMMETRIC.into(), 1, modulus, &[]);
        recorder.show();
    }
    for n in [0, 65, 64] {
        recorder.fresh(RING.into(), n, 0, &[]);
        recorder.show();
    }
    for parents in [[0, 1], [0, 0]] {
        recorder.fresh(TREE.into(), 2, 0, &parents);
        recorder.show();
    }
}

/// An empty schedule, and an allowance of 0 with one turn to do.
fn empty_cases(recorder: &mut Recorder) {
    recorder.fresh(RING.into(), 2, 0, &[]);
    recorder.run(0, 0, &[]);
    recorder.run(1, 2, &[]);
    recorder.passes(2, 0, &[]);
    recorder.passes(2, 2, &[]);
    recorder.first_pass(2, 0, &[]);
    recorder.run(0, 0, &[0]);
    recorder.run(0, 2, &[0]);
    recorder.show();
}

/// The traps that the paper sets.
pub fn traps(recorder: &mut Recorder) {
    ring_in_reverse(recorder);
    laggard_of_the_symmetric(recorder);
    second_round_before_the_first_ends(recorder, FETCH_AND_INCREMENT);
    second_round_before_the_first_ends(recorder, CENTRALIZED);
    flag_seen_but_kept(recorder);
    same_task_while_waiting(recorder);
}

/// Many turns without passes: only task 0's count rises.
fn ring_in_reverse(recorder: &mut Recorder) {
    let schedule = [repeat(2, 100), repeat(1, 100), repeat(0, 100)].concat();
    recorder.fresh(RING.into(), 3, 0, &[]);
    recorder.run_all(&schedule);
    recorder.show();
    recorder.passes(3, 4, &schedule);
    recorder.run_all(&schedule);
    recorder.show();
}

/// A task one round ahead isn't taken for one behind: task 1 leaves 14 after task 0 went on.
fn laggard_of_the_symmetric(recorder: &mut Recorder) {
    let round = [repeat(0, 4), repeat(1, 5), repeat(0, 12), repeat(1, 12)].concat();
    for modulus in [3, 4, 255] {
        recorder.fresh(SYMMETRIC.into(), 2, modulus, &[]);
        for _ in 0..4 {
            recorder.run_all(&round);
            recorder.show();
        }
    }
}

/// Task 1 ends the first round and enters the second while task 0 still stands at 16.
fn second_round_before_the_first_ends(recorder: &mut Recorder, kind: u8) {
    recorder.fresh(kind.into(), 2, 0, &[]);
    recorder.turns(&[0, 0, 0, 0, 1, 1, 1, 0, 1, 0, 1, 1, 1, 1, 1]);
    recorder.turns(&[0, 0, 0, 0, 0, 1, 0, 1, 0, 1]);
}

/// The parent sees its child's flag at 14; the child waits at 16 until the parent is at 18.
fn flag_seen_but_kept(recorder: &mut Recorder) {
    recorder.fresh(TREE.into(), 3, 0, &[0, 0, 1]);
    let collect = [2, 2, 2, 2, 1, 1, 1, 1, 2, 1, 1, 2];
    let spread = [0, 0, 0, 0, 1, 0, 0, 0, 0, 1, 0, 1, 2, 0, 1, 1, 1, 2, 1, 2, 2, 2];
    recorder.turns(&collect);
    recorder.turns(&spread);
}

/// The root waits for task 1 although task 2 is there first.
fn same_task_while_waiting(recorder: &mut Recorder) {
    recorder.fresh(TREE.into(), 3, 0, &[0, 0, 0]);
    recorder.turns(&[0, 0, 0, 2, 2, 2, 2, 0, 0, 1, 1, 1, 1, 0, 0, 0, 0]);
    recorder.fresh(SYMMETRIC.into(), 3, 3, &[]);
    recorder.turns(&[0, 0, 0, 0, 0, 0, 2, 2, 0, 0, 1, 1, 0, 0, 0, 0]);
}
