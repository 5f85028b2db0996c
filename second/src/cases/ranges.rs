//! Every field at and beyond the ends of its range, in used and unused fields, in tasks below N
//! and from N on.

use super::fields::{AIM, ARRIVALS, KIND, LEFT, LINE, MOVES, OWN_SENSE, SENSE};
use super::fields::{START, WAITS, WORK};
use super::values::TALLIES;
use crate::machine::{CENTRALIZED, FETCH_AND_INCREMENT, KINDS, RING, SYMMETRIC, TREE};
use crate::parents;
use crate::recorder::Recorder;
use crate::requests::TASK_FIELDS;
use crate::schedules::cycle;

pub fn cases(recorder: &mut Recorder) {
    for kind in KINDS {
        for n in [1, 3, 64] {
            begin(recorder, kind, n);
            shared_fields(recorder);
            task_fields(recorder);
            recorder.show();
        }
        another_task(recorder, kind);
    }
    every_kind_for_every_kind(recorder);
    starts_of_another_kind(recorder);
    starts_of_fewer_tasks(recorder);
    tallies_of_fewer_tasks(recorder);
    works_of_fewer_tasks(recorder);
    own_senses_of_fewer_tasks(recorder);
    own_sense_or_aim(recorder);
    parents_of_a_running_tree(recorder);
}

/// A state some turns after a fresh one.
fn begin(recorder: &mut Recorder, kind: u8, n: usize) {
    let parents = parents::of_shape(2, if kind == TREE { n } else { 0 });
    let modulus = if kind == SYMMETRIC { 5 } else { 0 };
    recorder.fresh(kind.into(), n as u64, modulus, &parents);
    recorder.run_all(&cycle(n, 5));
    recorder.show();
}

/// Fields 9 to 13 at the values around their ends.
fn shared_fields(recorder: &mut Recorder) {
    let n = recorder.n() as u64;
    for kind in [0, 1, 2, 3, 4, 5, 255] {
        probe(recorder, KIND, 0, kind);
    }
    for count in [0, 1, n - 1, n, n + 1, 63, 64, 65, 255] {
        probe(recorder, 10, 0, count);
    }
    for modulus in [0, 1, 2, 3, 254, 255] {
        probe(recorder, 11, 0, modulus);
    }
    for arrivals in [0, 1, n - 1, n, n + 1, 65, 255] {
        probe(recorder, ARRIVALS, 0, arrivals);
    }
    for sense in [0, 1, 2, 255] {
        probe(recorder, SENSE, 0, sense);
    }
}

/// The fields and the parents of tasks at and around N.
fn task_fields(recorder: &mut Recorder) {
    let n = recorder.n();
    let mut tasks = vec![0, 1, n - 1, n, n + 1, 62, 63];
    tasks.retain(|&task| task < 64);
    tasks.sort_unstable();
    tasks.dedup();
    for task in tasks {
        for field in TASK_FIELDS {
            for value in values(recorder, field, task) {
                probe(recorder, field, task, value);
            }
        }
        for parent in [0, 1, task.saturating_sub(1), task, task + 1, n, 255] {
            probe(recorder, 14, task, parent as u64);
        }
    }
}

/// The values around the ends of a task's field, in any kind.
fn values(recorder: &Recorder, field: u64, task: usize) -> Vec<u64> {
    let n = recorder.n() as u64;
    match field {
        0 => vec![0, 1, 10, 11, 12, 13, 14, 15, 16, 17, 18, 19, 255],
        1 => vec![0, 1, 999_999, 1_000_000, 1_000_001, u64::from(u32::MAX)],
        2 | 3 => vec![0, 1, 4, 5, 6, 255],
        4 => lists(n, task),
        5 => vec![0, 1, n - 1, n, n + 1, 63, 64, 255],
        START => vec![1, n - 1, n, n + 1, 255],
        MOVES | WAITS => TALLIES.to_vec(),
        _ => vec![0, 1, 2, 255],
    }
}

/// Lists at the ends of all tasks and of the task's children in a binary tree.
fn lists(n: u64, task: usize) -> Vec<u64> {
    let all = u64::MAX >> (64 - n);
    let own = 1 << task;
    let left = 1_u64.checked_shl(2 * task as u32 + 1).unwrap_or(0) & all;
    let right = 1_u64.checked_shl(2 * task as u32 + 2).unwrap_or(0) & all;
    let beyond = 1_u64.checked_shl(n as u32).unwrap_or(0);
    let both = left | right;
    vec![0, 1, 2, own, left, right, both, both | own, both | 1, all, beyond, all | beyond, 1 << 63]
}

/// Asks for the ranges with one field changed. In range, 255 is no task and refused 9. The last
/// task's fields are held against a run too, and so are the start, the tallies, the work and the
/// own sense of the one after it.
fn probe(recorder: &mut Recorder, field: u64, task: usize, value: u64) {
    let runs = task + 1 == recorder.n() || (task == recorder.n() && field >= START);
    recorder.with(field, task, value, |recorder| {
        recorder.ready();
        recorder.turn(255);
        if runs {
            recorder.run(0, 0, &[255]);
        }
    });
}

/// One task more, once its line and its work are there. Its own sense may be 0 in any kind.
fn another_task(recorder: &mut Recorder, kind: u8) {
    for n in [1, 3, 63] {
        begin(recorder, kind, n);
        recorder.change(LINE, n as u64, 11);
        recorder.ready();
        recorder.change(10, 0, n as u64 + 1);
        recorder.ready();
        for field in [WORK, LEFT] {
            recorder.change(field, n as u64, 1);
            recorder.ready();
        }
        recorder.run_all(&cycle(n + 1, 2 * n + 2));
        recorder.show();
    }
}

/// A state of one kind read as another: in range once the modulus, the senses and the arrivals
/// fit.
fn every_kind_for_every_kind(recorder: &mut Recorder) {
    for from in KINDS {
        for to in KINDS {
            begin(recorder, from, 3);
            recorder.change(KIND, 0, to.into());
            recorder.ready();
            recorder.change(11, 0, if to == SYMMETRIC { 3 } else { 0 });
            recorder.ready();
            recorder.change(SENSE, 0, 0);
            recorder.ready();
            if from == CENTRALIZED {
                without_own_senses(recorder);
            }
            recorder.run_all(&cycle(3, 9));
            recorder.show();
        }
    }
}

/// Takes away what kind 4 alone has: first its arrivals, then the tasks' own senses.
fn without_own_senses(recorder: &mut Recorder) {
    recorder.set(ARRIVALS, 0, 0);
    recorder.ready();
    for task in 0..3 {
        recorder.set(OWN_SENSE, task, 0);
        recorder.ready();
    }
}

/// A symmetric state with starts read as another kind: in range once the starts are 0.
fn starts_of_another_kind(recorder: &mut Recorder) {
    for kind in [FETCH_AND_INCREMENT, RING, TREE, CENTRALIZED] {
        recorder.fresh_starts(2, &[0, 1]);
        recorder.change(11, 0, 0);
        recorder.change(KIND, 0, kind.into());
        recorder.ready();
        recorder.turn(0);
        recorder.run_all(&[0, 1]);
        recorder.change(START, 1, 0);
        recorder.ready();
        recorder.run_all(&[0, 1]);
        recorder.show();
    }
}

/// One task fewer: a start that was the last task is out of range until it is lowered.
fn starts_of_fewer_tasks(recorder: &mut Recorder) {
    recorder.fresh_starts(3, &[2, 1, 2]);
    recorder.change(10, 0, 2);
    for field in [LINE, WORK, LEFT] {
        recorder.change(field, 2, 0);
    }
    recorder.ready();
    recorder.change(START, 2, 0);
    recorder.ready();
    recorder.turn(0);
    recorder.run_all(&[0, 1]);
    recorder.change(START, 0, 1);
    recorder.ready();
    recorder.run_all(&[0, 0, 0, 1, 1, 0, 0]);
    recorder.show();
}

/// One task fewer: the tallies that it had are out of range until both are 0.
fn tallies_of_fewer_tasks(recorder: &mut Recorder) {
    for kind in KINDS {
        recorder.fresh_kind(kind, 3);
        recorder.change(MOVES, 2, 2);
        recorder.change(WAITS, 2, 3);
        recorder.change(10, 0, 2);
        for field in [LINE, WORK, LEFT] {
            recorder.change(field, 2, 0);
        }
        of_two_tasks(recorder);
        cleared(recorder, [MOVES, WAITS]);
    }
}

/// One task fewer: its work is out of range until the length and the moves left are 0.
fn works_of_fewer_tasks(recorder: &mut Recorder) {
    for kind in KINDS {
        for fields in [[WORK, LEFT], [LEFT, WORK]] {
            recorder.fresh_works(kind, 3, &[1, 2, 3]);
            recorder.change(10, 0, 2);
            recorder.change(LINE, 2, 0);
            of_two_tasks(recorder);
            cleared(recorder, fields);
        }
    }
}

/// Takes away what kind 4 has of a third task: its own sense, and the arrivals above 2.
fn of_two_tasks(recorder: &mut Recorder) {
    if recorder.state().kind == CENTRALIZED {
        recorder.set(OWN_SENSE, 2, 0);
        recorder.set(ARRIVALS, 0, 2);
    }
}

/// One task fewer: its own sense and the arrivals are out of range until both are lowered.
fn own_senses_of_fewer_tasks(recorder: &mut Recorder) {
    for n in [2, 3, 64] {
        recorder.fresh_kind(CENTRALIZED, n);
        recorder.change(10, 0, n as u64 - 1);
        for field in [LINE, WORK, LEFT] {
            recorder.change(field, n as u64 - 1, 0);
        }
        recorder.ready();
        recorder.change(ARRIVALS, 0, n as u64 - 1);
        recorder.ready();
        recorder.turn(0);
        recorder.run_all(&[0]);
        recorder.change(OWN_SENSE, n as u64 - 1, 0);
        recorder.ready();
        recorder.run_all(&cycle(n - 1, 2 * n));
        recorder.show();
    }
}

/// Kind 1 has an aim and no own sense, kind 4 an own sense and no aim: each pair of the two, at
/// each line.
fn own_sense_or_aim(recorder: &mut Recorder) {
    for kind in [FETCH_AND_INCREMENT, CENTRALIZED] {
        for line in 11..=16 {
            for (aim, own) in [(0, 0), (0, 1), (1, 0), (1, 1), (0, 2), (2, 0)] {
                recorder.fresh_kind(kind, 2);
                recorder.set(LINE, 1, line);
                recorder.set(AIM, 1, aim);
                recorder.set(OWN_SENSE, 1, own);
                recorder.ready();
                recorder.turn(1);
                recorder.run_all(&[0, 1]);
            }
            recorder.show();
        }
    }
}

/// Sets two fields of task 2, which isn't there, to 0 one after the other; then the state is in
/// range.
fn cleared(recorder: &mut Recorder, fields: [u64; 2]) {
    for field in fields {
        recorder.ready();
        recorder.turn(0);
        recorder.run_all(&[0, 1]);
        recorder.change(field, 2, 0);
    }
    recorder.ready();
    recorder.run_all(&[0, 1]);
    recorder.show();
}

/// Lists are held against the children that the parents give now.
fn parents_of_a_running_tree(recorder: &mut Recorder) {
    recorder.fresh(TREE.into(), 4, 0, &[0, 0, 0, 0]);
    recorder.run_all(&[0, 0, 0]);
    for (task, parent) in [(3, 2), (3, 1), (3, 0), (2, 1), (2, 2), (2, 0), (1, 1), (0, 1)] {
        recorder.change(14, task, parent);
        recorder.ready();
        recorder.change(4, 0, 0b0110);
        recorder.ready();
        recorder.change(4, 0, 0b1110);
        recorder.turn(4);
        recorder.show();
    }
}
