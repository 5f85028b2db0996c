//! Every refusal of every call at its boundary, on both sides, and the order of the refusals.
//! Schedules of 65,536 turns and more stand with the long cases, counts with the limits; tallies
//! have their own part.

use crate::machine::{Tables, CENTRALIZED, FETCH_AND_INCREMENT, KINDS, RING, SYMMETRIC, TREE};
use crate::recorder::Recorder;
use crate::schedules::cycle;

pub fn cases(recorder: &mut Recorder) {
    turned_away_by_zeros(recorder);
    fresh_kinds_and_counts(recorder);
    fresh_moduli(recorder);
    fresh_tables(recorder);
    fresh_order(recorder);
    fresh_start_lengths(recorder);
    fresh_start_entries(recorder);
    fresh_start_order(recorder);
    fresh_work_lengths(recorder);
    fresh_work_entries(recorder);
    fresh_work_order(recorder);
    turns(recorder);
    runs(recorder);
    run_order(recorder);
    passes(recorder);
    passes_order(recorder);
    first_passes(recorder);
    shapes(recorder);
}

/// A refused fresh state is kept; it is all zeros and out of range.
fn turned_away_by_zeros(recorder: &mut Recorder) {
    recorder.fresh(RING.into(), 2, 0, &[]);
    recorder.fresh(RING.into(), 2, 3, &[]);
    recorder.show();
    recorder.turn(0);
    recorder.ready();
    recorder.run(0, 0, &[]);
    recorder.run(2, 4, &[0, 1]);
    recorder.show();
}

/// 2 and 3 of a fresh state.
fn fresh_kinds_and_counts(recorder: &mut Recorder) {
    for kind in 0..=4 {
        for n in [0, 1, 2, 63, 64, 65, 255, 256, 257, 320, u64::MAX] {
            let modulus = if kind == 0 { 3 } else { 0 };
            let table = if kind == 3 { n.min(65) } else { 0 };
            recorder.fresh(kind, n, modulus, &vec![0; table as usize]);
            recorder.ready();
        }
    }
    for kind in [5, 6, 255, 256, 259, 260, 1 << 32, (1 << 32) + 4, u64::MAX] {
        recorder.fresh(kind, 2, 0, &[]);
        recorder.fresh(kind, 2, 3, &[]);
        recorder.fresh(kind, 2, 0, &[0, 0]);
    }
    recorder.show();
}

/// 4 of a fresh state.
fn fresh_moduli(recorder: &mut Recorder) {
    for modulus in [0, 1, 2, 3, 4, 254, 255, 256, 257, 259, 1 << 32, u64::MAX] {
        recorder.fresh(SYMMETRIC.into(), 2, modulus, &[]);
        recorder.ready();
        recorder.fresh(FETCH_AND_INCREMENT.into(), 2, modulus, &[]);
        recorder.fresh(RING.into(), 2, modulus, &[]);
        recorder.fresh(TREE.into(), 2, modulus, &[0, 0]);
        recorder.ready();
        recorder.fresh(CENTRALIZED.into(), 2, modulus, &[]);
        recorder.ready();
    }
    recorder.show();
}

/// 5 and 6 of a fresh state.
fn fresh_tables(recorder: &mut Recorder) {
    for n in [1, 2, 5, 63, 64] {
        for length in [0, 1, n - 1, n, n + 1] {
            recorder.fresh(TREE.into(), n, 0, &vec![0; length as usize]);
        }
    }
    for kind in [SYMMETRIC, FETCH_AND_INCREMENT, RING, CENTRALIZED] {
        let modulus = if kind == SYMMETRIC { 3 } else { 0 };
        for length in [0, 1, 2, 3, 64] {
            recorder.fresh(kind.into(), 2, modulus, &vec![0; length]);
        }
    }
    for entry in [0, 1, 2, 63, 64, 255] {
        recorder.fresh(TREE.into(), 1, 0, &[entry]);
        recorder.fresh(TREE.into(), 3, 0, &[entry, 0, 0]);
    }
    for n in [3_usize, 64] {
        for task in [1, 2, n - 1] {
            fresh_parent(recorder, n, task);
        }
    }
    recorder.show();
}

/// Each value near the own number as one task's parent.
fn fresh_parent(recorder: &mut Recorder, n: usize, task: usize) {
    for parent in [0, task - 1, task, task + 1, 63, 64, 255] {
        let mut parents = vec![0; n];
        parents[task] = parent as u8;
        recorder.fresh(TREE.into(), n as u64, 0, &parents);
        recorder.ready();
    }
}

/// The order of 2 to 6 where two or more apply.
fn fresh_order(recorder: &mut Recorder) {
    recorder.fresh(5, 0, 0, &[]);
    recorder.fresh(5, 65, 2, &[1]);
    recorder.fresh(5, 2, 300, &[1]);
    recorder.fresh(4, 0, 3, &[0]);
    recorder.fresh(4, 65, 0, &[]);
    recorder.fresh(4, 2, 3, &[0, 0]);
    recorder.fresh(4, 2, 0, &[1]);
    recorder.fresh(0, 0, 2, &[]);
    recorder.fresh(0, 65, 0, &[0]);
    recorder.fresh(3, 0, 1, &[]);
    recorder.fresh(3, 65, 0, &[1; 65]);
    recorder.fresh(3, 65, 0, &[]);
    recorder.fresh(1, 0, 0, &[0]);
    recorder.fresh(0, 2, 2, &[0]);
    recorder.fresh(1, 2, 1, &[0, 0]);
    recorder.fresh(3, 2, 1, &[0]);
    recorder.fresh(3, 2, 1, &[0, 1]);
    recorder.fresh(3, 2, 0, &[1]);
    recorder.fresh(3, 2, 0, &[0, 1, 2]);
    recorder.fresh(2, 2, 0, &[1]);
    recorder.fresh(3, 2, 0, &[1, 1]);
}

/// A fresh state of any kind that is accepted if its starts are.
fn fresh_with_starts(recorder: &mut Recorder, kind: u8, n: usize, starts: &[u8]) {
    let modulus = if kind == SYMMETRIC { 3 } else { 0 };
    let parents = vec![0; if kind == TREE { n } else { 0 }];
    let tables = Tables { parents: &parents, starts, works: &[] };
    recorder.fresh_with(kind.into(), n as u64, modulus, tables);
}

/// 12 of a fresh state: the length of the start table, for every kind.
fn fresh_start_lengths(recorder: &mut Recorder) {
    for kind in KINDS {
        for n in [1, 2, 3, 63, 64] {
            for length in [0, 1, n - 1, n, n + 1, 256, 256 + n] {
                fresh_with_starts(recorder, kind, n, &vec![0; length]);
                recorder.ready();
            }
        }
    }
    recorder.show();
}

/// 12 of a fresh state: the entries of the start table, for every kind.
fn fresh_start_entries(recorder: &mut Recorder) {
    for kind in KINDS {
        for n in [1_usize, 2, 3, 63, 64] {
            for task in [0, n / 2, n - 1] {
                fresh_start(recorder, kind, n, task);
            }
        }
    }
    fresh_with_starts(recorder, SYMMETRIC, 5, &[4, 0, 3, 2, 4]);
    recorder.show();
    fresh_with_starts(recorder, SYMMETRIC, 5, &[4, 0, 3, 5, 4]);
    recorder.show();
}

/// Each value near N as one task's start.
fn fresh_start(recorder: &mut Recorder, kind: u8, n: usize, task: usize) {
    for start in [0, n - 1, n, n + 1, 255] {
        let mut starts = vec![0; n];
        starts[task] = start as u8;
        fresh_with_starts(recorder, kind, n, &starts);
        recorder.ready();
    }
}

/// The order of 2 to 6 and 12 where two or more apply, and 12 alone beside good parents.
fn fresh_start_order(recorder: &mut Recorder) {
    for (kind, n, modulus, parents, starts) in [
        (5, 2, 0, &[][..], &[][..]),
        (5, 2, 0, &[], &[9]),
        (5, 0, 2, &[1], &[9]),
        (4, 0, 2, &[1], &[9]),
        (4, 2, 3, &[0, 0], &[0, 0]),
        (4, 2, 0, &[0, 0], &[0, 0]),
        (4, 2, 0, &[], &[0, 0]),
        (4, 2, 0, &[], &[]),
        (0, 0, 3, &[], &[0]),
        (0, 65, 3, &[], &[64; 65]),
        (0, 65, 3, &[], &[65; 65]),
        (2, 0, 0, &[], &[0]),
        (0, 2, 2, &[], &[0]),
        (0, 2, 256, &[], &[0, 2]),
        (1, 2, 3, &[], &[0, 0]),
        (3, 2, 3, &[0, 0], &[0, 0]),
        (0, 2, 3, &[0], &[0]),
        (0, 2, 3, &[0, 0], &[0, 2]),
        (1, 2, 0, &[0], &[0, 0]),
        (2, 2, 0, &[0, 0], &[0, 0]),
        (3, 2, 0, &[0], &[0, 0]),
        (3, 2, 0, &[0, 0, 0], &[9]),
        (3, 2, 0, &[], &[0, 0]),
        (3, 2, 0, &[0, 1], &[0, 0]),
        (3, 2, 0, &[1, 0], &[9]),
        (3, 2, 0, &[0, 0], &[0, 0]),
        (3, 2, 0, &[0, 0], &[0]),
        (3, 2, 0, &[0, 0], &[9]),
        (3, 2, 0, &[0, 0], &[]),
    ] {
        recorder.fresh_with(kind, n, modulus, Tables { parents, starts, works: &[] });
        recorder.ready();
    }
    recorder.show();
}

/// 15 of a fresh state: the length of the work table, for every kind.
fn fresh_work_lengths(recorder: &mut Recorder) {
    for kind in KINDS {
        for n in [1, 2, 3, 63, 64] {
            for length in [0, 1, n - 1, n, n + 1, 256 + n] {
                recorder.fresh_works(kind, n, &vec![1; length]);
                recorder.ready();
            }
        }
        recorder.show();
    }
}

/// 15 of a fresh state: the entries of the work table, for every kind.
fn fresh_work_entries(recorder: &mut Recorder) {
    for kind in KINDS {
        for n in [1_usize, 2, 3, 64] {
            for task in [0, n / 2, n - 1] {
                fresh_work(recorder, kind, n, task);
            }
        }
        recorder.fresh_works(kind, 5, &[4, 1, 255, 2, 254]);
        recorder.show();
        for works in [[0, 1, 255, 2, 254], [4, 1, 0, 2, 254], [4, 1, 255, 2, 0], [0; 5]] {
            recorder.fresh_works(kind, 5, &works);
            recorder.turn(0);
        }
        recorder.show();
    }
}

/// Each value near the ends as one task's work length.
fn fresh_work(recorder: &mut Recorder, kind: u8, n: usize, task: usize) {
    for work in [0, 1, 2, 254, 255] {
        let mut works = vec![1; n];
        works[task] = work;
        recorder.fresh_works(kind, n, &works);
        recorder.turn(task as u64);
        recorder.ready();
    }
}

/// The order of 2 to 6, 12 and 15 where two or more apply, and 15 alone beside good tables.
fn fresh_work_order(recorder: &mut Recorder) {
    for (kind, n, modulus, [parents, starts, works]) in [
        (5, 2, 0, [&[][..], &[], &[1, 0]]),
        (4, 65, 0, [&[], &[], &[0; 65]]),
        (4, 2, 3, [&[], &[], &[1]]),
        (4, 2, 0, [&[0, 0], &[], &[0, 0]]),
        (4, 2, 0, [&[], &[0, 0], &[0, 1]]),
        (4, 2, 0, [&[], &[], &[1, 0]]),
        (4, 2, 0, [&[], &[], &[1, 2]]),
        (0, 0, 3, [&[], &[], &[1]]),
        (0, 65, 3, [&[], &[], &[1; 65]]),
        (2, 65, 0, [&[], &[], &[0; 65]]),
        (3, 0, 0, [&[], &[], &[0]]),
        (0, 2, 2, [&[], &[], &[0, 1]]),
        (1, 2, 3, [&[], &[], &[1]]),
        (3, 2, 3, [&[0, 0], &[], &[1, 1, 1]]),
        (0, 2, 3, [&[0], &[], &[1]]),
        (2, 2, 0, [&[0, 0], &[], &[0, 0]]),
        (3, 2, 0, [&[0], &[], &[0, 1]]),
        (3, 2, 0, [&[], &[], &[1]]),
        (3, 2, 0, [&[0, 1], &[], &[0, 1]]),
        (3, 2, 0, [&[1, 0], &[], &[1, 1, 1]]),
        (0, 2, 3, [&[], &[0], &[0]]),
        (0, 2, 3, [&[], &[0, 2], &[1, 0]]),
        (0, 2, 3, [&[], &[0, 0, 0], &[1, 1, 1]]),
        (1, 2, 0, [&[], &[0, 0], &[0, 1]]),
        (2, 2, 0, [&[], &[0], &[1]]),
        (3, 2, 0, [&[0, 0], &[0, 0], &[1, 0]]),
        (0, 2, 3, [&[], &[1, 0], &[0, 1]]),
        (0, 2, 3, [&[], &[1, 0], &[1]]),
        (0, 2, 3, [&[], &[1, 0], &[1, 2]]),
        (3, 2, 0, [&[0, 0], &[], &[1, 0]]),
        (3, 2, 0, [&[0, 0], &[], &[1, 2, 3]]),
        (3, 2, 0, [&[0, 0], &[], &[1, 2]]),
    ] {
        recorder.fresh_with(kind, n, modulus, Tables { parents, starts, works });
        recorder.ready();
    }
    recorder.show();
}

/// 7 and 9 of a turn.
fn turns(recorder: &mut Recorder) {
    for n in [1, 2, 63, 64] {
        recorder.fresh(RING.into(), n, 0, &[]);
        for task in [n - 1, n, n + 1, 255, 256, 256 + n, 1 << 32, u64::MAX] {
            recorder.turn(task);
        }
        recorder.show();
        recorder.with(0, 0, 10, |recorder| {
            for task in [0, n - 1, n, u64::MAX] {
                recorder.turn(task);
            }
        });
        recorder.show();
    }
}

/// 9 and 10 of a run, and its allowance.
fn runs(recorder: &mut Recorder) {
    run_tasks(recorder);
    let schedule = cycle(3, 5);
    for allowance in [0, 1, 2, 4, 5, 6, 100, 1 << 32, 1 << 63, u64::MAX] {
        let log = 2 * allowance.min(5);
        for length in [0, log.saturating_sub(2), log.saturating_sub(1), log, log + 1] {
            recorder.fresh(FETCH_AND_INCREMENT.into(), 3, 0, &[]);
            recorder.run(allowance, length, &schedule);
            recorder.ready();
        }
        recorder.show();
    }
}

/// A schedule's turn that is no task, at every place and beyond the allowance too.
fn run_tasks(recorder: &mut Recorder) {
    recorder.fresh(SYMMETRIC.into(), 3, 3, &[]);
    for task in [2, 3, 4, 63, 64, 255] {
        for place in 0..4 {
            let mut schedule = cycle(3, 4);
            schedule[place] = task;
            recorder.run(4, 8, &schedule);
            recorder.run(place as u64, 8, &schedule);
        }
        recorder.run(3, 6, &[0, task, 1, 255, task]);
        recorder.run(0, 0, &[0, 1, task]);
    }
    recorder.show();
}

/// The order of 7, 9 and 10 where two or more apply.
fn run_order(recorder: &mut Recorder) {
    recorder.fresh(RING.into(), 3, 0, &[]);
    recorder.run(2, 3, &[0, 3]);
    recorder.run(2, 0, &[3, 3]);
    recorder.with(2, 1, 1, |recorder| {
        recorder.run(2, 4, &[0, 3]);
        recorder.run(2, 3, &[0, 1]);
        recorder.run(2, 3, &[0, 3]);
        recorder.run(0, 0, &[]);
    });
    recorder.show();
}

/// 3, 9 and 10 of passes.
fn passes(recorder: &mut Recorder) {
    for n in [0, 1, 2, 63, 64, 65, 256, 257, u64::MAX] {
        recorder.passes(n, 6, &[0, 0]);
        recorder.passes(n, 6, &cycle(64, 128));
        recorder.passes(n, 0, &[]);
    }
    for task in [1, 2, 255] {
        for place in 0..4 {
            let mut schedule = cycle(2, 4);
            schedule[place] = task;
            recorder.passes(2, 5, &schedule);
        }
    }
    for length in 0..=9 {
        recorder.passes(3, length, &[0, 1, 1, 2, 2, 1, 0, 0, 2, 1, 1, 2]);
        recorder.passes(1, length, &[0, 0, 0, 0]);
        recorder.passes(2, length, &[0, 0, 0]);
    }
}

/// The order of 3, 9 and 10 where two or more apply.
fn passes_order(recorder: &mut Recorder) {
    recorder.passes(0, 0, &[0]);
    recorder.passes(0, 1, &[255]);
    recorder.passes(65, 0, &[65, 255]);
    recorder.passes(1, 0, &[0, 1]);
    recorder.passes(1, 1, &[0, 0, 1]);
    recorder.passes(2, 1, &[0, 1, 0, 1, 7]);
}

/// The named cases of an empty first pass, and each one's other side.
fn first_passes(recorder: &mut Recorder) {
    let schedule = [0, 0, 1, 2, 2, 1, 0, 2, 1];
    for n in [0, 1, 2, 3, 4, 64, 65, u64::MAX] {
        for place in (0..=10).chain([1 << 32, u64::MAX]) {
            recorder.first_pass(n, place, &schedule);
        }
    }
    for place in 0..=5 {
        recorder.first_pass(2, place, &[0, 1, 2, 0, 1]);
        recorder.first_pass(2, place, &[0, 1, 0, 1, 2]);
        recorder.first_pass(2, place, &[255, 255, 0, 1, 0]);
        recorder.first_pass(1, place, &[0, 0, 0, 0]);
    }
    let all = cycle(64, 129);
    for place in [0, 1, 64, 65, 66, 128] {
        recorder.first_pass(64, place, &all);
        recorder.first_pass(63, place, &all);
    }
}

/// 2, 3 and 10 of a shape, and their order.
fn shapes(recorder: &mut Recorder) {
    for shape in [0, 1, 2, 3, 4, 5, 255, 256, u64::MAX] {
        for n in [0, 1, 64, 65, 256, u64::MAX] {
            let length = n.min(66);
            for table in [0, length.saturating_sub(1), length, length + 1] {
                recorder.shape(shape, n, table);
            }
        }
    }
    for table in [4_095, 4_096] {
        recorder.shape(3, 64, table);
    }
}
