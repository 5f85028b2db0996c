//! Play-backs: the named traces whole, changed and cut, traces with work tables, traces that are
//! almost right, the refusals and their order, and the longest traces. Of kind 0 without a start
//! table there are the named traces alone, whole, cut, or with one byte changed.

use super::fields::{COUNT, LINE, WAITS};
use super::values::TASK_COUNTS;
use crate::machine::{CENTRALIZED, KINDS, MAX_COUNT, RING, SYMMETRIC, TREE};
use crate::playback::MAX_TRACE;
use crate::recorder::Recorder;
use crate::schedules::{cycle, each, repeat};
use crate::setup::Setup;
use crate::starts;
use crate::traces::{self, Named};

pub fn cases(recorder: &mut Recorder) {
    for named in traces::all() {
        whole(recorder, &named);
        changed(recorder, &named);
        cut(recorder, &named);
        if !named.relies_on_the_start() {
            almost_right(recorder, &named);
        }
    }
    for worked in traces::worked() {
        whole(recorder, &worked);
        changed(recorder, &worked);
        cut(recorder, &worked);
        almost_right(recorder, &worked);
        early_and_late(recorder, &worked);
        other_works(recorder, &worked);
    }
    every_cut(recorder);
    lines_after(recorder);
    several_differences(recorder);
    damaged_before(recorder);
    every_task_count(recorder);
    refused_setups(recorder);
    refused_works(recorder);
    refused_lengths(recorder);
    longest(recorder);
}

/// A setup that is accepted: a symmetric one starts at the next task, and a tree is flat.
fn setup(kind: u8, n: usize) -> Setup {
    let symmetric = kind == SYMMETRIC;
    Setup {
        kind: kind.into(),
        n: n as u64,
        modulus: if symmetric { 3 } else { 0 },
        parents: vec![0; if kind == TREE { n } else { 0 }],
        starts: starts::next(if symmetric { n } else { 0 }),
        works: Vec::new(),
    }
}

/// The kept state goes on from where the play-back left it.
fn go_on(recorder: &mut Recorder) {
    recorder.ready();
    recorder.turn(0);
    recorder.run_all(&cycle(recorder.n(), 5));
}

// ---- the named traces ----

/// A run, then its schedule and its log as a trace: the two leave the same state.
fn whole(recorder: &mut Recorder, named: &Named) {
    let setup = &named.setup;
    let schedule: Vec<u8> = named.trace.iter().step_by(3).copied().collect();
    recorder.fresh_setup(setup);
    recorder.run_all(&schedule);
    recorder.show();
    recorder.play(setup, &named.trace);
    recorder.show();
    go_on(recorder);
}

/// One byte is changed, of the first, a middle or the last triple.
fn changed(recorder: &mut Recorder, named: &Named) {
    for changed in named.changes() {
        recorder.play(&named.setup, &changed.trace);
        recorder.show();
        if changed.name.ends_with("other-outcome") {
            go_on(recorder);
        }
    }
}

/// The trace ends earlier, at a triple and within one.
fn cut(recorder: &mut Recorder, named: &Named) {
    for index in [0, 1, named.triples() / 3, named.triples() - 1] {
        for length in 3 * index..3 * index + 3 {
            recorder.play(&named.setup, &named.trace[..length]);
            recorder.ready();
        }
    }
}

/// A triple is missing, there twice, or before the one that it follows; every outcome is the other
/// one; the bytes of every triple stand in another order.
fn almost_right(recorder: &mut Recorder, named: &Named) {
    let middle = 3 * named.places()[1].1;
    let (before, from) = named.trace.split_at(middle);
    let (triple, after) = from.split_at(3);
    let mut swapped = named.trace.clone();
    swapped[middle - 3..middle + 3].rotate_left(3);
    for trace in [[before, after].concat(), [before, triple, triple, after].concat(), swapped] {
        recorder.play(&named.setup, &trace);
        recorder.ready();
    }
    let mut outcomes = named.trace.clone();
    outcomes.iter_mut().skip(2).step_by(3).for_each(|outcome| *outcome = 1 - *outcome);
    recorder.play(&named.setup, &outcomes);
    for order in [[1, 0, 2], [1, 2, 0], [0, 2, 1]] {
        let triples = named.trace.chunks_exact(3);
        let trace: Vec<u8> = triples.flat_map(|triple| order.map(|byte| triple[byte])).collect();
        recorder.play(&named.setup, &trace);
    }
    recorder.ready();
}

// ---- the traces with a work table ----

/// A task leaves 11 a move too early, as its next triple says or as this one does, or too late.
fn early_and_late(recorder: &mut Recorder, worked: &Named) {
    for index in worked.ends_of_work() {
        let (before, from) = worked.trace.split_at(3 * index);
        let (triple, after) = from.split_at(3);
        let early = [triple[0], 12, triple[2]];
        for trace in [
            [before, after].concat(),
            [before, &early, after].concat(),
            [before, triple, triple, after].concat(),
        ] {
            recorder.play(&worked.setup, &trace);
            recorder.ready();
        }
    }
    recorder.show();
}

/// The trace without its work table, and with one in which a task's work is a move shorter or
/// longer.
fn other_works(recorder: &mut Recorder, worked: &Named) {
    let works = &worked.setup.works;
    let mut others = vec![Vec::new()];
    for (task, &work) in works.iter().enumerate() {
        for other in [work - 1, work + 1] {
            let mut works = works.clone();
            works[task] = other;
            others.push(works);
        }
    }
    for works in others {
        recorder.play(&Setup { works, ..worked.setup.clone() }, &worked.trace);
        recorder.ready();
    }
}

// ---- other traces ----

/// Short traces with a wait, cut after every byte.
fn every_cut(recorder: &mut Recorder) {
    cuts(recorder, RING, &[1, 1, 0, 0, 0, 1, 1, 1, 0, 0, 1, 1]);
    cuts(recorder, CENTRALIZED, &traces::overtaking());
}

/// The trace of two tasks and a schedule, cut after every byte.
fn cuts(recorder: &mut Recorder, kind: u8, schedule: &[u8]) {
    let setup = setup(kind, 2);
    let trace = setup.trace(schedule);
    for length in 0..=trace.len() {
        recorder.play(&setup, &trace[..length]);
        if length % 3 == 0 {
            recorder.show();
        } else {
            recorder.ready();
        }
    }
}

/// The line after the turn stands in place of the one before: at one turn, then at another, then at
/// all. Where the task waits or stays at 18 the two are the same.
fn lines_after(recorder: &mut Recorder) {
    for kind in KINDS {
        let setup = setup(kind, 2);
        let trace = setup.trace(&each([1, 0].into_iter(), 5).repeat(3));
        let mut all = trace.clone();
        for index in 0..trace.len() / 3 {
            let (task, mut later) = (trace[3 * index], trace[3 * index + 3..].chunks_exact(3));
            let Some(next) = later.find(|triple| triple[0] == task) else {
                continue;
            };
            let mut one = trace.clone();
            (one[3 * index + 1], all[3 * index + 1]) = (next[1], next[1]);
            recorder.play(&setup, &one);
            recorder.ready();
        }
        recorder.play(&setup, &all);
        recorder.show();
    }
}

/// The first of two triples that differ counts, and what stands after it isn't looked at.
fn several_differences(recorder: &mut Recorder) {
    for kind in KINDS {
        let setup = setup(kind, 3);
        let trace = setup.trace(&cycle(3, 30));
        for [first, second] in [[4, 5], [4, 20], [0, 29], [28, 29], [3, 4]] {
            let mut two = trace.clone();
            two[3 * first + 1] += 1;
            two[3 * second] = 255;
            recorder.play(&setup, &two);
            recorder.ready();
        }
        for rest in [[255; 3], [0; 3], [3, 11, 1], [0, 11, 2]] {
            let mut trace = trace.clone();
            trace[3 * 8 + 2] ^= 1;
            trace[3 * 9..].chunks_exact_mut(3).for_each(|triple| triple.copy_from_slice(&rest));
            recorder.play(&setup, &trace);
            recorder.ready();
        }
        recorder.show();
    }
}

/// A kept state out of range, or one at its limits, says nothing about a play-back.
fn damaged_before(recorder: &mut Recorder) {
    for kind in KINDS {
        let setup = setup(kind, 3);
        let mut trace = setup.trace(&cycle(3, 12));
        for _ in 0..2 {
            recorder.fresh_kind(RING, 3);
            recorder.run_all(&cycle(3, 7));
            recorder.change(LINE, 1, 19);
            recorder.change(COUNT, 5, 3);
            recorder.play(&setup, &trace);
            recorder.show();
            recorder.set(COUNT, 0, MAX_COUNT.into());
            recorder.set(WAITS, 1, 4_000_000_000);
            recorder.play(&setup, &trace);
            recorder.show();
            trace[3 * 11 + 1] = 10;
        }
        recorder.play(&setup, &trace[..1]);
        recorder.show();
        recorder.play(&setup, &trace[..33]);
        go_on(recorder);
    }
}

/// Every task has two turns, the last one first; then the last triple names a task from N on.
fn every_task_count(recorder: &mut Recorder) {
    for kind in KINDS {
        for n in TASK_COUNTS {
            let setup = setup(kind, n);
            let mut trace = setup.trace(&each((0..n as u8).rev(), 2));
            recorder.play(&setup, &trace);
            recorder.turn(n as u64 - 1);
            let last = trace.len() - 3;
            for task in [n as u8, 255] {
                trace[last] = task;
                recorder.play(&setup, &trace);
                recorder.turn(n as u64 - 1);
            }
            if n == 64 {
                recorder.show();
            }
        }
    }
}

// ---- refusals ----

/// 2 to 6 and 12 before 14, with no trace, a good one, a wrong one, and one cut within a triple.
/// What was kept before is lost. That 12 is before 8 too stands with the longest requests.
fn refused_setups(recorder: &mut Recorder) {
    for (kind, n, modulus, parents, starts) in [
        (5, 2, 0, &[][..], &[][..]),
        (5, 0, 2, &[1], &[9]),
        (4, 65, 0, &[], &[]),
        (4, 2, 3, &[], &[]),
        (4, 2, 0, &[0, 0], &[]),
        (4, 2, 0, &[], &[0, 0]),
        (0, 0, 3, &[], &[]),
        (0, 65, 3, &[], &[0; 65]),
        (2, 0, 1, &[], &[]),
        (0, 2, 2, &[], &[1, 0]),
        (0, 2, 256, &[], &[2]),
        (2, 2, 3, &[], &[]),
        (3, 2, 3, &[0], &[0]),
        (0, 2, 3, &[0], &[1, 0]),
        (2, 2, 0, &[0, 0], &[]),
        (3, 2, 0, &[0], &[]),
        (3, 2, 0, &[0, 0, 0], &[0, 0]),
        (3, 2, 0, &[0, 1], &[]),
        (3, 2, 0, &[1, 0], &[0, 0]),
        (0, 2, 3, &[], &[0]),
        (0, 2, 3, &[], &[0, 2]),
        (0, 2, 3, &[], &[0, 0, 0]),
        (2, 2, 0, &[], &[0, 0]),
        (3, 2, 0, &[0, 0], &[0, 0]),
    ] {
        let (parents, starts) = (parents.to_vec(), starts.to_vec());
        let setup = Setup { kind, n, modulus, parents, starts, works: Vec::new() };
        for trace in [&[][..], &[0, 11, 1], &[0, 12, 1], &[9, 9, 9], &[0], &[0, 11, 1, 0, 12]] {
            recorder.fresh_kind(RING, 2);
            recorder.play(&setup, trace);
            recorder.ready();
        }
    }
    recorder.show();
}

/// 15 for every kind: after 12, before 14, with the same traces.
fn refused_works(recorder: &mut Recorder) {
    for kind in KINDS {
        let good = setup(kind, 2);
        for works in [&[0][..], &[1], &[0, 1], &[1, 0], &[0, 0], &[1, 1, 1], &[1, 1, 0], &[1, 1]] {
            let worked = Setup { works: works.to_vec(), ..good.clone() };
            let mut starts = worked.clone();
            starts.starts.push(0);
            for trace in [&[][..], &[0, 11, 1], &[9, 9, 9], &[0], &[0, 11, 1, 0, 12]] {
                for setup in [&worked, &starts] {
                    recorder.fresh_kind(RING, 2);
                    recorder.play(setup, trace);
                    recorder.ready();
                }
            }
        }
        recorder.show();
    }
}

/// 14 for every kind, and what is kept then; lengths of 0 to 9.
fn refused_lengths(recorder: &mut Recorder) {
    for kind in KINDS {
        let setup = setup(kind, 3);
        let trace = setup.trace(&cycle(3, 3));
        for length in 0..=9 {
            recorder.fresh_kind(RING, 2);
            recorder.play(&setup, &trace[..length]);
            recorder.ready();
            recorder.play(&setup, &repeat(255, length));
            recorder.ready();
        }
        recorder.fresh_kind(kind, 3);
        recorder.play(&setup, &trace[..8]);
        recorder.show();
    }
}

/// 65,535 bytes are taken, 65,536 refused 14, and from 65,537 on 8, also where three divides the
/// length. One ring of one task: it never waits, and its text is short.
fn longest(recorder: &mut Recorder) {
    let setup = setup(RING, 1);
    let mut trace = setup.trace(&repeat(0, MAX_TRACE / 3 + 1));
    recorder.play(&setup, &trace);
    recorder.ready();
    trace.truncate(MAX_TRACE - 1);
    recorder.play(&setup, &trace);
    recorder.show();
    go_on(recorder);
    for differing in [MAX_TRACE - 2, 2] {
        trace[differing] = 0;
        recorder.play(&setup, &trace);
        recorder.show();
        trace[differing] = 1;
    }
    for length in [MAX_TRACE, MAX_TRACE + 1] {
        recorder.play(&setup, &repeat(0, length));
        recorder.ready();
    }
    recorder.show();
}
