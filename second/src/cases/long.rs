//! Long schedules: 65,536 turns are taken and 65,537 refused, by a run and by passes.

use crate::machine::{CENTRALIZED, FETCH_AND_INCREMENT, RING, SYMMETRIC, TREE};
use crate::parents;
use crate::random::Random;
use crate::recorder::Recorder;
use crate::schedules::{bursts, cycle, repeat, shuffles, uniform};

const MOST: usize = 65_536;

pub fn cases(recorder: &mut Recorder, random: &mut Random) {
    long_runs(recorder, random);
    too_long_runs(recorder);
    long_passes(recorder, random);
    too_long_passes(recorder);
    first_passes_have_no_limit(recorder);
}

/// Whole runs of many turns, so that large barriers make rounds too.
fn long_runs(recorder: &mut Recorder, random: &mut Random) {
    run_fresh(recorder, SYMMETRIC, 64, 0, &cycle(64, MOST));
    run_fresh(recorder, SYMMETRIC, 12, 0, &uniform(random, 12, 4_096));
    run_with_starts(recorder, &uniform(random, 64, 64), &shuffles(random, 64, 8_960));
    for (n, schedule) in [(64, uniform(random, 64, 8_192)), (5, bursts(random, 5, 4_096))] {
        run_fresh(recorder, FETCH_AND_INCREMENT, n, 0, &schedule);
        run_fresh(recorder, CENTRALIZED, n, 0, &schedule);
    }
    run_fresh(recorder, RING, 31, 0, &shuffles(random, 31, 8_192));
    run_fresh(recorder, RING, 64, 0, &cycle(64, 4_096));
    run_fresh(recorder, TREE, 12, 0, &uniform(random, 12, 4_096));
    run_fresh(recorder, TREE, 31, 1, &cycle(31, 4_096));
    run_fresh(recorder, TREE, 63, 2, &shuffles(random, 63, 8_192));
    run_fresh(recorder, TREE, 64, 3, &uniform(random, 64, 8_192));
}

/// A whole run from a fresh state; a tree has the shape given.
fn run_fresh(recorder: &mut Recorder, kind: u8, n: u64, number: u64, schedule: &[u8]) {
    let modulus = if kind == SYMMETRIC { 3 } else { 0 };
    let parents = parents::of_shape(number, if kind == TREE { n as usize } else { 0 });
    recorder.fresh(kind.into(), n, modulus, &parents);
    recorder.run_all(schedule);
    recorder.ready();
    recorder.show();
}

/// A whole run of a symmetric barrier with these starts.
fn run_with_starts(recorder: &mut Recorder, starts: &[u8], schedule: &[u8]) {
    recorder.fresh_starts(starts.len() as u64, starts);
    recorder.run_all(schedule);
    recorder.ready();
    recorder.show();
}

/// Schedules of 65,537 turns, and the order of 8 among the others.
fn too_long_runs(recorder: &mut Recorder) {
    let mut schedule = repeat(1, MOST + 1);
    recorder.fresh(RING.into(), 2, 0, &[]);
    recorder.run(3, 6, &schedule);
    schedule[MOST - 1] = 2;
    recorder.run(0, 0, &schedule[..MOST]);
    schedule[3] = 2;
    recorder.run(1 << 40, 0, &schedule);
    recorder.with(6, 0, 1, |recorder| recorder.run(0, 0, &schedule));
    recorder.show();
}

/// Passes of long schedules; with one task each turn is a pass.
fn long_passes(recorder: &mut Recorder, random: &mut Random) {
    recorder.passes(1, 131_072, &repeat(0, MOST));
    recorder.passes(64, 700, &uniform(random, 64, 16_384));
    let mut schedule = repeat(0, MOST);
    schedule[MOST - 1] = 1;
    recorder.passes(2, 2, &schedule);
    recorder.passes(1, 0, &schedule);
}

/// Schedules of 65,537 turns, and the order of 8 among the others.
fn too_long_passes(recorder: &mut Recorder) {
    let mut schedule = repeat(0, MOST + 1);
    schedule[MOST] = 1;
    recorder.passes(2, 2, &schedule);
    recorder.passes(65, 2, &schedule);
    recorder.passes(1, 0, &schedule);
}

/// The first pass takes schedules of any length.
fn first_passes_have_no_limit(recorder: &mut Recorder) {
    let mut schedule = repeat(0, MOST + 1);
    schedule[MOST] = 1;
    recorder.first_pass(2, MOST as u64 - 3, &schedule);
}
