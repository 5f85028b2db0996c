//! Random cases: scenes of every sort, and runs from fresh, continued and damaged states.

use super::calls::{any_first_pass, any_passes, any_shape, misspelt};
use super::centralized::any_pair;
use super::damage::{damage, damage_for_a_while, small_values, state_in_range};
use super::damage::{near_full_tallies, near_the_end_of_work, near_the_limit, spread_counts};
use super::fresh::{accepted_fresh, any_fresh, small_numbers};
use super::plays::{any_plays, long_play, plays_without_starts};
use super::steps::{any_run, turn_of_ready, turn_of_someone};
use super::values::{any_task_count, near_length, TASK_COUNTS};
use crate::machine::KINDS;
use crate::passes::Passes;
use crate::random::Random;
use crate::recorder::Recorder;
use crate::schedules;

// ---- the stored random cases ----

/// Runs of every kind and of the stored task counts, from fresh, continued and damaged states.
pub fn stored_runs(recorder: &mut Recorder, random: &mut Random) {
    for _ in 0..3 {
        for kind in KINDS {
            for n in TASK_COUNTS {
                accepted_fresh(recorder, random, kind, n);
                any_run(recorder, random, 160);
                recorder.show();
                any_run(recorder, random, 160);
                recorder.show();
                damaged_run(recorder, random);
            }
        }
    }
}

/// Scenes of every sort.
pub fn stored_scenes(recorder: &mut Recorder, random: &mut Random) {
    for _ in 0..295 {
        scene(recorder, random);
    }
}

/// Damages one field, in or out of its range, and runs.
fn damaged_run(recorder: &mut Recorder, random: &mut Random) {
    damage(recorder, random);
    recorder.ready();
    any_run(recorder, random, 60);
    recorder.show();
}

// ---- scenes ----

/// At least so many random requests. Some are of sorts that the stored cases have none of.
pub fn requests(recorder: &mut Recorder, random: &mut Random, count: usize) {
    while recorder.count() < count {
        match random.below(400) {
            0 => long_schedule(recorder, random),
            1 | 2 => long_play(recorder, random),
            3..=12 => plays_without_starts(recorder, random),
            13..=20 => small_values(recorder, random),
            21..=36 => small_numbers(recorder, random),
            _ => scene(recorder, random),
        }
    }
}

/// One random scene.
fn scene(recorder: &mut Recorder, random: &mut Random) {
    match random.below(23) {
        0..=4 => life(recorder, random),
        5..=7 => state_in_range(recorder, random),
        8 | 9 => near_the_limit(recorder, random),
        10 => any_fresh(recorder, random),
        11 => any_passes(recorder, random),
        12 => any_first_pass(recorder, random),
        13 => any_shape(recorder, random),
        14 => misspelt(recorder, random),
        15 => spread_counts(recorder, random),
        16 | 17 => near_full_tallies(recorder, random),
        18 | 19 => any_plays(recorder, random),
        20 => near_the_end_of_work(recorder, random),
        21 => any_pair(recorder, random),
        _ => many_turns(recorder, random),
    }
}

/// A fresh state and some requests of it.
fn life(recorder: &mut Recorder, random: &mut Random) {
    let kind = random.pick(&KINDS);
    let n = any_task_count(random);
    accepted_fresh(recorder, random, kind, n);
    for _ in 0..random.length(3, 20) {
        act(recorder, random);
    }
    recorder.show();
}

/// One request of the kept state.
fn act(recorder: &mut Recorder, random: &mut Random) {
    match random.below(12) {
        0..=3 => turn_of_someone(recorder, random),
        4 | 5 => turn_of_ready(recorder),
        6 => recorder.ready(),
        7 | 8 => any_run(recorder, random, 80),
        9 | 10 => damage_for_a_while(recorder, random),
        _ => recorder.show(),
    }
}

/// A schedule that may be as long as schedules can be, or too long.
fn long_schedule(recorder: &mut Recorder, random: &mut Random) {
    let kind = random.pick(&KINDS);
    let n = any_task_count(random);
    accepted_fresh(recorder, random, kind, n);
    let length = random.pick(&[5_000, 20_000, 65_535, 65_536, 65_537, 70_000, 70_001]);
    let schedule = schedules::any(random, n, length);
    recorder.run_all(&schedule[..length.min(65_536)]);
    recorder.run(1, 2, &schedule);
    recorder.ready();
    recorder.show();
    let enough = 2 * Passes::new(n, &schedule).count().min(1_000);
    recorder.passes(n as u64, near_length(random, enough as u64), &schedule);
    recorder.first_pass(n as u64, (length - random.length(0, 4 * n)) as u64, &schedule);
}

/// Single turns, enough of them for several rounds.
fn many_turns(recorder: &mut Recorder, random: &mut Random) {
    let kind = random.pick(&KINDS);
    let n = random.length(1, 6);
    accepted_fresh(recorder, random, kind, n);
    for _ in 0..random.length(20, 120) {
        if random.once_in(3) {
            turn_of_ready(recorder);
        } else {
            recorder.turn(random.below(n as u64));
        }
    }
    recorder.show();
}
