//! Passes and first passes: schedules of every sort, lists too short by one, just enough and longer,
//! N around its ends, turns of no task, and the longest schedules.

use super::LARGE;
use crate::calls::recorder::Recorder;
use crate::passes::Passes;
use crate::random::Random;
use crate::schedules::{self, cycle, repeat};

pub fn add(recorder: &mut Recorder, random: &mut Random) {
    for n in [1, 2, 3, 5, 12, 31, 63, 64] {
        for length in [n - 1, n, 3 * n, 40 + 4 * n] {
            let schedule = schedules::any(random, n, length);
            lengths(recorder, n, &schedule);
            places(recorder, random, n, &schedule);
        }
    }
    counts(recorder);
    turns_of_no_task(recorder);
    order(recorder);
    longest(recorder);
}

/// Pairs lists around what is needed.
fn lengths(recorder: &mut Recorder, n: usize, schedule: &[u8]) {
    let needed = 2 * Passes::new(n, schedule).count() as u64;
    for length in [needed, needed + 1, needed + 5] {
        recorder.passes(n as u64, length, schedule);
    }
    if needed > 0 {
        recorder.passes(n as u64, needed - 1, schedule);
        recorder.passes(n as u64, 0, schedule);
    }
}

/// First passes from the begin, from anywhere, from the end and from beyond it.
fn places(recorder: &mut Recorder, random: &mut Random, n: usize, schedule: &[u8]) {
    let length = schedule.len() as u64;
    let anywhere = random.below(length + 1);
    for place in [0, anywhere, length.saturating_sub(n as u64), length, length + 1, 1 << 32] {
        recorder.first_pass(n as u64, place, schedule);
    }
    recorder.first_pass(n as u64, u64::MAX, schedule);
}

/// N around its ends; cut to a byte or to 32 bits some would be within them.
fn counts(recorder: &mut Recorder) {
    for n in [0, 1, 2, 3, 64, 65, 320].into_iter().chain(LARGE) {
        recorder.passes(n, 8, &[0, 1, 0, 0, 1]);
        recorder.passes(n, 4, &[]);
        recorder.first_pass(n, 0, &[0, 1, 0, 0, 1]);
        recorder.first_pass(n, 2, &[0, 1, 0, 0, 0]);
    }
}

/// The place of the first turn of no task; a first pass doesn't look at what is before its place.
fn turns_of_no_task(recorder: &mut Recorder) {
    for wrong in [1, 2, 3, 64, 255] {
        for place in [0, 3, 6] {
            let mut schedule = vec![0, 1, 1, 0, 0, 1, 0];
            schedule[place] = wrong;
            recorder.passes(2, 6, &schedule);
            for from in [0, 1, 4, 6, 7] {
                recorder.first_pass(2, from, &schedule);
            }
        }
    }
    recorder.passes(2, 6, &[0, 1, 2, 3, 2]);
    recorder.passes(64, 6, &[63, 64]);
    recorder.passes(2, 6, &[repeat(0, 300), vec![2]].concat());
    recorder.passes(2, 6, &[repeat(0, 65_535), vec![2]].concat());
}

/// 3 before 8, 8 before 9, 9 before 10.
fn order(recorder: &mut Recorder) {
    let too_long = repeat(2, 65_537);
    recorder.passes(0, 0, &too_long);
    recorder.passes(2, 0, &too_long);
    recorder.passes(65, 0, &[65, 0]);
    recorder.passes(2, 1, &[0, 1, 2]);
    recorder.passes(2, 1, &[0, 1, 1]);
}

/// 65,536 turns are taken and 65,537 refused; a first pass has any number of turns.
fn longest(recorder: &mut Recorder) {
    let schedule = cycle(64, 65_537);
    recorder.passes(64, 2_048, &schedule[..65_536]);
    recorder.passes(64, 2_048, &schedule);
    recorder.passes(1, 4, &repeat(0, 65_536));
    let late = [repeat(0, 69_998), vec![1, 0]].concat();
    recorder.first_pass(2, 0, &late);
    recorder.first_pass(2, 69_998, &late);
    recorder.first_pass(2, 69_999, &late);
}
