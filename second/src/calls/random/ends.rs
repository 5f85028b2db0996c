//! Counts and tallies at their ends: a task that stands where its count rises, with a count or a
//! tally at its limit or next to it, and the turns that are stopped there.

use crate::calls::list::{place, ARRIVALS, COUNT, LINE, MOVES, WAITS};
use crate::calls::recorder::Recorder;
use crate::machine::{counting_line, MAX_COUNT, MAX_TALLY};
use crate::random::Random;
use crate::schedules;
use crate::setup::Setup;

pub fn add(recorder: &mut Recorder, random: &mut Random, setup: &Setup, number: usize) {
    let n = setup.n as usize;
    let task = random.length(0, n - 1);
    recorder.begin(setup);
    if number % 2 == 0 {
        recorder.set(place(task, LINE), counting_line(setup.kind as u8).into());
    }
    let less = random.below(2);
    match number % 5 {
        0 | 1 => recorder.set(place(task, COUNT), u64::from(MAX_COUNT) - less),
        2 => recorder.set(place(task, MOVES), u64::from(MAX_TALLY) - less),
        3 => recorder.set(place(task, WAITS), u64::from(MAX_TALLY) - less),
        _ => recorder.set(ARRIVALS, random.below(setup.n + 2)),
    }
    let length = random.length(0, 4);
    let turns = [schedules::any(random, n, length), vec![task as u8; 3]].concat();
    match random.below(3) {
        0 => recorder.turn(task as u64),
        1 => recorder.rows_all(&turns),
        _ => recorder.resume_all(n, &turns),
    }
    recorder.ready();
    recorder.turn(task as u64);
}
