//! Runs of the state in the list: refused 7, 8, 9 and 10, each before those after it, and lengths
//! around what is needed; the longest schedule.

use super::setups::plain;
use crate::calls::list::{place, LEFT};
use crate::calls::recorder::{Lent, Recorder};
use crate::machine::{CENTRALIZED, FETCH_AND_INCREMENT, RING, SYMMETRIC, TREE};
use crate::schedules::{cycle, repeat};
use crate::setup::Setup;

pub fn add(recorder: &mut Recorder) {
    for (kind, n) in [(SYMMETRIC, 1), (FETCH_AND_INCREMENT, 3), (TREE, 2), (CENTRALIZED, 64)] {
        around_what_is_needed(recorder, &plain(kind, n));
    }
    turns_of_no_task(recorder);
    order(recorder);
    longest(recorder);
}

/// Allowances, logs and tasks lists of less, just enough and more.
fn around_what_is_needed(recorder: &mut Recorder, setup: &Setup) {
    recorder.begin(setup);
    let n = setup.n as usize;
    let schedule = cycle(n, 5);
    for allowance in [0, 1, 4, 5, 6, 1 << 32, u64::MAX] {
        let exact = Lent { allowance, ..Lent::tasks(n, allowance.min(5) as usize) };
        recorder.resume(exact, &schedule);
        recorder.resume(Lent { log: exact.log + 3, list: exact.list + 3, ..exact }, &schedule);
        recorder.resume(Lent { list: exact.list - 1, ..exact }, &schedule);
        if exact.log > 0 {
            recorder.resume(Lent { log: exact.log - 1, ..exact }, &schedule);
        }
    }
}

/// Task numbers of N and more at the first turn, later, and beyond the allowance.
fn turns_of_no_task(recorder: &mut Recorder) {
    for (kind, n) in [(RING, 1), (TREE, 3), (CENTRALIZED, 64)] {
        recorder.begin(&plain(kind, n));
        for (place, wrong) in [(0, n as u8), (2, 255), (5, n as u8 + 1), (5, n as u8 - 1)] {
            let mut schedule = repeat(0, 6);
            schedule[place] = wrong;
            recorder.resume(Lent { allowance: 3, ..Lent::tasks(n, 6) }, &schedule);
            recorder.rows(Lent { allowance: 3, ..Lent::rows(6) }, &schedule);
        }
        let late = [repeat(0, 300), vec![n as u8]].concat();
        recorder.resume(Lent::tasks(n, 0), &late);
        recorder.rows(Lent::rows(0), &late);
        recorder.resume(Lent::tasks(n, 0), &[0, 200, 64]);
        recorder.rows(Lent::rows(0), &[0, 200, 64]);
    }
}

/// 7 before 8, 8 before 9, 9 before 10, and 10 before a turn that would stop the run.
fn order(recorder: &mut Recorder) {
    recorder.begin(&plain(RING, 2));
    let short = Lent { allowance: u64::MAX, log: 0, list: 0 };
    let too_long = repeat(2, 65_537);
    recorder.with(place(1, LEFT), 2, |recorder| {
        recorder.resume(short, &too_long);
        recorder.rows(short, &too_long);
        recorder.rows(short, &[2]);
        recorder.resume(short, &[0]);
        recorder.turn(2);
    });
    recorder.resume(short, &too_long);
    recorder.rows(short, &too_long);
    recorder.resume(short, &[0, 2]);
    recorder.rows(short, &[0, 2]);
    recorder.resume(Lent { log: 4, ..short }, &[0, 2]);
    recorder.rows(Lent { list: 12, ..short }, &[2, 0]);
    recorder.resume(short, &[0, 1]);
    recorder.rows(short, &[0, 1]);
    recorder.resume_all(2, &[0, 1]);
}

/// 65,536 turns are taken, 65,537 refused even where none would be made.
fn longest(recorder: &mut Recorder) {
    recorder.begin(&plain(FETCH_AND_INCREMENT, 1));
    let schedule = repeat(0, 65_537);
    recorder.resume(Lent::tasks(1, 0), &schedule);
    recorder.resume(Lent::tasks(1, 30), &schedule[..65_536]);
    recorder.rows(Lent::rows(0), &schedule);
    recorder.rows(Lent::rows(20), &schedule[..65_536]);
}
