//! Runs that a turn stops: by 11 at a count of 1,000,000, by 13 at a full tally, by 7 where a task
//! arrives though all have; the same of single turns, and what is ready then.

use super::setups::{plain, worked};
use crate::calls::list::{place, ARRIVALS, COUNT, LINE, MOVES, WAITS};
use crate::calls::recorder::{Lent, Recorder};
use crate::machine::{counting_line, CENTRALIZED, FETCH_AND_INCREMENT, KINDS};
use crate::machine::{MAX_COUNT, MAX_TALLY};
use crate::schedules::{cycle, each};

/// A change of a fresh state of three tasks: places with their values.
type Change = Vec<(usize, u64)>;

pub fn add(recorder: &mut Recorder) {
    for kind in KINDS {
        for change in changes() {
            stopped(recorder, kind, &change);
        }
    }
    for (kind, full) in [(FETCH_AND_INCREMENT, 3), (CENTRALIZED, 0)] {
        arrivals(recorder, kind, full);
    }
    for kind in KINDS {
        order(recorder, kind);
        ready(recorder, kind);
    }
}

/// Counts at and just below the limit, and tallies of moves and of waits.
fn changes() -> Vec<Change> {
    let (count, tally) = (u64::from(MAX_COUNT), u64::from(MAX_TALLY));
    let all = |count| (0..3).map(|task| (place(task, COUNT), count)).collect();
    vec![
        vec![(place(1, COUNT), count)],
        vec![(place(1, COUNT), count - 1)],
        all(count - 1),
        vec![(place(2, MOVES), tally)],
        vec![(place(2, MOVES), tally - 3)],
        vec![(place(0, WAITS), tally), (place(1, WAITS), tally), (place(2, WAITS), tally)],
        vec![(place(0, WAITS), tally - 1), (place(1, WAITS), tally - 1)],
    ]
}

/// A run, rows and single turns from the changed state. Some changes stop none of them.
fn stopped(recorder: &mut Recorder, kind: u8, change: &[(usize, u64)]) {
    let schedule = each((0..3).rev(), 4).repeat(4);
    begin(recorder, kind, change);
    recorder.resume_all(3, &schedule);
    recorder.ready();
    begin(recorder, kind, change);
    recorder.rows_all(&schedule);
    begin(recorder, kind, change);
    recorder.resume_all(3, &cycle(3, 7));
    recorder.resume(Lent { list: 14, ..Lent::tasks(3, 50) }, &cycle(3, 30));
}

fn begin(recorder: &mut Recorder, kind: u8, change: &[(usize, u64)]) {
    recorder.begin(&worked(kind, &[1, 2, 1]));
    for &(index, value) in change {
        recorder.set(index, value);
    }
}

/// A task at 13 after all have arrived, as the first turn and after some that stand.
fn arrivals(recorder: &mut Recorder, kind: u8, full: u64) {
    recorder.begin(&plain(kind, 3));
    recorder.resume_all(3, &[1, 1, 0]);
    for arrivals in [full, full.abs_diff(1)] {
        recorder.set(ARRIVALS, arrivals);
        recorder.ready();
        recorder.resume_all(3, &[2, 0, 1, 0]);
        recorder.rows_all(&[2, 0, 1, 2]);
        recorder.turn(1);
        recorder.resume_all(3, &[1]);
        recorder.rows_all(&[1, 0]);
        recorder.ready();
    }
}

/// 7 before 11, 11 before 13, 9 before them all; a task elsewhere is stopped by 13 alone.
fn order(recorder: &mut Recorder, kind: u8) {
    recorder.begin(&plain(kind, 3));
    let line = counting_line(kind).into();
    recorder.set(place(1, LINE), line);
    recorder.set(place(1, COUNT), MAX_COUNT.into());
    recorder.set(place(1, MOVES), MAX_TALLY.into());
    let before = recorder.list()[ARRIVALS];
    for full in [3, 0] {
        if matches!(kind, FETCH_AND_INCREMENT | CENTRALIZED) {
            recorder.set(ARRIVALS, full);
        }
        recorder.turn(1);
        recorder.turn(3);
        recorder.resume_all(3, &[1]);
        recorder.rows_all(&[1]);
        recorder.resume_all(3, &[1, 3]);
    }
    recorder.set(ARRIVALS, before);
    recorder.set(place(1, COUNT), u64::from(MAX_COUNT) - 1);
    recorder.turn(1);
    recorder.set(place(1, MOVES), u64::from(MAX_TALLY) - 1);
    recorder.turn(1);
    recorder.turn(1);
}

/// Nobody is ready, or a later task alone.
fn ready(recorder: &mut Recorder, kind: u8) {
    recorder.begin(&plain(kind, 3));
    for task in 0..3 {
        recorder.set(place(task, MOVES), MAX_TALLY.into());
        recorder.ready();
    }
    recorder.turn(0);
    recorder.set(place(2, MOVES), u64::from(MAX_TALLY) - 1);
    recorder.ready();
    recorder.turn(2);
    recorder.ready();
}
