//! Rows: runs of every kind that close rounds and wait, of several in a session, and with lengths
//! around what is needed.

use super::setups::{any, plain, worked};
use crate::calls::list::{place, COUNT};
use crate::calls::recorder::{Lent, Recorder};
use crate::machine::{CENTRALIZED, KINDS, RING, SYMMETRIC, TREE};
use crate::random::Random;
use crate::schedules::{self, cycle, each};
use crate::setup::Setup;
use crate::works::unequal;

pub fn add(recorder: &mut Recorder, random: &mut Random) {
    for kind in KINDS {
        for n in [1, 2, 3, 5, 12, 64] {
            let setup = any(random, kind, n);
            recorder.begin(&setup);
            recorder.rows_all(&schedules::any(random, n, 40 + 8 * n));
        }
        session(recorder, &worked(kind, &unequal(3)));
        unequal_counts(recorder, kind);
    }
    for (kind, n) in [(SYMMETRIC, 1), (RING, 2), (TREE, 3), (CENTRALIZED, 64)] {
        around_what_is_needed(recorder, &plain(kind, n));
    }
    long(recorder);
}

/// Rounds in several calls: rows, a run, a turn and rows again.
fn session(recorder: &mut Recorder, setup: &Setup) {
    let n = setup.n as usize;
    recorder.begin(setup);
    recorder.rows_all(&each((0..n as u8).rev(), 5).repeat(3));
    recorder.resume_all(n, &cycle(n, 20));
    recorder.turn(0);
    let schedule = cycle(n, 90);
    recorder.rows(Lent { list: 400, ..Lent::rows(61) }, &schedule);
    recorder.rows_all(&schedule[61..]);
}

/// Counts a few apart, so that the task that rises isn't the only one to look at for the least.
fn unequal_counts(recorder: &mut Recorder, kind: u8) {
    recorder.begin(&plain(kind, 3));
    for (task, count) in [7, 5, 6].into_iter().enumerate() {
        recorder.set(place(task, COUNT), count);
    }
    recorder.rows_all(&cycle(3, 75));
}

/// Allowances, logs and rows of less, just enough and more.
fn around_what_is_needed(recorder: &mut Recorder, setup: &Setup) {
    recorder.begin(setup);
    let schedule = cycle(setup.n as usize, 4);
    for allowance in [0, 1, 3, 4, 5, 1 << 32, u64::MAX] {
        let exact = Lent { allowance, ..Lent::rows(allowance.min(4) as usize) };
        recorder.rows(exact, &schedule);
        recorder.rows(Lent { log: exact.log + 1, list: exact.list + 1, ..exact }, &schedule);
        if exact.log > 0 {
            recorder.rows(Lent { log: exact.log - 1, ..exact }, &schedule);
            recorder.rows(Lent { list: exact.list - 1, ..exact }, &schedule);
            recorder.rows(Lent { log: 0, list: 0, ..exact }, &schedule);
        }
    }
}

/// A few thousand rows, and 65,536 turns of which few are made.
fn long(recorder: &mut Recorder) {
    recorder.begin(&plain(RING, 2));
    recorder.rows_all(&cycle(2, 5_000));
    recorder.rows(Lent::rows(3), &cycle(2, 65_536));
    recorder.rows(Lent { log: 0, list: 0, ..Lent::rows(65_536) }, &cycle(2, 9));
}
