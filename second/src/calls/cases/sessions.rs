//! Sessions: a run from a fresh state, the same turns cut into several runs of the state in the
//! list, and the same in one.

use super::setups::{any, worked};
use crate::calls::recorder::{Lent, Recorder};
use crate::machine::KINDS;
use crate::random::Random;
use crate::schedules::{self, cycle};
use crate::setup::Setup;
use crate::works::unequal;

pub fn add(recorder: &mut Recorder, random: &mut Random) {
    for kind in KINDS {
        for n in [1, 2, 5, 12, 64] {
            let setup = any(random, kind, n);
            let schedule = schedules::any(random, n, 60 + 6 * n);
            session(recorder, &setup, &schedule);
        }
        session(recorder, &worked(kind, &unequal(4)), &cycle(4, 160));
    }
}

/// The schedule in one run from a fresh state, in parts, and in one run of the fresh state.
fn session(recorder: &mut Recorder, setup: &Setup, schedule: &[u8]) {
    let n = setup.n as usize;
    recorder.run(setup, Lent::tasks(n, schedule.len()), schedule);
    recorder.begin(setup);
    parts(recorder, n, schedule);
    recorder.begin(setup);
    recorder.resume_all(n, schedule);
}

/// A part by its allowance alone, one with more room than it needs, a single turn, none, the rest.
fn parts(recorder: &mut Recorder, n: usize, schedule: &[u8]) {
    let part = schedule.len() / 3;
    recorder.resume(Lent::tasks(n, part), schedule);
    let more = Lent::tasks(n, part + 1);
    recorder.resume(Lent { list: more.list + 2, ..more }, &schedule[part..2 * part]);
    recorder.turn(schedule[2 * part].into());
    recorder.resume(Lent::tasks(n, 0), &schedule[2 * part..]);
    recorder.resume_all(n, &schedule[2 * part + 1..]);
    recorder.ready();
}
