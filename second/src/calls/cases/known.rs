//! The scope's example and its cases for the table, as calls.

use super::setups::plain;
use crate::calls::list::LENGTH;
use crate::calls::recorder::{Lent, Recorder};
use crate::machine::{CENTRALIZED, FETCH_AND_INCREMENT, RING, SYMMETRIC, TREE};
use crate::setup::Setup;

/// The turns of the scope's example.
const EXAMPLE: [u8; 10] = [0, 0, 0, 0, 1, 1, 1, 1, 1, 0];

pub fn add(recorder: &mut Recorder) {
    before_the_first_state(recorder);
    example(recorder);
    single_turns(recorder);
    fresh_states(recorder);
    recorder.passes(2, 4, &[0, 0, 1, 0, 1, 1]);
    recorder.shape(2, 6, 6);
    recorder.shape(3, 6, 6);
    nothing_to_do(recorder);
}

/// The state list has no number yet.
fn before_the_first_state(recorder: &mut Recorder) {
    recorder.ready();
    recorder.turn(0);
    recorder.resume(Lent::tasks(1, 1), &[0]);
    recorder.rows(Lent::rows(1), &[0]);
}

/// The example as a run, as rows, as a trace, as a text and as a sheet, of both kinds that count
/// arrivals.
fn example(recorder: &mut Recorder) {
    for kind in [FETCH_AND_INCREMENT, CENTRALIZED] {
        let setup = plain(kind, 2);
        recorder.run(&setup, Lent::tasks(2, EXAMPLE.len()), &EXAMPLE);
        recorder.begin(&setup);
        recorder.resume_all(2, &EXAMPLE);
        recorder.begin(&setup);
        recorder.rows_all(&EXAMPLE);
        recorder.play(&setup, &setup.trace(&EXAMPLE));
        recorder.play_kept(&setup, &setup.trace(&EXAMPLE));
    }
    recorder.read(0, 10, b"1 2 0 0 0 0 0 1 1 1 1 1 0");
    recorder.sheet(b"1 2 0 0 0 0 0 1 1 1 1 1 0");
    recorder.sheet(b"1 2 0 0 0 0 1 2");
}

/// Five turns of a symmetric task, a wait and a whole round of a ring, a wait and a round of a tree.
fn single_turns(recorder: &mut Recorder) {
    for (kind, n, turns) in [
        (SYMMETRIC, 1, &[0_u8; 5][..]),
        (RING, 2, &[1, 1]),
        (RING, 2, &[0, 0, 0, 1, 1, 1, 0, 0, 1, 1]),
        (TREE, 2, &[0; 4]),
        (TREE, 1, &[0; 7]),
    ] {
        recorder.begin(&plain(kind, n));
        for &task in turns {
            recorder.turn(task.into());
        }
    }
}

/// R 2 and 3, N 0, 64 and 65, parents 0 1 and 0 0.
fn fresh_states(recorder: &mut Recorder) {
    for modulus in [2, 3] {
        recorder.fresh(&Setup { modulus, ..plain(SYMMETRIC, 1) }, LENGTH);
    }
    for n in [0, 65, 64] {
        recorder.fresh(&Setup { n, ..plain(RING, 1) }, LENGTH);
    }
    for parent in [1, 0] {
        recorder.fresh(&Setup { parents: vec![0, parent], ..plain(TREE, 2) }, LENGTH);
    }
}

/// An empty schedule, and an allowance of 0 with one turn to do.
fn nothing_to_do(recorder: &mut Recorder) {
    let setup = plain(RING, 2);
    recorder.run(&setup, Lent::tasks(2, 0), &[]);
    recorder.run(&setup, Lent::tasks(2, 0), &[0]);
    recorder.begin(&setup);
    recorder.resume(Lent::tasks(2, 0), &[]);
    recorder.resume(Lent::tasks(2, 0), &[0]);
    recorder.rows(Lent::rows(0), &[]);
    recorder.rows(Lent::rows(0), &[0]);
    recorder.passes(2, 0, &[]);
    recorder.first_pass(2, 0, &[]);
}
