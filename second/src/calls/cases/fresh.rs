//! Fresh states: every kind with tables of every manner, setups around every end, and setups with
//! several faults.

use super::setups::{any, around, faulty, plain, worked};
use crate::calls::list::LENGTH;
use crate::calls::recorder::Recorder;
use crate::machine::{KINDS, TREE};
use crate::parents::of_shape;
use crate::random::Random;
use crate::setup::Setup;
use crate::works::unequal;

pub fn add(recorder: &mut Recorder, random: &mut Random) {
    for kind in KINDS {
        for n in [1, 2, 12, 63, 64] {
            recorder.begin(&plain(kind, n));
            recorder.begin(&any(random, kind, n));
        }
        recorder.begin(&worked(kind, &unequal(12)));
    }
    for shape in 0..4 {
        recorder.begin(&Setup { parents: of_shape(shape, 13), ..plain(TREE, 13) });
    }
    around_the_ends(recorder);
    several_faults(recorder);
}

/// A refused one shows the whole list, so that most have a short one, which would be refused last.
fn around_the_ends(recorder: &mut Recorder) {
    for (number, setup) in around().iter().enumerate() {
        recorder.fresh(setup, number % 3);
    }
}

/// Every reason before every other, and before a list that is too short. Of each reason one call
/// has a list that is long enough.
fn several_faults(recorder: &mut Recorder) {
    for setup in faulty() {
        recorder.fresh(&setup, 2);
    }
    let all = faulty();
    for setup in all.iter().filter(|setup| setup.works == [0] && setup.parents.len() == 3) {
        recorder.fresh(setup, LENGTH);
    }
    if let Some(accepted) = all.last() {
        recorder.fresh(accepted, LENGTH - 1);
        recorder.fresh(accepted, LENGTH);
    }
}
