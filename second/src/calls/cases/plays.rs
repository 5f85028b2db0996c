//! Play-backs: the named traces and some with a byte changed, setups around every end, and lengths
//! of traces around theirs.

use super::setups::{around, faulty, plain, worked};
use crate::calls::recorder::Recorder;
use crate::machine::{FETCH_AND_INCREMENT, RING};
use crate::schedules::repeat;
use crate::traces;

pub fn add(recorder: &mut Recorder) {
    for named in traces::all().iter().chain(&traces::worked()) {
        recorder.play(&named.setup, &named.trace);
        for changed in named.changes().iter().step_by(3) {
            recorder.play(&named.setup, &changed.trace);
        }
    }
    for setup in around().iter().filter(|setup| setup.kind > 0 || !setup.starts.is_empty()) {
        recorder.play(setup, &[0, 11, 1]);
    }
    for setup in faulty() {
        recorder.play(&setup, &[0, 11]);
    }
    lengths(recorder);
    order(recorder);
}

/// Lengths that are multiples of three and others, and the longest.
fn lengths(recorder: &mut Recorder) {
    let setup = plain(RING, 1);
    let mut trace = setup.trace(&repeat(0, 21_845));
    for length in [0, 1, 2, 3, 4, 5, 6, 65_535] {
        recorder.play(&setup, &trace[..length]);
    }
    trace[65_534] = 0;
    recorder.play(&setup, &trace);
    for length in [65_536, 65_537, 65_538] {
        recorder.play(&setup, &repeat(0, length));
    }
}

/// The setup's reasons before 8 and 14; 8 before 14; both before any triple is looked at.
fn order(recorder: &mut Recorder) {
    recorder.play(&worked(FETCH_AND_INCREMENT, &[0]), &repeat(9, 65_537));
    recorder.play(&worked(FETCH_AND_INCREMENT, &[0]), &[9]);
    recorder.play(&plain(FETCH_AND_INCREMENT, 1), &[9, 9, 9, 9]);
    recorder.play(&plain(FETCH_AND_INCREMENT, 1), &[9, 9, 9]);
}
