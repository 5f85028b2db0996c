//! Limits: every kind and many an N, with and without work tables, and the reasons.

use super::LARGE;
use crate::calls::recorder::Recorder;
use crate::machine::KINDS;
use crate::random::Random;
use crate::works::{equal, unequal, up_to};

pub fn add(recorder: &mut Recorder, random: &mut Random) {
    for kind in KINDS {
        for n in (1..=20).chain([31, 32, 33, 63, 64]) {
            recorder.limit(kind.into(), n, &[]);
        }
        for n in [1, 2, 3, 12, 63, 64] {
            for works in [equal(1, n), equal(255, n), unequal(n), up_to(random, 255, n)] {
                recorder.limit(kind.into(), n as u64, &works);
            }
        }
        refused(recorder, kind.into());
    }
    for kind in [5, 6, 255, 260].into_iter().chain(LARGE) {
        recorder.limit(kind, 2, &[1, 1]);
        recorder.limit(kind, 0, &[0]);
    }
}

/// N around its ends, and tables of other lengths and with an entry of 0; 3 comes before 15.
fn refused(recorder: &mut Recorder, kind: u64) {
    for n in [0, 65, 320].into_iter().chain(LARGE) {
        recorder.limit(kind, n, &[]);
        recorder.limit(kind, n, &[0]);
    }
    recorder.limit(kind, 65, &equal(1, 65));
    for length in [1, 2, 4, 259] {
        recorder.limit(kind, 3, &equal(1, length));
    }
    for works in [[0, 1, 1], [1, 0, 255], [2, 1, 0]] {
        recorder.limit(kind, 3, &works);
    }
}
