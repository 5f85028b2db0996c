//! Shapes: all four of every N, tables around what is needed, and the reasons.

use super::LARGE;
use crate::calls::recorder::Recorder;

pub fn add(recorder: &mut Recorder) {
    for shape in 0..4 {
        for n in (1..=16).chain([31, 32, 33, 63, 64]) {
            recorder.shape(shape, n, n);
        }
        for n in [1, 2, 64] {
            for table in [0, n - 1, n + 1, n + 20] {
                recorder.shape(shape, n, table);
            }
        }
        for n in [0, 65, 320].into_iter().chain(LARGE) {
            recorder.shape(shape, n, 70);
            recorder.shape(shape, n, 0);
        }
    }
    for shape in [4, 5, 255, 259].into_iter().chain(LARGE) {
        recorder.shape(shape, 3, 3);
        recorder.shape(shape, 0, 0);
    }
    recorder.shape(1, 64, 4_096);
}
