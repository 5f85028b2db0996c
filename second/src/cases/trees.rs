//! Every tree shape for every N, each as a fresh tree's table, and runs of some of them.

use super::values::TASK_COUNTS;
use crate::machine::TREE;
use crate::parents;
use crate::recorder::Recorder;
use crate::schedules::{cycle, each};

pub fn cases(recorder: &mut Recorder) {
    for number in 0..=3 {
        for n in 1..=64 {
            table(recorder, number, n);
        }
    }
}

/// A shape's table, and the fresh tree with this table.
fn table(recorder: &mut Recorder, number: u64, n: usize) {
    recorder.shape(number, n as u64, n as u64 + 2);
    recorder.fresh(TREE.into(), n as u64, 0, &parents::of_shape(number, n));
    recorder.ready();
    if TASK_COUNTS.contains(&n) {
        recorder.run_all(&each((0..n as u8).rev(), 6));
        recorder.show();
        recorder.run_all(&cycle(n, 2 * n));
        recorder.show();
    }
}
