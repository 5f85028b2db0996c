//! Schedules, traces and texts as long as they may be, and longer: one call after another in its
//! turn, since each is a long line.

use crate::calls::recorder::{Lent, Recorder};
use crate::machine::RING;
use crate::refusal::MAX_TURNS;
use crate::schedules::cycle;
use crate::setup::Setup;

/// The turns that are made of a schedule which is taken.
const MADE: usize = 5;

pub fn add(recorder: &mut Recorder, setup: &Setup, number: usize) {
    let n = setup.n as usize;
    let schedule = cycle(n, MAX_TURNS + 1 + number % 3);
    for schedule in [&schedule[..MAX_TURNS], &schedule] {
        match number % 8 {
            0 => recorder.run(setup, Lent::tasks(n, MADE), schedule),
            1 => with_a_state(recorder, setup, |recorder| {
                recorder.resume(Lent::tasks(n, MADE), schedule);
            }),
            2 => with_a_state(recorder, setup, |recorder| {
                recorder.rows(Lent::rows(MADE), schedule);
            }),
            3 => recorder.passes(setup.n, 2, schedule),
            4 => recorder.first_pass(setup.n, (schedule.len() - 2 * n) as u64, schedule),
            // A trace and a text may have as many bytes as a schedule has turns.
            5 => recorder.play(setup, schedule),
            // A refused one shows the whole list.
            6 => recorder.play_state(setup, 2, schedule),
            _ => recorder.read(0, 1, &text(schedule.len())),
        }
    }
}

fn with_a_state(recorder: &mut Recorder, setup: &Setup, ask: impl FnOnce(&mut Recorder)) {
    recorder.begin(setup);
    ask(recorder);
}

/// A text of a single turn and of so many bytes, most of them spaces.
fn text(length: usize) -> Vec<u8> {
    let mut text = format!("{RING} 1 0").into_bytes();
    text.resize(length - 1, b' ');
    text.push(b'0');
    text
}
