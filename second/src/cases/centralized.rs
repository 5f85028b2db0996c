//! The centralized barrier: every line with all senses and arrivals of two tasks, whole rounds, and
//! pairs with the fetch-and-increment barrier. From fresh states of one N and one work table the
//! two answer alike, and their lines and counts are the same. The refusals, ranges, rounds, tallies
//! and work of the centralized barrier stand with the other kinds'.

use super::fields::{ARRIVALS, COUNT, LINE, MOVES, OWN_SENSE, SENSE, WAITS};
use super::values::any_task_count;
use crate::machine::{CENTRALIZED, FETCH_AND_INCREMENT, MAX_TALLY};
use crate::random::Random;
use crate::recorder::Recorder;
use crate::schedules::{self, cycle, each};
use crate::setup::Setup;
use crate::traces;
use crate::works::{self, unequal};

/// The kinds that answer alike.
const PAIR: [u8; 2] = [FETCH_AND_INCREMENT, CENTRALIZED];

/// The task counts of the pairs.
const COUNTS: [usize; 7] = [1, 2, 3, 5, 12, 63, 64];

pub fn cases(recorder: &mut Recorder) {
    for line in 11..=16 {
        every_state(recorder, line);
    }
    for n in 1..=3 {
        turn_by_turn(recorder, n);
    }
    edited_senses(recorder);
    nobody_ready(recorder);
    for n in COUNTS {
        whole_rounds(recorder, n, &[]);
        whole_rounds(recorder, n, &unequal(n));
    }
    pieces(recorder);
    allowances(recorder);
    refused(recorder);
    near_the_limits(recorder);
    traces_of_the_other(recorder);
}

// ---- the barrier alone ----

/// A task at the line with each number of arrivals and each pair of senses; then some turns more.
fn every_state(recorder: &mut Recorder, line: u64) {
    for arrivals in 0..=2 {
        for (shared, own) in [(0, 0), (0, 1), (1, 0), (1, 1)] {
            recorder.fresh_kind(CENTRALIZED, 2);
            recorder.set(LINE, 1, line);
            recorder.set(ARRIVALS, 0, arrivals);
            recorder.set(SENSE, 0, shared);
            recorder.set(OWN_SENSE, 1, own);
            recorder.ready();
            recorder.turn(2);
            recorder.turns(&[1]);
            recorder.run_all(&[1, 0, 1, 1, 0, 0]);
            recorder.ready();
        }
        recorder.show();
    }
}

/// Two rounds by single turns, all shown.
fn turn_by_turn(recorder: &mut Recorder, n: usize) {
    recorder.fresh_kind(CENTRALIZED, n);
    recorder.show();
    recorder.turns(&cycle(n, 11 * n));
}

/// Rounds of two tasks from each row of senses: 12 inverts the own sense, whatever the shared one
/// is, so that a task may go through 16 at once or stay there.
fn edited_senses(recorder: &mut Recorder) {
    for senses in 0..8 {
        for schedule in [cycle(2, 24), each([1, 0].into_iter(), 6).repeat(2)] {
            recorder.fresh_kind(CENTRALIZED, 2);
            recorder.set(SENSE, 0, senses & 1);
            recorder.set(OWN_SENSE, 0, senses >> 1 & 1);
            recorder.set(OWN_SENSE, 1, senses >> 2);
            recorder.run_all(&schedule);
            recorder.ready();
            recorder.show();
        }
    }
}

/// All wait at 16, until the own sense of one, or the shared one, is the other.
fn nobody_ready(recorder: &mut Recorder) {
    recorder.fresh_kind(CENTRALIZED, 3);
    for task in 0..3 {
        recorder.change(LINE, task, 16);
        recorder.change(OWN_SENSE, task, 0);
        recorder.ready();
    }
    for task in [2, 1] {
        recorder.with(OWN_SENSE, task, 1, Recorder::ready);
    }
    recorder.run_all(&cycle(3, 6));
    recorder.change(SENSE, 0, 0);
    recorder.ready();
    recorder.run_all(&cycle(3, 6));
    recorder.show();
}

// ---- pairs ----

/// The same requests of both kinds, from fresh states with the same work table.
fn pair(recorder: &mut Recorder, n: usize, works: &[u8], ask: impl Fn(&mut Recorder)) {
    for kind in PAIR {
        recorder.fresh_works(kind, n, works);
        ask(recorder);
    }
}

/// Rounds in which every task in its turn is the last to arrive: the tasks in their order, and one
/// after another from the last.
fn whole_rounds(recorder: &mut Recorder, n: usize, works: &[u8]) {
    pair(recorder, n, works, |recorder| {
        recorder.run_all(&cycle(n, 7 * n));
        recorder.ready();
        recorder.run_all(&each((0..n as u8).rev(), 5).repeat(2));
        recorder.turn(n as u64 - 1);
        recorder.show();
    });
}

/// Runs within rounds, with single turns in between.
fn pieces(recorder: &mut Recorder) {
    for works in [&[][..], &[3, 1, 2]] {
        pair(recorder, 3, works, |recorder| {
            for piece in [each(0..3, 4), each((0..3).rev(), 2)].concat().repeat(4).chunks(7) {
                recorder.run_all(piece);
                recorder.turn(piece[0].into());
                recorder.ready();
            }
            recorder.show();
        });
    }
}

/// A schedule in which task 1 is a round ahead, and then task 0, with each allowance.
fn allowances(recorder: &mut Recorder) {
    let schedule = traces::overtaking();
    for allowance in 0..=schedule.len() as u64 + 1 {
        pair(recorder, 2, &[], |recorder| {
            recorder.run(allowance, 2 * schedule.len() as u64 + 1, &schedule);
            recorder.ready();
        });
    }
}

/// Turns and runs that are refused, within a round.
fn refused(recorder: &mut Recorder) {
    pair(recorder, 3, &[], |recorder| {
        recorder.run_all(&cycle(3, 8));
        recorder.turn(3);
        recorder.run(3, 6, &[0, 1, 3]);
        recorder.run(3, 5, &[0, 1, 2]);
        recorder.run_all(&cycle(3, 8));
        recorder.show();
    });
}

/// Counts and tallies that are full after some turns: 11 and 13 stop both at the same turn.
fn near_the_limits(recorder: &mut Recorder) {
    let limit = u64::from(MAX_TALLY);
    for (field, task, value) in [
        (COUNT, 0, 999_999),
        (COUNT, 2, 999_998),
        (MOVES, 1, limit - 9),
        (MOVES, 0, limit - 14),
        (WAITS, 2, limit - 1),
        (WAITS, 0, limit),
    ] {
        pair(recorder, 3, &[], |recorder| {
            recorder.set(field, task, value);
            recorder.run_all(&each([2, 0, 1].into_iter(), 4).repeat(4));
            recorder.turn(task as u64);
            recorder.ready();
            recorder.show();
        });
    }
}

/// The traces of each of the two kinds, played as the other's: they agree as they are, and a
/// changed one differs at the same triple.
fn traces_of_the_other(recorder: &mut Recorder) {
    for named in traces::all().into_iter().chain(traces::worked()) {
        let Some(place) = PAIR.iter().position(|&kind| named.setup.kind == u64::from(kind)) else {
            continue;
        };
        let setup = Setup { kind: PAIR[1 - place].into(), ..named.setup.clone() };
        recorder.play(&setup, &named.trace);
        recorder.show();
        for changed in named.changes() {
            recorder.play(&setup, &changed.trace);
            recorder.ready();
        }
    }
}

/// Random runs and turns of both kinds.
pub fn any_pair(recorder: &mut Recorder, random: &mut Random) {
    let n = any_task_count(random);
    let works = works::any(random, n);
    let mut runs = Vec::new();
    for _ in 0..random.length(1, 3) {
        let length = random.length(1, 40 + 6 * n);
        runs.push(schedules::any(random, n, length));
    }
    pair(recorder, n, &works, |recorder| {
        for schedule in &runs {
            recorder.run_all(schedule);
            recorder.turn(schedule[0].into());
            recorder.ready();
        }
        recorder.show();
    });
}
