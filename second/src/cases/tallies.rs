//! Tallies: what they count over turns and runs, and 13 where one is full, at single turns, by
//! ready and within runs. Their ranges stand with the others.

use super::fields::{AIM, ARRIVALS, COUNT, FLAG, LINE, MOVES, OWN_SENSE, TAG, TOGGLE, WAITS};
use super::rounds::closing_turns;
use super::values::TASK_COUNTS;
use crate::machine::{counting_line, turn, State, MAX_COUNT, MAX_TALLY};
use crate::machine::{CENTRALIZED, FETCH_AND_INCREMENT, KINDS, RING, SYMMETRIC};
use crate::recorder::Recorder;
use crate::schedules::{cycle, each, repeat};

/// The highest tally.
const FULL: u64 = MAX_TALLY as u64;

/// Tallies of moves and of waits, at the limit and one below it.
const PAIRS: [[u64; 2]; 4] = [[FULL - 1; 2], [FULL - 1, FULL], [FULL, FULL - 1], [FULL; 2]];

pub fn cases(recorder: &mut Recorder) {
    for kind in KINDS {
        sessions(recorder, kind);
        refused_turns(recorder, kind);
        refused_runs(recorder, kind);
        fresh_again(recorder, kind);
        every_line(recorder, kind);
        full_counts(recorder, kind);
        skipped_by_ready(recorder, kind);
        only_one_can_move(recorder, kind);
        stopped_at_a_move(recorder, kind);
        stopped_at_a_wait(recorder, kind);
        full_at_a_closing_turn(recorder, kind);
        every_task_count(recorder, kind);
    }
    full_arrivals(recorder, FETCH_AND_INCREMENT, [2, 3, 4]);
    full_arrivals(recorder, CENTRALIZED, [1, 0, 4]);
}

// ---- what they count ----

/// Runs one after another with single turns in between.
fn sessions(recorder: &mut Recorder, kind: u8) {
    recorder.fresh_kind(kind, 3);
    for task in [0, 1, 2, 1] {
        recorder.run_all(&cycle(3, 20));
        recorder.show();
        recorder.turns(&[2, 2, task]);
        recorder.run(9, 18, &each((0..3).rev(), 5));
        recorder.ready();
        recorder.show();
    }
}

/// Turns that are refused 7, 9 or 11 leave the tallies alone.
fn refused_turns(recorder: &mut Recorder, kind: u8) {
    recorder.fresh_kind(kind, 3);
    recorder.run_all(&cycle(3, 12));
    for task in [3, 4, 255, u64::MAX] {
        recorder.turn(task);
    }
    recorder.with(COUNT, 2, 1_000_001, |recorder| {
        recorder.turn(0);
        recorder.turn(2);
    });
    recorder.show();
    recorder.set(LINE, 1, counting_line(kind).into());
    recorder.set(COUNT, 1, MAX_COUNT.into());
    recorder.turns(&[1, 1]);
    recorder.run_all(&[1]);
    recorder.run_all(&[0, 1, 2]);
    recorder.show();
}

/// Runs that are refused as a whole leave the tallies alone.
fn refused_runs(recorder: &mut Recorder, kind: u8) {
    recorder.fresh_kind(kind, 3);
    recorder.run_all(&cycle(3, 12));
    recorder.run(3, 5, &[0, 1, 2]);
    recorder.run(3, 6, &[0, 1, 3]);
    recorder.run(1, 2, &[0, 1, 3]);
    for tally in [MOVES, WAITS] {
        recorder.with(tally, 1, FULL + 1, |recorder| recorder.run_all(&[0, 1, 2]));
    }
    recorder.run(0, 0, &[0, 1, 2]);
    recorder.show();
}

/// A fresh state begins at 0; one that is refused is all zeros.
fn fresh_again(recorder: &mut Recorder, kind: u8) {
    three(recorder, kind, [FULL - 9, FULL - 5]);
    recorder.run_all(&cycle(3, 12));
    recorder.show();
    recorder.fresh_kind(kind, 3);
    recorder.show();
    three(recorder, kind, [7, 9]);
    recorder.fresh_kind(kind, 65);
    recorder.show();
}

/// A fresh state of three tasks, all with these tallies.
fn three(recorder: &mut Recorder, kind: u8, tallies: [u64; 2]) {
    recorder.fresh_kind(kind, 3);
    for task in 0..3 {
        set_tallies(recorder, task, tallies);
    }
}

/// Sets both tallies of a task.
fn set_tallies(recorder: &mut Recorder, task: usize, [moves, waits]: [u64; 2]) {
    recorder.set(MOVES, task, moves);
    recorder.set(WAITS, task, waits);
}

// ---- single turns and ready ----

/// Every line with each pair of tallies. Where it is an await, the task moves with one value of the
/// signal and waits with the other.
fn every_line(recorder: &mut Recorder, kind: u8) {
    let (last, signal) = match kind {
        SYMMETRIC => (14, TAG),
        FETCH_AND_INCREMENT => (16, AIM),
        RING => (15, TOGGLE),
        CENTRALIZED => (16, OWN_SENSE),
        _ => (18, FLAG),
    };
    for line in 11..=last {
        for tallies in PAIRS {
            turns_of_two(recorder, kind, tallies, &[(LINE, line), (signal, 0)]);
            turns_of_two(recorder, kind, tallies, &[(LINE, line), (signal, 1)]);
        }
    }
}

/// Two turns of each of two tasks that have these tallies and fields.
fn turns_of_two(recorder: &mut Recorder, kind: u8, tallies: [u64; 2], fields: &[(u64, u64)]) {
    recorder.fresh_kind(kind, 2);
    for task in 0..2 {
        set_tallies(recorder, task, tallies);
        for &(field, value) in fields {
            recorder.set(field, task, value);
        }
    }
    recorder.ready();
    for task in [0, 0, 1, 1] {
        recorder.turn(task);
    }
    recorder.show();
}

/// Task 1 stands at the counting line: with a full count it is refused 11 whatever the tallies, and
/// 13 follows. 9 comes before both.
fn full_counts(recorder: &mut Recorder, kind: u8) {
    for count in [MAX_COUNT - 1, MAX_COUNT] {
        for tallies in PAIRS {
            three(recorder, kind, tallies);
            recorder.set(LINE, 1, counting_line(kind).into());
            recorder.set(COUNT, 1, count.into());
            refusals_of_task_1(recorder);
        }
    }
}

/// Task 1 stands at 13 of kind 1 or 4, with an arrival still to come, with all there, and with
/// more than there can be: the last two are refused 7, whatever its count and tallies.
fn full_arrivals(recorder: &mut Recorder, kind: u8, others: [u64; 3]) {
    for arrivals in others {
        for count in [MAX_COUNT - 1, MAX_COUNT] {
            for tallies in PAIRS {
                three(recorder, kind, tallies);
                recorder.set(LINE, 1, 13);
                recorder.set(COUNT, 1, count.into());
                recorder.set(ARRIVALS, 0, arrivals);
                refusals_of_task_1(recorder);
            }
        }
    }
}

/// Asks with task 1, and with one that isn't there.
fn refusals_of_task_1(recorder: &mut Recorder) {
    recorder.turn(3);
    recorder.ready();
    recorder.run(2, 6, &[1, 1, 0]);
    recorder.turn(1);
    recorder.show();
}

/// Ready goes by full tallies of moves until nobody is left, and doesn't mind those of waits.
fn skipped_by_ready(recorder: &mut Recorder, kind: u8) {
    recorder.fresh_kind(kind, 3);
    for tally in [WAITS, MOVES] {
        for task in [1, 0, 2] {
            recorder.set(tally, task, FULL);
            recorder.ready();
            recorder.turn(task as u64);
            recorder.set(LINE, task, 11);
        }
    }
    recorder.set(MOVES, 1, FULL - 1);
    recorder.ready();
    recorder.turn(1);
    recorder.ready();
    recorder.show();
    skipped_of_64(recorder, kind);
}

/// Tasks 1 and 2 wait, so that task 0 alone decides whether somebody is ready.
fn only_one_can_move(recorder: &mut Recorder, kind: u8) {
    recorder.fresh_kind(kind, 3);
    recorder.run_all(&each(1..3, 5));
    for tallies in PAIRS {
        set_tallies(recorder, 0, tallies);
        set_tallies(recorder, 1, tallies);
        recorder.ready();
        recorder.turn(1);
        recorder.run_all(&[2, 0, 2]);
        recorder.ready();
        recorder.show();
        recorder.set(LINE, 0, 11);
    }
}

/// Of 64 tasks nobody but the last is ready, and then nobody.
fn skipped_of_64(recorder: &mut Recorder, kind: u8) {
    recorder.fresh_kind(kind, 64);
    for task in 0..63 {
        recorder.set(MOVES, task, FULL);
    }
    recorder.ready();
    recorder.turn(63);
    recorder.set(MOVES, 63, FULL);
    recorder.ready();
    recorder.show();
}

// ---- runs ----

/// A task moves a few times more, then 13 ends the run, in its first round or later.
fn stopped_at_a_move(recorder: &mut Recorder, kind: u8) {
    for (task, left) in [(0, 0), (1, 1), (2, 3), (0, 11), (1, 20)] {
        let schedule = cycle(3, 6 * left as usize + 12);
        stopped(recorder, &schedule, |recorder| {
            recorder.fresh_kind(kind, 3);
            set_tallies(recorder, task, [FULL - left, FULL - 40]);
        });
    }
}

/// Task 1 waits a few times more, then 13 ends the run. Its turns stand among those of task 2, which
/// waits too in the end.
fn stopped_at_a_wait(recorder: &mut Recorder, kind: u8) {
    for left in [0, 1, 3] {
        for schedule in [repeat(1, 14), [[1, 2]; 12].concat()] {
            stopped(recorder, &schedule, |recorder| {
                recorder.fresh_kind(kind, 3);
                set_tallies(recorder, 1, [FULL - 40, FULL - left]);
            });
        }
    }
}

/// Runs of a schedule that 13 stops: the whole, with an allowance up to the refused turn and past
/// it, and more turns after it.
fn stopped(recorder: &mut Recorder, schedule: &[u8], begin: impl Fn(&mut Recorder)) {
    begin(recorder);
    let place = first_refused(*recorder.state(), schedule) as u64;
    let log = 2 * schedule.len() as u64;
    for allowance in [place, place + 1, u64::MAX] {
        begin(recorder);
        recorder.run(allowance, log, schedule);
        recorder.show();
    }
    recorder.turn(schedule[place as usize].into());
    recorder.run_all(&schedule[place as usize..]);
    recorder.ready();
    recorder.run_all(&cycle(3, 9));
    recorder.show();
}

/// The place of the first turn that is refused; the schedule's length if there is none.
fn first_refused(mut state: State, schedule: &[u8]) -> usize {
    let mut turns = schedule.iter();
    turns.position(|&task| turn(&mut state, task.into()).is_err()).unwrap_or(schedule.len())
}

/// The turn that would close a round is refused, alone and in a run; then it closes it.
fn full_at_a_closing_turn(recorder: &mut Recorder, kind: u8) {
    let schedule = cycle(3, 60);
    recorder.fresh_kind(kind, 3);
    let closing = closing_turns(*recorder.state(), &schedule);
    let (made, rest) = schedule.split_at(closing[0]);
    let task = rest[0];
    recorder.run_all(made);
    recorder.set(MOVES, task.into(), FULL);
    recorder.turn(task.into());
    recorder.run(3, 8, rest);
    recorder.show();
    recorder.set(MOVES, task.into(), FULL - 1);
    recorder.run(3, 8, rest);
    recorder.show();
}

/// The last of each number of tasks moves once more, in a run and alone.
fn every_task_count(recorder: &mut Recorder, kind: u8) {
    for n in 1..=64 {
        recorder.fresh_kind(kind, n);
        recorder.set(MOVES, n - 1, FULL - 1);
        recorder.run_all(&each((0..n as u8).rev(), 1));
        recorder.turn(n as u64 - 1);
        recorder.run(2, 4, &[0, n as u8 - 1]);
        if TASK_COUNTS.contains(&n) {
            recorder.show();
        }
    }
}
