//! Random damage: fields changed to values in and near their ranges, whole random states in
//! range, counts that are spread or near their limit, tallies near theirs, and work near its end.

use super::fields::{ARRIVALS, COUNT, FLAG, LEFT, LINE, MOVES, OWN_SENSE, TOGGLE, WAITS, WORK};
use super::fresh::accepted_fresh;
use super::steps::{any_run, turn_of_ready, turn_of_someone};
use super::values::{TALLIES, TASK_COUNTS};
use crate::machine::{counting_line, in_range, State, MAX_COUNT, MAX_TALLY};
use crate::machine::{CENTRALIZED, FETCH_AND_INCREMENT, KINDS, RING, SYMMETRIC, TREE};
use crate::random::Random;
use crate::recorder::Recorder;
use crate::requests::{field_value, TASK_FIELDS};

/// Counts around the limit and elsewhere.
const COUNTS: [u64; 8] = [0, 1, 2, 3, 999_998, 999_999, 1_000_000, 1_000_001];

// ---- one field ----

/// Changes one field to a value in or near its range, and leaves it so.
pub fn damage(recorder: &mut Recorder, random: &mut Random) {
    let (field, task, value) = any_change(recorder, random);
    recorder.change(field, task, value);
}

/// Changes one field; asks, and most often changes it back if it went out of range.
pub fn damage_for_a_while(recorder: &mut Recorder, random: &mut Random) {
    let (field, task, value) = any_change(recorder, random);
    let before = field_value(recorder.state(), field, task as usize);
    recorder.change(field, task, value);
    if in_range(recorder.state()) {
        return;
    }
    recorder.ready();
    turn_of_someone(recorder, random);
    if random.once_in(3) {
        any_run(recorder, random, 6);
    }
    if !random.once_in(8) {
        recorder.change(field, task, before);
    }
}

/// Changes many a field of a fresh state to a small value, asking whether it is in range; each one
/// is changed back.
pub fn small_values(recorder: &mut Recorder, random: &mut Random) {
    let (kind, n) = (random.pick(&KINDS), random.length(1, 4));
    accepted_fresh(recorder, random, kind, n);
    for _ in 0..30 {
        let field = random.below(21);
        let task = if matches!(field, 9..=13) { 0 } else { random.length(0, n) };
        recorder.with(field, task, random.below(6), Recorder::ready);
    }
}

/// A field, a task and a value.
fn any_change(recorder: &Recorder, random: &mut Random) -> (u64, u64, u64) {
    let state = recorder.state();
    let n = recorder.n().clamp(1, 64);
    let field = random.below(21);
    let task = match field {
        9..=13 => 0,
        _ if random.once_in(5) => random.length(0, 63),
        _ => random.length(0, n - 1),
    };
    let value = if random.once_in(2) {
        value_in_range(state, random, field, task)
    } else {
        value_near_range(state, random, field, task)
    };
    (field, task as u64, value)
}

/// A value at or just beyond an end of a field's range.
fn value_near_range(state: &State, random: &mut Random, field: u64, task: usize) -> u64 {
    let (n, modulus) = (u64::from(state.n), u64::from(state.modulus));
    let other = |field| field_value(state, field, task);
    match field {
        0 => random.length(10, 19) as u64,
        1 => random.pick(&COUNTS),
        2 | 3 => random.pick(&[0, 1, modulus.saturating_sub(1), modulus, modulus + 1]),
        4 => 1 << random.below(n.min(62) + 2),
        5 | 15 => random.pick(&[0, 1, n.saturating_sub(1), n, n + 1]),
        6..=8 | 13 | OWN_SENSE => random.below(3),
        9 => random.below(6),
        10 => random.pick(&[0, 1, n.saturating_sub(1), n, n + 1, 64, 65]),
        11 => random.pick(&[0, 1, 2, 3, 4, 254, 255, 256]),
        12 => random.pick(&[0, 1, n.saturating_sub(1), n, n + 1]),
        MOVES | WAITS => random.pick(&TALLIES),
        WORK => random.pick(&[0, 1, other(LEFT).saturating_sub(1), other(LEFT), 255, 256]),
        LEFT => random.pick(&[0, 1, 2, other(WORK), other(WORK) + 1, 255, 256]),
        _ => random.pick(&[0, 1, 2, n, 63, 64, 255, 256]),
    }
}

/// A value in a field's range, where the rest of the state is in range.
fn value_in_range(state: &State, random: &mut Random, field: u64, task: usize) -> u64 {
    let (kind, n) = (state.kind, u64::from(state.n).max(1));
    match (field, kind) {
        (0, SYMMETRIC) => 11 + random.below(4),
        (0, FETCH_AND_INCREMENT | CENTRALIZED) => 11 + random.below(6),
        (0, RING) => 11 + random.below(5),
        (0, _) => 11 + random.below(8),
        (1, _) => random.pick(&COUNTS).min(MAX_COUNT.into()),
        (MOVES | WAITS, _) => random.pick(&TALLIES).min(MAX_TALLY.into()),
        (WORK, _) => (field_value(state, LEFT, task) + random.pick(&[0, 1, 2, 255])).clamp(1, 255),
        (LEFT, _) => 1 + random.below(field_value(state, WORK, task).max(1)),
        (2 | 3, SYMMETRIC) => random.below(u64::from(state.modulus).max(1)),
        (4, SYMMETRIC) => random.next() & random.next() & (u64::MAX >> (64 - n.min(64))),
        (4, TREE) => random.next() & children(state, task),
        (5, SYMMETRIC | TREE) | (15, SYMMETRIC) => random.below(n),
        (6, FETCH_AND_INCREMENT) | (7, RING) | (8, TREE) => random.below(2),
        (12, FETCH_AND_INCREMENT | CENTRALIZED) => random.below(n + 1),
        (13, FETCH_AND_INCREMENT | CENTRALIZED) | (OWN_SENSE, CENTRALIZED) => random.below(2),
        (14, TREE) if task > 0 && task < n as usize => random.below(task as u64),
        _ => field_value(state, field, task),
    }
}

/// The list of the tasks below N whose entry names the task.
fn children(state: &State, task: usize) -> u64 {
    let n = usize::from(state.n).min(64);
    let tasks = (1..n).filter(|&child| usize::from(state.parents[child]) == task);
    tasks.fold(0, |list, child| list | 1 << child)
}

// ---- whole states ----

/// A fresh state of any kind, most often of a few tasks. Gives their number.
fn small_fresh(recorder: &mut Recorder, random: &mut Random) -> usize {
    let kind = random.pick(&KINDS);
    let n = if random.once_in(10) { random.pick(&TASK_COUNTS) } else { random.length(1, 4) };
    accepted_fresh(recorder, random, kind, n);
    n
}

/// A random state in range, then every task's turn and some runs. Most often its counts and its
/// tallies are those of a fresh state, as they refuse too many turns near their limits.
pub fn state_in_range(recorder: &mut Recorder, random: &mut Random) {
    let n = small_fresh(recorder, random);
    let (counts, tallies) = (random.once_in(4), random.once_in(6));
    for task in 0..n {
        for field in TASK_FIELDS {
            let changes = match field {
                COUNT => counts,
                MOVES | WAITS => tallies,
                _ => true,
            };
            if changes {
                any_value(recorder, random, field, task);
            }
        }
    }
    any_value(recorder, random, 12, 0);
    any_value(recorder, random, 13, 0);
    recorder.show();
    recorder.ready();
    for task in 0..n.min(6) {
        recorder.turn(task as u64);
    }
    recorder.show();
    any_run(recorder, random, 60);
    recorder.show();
}

/// Sets a field to a random value in its range.
fn any_value(recorder: &mut Recorder, random: &mut Random, field: u64, task: usize) {
    let value = value_in_range(recorder.state(), random, field, task);
    recorder.set(field, task, value);
}

/// Counts a few apart, some of which are about to rise, so that rounds close at other turns than in
/// reached states.
pub fn spread_counts(recorder: &mut Recorder, random: &mut Random) {
    let n = small_fresh(recorder, random);
    let line = counting_line(recorder.state().kind).into();
    let lowest = random.below(u64::from(MAX_COUNT) - 5);
    for task in 0..n {
        recorder.set(COUNT, task, lowest + random.below(4));
        if random.once_in(3) {
            recorder.set(LINE, task, line);
        }
    }
    for _ in 0..3 {
        any_run(recorder, random, 60 + 4 * n);
        for _ in 0..random.length(0, 4) {
            turn_of_someone(recorder, random);
        }
        recorder.set(LINE, random.length(0, n - 1), line);
    }
    recorder.show();
}

/// Counts at and just below the limit.
pub fn near_the_limit(recorder: &mut Recorder, random: &mut Random) {
    let kind = random.pick(&KINDS);
    let n = random.length(1, 4);
    accepted_fresh(recorder, random, kind, n);
    for task in 0..n {
        let count = random.pick(&[999_998, 999_999, 999_999, 1_000_000]);
        recorder.set(COUNT, task, count);
    }
    for _ in 0..3 {
        any_run(recorder, random, 60);
        turn_of_ready(recorder);
        turn_of_someone(recorder, random);
    }
    recorder.show();
}

/// Tallies at and just below their limit, of tasks that move, that wait, or that 11 refuses too.
pub fn near_full_tallies(recorder: &mut Recorder, random: &mut Random) {
    let n = small_fresh(recorder, random);
    for _ in 0..random.length(1, 3) {
        any_run(recorder, random, 60);
        for task in 0..n {
            nearly_full(recorder, random, task);
        }
        turn_of_ready(recorder);
        for _ in 0..random.length(1, 5) {
            turn_of_someone(recorder, random);
        }
        recorder.show();
        any_run(recorder, random, 60);
        turn_of_ready(recorder);
    }
    recorder.show();
}

/// Fills the task's tallies, or one of them, but for a few turns. Now and then puts the task to
/// another line, with its count at the limit and any number of arrivals too.
fn nearly_full(recorder: &mut Recorder, random: &mut Random, task: usize) {
    for tally in [MOVES, WAITS] {
        if random.once_in(2) {
            let turns = random.pick(&[0, 0, 1, 2, 6, 20]);
            recorder.set(tally, task, u64::from(MAX_TALLY) - turns);
        }
    }
    if random.once_in(3) {
        for field in [LINE, TOGGLE, FLAG, OWN_SENSE] {
            any_value(recorder, random, field, task);
        }
    } else if random.once_in(4) {
        let line = counting_line(recorder.state().kind);
        recorder.set(LINE, task, line.into());
        recorder.set(COUNT, task, MAX_COUNT.into());
        any_value(recorder, random, ARRIVALS, 0);
    }
}

/// Work of which few moves are left, of tasks at 11 and elsewhere; for a while none, or too many.
pub fn near_the_end_of_work(recorder: &mut Recorder, random: &mut Random) {
    let kind = random.pick(&KINDS);
    let n = random.length(1, 4);
    let works: Vec<u8> = (0..n).map(|_| random.pick(&[1, 2, 3, 9, 254, 255])).collect();
    recorder.fresh_works(kind, n, &works);
    for _ in 0..3 {
        for (task, &work) in works.iter().enumerate() {
            if random.once_in(2) {
                recorder.set(LEFT, task, (1 + random.below(4)).min(work.into()));
            }
        }
        let task = random.length(0, n - 1);
        let left = if works[task] < 255 { random.pick(&[0, works[task] + 1]) } else { 0 };
        recorder.with(LEFT, task, left.into(), |recorder| {
            recorder.ready();
            recorder.turn(task as u64);
        });
        any_run(recorder, random, 60);
        turn_of_ready(recorder);
        turn_of_someone(recorder, random);
        recorder.show();
    }
}
