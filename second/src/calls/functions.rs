//! The exported functions. Each is lent what it writes to, and a refused one writes to nothing but
//! its own answer.

use super::answer::Answer;
use super::limit;
use super::list::{check_length, state_of, write_state};
use crate::machine::{self, check_run, least_count, Ending, Outcome, State};
use crate::passes;
use crate::playback::{self, Verdict};
use crate::refusal::Refusal;
use crate::setup::Setup;
use crate::shapes;

/// The numbers that the tasks list of a run gets for each task, and the rows for each turn.
pub const NUMBERS_OF_A_TASK: usize = 4;
pub const NUMBERS_OF_A_ROW: usize = 6;

/// The bytes of a page, which a sheet always fits.
pub const PAGE: usize = 2_048;

/// The schedule of a run, and the most turns of it that are made.
#[derive(Clone, Copy)]
pub struct Turns<'a> {
    pub schedule: &'a [u8],
    pub allowance: u64,
}

// ---- states ----

/// 1: writes a fresh state to the state list, whose length is looked at last.
pub fn fresh(setup: &Setup, list: &mut [u64], answer: &mut Answer<0>) {
    let state = fresh_state(setup).and_then(|state| check_length(list).map(|()| state));
    if let Ok(state) = &state {
        write_state(state, list);
    }
    answer.give(state.map(|_| []));
}

/// 4: a turn of the state in the list. Answers whether it moved and whether it closed a round.
pub fn turn(list: &mut [u64], task: u64, answer: &mut Answer<2>) {
    let made = state_of(list).and_then(|mut state| {
        let outcome = machine::turn(&mut state, task)?;
        write_state(&state, list);
        Ok(outcome)
    });
    answer.give(made.map(|outcome| {
        let closed = outcome == Outcome::Moved { closed: true };
        [u64::from(outcome != Outcome::Waited), u64::from(closed)]
    }));
}

/// 5: the least task that can move, or 64.
pub fn ready(list: &[u64], answer: &mut Answer<1>) {
    let ready = state_of(list).and_then(|state| machine::ready(&state));
    answer.give(ready.map(|task| [task.unwrap_or(64) as u64]));
}

/// A fresh state of its own.
fn fresh_state(setup: &Setup) -> Result<State, Refusal> {
    let mut state = State::ZERO;
    machine::fresh(&mut state, setup.kind, setup.n, setup.modulus, setup.tables())?;
    Ok(state)
}

// ---- runs ----

/// The place of the place among a run's numbers: turns, place, rounds.
const PLACE_OF_A_RUN: usize = 1;

/// 2: a run from a fresh state.
pub fn run(setup: &Setup, turns: Turns, log: &mut [u8], tasks: &mut [u32], answer: &mut Answer<3>) {
    match fresh_state(setup) {
        Ok(mut state) => run_state(&mut state, turns, log, tasks, answer),
        Err(refusal) => answer.refuse(refusal),
    }
}

/// 3: a run from the state in the list, to which the state after it is written.
pub fn resume(
    list: &mut [u64],
    turns: Turns,
    log: &mut [u8],
    tasks: &mut [u32],
    answer: &mut Answer<3>,
) {
    match state_of(list) {
        Ok(mut state) => {
            run_state(&mut state, turns, log, tasks, answer);
            write_state(&state, list);
        }
        Err(refusal) => answer.refuse(refusal),
    }
}

/// A run that also tells of each task its line and count, and its moves and waits in this run.
fn run_state(
    state: &mut State,
    turns: Turns,
    log: &mut [u8],
    tasks: &mut [u32],
    answer: &mut Answer<3>,
) {
    let n = usize::from(state.n);
    let checked = check_run(state, turns.schedule, turns.allowance, log)
        .and_then(|_| check_room(tasks, NUMBERS_OF_A_TASK * n));
    if let Err(refusal) = checked {
        return answer.refuse_at(refusal, PLACE_OF_A_RUN);
    }
    let report = machine::run(state, turns.schedule, turns.allowance, log);
    for (number, entry) in tasks.chunks_exact_mut(NUMBERS_OF_A_TASK).take(n).enumerate() {
        let task = &state.tasks[number];
        let (moves, waits) = (report.moves[number], report.waits[number]);
        entry.copy_from_slice(&[task.line.into(), task.count, moves, waits]);
    }
    let numbers = [report.turns as u64, 0, report.rounds as u64];
    match report.ending {
        Ending::Stopped(refusal) => answer.stop(refusal, numbers),
        _ => answer.accept(numbers),
    }
}

/// 10: a run from the state in the list that tells of every turn.
pub fn rows(
    list: &mut [u64],
    turns: Turns,
    log: &mut [u8],
    rows: &mut [u32],
    answer: &mut Answer<3>,
) {
    let checked = state_of(list).and_then(|state| {
        let limit = check_run(&state, turns.schedule, turns.allowance, log)?;
        check_room(rows, NUMBERS_OF_A_ROW * limit)?;
        Ok((state, limit))
    });
    match checked {
        Ok((mut state, limit)) => {
            run_rows(&mut state, &turns.schedule[..limit], log, rows, answer);
            write_state(&state, list);
        }
        Err(refusal) => answer.refuse_at(refusal, PLACE_OF_A_RUN),
    }
}

/// Makes single turns until one is refused, and writes the log and a row of each.
fn run_rows(
    state: &mut State,
    schedule: &[u8],
    log: &mut [u8],
    rows: &mut [u32],
    answer: &mut Answer<3>,
) {
    let mut rounds = 0;
    for (turn, &named) in schedule.iter().enumerate() {
        let task = usize::from(named);
        let line = state.tasks[task].line;
        let outcome = match machine::step(state, task) {
            Ok(outcome) => outcome,
            Err(refusal) => return answer.stop(refusal, [turn as u64, 0, rounds]),
        };
        let moved = u8::from(outcome != Outcome::Waited);
        let closed = u8::from(outcome == Outcome::Moved { closed: true });
        rounds += u64::from(closed);
        log[2 * turn..][..2].copy_from_slice(&[line, moved]);
        let (count, least) = (state.tasks[task].count, least_count(state));
        rows[NUMBERS_OF_A_ROW * turn..][..NUMBERS_OF_A_ROW].copy_from_slice(&[
            named.into(),
            line.into(),
            moved.into(),
            count,
            least,
            closed.into(),
        ]);
    }
    answer.accept([schedule.len() as u64, 0, rounds]);
}

/// Check 10 of a lent list.
fn check_room<T>(lent: &[T], needed: usize) -> Result<(), Refusal> {
    if lent.len() < needed {
        return Err(Refusal::Buffer);
    }
    Ok(())
}

// ---- the other functions ----

/// 6: the passes of a schedule. Answers their number and the place of a 9.
pub fn passes(n: u64, schedule: &[u8], pairs: &mut [u32], answer: &mut Answer<2>) {
    match passes::passes(n, schedule, pairs) {
        Ok(number) => answer.accept([number as u64, 0]),
        Err(refusal) => answer.refuse_at(refusal, 1),
    }
}

/// 7: the length of the first pass from a place.
pub fn first_pass(n: u64, schedule: &[u8], place: u64) -> u64 {
    passes::first_pass(n, schedule, place).len() as u64
}

/// 8: the parents of a shape.
pub fn shape(shape: u64, n: u64, table: &mut [u8], answer: &mut Answer<0>) {
    answer.give(shapes::shape(shape, n, table).map(|()| []));
}

/// 9: the play-back of a trace. Answers whether it agrees, and where it differs.
pub fn play(setup: &Setup, trace: &[u8], answer: &mut Answer<2>) {
    answer.give(played(setup, trace).map(|(numbers, _)| numbers));
}

/// 16: the same, and writes the state that it leaves to the state list, whose length is looked at
/// last.
pub fn play_state(setup: &Setup, trace: &[u8], list: &mut [u64], answer: &mut Answer<2>) {
    let kept = played(setup, trace).and_then(|kept| check_length(list).map(|()| kept));
    if let Ok((_, state)) = &kept {
        write_state(state, list);
    }
    answer.give(kept.map(|(numbers, _)| numbers));
}

/// The numbers that a play-back answers, and its state: after the trace, or before the triple that
/// differs.
fn played(setup: &Setup, trace: &[u8]) -> Result<([u64; 2], State), Refusal> {
    let mut state = State::ZERO;
    let (kind, n, modulus) = (setup.kind, setup.n, setup.modulus);
    let verdict = playback::play(&mut state, kind, n, modulus, setup.tables(), trace)?;
    let numbers = match verdict {
        Verdict::Agrees => [1, 0],
        Verdict::Differs(index) => [0, index as u64],
    };
    Ok((numbers, state))
}

/// 11: the passes that are enough for the least count to rise.
pub fn limit(kind: u64, n: u64, works: &[u8], answer: &mut Answer<1>) {
    answer.give(limit::limit(kind, n, works).map(|passes| [passes]));
}

/// 12: what a sheet's text says. Answers the place of a 9, kind, N and R, then how many parents and
/// turns there are.
pub fn read(text: &[u8], parents: &mut [u8], turns: &mut [u8], answer: &mut Answer<6>) {
    let read = crate::sheet::read(text).and_then(|(setup, schedule)| {
        check_room(parents, setup.parents.len())?;
        check_room(turns, schedule.len())?;
        Ok((setup, schedule))
    });
    let (setup, schedule) = match read {
        Ok(read) => read,
        Err(refusal) => return answer.refuse_at(refusal, 0),
    };
    parents[..setup.parents.len()].copy_from_slice(&setup.parents);
    turns[..schedule.len()].copy_from_slice(&schedule);
    let (entries, length) = (setup.parents.len() as u64, schedule.len() as u64);
    answer.accept([0, setup.kind, setup.n, setup.modulus, entries, length]);
}

/// 13: the sheet of a text, and zeros after it. Gives its length.
pub fn sheet(text: &[u8], page: &mut [u8; PAGE]) -> u64 {
    let sheet = crate::sheet::sheet(text);
    *page = [0; PAGE];
    page[..sheet.len()].copy_from_slice(sheet.as_bytes());
    sheet.len() as u64
}
