//! Tests: the scope's cases and traps, the refusals, starts, rounds, tallies, play-back, own work,
//! the centralized barrier beside the one it answers like, all reachable states of small barriers,
//! the texts of the sheet, the play and the replay, what is said of refused ones, and the exported
//! functions as calls.

mod calls;
mod calls_compare;
mod calls_functions;
mod calls_lists;
mod calls_plays;
mod calls_random;
mod calls_written;
mod centralized;
mod findings;
mod playback;
mod plays;
mod reach;
mod refusals;
mod rounds;
mod sheets;
mod starts;
mod table;
mod tallies;
mod texts;
mod traps;
mod works;

use crate::machine::{fresh, turn, Outcome, State, Tables, KINDS, SYMMETRIC, TREE};
use crate::parents;
use crate::random::Random;
use crate::refusal::Refusal;
use crate::schedules;
use crate::works::{equal, up_to};

/// A fresh state that must be accepted.
fn begin(kind: u8, n: u64, modulus: u64, parents: &[u8]) -> State {
    let mut state = State::ZERO;
    assert_eq!(fresh(&mut state, kind.into(), n, modulus, Tables::of_parents(parents)), Ok(()));
    state
}

/// A fresh symmetric state with a start table; it must be accepted.
fn begin_starts(modulus: u64, starts: &[u8]) -> State {
    let mut state = State::ZERO;
    let tables = Tables { starts, ..Tables::default() };
    let n = starts.len() as u64;
    assert_eq!(fresh(&mut state, SYMMETRIC.into(), n, modulus, tables), Ok(()));
    state
}

/// A fresh state with a work table, with R 3 if it is symmetric and as a flat tree; it must be
/// accepted.
fn begin_works(kind: u8, works: &[u8]) -> State {
    let modulus = if kind == SYMMETRIC { 3 } else { 0 };
    let parents = vec![0; if kind == TREE { works.len() } else { 0 }];
    let mut state = State::ZERO;
    let tables = Tables { parents: &parents, starts: &[], works };
    assert_eq!(fresh(&mut state, kind.into(), works.len() as u64, modulus, tables), Ok(()));
    state
}

/// A random fresh state of a few tasks.
fn begin_any(random: &mut Random) -> State {
    let kind = random.pick(&KINDS);
    let n = random.length(1, 9);
    let mut state = match kind {
        SYMMETRIC if random.once_in(2) => begin_starts(3, &schedules::uniform(random, n, n)),
        SYMMETRIC => begin(kind, n as u64, 3, &[]),
        TREE => begin(kind, n as u64, 0, &parents::any(random, n)),
        _ => begin(kind, n as u64, 0, &[]),
    };
    let works = if random.once_in(2) { equal(1, n) } else { up_to(random, 4, n) };
    for (task, work) in state.tasks.iter_mut().zip(works) {
        (task.work, task.left) = (work, work);
    }
    state
}

/// The refusal's number of a fresh state, or 0 if it is accepted.
fn fresh_number(kind: u64, n: u64, modulus: u64, parents: &[u8]) -> u8 {
    starts_number(kind, n, modulus, parents, &[])
}

/// The refusal's number of a fresh state with a start table, or 0 if it is accepted.
fn starts_number(kind: u64, n: u64, modulus: u64, parents: &[u8], starts: &[u8]) -> u8 {
    tables_number(kind, n, modulus, Tables { parents, starts, works: &[] })
}

/// The refusal's number of a fresh state with tables, or 0 if it is accepted.
fn tables_number(kind: u64, n: u64, modulus: u64, tables: Tables) -> u8 {
    let mut state = State::ZERO;
    number(fresh(&mut state, kind, n, modulus, tables))
}

/// The number of a refusal, or 0 if there is none.
fn number<T>(answer: Result<T, Refusal>) -> u8 {
    answer.err().map_or(0, Refusal::number)
}

/// Makes the turns, none of which is refused. Gives each one's outcome, 1 moved and 0 waited,
/// with the task's line after it.
fn play(state: &mut State, tasks: &[u8]) -> Vec<(u8, u8)> {
    let mut answers = Vec::new();
    for &task in tasks {
        let outcome = turn(state, task.into());
        assert!(outcome.is_ok(), "{outcome:?}");
        let moved = u8::from(outcome != Ok(Outcome::Waited));
        answers.push((moved, state.tasks[usize::from(task)].line));
    }
    answers
}

/// The lines of the first n tasks.
fn lines(state: &State, n: usize) -> Vec<u8> {
    state.tasks[..n].iter().map(|task| task.line).collect()
}

/// The counts of the first n tasks.
fn counts(state: &State, n: usize) -> Vec<u32> {
    state.tasks[..n].iter().map(|task| task.count).collect()
}

/// The lowest of the counts.
fn least(state: &State) -> u32 {
    counts(state, state.n.into()).into_iter().min().unwrap_or(0)
}

/// All rows of so many numbers below n: the schedules of a length, or the start tables.
fn all_rows(n: usize, length: u32) -> impl Iterator<Item = Vec<u8>> {
    (0..n.pow(length)).map(move |mut code| {
        let digit = |_| {
            let task = (code % n) as u8;
            code /= n;
            task
        };
        (0..length).map(digit).collect()
    })
}
