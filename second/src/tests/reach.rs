//! All states that small barriers reach, with the least count taken off every count. In each:
//! the counts differ by at most one, a task at 11 isn't ahead, a task elsewhere has all its work
//! left, somebody can move, a few passes raise the least count, and the tallies are the answers
//! that were given on the way there.

use super::starts::nearest;
use super::tallies::Given;
use super::{all_rows, begin, begin_starts, begin_works, least};
use crate::machine::{in_range, ready, step, turn, Outcome, State};
use crate::machine::{CENTRALIZED, FETCH_AND_INCREMENT, KINDS, RING, SYMMETRIC, TREE};
use std::collections::HashSet;

/// The fields that can differ between the reached states of one barrier, but the tallies, which
/// say nothing about the rest.
pub fn key(state: &State) -> Vec<u8> {
    let n = usize::from(state.n);
    let mut key = vec![state.arrivals, state.sense];
    for task in &state.tasks[..n] {
        key.extend([task.line, task.count as u8, task.tag, task.old, task.list as u8]);
        key.extend([task.looked, task.aim, task.toggle, task.flag, task.left, task.sense]);
    }
    key
}

/// Takes the least count off every count.
pub fn lower(state: &mut State) {
    let least = least(state);
    for task in &mut state.tasks[..usize::from(state.n)] {
        task.count -= least;
    }
}

/// Visits every state reached from the fresh one. Gives their number.
pub fn visit(fresh: State) -> usize {
    let mut seen = HashSet::from([key(&fresh)]);
    let mut open = vec![(fresh, Given::default())];
    while let Some((state, given)) = open.pop() {
        check_barrier(&state);
        check_ready(&state);
        check_progress(state);
        given.check(&state);
        for task in 0..usize::from(state.n) {
            let (mut next, given) = turned(state, task, given);
            lower(&mut next);
            if seen.insert(key(&next)) {
                open.push((next, given));
            }
        }
    }
    seen.len()
}

/// The barrier condition.
fn check_barrier(state: &State) {
    assert!(in_range(state), "{state:?}");
    for task in &state.tasks[..usize::from(state.n)] {
        assert!(task.count <= 1, "{state:?}");
        assert!(task.line != 11 || task.count == 0, "{state:?}");
        assert!(task.line == 11 || task.left == task.work, "{state:?}");
    }
}

/// Ready names the least task whose turn moves, and there is one.
fn check_ready(state: &State) {
    let moves =
        |&task: &usize| matches!(turn(&mut state.clone(), task as u64), Ok(Outcome::Moved { .. }));
    let least = (0..usize::from(state.n)).find(moves);
    assert!(least.is_some(), "{state:?}");
    assert_eq!(ready(state), Ok(least), "{state:?}");
}

/// In enough passes every task makes a whole round. No count falls, so that fewer passes show it
/// too.
fn check_progress(mut state: State) {
    let n = usize::from(state.n);
    let before = least(&state);
    let work: u8 = state.tasks.iter().map(|task| task.work).sum();
    for _ in 0..20 * n + usize::from(work) {
        for task in (0..n).rev() {
            let _ = step(&mut state, task);
        }
        if least(&state) > before {
            return;
        }
    }
    panic!("{state:?}");
}

/// The state after a turn, and the answers given until then. A wait raises the wait tally and
/// changes nothing else; a move leaves every start and work length and the other tasks' lines,
/// counts, lists, tallies, senses and moves left alone, and says by how much the least count rose.
fn turned(state: State, task: usize, mut given: Given) -> (State, Given) {
    let mut next = state;
    let outcome = turn(&mut next, task as u64);
    given.count(task, outcome);
    let Ok(Outcome::Moved { closed }) = outcome else {
        let mut waited = state;
        waited.tasks[task].waits += 1;
        assert_eq!((outcome, next), (Ok(Outcome::Waited), waited));
        return (next, given);
    };
    let (before, after) = (&state.tasks[task], &next.tasks[task]);
    assert_eq!((before.moves + 1, before.waits), (after.moves, after.waits));
    assert_eq!(u32::from(closed), least(&next) - least(&state), "{state:?}");
    assert_eq!(before.work, after.work);
    if before.line == 11 && before.left > 1 {
        assert_eq!((after.line, after.left), (11, before.left - 1));
    } else {
        assert!(before.line != after.line || after.line == 18);
        assert_eq!(after.left, after.work);
    }
    check_look(&state, &next, task);
    assert_eq!(next.tasks[task].start, state.tasks[task].start);
    for other in (0..64).filter(|&other| other != task) {
        let (before, after) = (&state.tasks[other], &next.tasks[other]);
        assert_eq!((before.line, before.count), (after.line, after.count));
        assert_eq!((before.list, before.looked), (after.list, after.looked));
        assert_eq!(before.start, after.start);
        assert_eq!((before.tag, before.old, before.aim), (after.tag, after.old, after.aim));
        assert_eq!((before.moves, before.waits), (after.moves, after.waits));
        assert_eq!((before.work, before.left), (after.work, after.left));
        assert_eq!(before.sense, after.sense);
    }
    (next, given)
}

/// Line 13 of the symmetric barrier takes the listed task that is nearest to the start.
fn check_look(before: &State, after: &State, task: usize) {
    let own = &before.tasks[task];
    if before.kind == SYMMETRIC && own.line == 13 && own.list != 0 {
        let expected = nearest(before.n.into(), own.start, own.list);
        assert_eq!(Some(after.tasks[task].looked), expected, "{before:?}");
    }
}

#[test]
fn symmetric() {
    for (n, modulus) in [(1, 3), (1, 4), (2, 3), (2, 4), (2, 5), (3, 3), (3, 4), (4, 3)] {
        assert!(visit(begin(SYMMETRIC, n, modulus, &[])) > 4);
    }
}

#[test]
fn symmetric_with_starts() {
    for (n, modulus) in [(2, 3), (2, 4), (2, 5), (3, 3)] {
        for starts in all_rows(n, n as u32) {
            assert!(visit(begin_starts(modulus, &starts)) > 4);
        }
    }
    assert!(visit(begin_starts(4, &[1, 2, 0])) > 4);
    assert!(visit(begin_starts(3, &[1, 2, 3, 0])) > 4);
}

#[test]
fn fetch_and_increment() {
    for n in 1..=5 {
        assert!(visit(begin(FETCH_AND_INCREMENT, n, 0, &[])) > 4);
    }
}

#[test]
fn centralized() {
    for n in 1..=5 {
        assert!(visit(begin(CENTRALIZED, n, 0, &[])) > 4);
    }
}

#[test]
fn ring() {
    for n in 1..=6 {
        assert!(visit(begin(RING, n, 0, &[])) > 4);
    }
}

/// All parent tables for n tasks.
fn all_tables(n: usize) -> Vec<Vec<u8>> {
    let mut tables = vec![vec![0]];
    for task in 1..n {
        let longer = |table: &Vec<u8>| {
            let table = table.clone();
            (0..task as u8).map(move |parent| [&table[..], &[parent]].concat())
        };
        tables = tables.iter().flat_map(longer).collect();
    }
    tables
}

#[test]
fn tree() {
    for n in 1..=4 {
        for table in all_tables(n) {
            assert!(visit(begin(TREE, n as u64, 0, &table)) > 4);
        }
    }
}

/// Two tasks whose work takes one to three moves, and a few tables of three tasks.
#[test]
fn with_work() {
    for kind in KINDS {
        for row in all_rows(3, 2) {
            let works = [row[0] + 1, row[1] + 1];
            let states = visit(begin_works(kind, &works));
            let alone = visit(begin_works(kind, &[1, 1]));
            assert!((states > alone) == (works != [1, 1]), "{works:?}");
        }
        for works in [[2, 1, 3], [1, 4, 1], [3, 2, 2]] {
            assert!(visit(begin_works(kind, &works)) > 4);
        }
    }
}
