//! Starts of the symmetric barrier: rounds worked out by hand, line 13 against a plain definition,
//! and starts at the ends.

use super::{begin, begin_starts, counts, lines, play};
use crate::machine::{ready, step, turn, Outcome, State, SYMMETRIC, TREE};
use crate::starts::{equal, next};

/// A turn's task and outcome (1 moved, 0 waited), then the task's line, looked-at task and list.
type Turn = (u8, u8, u8, u8, u64);

/// Makes the turns and holds each against what was worked out.
fn check_turns(state: &mut State, turns: &[Turn]) {
    for (place, &(task, moved, line, looked, list)) in turns.iter().enumerate() {
        let answer = play(state, &[task]);
        assert_eq!(answer, [(moved, line)], "turn {place}");
        let own = &state.tasks[usize::from(task)];
        assert_eq!((own.looked, own.list), (looked, list), "turn {place}");
    }
}

/// The starts of the first three tasks.
fn three_starts(state: &State) -> [u8; 3] {
    [0, 1, 2].map(|task: usize| state.tasks[task].start)
}

/// N 3, R 3, starts 1 2 0: in round robin nobody waits. Task 0 looks at 1, 2, 0, task 1 at 2, 0, 1
/// and task 2 at 0, 1, 2.
#[test]
fn round_robin_by_hand() {
    let mut state = begin_starts(3, &[1, 2, 0]);
    let round: [[Turn; 3]; 9] = [
        [(0, 1, 12, 0, 0b000), (1, 1, 12, 0, 0b000), (2, 1, 12, 0, 0b000)],
        [(0, 1, 13, 0, 0b111), (1, 1, 13, 0, 0b111), (2, 1, 13, 0, 0b111)],
        [(0, 1, 14, 1, 0b111), (1, 1, 14, 2, 0b111), (2, 1, 14, 0, 0b111)],
        [(0, 1, 13, 1, 0b101), (1, 1, 13, 2, 0b011), (2, 1, 13, 0, 0b110)],
        [(0, 1, 14, 2, 0b101), (1, 1, 14, 0, 0b011), (2, 1, 14, 1, 0b110)],
        [(0, 1, 13, 2, 0b001), (1, 1, 13, 0, 0b010), (2, 1, 13, 1, 0b100)],
        [(0, 1, 14, 0, 0b001), (1, 1, 14, 1, 0b010), (2, 1, 14, 2, 0b100)],
        [(0, 1, 13, 0, 0b000), (1, 1, 13, 1, 0b000), (2, 1, 13, 2, 0b000)],
        [(0, 1, 11, 0, 0b000), (1, 1, 11, 1, 0b000), (2, 1, 11, 2, 0b000)],
    ];
    check_turns(&mut state, &round.concat());
    assert_eq!((lines(&state, 3), counts(&state, 3)), (vec![11; 3], vec![1; 3]));
    assert_eq!([0, 1, 2].map(|task: usize| state.tasks[task].tag), [1, 1, 1]);
    assert_eq!([0, 1, 2].map(|task: usize| state.tasks[task].old), [0, 0, 0]);
    assert_eq!(three_starts(&state), [1, 2, 0]);
}

/// The same starts: task 0 waits for task 1 although task 2 is there, then task 2 waits for task 1,
/// and at the end task 0 is a round ahead.
#[test]
fn waits_by_hand() {
    let mut state = begin_starts(3, &[1, 2, 0]);
    let turns: [&[Turn]; 8] = [
        &[(0, 1, 12, 0, 0b000), (0, 1, 13, 0, 0b111), (0, 1, 14, 1, 0b111), (0, 0, 14, 1, 0b111)],
        &[(2, 1, 12, 0, 0b000), (2, 1, 13, 0, 0b111), (0, 0, 14, 1, 0b111)],
        &[(2, 1, 14, 0, 0b111), (2, 1, 13, 0, 0b110), (2, 1, 14, 1, 0b110), (2, 0, 14, 1, 0b110)],
        &[(1, 1, 12, 0, 0b000), (1, 1, 13, 0, 0b111), (0, 1, 13, 1, 0b101)],
        &[(0, 1, 14, 2, 0b101), (0, 1, 13, 2, 0b001), (0, 1, 14, 0, 0b001), (0, 1, 13, 0, 0b000)],
        &[(0, 1, 11, 0, 0b000), (1, 1, 14, 2, 0b111), (2, 1, 13, 1, 0b100)],
        &[(0, 1, 12, 0, 0b000), (0, 1, 13, 0, 0b111), (1, 1, 13, 2, 0b011)],
        &[(1, 1, 14, 0, 0b011), (1, 1, 13, 0, 0b010), (0, 1, 14, 1, 0b111), (0, 0, 14, 1, 0b111)],
    ];
    check_turns(&mut state, &turns.concat());
    assert_eq!((lines(&state, 3), counts(&state, 3)), (vec![14, 13, 13], vec![2, 1, 1]));
    assert_eq!(three_starts(&state), [1, 2, 0]);
}

/// The task that a task at 13 with this start and list looks at.
fn looked_at(n: usize, start: u8, list: u64) -> Option<u8> {
    let mut state = begin_starts(3, &equal(start, n));
    let own = &mut state.tasks[0];
    (own.line, own.list) = (13, list);
    assert_eq!(turn(&mut state, 0), Ok(Outcome::Moved { closed: false }));
    match state.tasks[0].line {
        14 => Some(state.tasks[0].looked),
        line => {
            assert_eq!(line, 11);
            None
        }
    }
}

/// The listed task with the fewest steps from the start on, the step from n - 1 leading to 0.
pub fn nearest(n: usize, start: u8, list: u64) -> Option<u8> {
    let listed = (0..n).filter(|task| list & (1 << task) != 0);
    let task = listed.min_by_key(|task| (task + n - usize::from(start)) % n);
    task.map(|task| task as u8)
}

#[test]
fn every_start_and_list_of_a_few_tasks() {
    for n in 1..=6 {
        for start in 0..n as u8 {
            for list in 0..1 << n {
                assert_eq!(looked_at(n, start, list), nearest(n, start, list));
            }
        }
    }
}

#[test]
fn every_start_and_one_or_two_of_64_tasks() {
    for start in 0..64 {
        for high in 0..64 {
            for low in 0..=high {
                let list = 1 << high | 1 << low;
                assert_eq!(looked_at(64, start, list), nearest(64, start, list));
            }
        }
    }
}

/// Starts that the ranges keep out: no task is at or above them, so the least is taken.
#[test]
fn starts_above_every_task() {
    for start in 64..=255 {
        for (list, line, looked) in [(0, 11, 0), (u64::MAX, 14, 0), (u64::MAX << 9, 14, 9)] {
            let mut state = begin(SYMMETRIC, 64, 3, &[]);
            let own = &mut state.tasks[0];
            (own.line, own.list, own.start) = (13, list, start);
            assert_eq!(step(&mut state, 0), Ok(Outcome::Moved { closed: false }));
            assert_eq!((state.tasks[0].line, state.tasks[0].looked), (line, looked));
        }
    }
}

#[test]
fn starts_at_the_ends() {
    assert_eq!(looked_at(3, 2, 0b001), Some(0));
    assert_eq!(looked_at(3, 2, 0b010), Some(1));
    assert_eq!(looked_at(3, 1, 0b101), Some(2));
    assert_eq!(looked_at(1, 0, 1), Some(0));
    assert_eq!(looked_at(64, 63, u64::MAX), Some(63));
    assert_eq!(looked_at(64, 63, u64::MAX >> 1), Some(0));
    assert_eq!(looked_at(64, 63, 1 << 62), Some(62));
    assert_eq!(looked_at(64, 0, 1 << 63), Some(63));
    assert_eq!(looked_at(64, 62, 1 << 63 | 1), Some(63));
    assert_eq!(looked_at(64, 63, 0), None);
}

#[test]
fn one_task() {
    let mut state = begin_starts(3, &[0]);
    assert_eq!(play(&mut state, &[0; 5]), [(1, 12), (1, 13), (1, 14), (1, 13), (1, 11)]);
    assert_eq!((state.tasks[0].count, state.tasks[0].tag), (1, 1));
}

#[test]
fn all_of_64_tasks_from_the_last() {
    let mut state = begin_starts(3, &equal(63, 64));
    assert_eq!(play(&mut state, &[5; 4]), [(1, 12), (1, 13), (1, 14), (0, 14)]);
    assert_eq!(state.tasks[5].looked, 63);
    play(&mut state, &[63, 63]);
    assert_eq!(play(&mut state, &[5, 5, 5]), [(1, 13), (1, 14), (0, 14)]);
    assert_eq!(state.tasks[5].looked, 0);
}

/// Line 13 begins at the start each time, not after the task looked at last.
#[test]
fn the_start_is_read_at_every_turn() {
    let mut state = begin_starts(3, &[0, 0, 0]);
    play(&mut state, &[0, 0, 0]);
    state.tasks[0].start = 2;
    assert_eq!(play(&mut state, &[0, 0, 0]), [(1, 13), (1, 14), (0, 14)]);
    assert_eq!(state.tasks[0].looked, 2);
    state.tasks[0].start = 1;
    assert_eq!(play(&mut state, &[0]), [(0, 14)]);
    assert_eq!(state.tasks[0].looked, 2);
    play(&mut state, &[2, 2, 0]);
    state.tasks[0].list = 0b111;
    assert_eq!(play(&mut state, &[0]), [(1, 14)]);
    assert_eq!(state.tasks[0].looked, 1);
}

#[test]
fn no_table_is_a_table_of_zeros() {
    for n in [1, 2, 64] {
        let zeros = begin_starts(3, &equal(0, n as usize));
        assert_eq!(zeros, begin(SYMMETRIC, n, 3, &[]));
    }
    let state = begin_starts(5, &[2, 0, 1]);
    assert_eq!((three_starts(&state), state.tasks[3].start), ([2, 0, 1], 0));
}

/// Somebody is always ready, whatever the starts, and every task ends its rounds.
#[test]
fn rounds_of_64_tasks() {
    let mut state = begin_starts(255, &next(64));
    for _ in 0..3 * (3 + 2 * 64) {
        assert!(matches!(ready(&state), Ok(Some(_))));
        play(&mut state, &(0..64).collect::<Vec<u8>>());
    }
    assert_eq!((lines(&state, 64), counts(&state, 64)), (vec![11; 64], vec![3; 64]));
}

/// The tree looks at its least listed child.
#[test]
fn least_child_of_a_tree() {
    let mut state = begin(TREE, 4, 0, &[0; 4]);
    play(&mut state, &[0, 0, 0]);
    assert_eq!((state.tasks[0].looked, state.tasks[0].start), (1, 0));
}
