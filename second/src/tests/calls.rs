//! The calls held against plain definitions: runs against single turns, passes and first passes
//! against every cutting, shapes against their children.

use super::{all_rows, begin_any};
use crate::machine::{run, turn, Outcome, Report, State};
use crate::passes::{first_pass, passes};
use crate::random::Random;
use crate::schedules;
use crate::shapes::shape;

/// What the run must give, by single turns.
fn by_turns(state: &mut State, schedule: &[u8], log: &mut [u8]) -> ([u32; 64], [u32; 64]) {
    let (mut moves, mut waits) = ([0; 64], [0; 64]);
    for (place, &task) in schedule.iter().enumerate() {
        let line = state.tasks[usize::from(task)].line;
        let moved = matches!(turn(state, task.into()), Ok(Outcome::Moved { .. }));
        log[2 * place] = line;
        log[2 * place + 1] = u8::from(moved);
        let counts = if moved { &mut moves } else { &mut waits };
        counts[usize::from(task)] += 1;
    }
    (moves, waits)
}

#[test]
fn runs_are_turns() {
    let mut random = Random::new(1);
    for _ in 0..400 {
        let mut state = begin_any(&mut random);
        let mut other = state;
        let schedule = schedules::any(&mut random, state.n.into(), 300);
        let made = random.length(0, 300);
        let (mut log, mut expected) = ([255; 600], [255; 600]);
        let report: Report = run(&mut state, &schedule, made as u64, &mut log);
        let counts = by_turns(&mut other, &schedule[..made], &mut expected);
        assert_eq!((report.moves, report.waits), counts);
        assert_eq!((report.turns, state, log), (made, other, expected));
    }
}

/// Whether the turns name every task below n.
fn names_all(n: usize, turns: &[u8]) -> bool {
    (0..n as u8).all(|task| turns.contains(&task))
}

/// The most stretches that each name every task, over all cuttings of the whole schedule.
fn most_stretches(n: usize, schedule: &[u8]) -> Option<usize> {
    let mut best = vec![None; schedule.len() + 1];
    best[0] = Some(0);
    for end in 1..=schedule.len() {
        for begin in 0..end {
            if names_all(n, &schedule[begin..end]) {
                best[end] = best[end].max(best[begin].map(|stretches: usize| stretches + 1));
            }
        }
    }
    best[schedule.len()]
}

/// The pairs are whole passes, end to end, each as short as can be.
fn check_passes(n: usize, schedule: &[u8]) {
    let mut pairs = vec![u32::MAX; 2 * schedule.len() + 2];
    let number = passes(n as u64, schedule, &mut pairs).unwrap_or(usize::MAX);
    let mut offset = 0;
    for pair in pairs[..2 * number].chunks_exact(2) {
        let (begin, length) = (pair[0] as usize, pair[1] as usize);
        assert_eq!(begin, offset);
        offset += length;
        assert!(names_all(n, &schedule[begin..offset]));
        assert!(!names_all(n, &schedule[begin..offset - 1]));
    }
    assert!(!names_all(n, &schedule[offset..]));
    assert!(pairs[2 * number..].iter().all(|&entry| entry == u32::MAX));
    assert_eq!(most_stretches(n, schedule).unwrap_or(0), number);
}

#[test]
fn passes_of_all_short_schedules() {
    for (n, longest) in [(1, 6), (2, 10), (3, 8), (4, 6)] {
        for length in 0..=longest {
            for schedule in all_rows(n, length) {
                check_passes(n, &schedule);
            }
        }
    }
}

/// The first pass by its definition.
fn plain_first_pass(n: usize, schedule: &[u8], place: usize) -> &[u8] {
    let rest = &schedule[place..];
    if rest.iter().any(|&task| usize::from(task) >= n) {
        return &[];
    }
    let lengths = 1..=rest.len();
    let length = lengths.into_iter().find(|&length| names_all(n, &rest[..length]));
    &rest[..length.unwrap_or(0)]
}

#[test]
fn first_passes_of_all_short_schedules() {
    for n in 1..=3 {
        for schedule in all_rows(4, 6) {
            for place in 0..=6 {
                let expected = plain_first_pass(n, &schedule, place);
                assert_eq!(first_pass(n as u64, &schedule, place as u64), expected);
            }
        }
    }
}

/// The children of a task in the paper's loops.
fn paper_children(number: u64, task: usize, n: usize) -> Vec<usize> {
    let mut children = match number {
        0 if task == 0 => (1..n).collect(),
        0 => Vec::new(),
        1 => vec![task + 1],
        2 => vec![2 * task + 1, 2 * task + 2],
        _ => {
            let (mut power, mut rest, mut children) = (1, task, Vec::new());
            while rest % 2 == 0 && task + power < n {
                children.push(task + power);
                (power, rest) = (2 * power, rest / 2);
            }
            children
        }
    };
    children.retain(|&child| child < n);
    children
}

#[test]
fn shapes_have_the_children_of_the_paper() {
    for number in 0..=3 {
        for n in 1..=64 {
            let mut table = [255; 65];
            assert_eq!(shape(number, n as u64, &mut table), Ok(()));
            assert_eq!((table[0], table[n]), (0, 255));
            for task in 0..n {
                let own = |&child: &usize| usize::from(table[child]) == task;
                let children: Vec<usize> = (1..n).filter(own).collect();
                assert_eq!(children, paper_children(number, task, n));
            }
        }
    }
}
