//! Rounds: which turns close one, worked out by hand and held against the least count, in reached
//! states and in edited ones whose counts are spread.

use super::{begin, begin_any, counts, least, play};
use crate::cases::rounds::closing_turns;
use crate::machine::{counting_line, run, turn, Ending, Outcome, Report, State};
use crate::machine::{CENTRALIZED, FETCH_AND_INCREMENT, KINDS, MAX_COUNT, RING, SYMMETRIC, TREE};
use crate::random::Random;
use crate::refusal::Refusal;
use crate::schedules::{self, cycle, repeat};

/// A fresh state but for these counts; a tree is flat.
fn spread(kind: u8, counts: &[u32]) -> State {
    let n = counts.len();
    let parents = vec![0; if kind == TREE { n } else { 0 }];
    let mut state = begin(kind, n as u64, if kind == SYMMETRIC { 255 } else { 0 }, &parents);
    for (task, &count) in state.tasks.iter_mut().zip(counts) {
        task.count = count;
    }
    state
}

/// Raises the task's count by a turn at the line where it rises. Gives whether that closed a round.
fn rise(state: &mut State, task: usize) -> bool {
    state.tasks[task].line = counting_line(state.kind);
    state.arrivals = if state.kind == CENTRALIZED { state.n } else { 0 };
    let count = state.tasks[task].count;
    let outcome = turn(state, task as u64);
    assert_eq!(state.tasks[task].count, count + 1);
    outcome == Ok(Outcome::Moved { closed: true })
}

/// A run of the whole schedule.
fn run_all(state: &mut State, schedule: &[u8]) -> Report {
    run(state, schedule, u64::MAX, &mut vec![255; 2 * schedule.len()])
}

// ---- by hand ----

/// One task: its round has 5 lines, or a tree's 7, and closes where the count rises. Line 12 of
/// the symmetric barrier is the second turn, 13 of kinds 1, 2 and 4 the third, 15 of a tree without
/// children the fourth, after 11, 12 and 13.
#[test]
fn one_task() {
    let places = [(5, 1), (5, 2), (5, 2), (7, 3), (5, 2)];
    for (kind, (turns, place)) in KINDS.into_iter().zip(places) {
        let mut state = spread(kind, &[0]);
        let schedule = repeat(0, 3 * turns);
        let expected = [place, turns + place, 2 * turns + place];
        assert_eq!(closing_turns(state, &schedule), expected);
        assert_eq!(run_all(&mut state, &schedule).rounds, 3);
        assert_eq!(counts(&state, 1), [3]);
    }
}

/// The sheet's input. Task 0's first three turns carry out 11, 12 and 13; at 13 its count rises
/// while task 1's is still 0. Then it waits at 16. Task 1's third turn, at place 6, is its 13: both
/// counts are 1 now. The others are 14, 15, its own 11, and task 0's 16.
#[test]
fn input_of_the_sheet() {
    let schedule = [0, 0, 0, 0, 1, 1, 1, 1, 1, 0];
    for fresh in [FETCH_AND_INCREMENT, CENTRALIZED].map(|kind| begin(kind, 2, 0, &[])) {
        assert_eq!(closing_turns(fresh, &schedule), [6]);
        for (allowance, rounds) in [(0, 0), (6, 0), (7, 1), (10, 1)] {
            let report = run(&mut fresh.clone(), &schedule, allowance, &mut [255; 20]);
            assert_eq!(report.rounds, rounds);
        }
    }
}

/// Counts 5 7 9. Task 0 alone is at 5, then alone at 6; at 7 it stands beside task 1, which closes
/// 7 and 8; at 9 all three stand, and the last to leave closes it.
#[test]
fn counts_by_hand() {
    for kind in KINDS {
        let mut state = spread(kind, &[5, 7, 9]);
        let rises = [
            (2, false),
            (0, true),
            (0, true),
            (0, false),
            (0, false),
            (1, true),
            (1, true),
            (1, false),
            (0, true),
            (2, false),
            (0, false),
            (1, true),
        ];
        for (place, (task, closed)) in rises.into_iter().enumerate() {
            assert_eq!(rise(&mut state, task), closed, "rise {place} of kind {kind}");
        }
        assert_eq!(counts(&state, 3), [11, 11, 11]);
    }
}

/// Only a task that alone stands at the least count closes a round.
#[test]
fn single_rises() {
    for (counts, closing) in [
        (&[5, 7, 9][..], &[0][..]),
        (&[9, 5, 7], &[1]),
        (&[5, 5, 9], &[]),
        (&[6, 5, 6], &[1]),
        (&[5, 5, 5], &[]),
        (&[0, 999_999], &[0]),
        (&[3], &[0]),
    ] {
        for kind in KINDS {
            let closes = |task: &usize| rise(&mut spread(kind, counts), *task);
            let tasks: Vec<usize> = (0..counts.len()).filter(closes).collect();
            assert_eq!(tasks, closing, "{counts:?} of kind {kind}");
        }
    }
}

/// After a closing turn: a wait, a refused turn and the moves of others, none of which closes.
#[test]
fn nothing_is_left_over() {
    for kind in KINDS {
        let mut state = spread(kind, &[3, 14, 16]);
        assert!(rise(&mut state, 0));
        assert_eq!(turn(&mut state, 1), Ok(Outcome::Moved { closed: false }));
        assert!(rise(&mut state, 0));
        assert_eq!(turn(&mut state, 3), Err(Refusal::Task));
        assert_eq!(turn(&mut state, 2), Ok(Outcome::Moved { closed: false }));
        assert!(rise(&mut state, 0));
        assert_eq!(run_all(&mut state, &[1]).rounds, 0);
    }
    let mut state = begin(RING, 1, 0, &[]);
    play(&mut state, &[0, 0]);
    assert!(rise(&mut state, 0));
    state.tasks[0].toggle = 0;
    assert_eq!(turn(&mut state, 0), Ok(Outcome::Waited));
    state.tasks[0].toggle = 1;
    assert_eq!(turn(&mut state, 0), Ok(Outcome::Moved { closed: false }));
}

// ---- runs ----

/// A symmetric state in which task 0 never waits: the others' tags are never its old one.
fn never_waiting(own: u32, others: u32) -> State {
    let mut state = spread(SYMMETRIC, &[own, others, others]);
    (state.tasks[1].tag, state.tasks[2].tag) = (200, 200);
    state
}

/// Nine turns make a round of task 0: it closes 5 to 8 and no more, as the others stay at 9.
#[test]
fn one_task_alone() {
    let mut state = never_waiting(5, 9);
    assert_eq!(closing_turns(state, &repeat(0, 54)), [1, 10, 19, 28]);
    let report = run_all(&mut state, &repeat(0, 54));
    assert_eq!((report.rounds, state.tasks[0].count), (4, 11));
}

/// A random state: its counts are as they began or a few apart, and some are about to rise.
fn any_state(random: &mut Random) -> State {
    let mut state = begin_any(random);
    let line = counting_line(state.kind);
    if random.once_in(2) {
        for task in &mut state.tasks[..usize::from(state.n)] {
            task.count = 7 + random.below(4) as u32;
            task.line = random.pick(&[11, line]);
        }
    }
    state
}

#[test]
fn rounds_of_random_runs() {
    let mut random = Random::new(2);
    for _ in 0..1_000 {
        let mut state = any_state(&mut random);
        for _ in 0..3 {
            let length = random.length(0, 200);
            let schedule = schedules::any(&mut random, state.n.into(), length);
            let before = state;
            let report = run_all(&mut state, &schedule);
            let made = &schedule[..report.turns];
            assert_eq!(report.rounds, (least(&state) - least(&before)) as usize);
            assert_eq!(report.rounds, closing_turns(before, made).len());
        }
    }
}

/// In any state whose counts are spread, each turn says by how much the least count rises.
#[test]
fn turns_of_random_states() {
    let mut random = Random::new(3);
    for _ in 0..10_000 {
        let state = any_state(&mut random);
        for task in 0..state.n {
            let mut next = state;
            if let Ok(Outcome::Moved { closed }) = turn(&mut next, task.into()) {
                assert_eq!(u32::from(closed), least(&next) - least(&state));
            }
        }
    }
}

// ---- refusals ----

/// Runs that are refused as a whole, though their first turn would close a round.
#[test]
fn refused_runs() {
    for kind in KINDS {
        let mut state = spread(kind, &[5, 7, 9]);
        state.tasks[0].line = counting_line(kind);
        let before = state;
        let reports = [
            run(&mut state, &repeat(0, 65_537), 1, &mut [255; 2]),
            run(&mut state, &[0, 3], 1, &mut [255; 2]),
            run(&mut state, &[0], 1, &mut [255; 1]),
        ];
        state.tasks[2].count = MAX_COUNT + 1;
        let range = run_all(&mut state, &[0]);
        for report in reports.iter().chain([&range]) {
            assert!(matches!(report.ending, Ending::Refused(_)));
            assert_eq!((report.turns, report.rounds), (0, 0));
        }
        state.tasks[2].count = 9;
        assert_eq!(state, before);
        assert_eq!(run_all(&mut state, &[0]).rounds, 1);
    }
}

/// The refused turn's task stands at the least count with a count at its limit, alone or not.
#[test]
fn stopped_by_the_limit() {
    let stopped = Ending::Stopped(Refusal::CountLimit);
    for kind in KINDS {
        let mut state = spread(kind, &[MAX_COUNT - 2]);
        let report = run_all(&mut state, &repeat(0, 30));
        assert_eq!((report.ending, report.rounds), (stopped, 2));
        let mut state = spread(kind, &[MAX_COUNT - 2, MAX_COUNT - 1, MAX_COUNT - 1]);
        let report = run_all(&mut state, &cycle(3, 90));
        assert_eq!((report.ending, report.rounds), (stopped, least(&state) as usize - 999_998));
        assert!(report.rounds > 0);
    }
    let mut state = never_waiting(MAX_COUNT - 10, MAX_COUNT);
    let report = run_all(&mut state, &repeat(0, 120));
    assert_eq!((report.ending, report.turns, report.rounds), (stopped, 91, 10));
}

/// All three stand at 13, which refuses them once all have arrived. First tasks 0 and 1 arrive,
/// then twice task 0, which doesn't wait at 16 as its aim, or its own sense, is the shared one.
/// Last, the refused task alone stands at the least count.
#[test]
fn stopped_by_arrivals() {
    for (counts, arrivals, schedule, turns, rounds) in [
        ([4, 6, 9], 1, &[0, 1, 2][..], 2, 1),
        ([4, 9, 9], 1, &[0, 0, 0, 0, 0, 1], 5, 2),
        ([4, 5, 9], 1, &[0, 0, 0, 0, 0, 1], 5, 1),
        ([6, 4, 9], 2, &[0, 1], 1, 0),
    ] {
        let mut up = spread(FETCH_AND_INCREMENT, &counts);
        let mut down = spread(CENTRALIZED, &counts);
        (up.arrivals, down.arrivals) = (arrivals, 3 - arrivals);
        for task in 0..3 {
            (up.tasks[task].line, up.tasks[task].aim) = (13, 1);
            down.tasks[task].line = 13;
        }
        for state in [&mut up, &mut down] {
            let report = run_all(state, schedule);
            assert_eq!(report.ending, Ending::Stopped(Refusal::Range));
            assert_eq!((report.turns, report.rounds), (turns, rounds));
        }
    }
}
