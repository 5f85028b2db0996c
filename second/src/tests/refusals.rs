//! The refusals: their order, their boundaries, and that a refused call changes nothing.

use super::{begin, begin_starts, fresh_number, number, starts_number};
use crate::machine::{
    fresh, in_range, ready, run, turn, Ending, Outcome, State, Tables, CENTRALIZED,
    FETCH_AND_INCREMENT, KINDS, MAX_COUNT, RING, SYMMETRIC, TREE,
};
use crate::passes::{first_pass, passes};
use crate::refusal::Refusal;
use crate::shapes::shape;

/// A fresh state of three tasks.
fn three(kind: u8) -> State {
    match kind {
        SYMMETRIC => begin(kind, 3, 5, &[]),
        TREE => begin(kind, 3, 0, &[0, 0, 1]),
        _ => begin(kind, 3, 0, &[]),
    }
}

#[test]
fn order_of_a_fresh_state() {
    assert_eq!(fresh_number(5, 0, 2, &[1]), 2);
    assert_eq!(fresh_number(5, 2, 0, &[]), 2);
    assert_eq!(fresh_number(260, 2, 0, &[]), 2);
    assert_eq!(fresh_number(4, 0, 2, &[1]), 3);
    assert_eq!(fresh_number(4, 2, 3, &[1]), 4);
    assert_eq!(fresh_number(4, 2, 0, &[0, 0]), 5);
    assert_eq!(fresh_number(4, 2, 0, &[]), 0);
    assert_eq!(fresh_number(0, 0, 2, &[1]), 3);
    assert_eq!(fresh_number(0, 1, 2, &[1]), 4);
    assert_eq!(fresh_number(0, 1, 256, &[]), 4);
    assert_eq!(fresh_number(0, 1, 255, &[]), 0);
    assert_eq!(fresh_number(1, 1, 1, &[]), 4);
    assert_eq!(fresh_number(0, 1, 3, &[1]), 5);
    assert_eq!(fresh_number(3, 2, 0, &[1]), 5);
    assert_eq!(fresh_number(3, 2, 0, &[1, 0]), 6);
    assert_eq!(fresh_number(3, 3, 0, &[0, 0, 2]), 6);
}

#[test]
fn starts_come_after_the_other_tables() {
    assert_eq!(starts_number(5, 2, 0, &[], &[9]), 2);
    assert_eq!(starts_number(4, 2, 0, &[0], &[0, 0]), 5);
    assert_eq!(starts_number(4, 2, 0, &[], &[0, 0]), 12);
    assert_eq!(starts_number(0, 0, 3, &[], &[9]), 3);
    assert_eq!(starts_number(0, 65, 3, &[], &[65; 65]), 3);
    assert_eq!(starts_number(0, 2, 2, &[], &[9]), 4);
    assert_eq!(starts_number(1, 2, 3, &[], &[0, 0]), 4);
    assert_eq!(starts_number(0, 2, 3, &[0], &[9]), 5);
    assert_eq!(starts_number(3, 2, 0, &[0], &[0, 0]), 5);
    assert_eq!(starts_number(3, 2, 0, &[0, 1], &[0, 0]), 6);
    assert_eq!(starts_number(3, 2, 0, &[0, 0], &[0, 0]), 12);
    assert_eq!(starts_number(3, 2, 0, &[0, 0], &[]), 0);
}

#[test]
fn lengths_of_start_tables() {
    for n in [1_usize, 2, 63, 64] {
        for length in [0, 1, n - 1, n, n + 1, 256 + n] {
            let starts = vec![0; length];
            let fits = if length == 0 || length == n { 0 } else { 12 };
            assert_eq!(starts_number(0, n as u64, 3, &[], &starts), fits);
            let empty = if length == 0 { 0 } else { 12 };
            assert_eq!(starts_number(1, n as u64, 0, &[], &starts), empty);
            assert_eq!(starts_number(2, n as u64, 0, &[], &starts), empty);
            assert_eq!(starts_number(4, n as u64, 0, &[], &starts), empty);
            assert_eq!(starts_number(3, n as u64, 0, &vec![0; n], &starts), empty);
        }
    }
}

#[test]
fn entries_of_start_tables() {
    for n in [1, 2, 63, 64] {
        for task in [0, n - 1] {
            let mut starts = vec![0; n];
            starts[task] = n as u8 - 1;
            assert_eq!(starts_number(0, n as u64, 3, &[], &starts), 0);
            for start in [n as u8, n as u8 + 1, 255] {
                starts[task] = start;
                assert_eq!(starts_number(0, n as u64, 3, &[], &starts), 12);
            }
        }
    }
}

#[test]
fn refused_fresh_state_is_zero() {
    let mut state = three(FETCH_AND_INCREMENT);
    assert_eq!(fresh(&mut state, 1, 3, 1, Tables::of_parents(&[])), Err(Refusal::Modulus));
    assert_eq!(state, State::ZERO);
    let mut state = begin_starts(3, &[2, 1, 0]);
    let tables = Tables { starts: &[2, 1, 3], ..Tables::default() };
    assert_eq!(fresh(&mut state, 0, 3, 3, tables), Err(Refusal::Starts));
    assert_eq!(state, State::ZERO);
}

#[test]
fn order_of_a_turn() {
    let mut state = three(FETCH_AND_INCREMENT);
    state.tasks[0].line = 13;
    state.tasks[0].count = MAX_COUNT;
    state.arrivals = 4;
    assert_eq!(turn(&mut state, 9), Err(Refusal::Range));
    state.arrivals = 3;
    assert_eq!(turn(&mut state, 3), Err(Refusal::Task));
    assert_eq!(turn(&mut state, 0), Err(Refusal::Range));
    assert_eq!(ready(&state), Ok(Some(1)));
    state.arrivals = 2;
    assert_eq!(turn(&mut state, 0), Err(Refusal::CountLimit));
    state.tasks[0].count -= 1;
    assert_eq!(turn(&mut state, 0), Ok(Outcome::Moved { closed: false }));
    assert_eq!((state.arrivals, state.tasks[0].line), (3, 14));
}

#[test]
fn count_at_its_limit() {
    for (kind, line) in KINDS.into_iter().zip([12, 13, 13, 15, 13]) {
        let mut state = three(kind);
        for task in &mut state.tasks[..3] {
            (task.line, task.count) = (line, MAX_COUNT);
        }
        let before = state;
        assert_eq!(turn(&mut state, 1), Err(Refusal::CountLimit));
        assert_eq!(ready(&state), Ok(None));
        assert_eq!(state, before);
        state.tasks[1].count -= 1;
        assert_eq!(ready(&state), Ok(Some(1)));
        assert_eq!(turn(&mut state, 1), Ok(Outcome::Moved { closed: true }));
        assert_eq!(state.tasks[1].count, MAX_COUNT);
    }
}

#[test]
fn order_of_a_run() {
    let mut state = three(RING);
    let mut log = [255; 3];
    let long = vec![7; 65_537];
    let number = |report: crate::machine::Report| match report.ending {
        Ending::Refused(refusal) => (refusal.number(), report.turns),
        _ => (0, report.turns),
    };
    let nine = run(&mut state, &[0, 3, 1], 1, &mut log);
    assert_eq!(nine.ending, Ending::Refused(Refusal::TaskAt(1)));
    assert_eq!(number(run(&mut state, &[0, 1], 2, &mut log)), (10, 0));
    assert_eq!(number(run(&mut state, &long, 2, &mut log)), (8, 0));
    state.tasks[63].flag = 1;
    assert_eq!(number(run(&mut state, &long, 2, &mut log)), (7, 0));
    state.tasks[63].flag = 0;
    assert_eq!(log, [255; 3]);
    assert_eq!(state, three(RING));
    assert_eq!(number(run(&mut state, &[0, 1], 1, &mut log)), (0, 1));
    assert_eq!(log, [11, 1, 255]);
}

#[test]
fn run_stopped_or_spent() {
    let mut state = three(SYMMETRIC);
    state.tasks[1].count = MAX_COUNT;
    let schedule = [1, 0, 1, 2];
    let mut log = [255; 8];
    let mut spent = state;
    assert_eq!(run(&mut spent, &schedule, 2, &mut log).ending, Ending::Spent);
    let report = run(&mut state, &schedule, 3, &mut log);
    assert_eq!(report.ending, Ending::Stopped(Refusal::CountLimit));
    assert_eq!((report.turns, report.moves[0], report.moves[1]), (2, 1, 1));
    assert_eq!(log, [11, 1, 11, 1, 255, 255, 255, 255]);
    assert_eq!(state, spent);
}

#[test]
fn run_stopped_by_arrivals() {
    for (kind, arrivals) in [(FETCH_AND_INCREMENT, 3), (CENTRALIZED, 0)] {
        let mut state = three(kind);
        state.arrivals = arrivals;
        let mut log = [255; 8];
        let report = run(&mut state, &[2, 2, 2, 0], 4, &mut log);
        assert_eq!(report.ending, Ending::Stopped(Refusal::Range));
        assert_eq!((report.turns, state.tasks[2].line), (2, 13));
        assert_eq!(log, [11, 1, 12, 1, 255, 255, 255, 255]);
    }
}

#[test]
fn order_of_passes() {
    let long = vec![7; 65_537];
    assert_eq!(passes(0, &long, &mut []), Err(Refusal::TaskCount));
    assert_eq!(passes(65, &[], &mut []), Err(Refusal::TaskCount));
    assert_eq!(passes(7, &long, &mut []), Err(Refusal::ScheduleLength));
    assert_eq!(passes(1, &[0, 1, 2], &mut []), Err(Refusal::TaskAt(1)));
    let mut pairs = [9; 3];
    assert_eq!(passes(1, &[0, 0], &mut pairs), Err(Refusal::Buffer));
    assert_eq!(pairs, [9; 3]);
}

#[test]
fn order_of_shapes() {
    assert_eq!(number(shape(4, 0, &mut [])), 2);
    assert_eq!(number(shape(4, 1, &mut [0])), 2);
    assert_eq!(number(shape(3, 0, &mut [])), 3);
    assert_eq!(number(shape(3, 65, &mut [0; 65])), 3);
    assert_eq!(number(shape(3, 64, &mut [0; 63])), 10);
    assert_eq!(number(shape(3, 64, &mut [0; 64])), 0);
}

#[test]
fn empty_first_passes() {
    let schedule = [0, 1, 0, 2];
    assert_eq!(first_pass(2, &schedule, 0), []);
    assert_eq!(first_pass(3, &schedule, 0), schedule);
    assert_eq!(first_pass(3, &schedule, 1), [1, 0, 2]);
    assert_eq!(first_pass(3, &schedule, 2), []);
    assert_eq!(first_pass(1, &[5, 0, 0], 1), [0]);
    for place in [3, 4, u64::MAX] {
        assert_eq!(first_pass(1, &[0, 0, 0], place), []);
    }
    assert_eq!(first_pass(0, &[0], 0), []);
    assert_eq!(first_pass(65, &[0], 0), []);
}

/// A field's highest value in range; the next one is out of range.
fn check_highest(state: State, set: impl Fn(&mut State, u8), highest: u8) {
    for value in [0, highest / 2, highest] {
        let mut changed = state;
        set(&mut changed, value);
        assert!(in_range(&changed), "{changed:?}");
    }
    for value in [highest + 1, 255] {
        let mut changed = state;
        set(&mut changed, value);
        assert!(!in_range(&changed), "{changed:?}");
    }
}

#[test]
fn ranges_of_the_fields() {
    for (kind, [tag, old, looked, aim, toggle, flag, start, sense]) in [
        (SYMMETRIC, [4, 4, 2, 0, 0, 0, 2, 0]),
        (FETCH_AND_INCREMENT, [0, 0, 0, 1, 0, 0, 0, 0]),
        (RING, [0, 0, 0, 0, 1, 0, 0, 0]),
        (TREE, [0, 0, 2, 0, 0, 1, 0, 0]),
        (CENTRALIZED, [0, 0, 0, 0, 0, 0, 0, 1]),
    ] {
        let state = three(kind);
        for task in 0..64 {
            let used = |highest| if task < 3 { highest } else { 0 };
            check_highest(state, |state, value| state.tasks[task].tag = value, used(tag));
            check_highest(state, |state, value| state.tasks[task].old = value, used(old));
            check_highest(state, |state, value| state.tasks[task].looked = value, used(looked));
            check_highest(state, |state, value| state.tasks[task].aim = value, used(aim));
            check_highest(state, |state, value| state.tasks[task].toggle = value, used(toggle));
            check_highest(state, |state, value| state.tasks[task].flag = value, used(flag));
            check_highest(state, |state, value| state.tasks[task].start = value, used(start));
            check_highest(state, |state, value| state.tasks[task].sense = value, used(sense));
        }
        let counts = [FETCH_AND_INCREMENT, CENTRALIZED].contains(&kind);
        let (arrivals, sense) = if counts { (3, 1) } else { (0, 0) };
        check_highest(state, |state, value| state.arrivals = value, arrivals);
        check_highest(state, |state, value| state.sense = value, sense);
    }
}

/// A kind that there isn't is out of range, whichever kind the other fields are of.
#[test]
fn ranges_of_kinds() {
    for state in KINDS.map(three) {
        assert!(in_range(&state));
        for kind in 5..=255 {
            assert!(!in_range(&State { kind, ..state }));
        }
    }
}

#[test]
fn ranges_of_lines_and_counts() {
    for (kind, last) in KINDS.into_iter().zip([14, 16, 15, 18, 16]) {
        let mut state = three(kind);
        for line in 0..=255 {
            state.tasks[2].line = line;
            assert_eq!(in_range(&state), (11..=last).contains(&line));
        }
        state.tasks[2].line = 11;
        for (count, fits) in [(MAX_COUNT, true), (MAX_COUNT + 1, false), (u32::MAX, false)] {
            state.tasks[2].count = count;
            assert_eq!(in_range(&state), fits);
        }
        state.tasks[2].count = 0;
        state.tasks[3].count = 1;
        assert!(!in_range(&state));
    }
}

#[test]
fn ranges_of_lists() {
    let mut tree = three(TREE);
    for (task, list, fits) in [
        (0, 0b010, true),
        (0, 0b001, false),
        (0, 0b100, false),
        (1, 0b100, true),
        (1, 0b1000, false),
        (2, 0b001, false),
    ] {
        tree.tasks[task].list = list;
        assert_eq!(in_range(&tree), fits);
        tree.tasks[task].list = 0;
    }
    let mut symmetric = three(SYMMETRIC);
    for (list, fits) in [(0b111, true), (0b1000, false), (1 << 63, false)] {
        symmetric.tasks[1].list = list;
        assert_eq!(in_range(&symmetric), fits);
    }
    let mut widest = begin(SYMMETRIC, 64, 3, &[]);
    widest.tasks[63].list = u64::MAX;
    assert!(in_range(&widest));
}

#[test]
fn start_out_of_range() {
    let mut state = begin_starts(3, &[2, 1, 0]);
    state.tasks[1].start = 3;
    let before = state;
    assert_eq!(turn(&mut state, 0), Err(Refusal::Range));
    assert_eq!(ready(&state), Err(Refusal::Range));
    let report = run(&mut state, &[0], 1, &mut [255; 2]);
    assert_eq!(report.ending, Ending::Refused(Refusal::Range));
    assert_eq!(state, before);
}

#[test]
fn root_may_have_a_flag() {
    let mut state = three(TREE);
    state.tasks[0].flag = 1;
    state.tasks[0].line = 16;
    assert_eq!(turn(&mut state, 0), Ok(Outcome::Moved { closed: false }));
    assert_eq!(state.tasks[0].flag, 1);
}

#[test]
fn unlisted_task_changes_no_list() {
    let mut state = three(SYMMETRIC);
    let task = &mut state.tasks[0];
    (task.line, task.old, task.list, task.looked) = (14, 3, 0b100, 1);
    assert_eq!(turn(&mut state, 0), Ok(Outcome::Moved { closed: false }));
    assert_eq!((state.tasks[0].line, state.tasks[0].list), (13, 0b100));
}
