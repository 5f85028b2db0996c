//! The scope's "Cases for the table", in its order.

use super::{begin, counts, fresh_number, lines, play};
use crate::machine::{run, Ending, State, CENTRALIZED, FETCH_AND_INCREMENT};
use crate::machine::{RING, SYMMETRIC, TREE};
use crate::passes::passes;
use crate::refusal::Refusal;
use crate::shapes::shape;

/// The lines after moves alone.
fn moved(lines: &[u8]) -> Vec<(u8, u8)> {
    lines.iter().map(|&line| (1, line)).collect()
}

#[test]
fn symmetric_alone() {
    let mut state = begin(SYMMETRIC, 1, 3, &[]);
    assert_eq!(play(&mut state, &[0; 5]), moved(&[12, 13, 14, 13, 11]));
    assert_eq!((state.tasks[0].count, state.tasks[0].tag), (1, 1));
}

#[test]
fn input_of_the_sheet() {
    let mut state = begin(FETCH_AND_INCREMENT, 2, 0, &[]);
    play(&mut state, &[0, 0, 0, 0, 1, 1, 1, 1, 1, 0]);
    assert_eq!(lines(&state, 2), [11, 11]);
    assert_eq!(counts(&state, 2), [1, 1]);
    assert_eq!((state.sense, state.arrivals), (0, 0));
    let mut state = begin(CENTRALIZED, 2, 0, &[]);
    play(&mut state, &[0, 0, 0, 0, 1, 1, 1, 1, 1, 0]);
    assert_eq!((lines(&state, 2), counts(&state, 2)), (vec![11, 11], vec![1, 1]));
    assert_eq!((state.sense, state.arrivals), (0, 2));
}

#[test]
fn ring_waits_for_the_message() {
    let mut state = begin(RING, 2, 0, &[]);
    assert_eq!(play(&mut state, &[1, 1]), [(1, 12), (0, 12)]);
}

#[test]
fn ring_makes_a_round() {
    let mut state = begin(RING, 2, 0, &[]);
    let answers = play(&mut state, &[0, 0, 0, 1, 1, 1, 0, 0, 1, 1]);
    assert!(answers.iter().all(|&(moved, _)| moved == 1));
    assert_eq!(lines(&state, 2), [11, 11]);
    assert_eq!(counts(&state, 2), [1, 1]);
    assert_eq!((state.tasks[0].toggle, state.tasks[1].toggle), (0, 0));
}

#[test]
fn tree_waits_for_its_child() {
    let mut state = begin(TREE, 2, 0, &[0, 0]);
    let answers = play(&mut state, &[0; 4]);
    assert_eq!(answers, [(1, 12), (1, 13), (1, 14), (0, 14)]);
}

#[test]
fn tree_alone() {
    let mut state = begin(TREE, 1, 0, &[0]);
    let answers = play(&mut state, &[0; 7]);
    assert_eq!(answers, moved(&[12, 13, 15, 16, 17, 18, 11]));
}

#[test]
fn accepted_and_refused() {
    assert_eq!(fresh_number(0, 1, 2, &[]), 4);
    assert_eq!(fresh_number(0, 1, 3, &[]), 0);
    assert_eq!(fresh_number(0, 0, 3, &[]), 3);
    assert_eq!(fresh_number(0, 65, 3, &[]), 3);
    assert_eq!(fresh_number(0, 64, 3, &[]), 0);
    assert_eq!(fresh_number(3, 2, 0, &[0, 1]), 6);
    assert_eq!(fresh_number(3, 2, 0, &[0, 0]), 0);
}

#[test]
fn pairs_of_passes() {
    let mut pairs = [u32::MAX; 6];
    assert_eq!(passes(2, &[0, 0, 1, 0, 1, 1], &mut pairs), Ok(2));
    assert_eq!(pairs, [0, 3, 3, 2, u32::MAX, u32::MAX]);
}

#[test]
fn shapes_of_six() {
    let mut table = [255; 7];
    assert_eq!(shape(2, 6, &mut table), Ok(()));
    assert_eq!(table, [0, 0, 0, 1, 1, 2, 255]);
    assert_eq!(shape(3, 6, &mut table), Ok(()));
    assert_eq!(table, [0, 0, 0, 2, 0, 4, 255]);
    assert_eq!(shape(1, 6, &mut table), Ok(()));
    assert_eq!(table, [0, 0, 1, 2, 3, 4, 255]);
    assert_eq!(shape(0, 6, &mut table), Ok(()));
    assert_eq!(table, [0, 0, 0, 0, 0, 0, 255]);
}

#[test]
fn empty_schedule() {
    let mut state = begin(RING, 2, 0, &[]);
    let report = run(&mut state, &[], 0, &mut []);
    assert_eq!((report.ending, report.turns), (Ending::Done, 0));
    assert_eq!(passes(2, &[], &mut []), Ok(0));
}

#[test]
fn allowance_of_nothing() {
    let mut state = begin(RING, 2, 0, &[]);
    let report = run(&mut state, &[0], 0, &mut []);
    assert_eq!((report.ending, report.turns), (Ending::Spent, 0));
    assert_eq!(state, begin(RING, 2, 0, &[]));
}

#[test]
fn longest_schedule() {
    let mut state = begin(RING, 1, 0, &[]);
    let schedule = vec![0; 65_537];
    let mut log = vec![255; 131_072];
    let report = run(&mut state, &schedule[1..], u64::MAX, &mut log);
    assert_eq!((report.ending, report.turns), (Ending::Done, 65_536));
    let before: State = state;
    let report = run(&mut state, &schedule, 1, &mut log);
    assert_eq!(report.ending, Ending::Refused(Refusal::ScheduleLength));
    assert_eq!(state, before);
    let mut pairs = vec![0; 131_072];
    assert_eq!(passes(1, &schedule[1..], &mut pairs), Ok(65_536));
    let refused = passes(1, &schedule, &mut pairs);
    assert_eq!(refused, Err(Refusal::ScheduleLength));
}
