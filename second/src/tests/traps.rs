//! The traps that the paper sets.

use super::{begin, counts, lines, play};
use crate::machine::{run, step, Outcome, CENTRALIZED, FETCH_AND_INCREMENT};
use crate::machine::{RING, SYMMETRIC, TREE};
use crate::passes::passes;

#[test]
fn turns_are_no_passes() {
    let mut state = begin(RING, 3, 0, &[]);
    let schedule = [[2; 100], [1; 100], [0; 100]].concat();
    let mut log = [255; 600];
    let report = run(&mut state, &schedule, 300, &mut log);
    assert_eq!(counts(&state, 3), [1, 0, 0]);
    assert_eq!(lines(&state, 3), [14, 12, 12]);
    assert_eq!(report.moves[..3], [3, 1, 1]);
    assert_eq!(report.waits[..3], [97, 99, 99]);
    assert_eq!(passes(3, &schedule, &mut [0; 2]), Ok(1));
}

/// Task 0 is a round ahead while task 1 still looks at it from the round before.
fn one_round_ahead(modulus: u8) -> Outcome {
    let mut state = begin(SYMMETRIC, 2, 3, &[]);
    state.modulus = modulus;
    let (zero, one) = ([0; 4], [1; 4]);
    let ahead = [0; 6];
    for task in [&zero[..], &one[..3], &ahead[..]].concat() {
        let _ = step(&mut state, task);
    }
    assert_eq!(counts(&state, 2), [2, 1]);
    assert_eq!((state.tasks[1].line, state.tasks[1].looked), (14, 0));
    step(&mut state, 1).unwrap_or(Outcome::Waited)
}

#[test]
fn modulus_of_two() {
    assert_eq!(one_round_ahead(3), Outcome::Moved { closed: false });
    assert_eq!(one_round_ahead(2), Outcome::Waited);
}

#[test]
fn aim_is_read_before_the_arrival() {
    let mut state = begin(FETCH_AND_INCREMENT, 2, 0, &[]);
    play(&mut state, &[0, 0]);
    assert_eq!((state.tasks[0].aim, state.sense), (0, 1));
    play(&mut state, &[0, 1, 1, 1]);
    assert_eq!((state.tasks[1].line, state.arrivals), (14, 2));
    play(&mut state, &[1]);
    assert_eq!((state.arrivals, state.sense), (0, 1));
    assert_eq!(play(&mut state, &[0]), [(0, 16)]);
    play(&mut state, &[1, 1, 1, 1]);
    assert_eq!((state.tasks[1].line, state.tasks[1].aim), (16, 1));
    assert_eq!(play(&mut state, &[1, 0]), [(0, 16), (1, 11)]);
}

#[test]
fn flag_stays_after_it_is_seen() {
    let mut state = begin(TREE, 2, 0, &[0, 0]);
    play(&mut state, &[0, 0, 0, 1, 1, 1, 1]);
    assert_eq!((state.tasks[1].line, state.tasks[1].flag), (16, 1));
    assert_eq!(play(&mut state, &[0, 1]), [(1, 13), (0, 16)]);
    assert_eq!(state.tasks[1].flag, 1);
    assert_eq!(play(&mut state, &[0, 0, 0, 0, 1, 0]).pop(), Some((1, 18)));
    assert_eq!(state.tasks[1].flag, 0);
    assert_eq!(play(&mut state, &[1, 0]), [(1, 17), (1, 11)]);
}

#[test]
fn looked_at_stays_while_waiting() {
    let mut state = begin(TREE, 3, 0, &[0, 0, 0]);
    play(&mut state, &[0, 0, 0, 2, 2, 2, 2]);
    assert_eq!((state.tasks[0].looked, state.tasks[2].flag), (1, 1));
    assert_eq!(play(&mut state, &[0]), [(0, 14)]);
    assert_eq!((state.tasks[0].looked, state.tasks[0].list), (1, 0b110));
}

#[test]
fn fields_keep_their_last_value() {
    let mut state = begin(SYMMETRIC, 2, 3, &[]);
    play(&mut state, &[0, 0, 1, 1, 0, 0, 0, 0, 0]);
    let task = state.tasks[0];
    assert_eq!((task.line, task.looked, task.old, task.list), (11, 1, 0, 0));
    let mut state = begin(FETCH_AND_INCREMENT, 1, 0, &[]);
    play(&mut state, &[0; 10]);
    assert_eq!((state.tasks[0].aim, state.sense, state.tasks[0].line), (1, 1, 11));
    let mut state = begin(CENTRALIZED, 1, 0, &[]);
    play(&mut state, &[0; 6]);
    assert_eq!((state.tasks[0].sense, state.sense, state.tasks[0].line), (0, 0, 12));
}
