//! Own work: line 11 takes as many moves as the task's work length, by single turns, within runs
//! and after edits of what is left. The refusals of work tables, their ranges beside other fields
//! and play-backs with work tables stand with the others.

use super::fields::{COUNT, LEFT, LINE, MOVES, WORK};
use super::rounds::cut_runs;
use super::values::TASK_COUNTS;
use crate::machine::{Tables, CENTRALIZED, FETCH_AND_INCREMENT, KINDS, MAX_COUNT, MAX_TALLY};
use crate::machine::{RING, SYMMETRIC, TREE};
use crate::parents;
use crate::recorder::Recorder;
use crate::schedules::{cycle, each, repeat};
use crate::starts;
use crate::works::{equal, unequal};

/// Work lengths of three tasks.
const THREE: [[u8; 3]; 5] = [[3, 1, 2], [1, 5, 1], [2, 2, 2], [9, 4, 1], [1, 1, 255]];

/// Values of the work length and of the moves left.
const VALUES: [u64; 5] = [0, 1, 2, 3, 255];

pub fn cases(recorder: &mut Recorder) {
    for kind in KINDS {
        for work in [2, 255] {
            around_the_last_move(recorder, kind, work);
        }
        for work in [1, 3, 128, 254, 255] {
            two_rounds(recorder, kind, work);
        }
        longest_by_turns(recorder, kind);
        turn_by_turn(recorder, kind);
        for works in THREE {
            pieces(recorder, kind, &works);
        }
        cut_rounds(recorder, kind);
        many_tasks(recorder, kind);
        ones(recorder, kind);
        spent(recorder, kind);
        full_tallies(recorder, kind);
        full_counts(recorder, kind);
        edited(recorder, kind);
        edited_off_line_11(recorder, kind);
        edited_from_n_on(recorder, kind);
    }
    with_starts(recorder);
    with_parents(recorder);
}

/// The last line of a kind.
fn last_line(kind: u8) -> u64 {
    match kind {
        SYMMETRIC => 14,
        FETCH_AND_INCREMENT | CENTRALIZED => 16,
        RING => 15,
        _ => 18,
    }
}

// ---- one task ----

/// How many moves one task alone makes from 12 until it is back at 11.
fn other_moves(kind: u8) -> usize {
    if kind == TREE {
        6
    } else {
        4
    }
}

/// Two rounds of one task, shown around the last two moves of its work.
fn around_the_last_move(recorder: &mut Recorder, kind: u8, work: usize) {
    recorder.fresh_works(kind, 1, &[work as u8]);
    recorder.show();
    for _ in 0..2 {
        recorder.run_all(&repeat(0, work - 2));
        recorder.turns(&[0, 0]);
        recorder.run_all(&repeat(0, other_moves(kind)));
        recorder.ready();
        recorder.show();
    }
}

/// Two rounds of one task and a move of the third, by one run.
fn two_rounds(recorder: &mut Recorder, kind: u8, work: usize) {
    recorder.fresh_works(kind, 1, &[work as u8]);
    recorder.run_all(&repeat(0, 2 * (work + other_moves(kind)) + 1));
    recorder.show();
}

/// Every turn of the longest work, of which none closes a round.
fn longest_by_turns(recorder: &mut Recorder, kind: u8) {
    recorder.fresh_works(kind, 1, &[255]);
    for _ in 0..260 {
        recorder.turn(0);
    }
    recorder.show();
}

// ---- several tasks ----

/// Turns of three tasks with who is ready, shown after every other turn of all.
fn turn_by_turn(recorder: &mut Recorder, kind: u8) {
    recorder.fresh_works(kind, 3, &[3, 1, 2]);
    recorder.show();
    for _ in 0..7 {
        for task in [2, 0, 1, 0, 2, 1] {
            recorder.turn(task);
            recorder.ready();
        }
        recorder.show();
    }
}

/// Rounds in pieces, then one task after another.
fn pieces(recorder: &mut Recorder, kind: u8, works: &[u8]) {
    recorder.fresh_works(kind, works.len(), works);
    for piece in cycle(works.len(), 133).chunks(19) {
        recorder.run_all(piece);
        recorder.ready();
    }
    recorder.show();
    recorder.fresh_works(kind, works.len(), works);
    recorder.run_all(&each((0..works.len() as u8).rev(), 7).repeat(5));
    recorder.show();
}

/// Runs cut at the turns that close a round.
fn cut_rounds(recorder: &mut Recorder, kind: u8) {
    for works in [[3, 1, 2], [1, 5, 1]] {
        cut_runs(recorder, &cycle(3, 80), |recorder| recorder.fresh_works(kind, 3, &works));
    }
}

/// Unequal work of each number of tasks.
fn many_tasks(recorder: &mut Recorder, kind: u8) {
    for n in TASK_COUNTS {
        recorder.fresh_works(kind, n, &unequal(n));
        recorder.run_all(&each((0..n as u8).rev(), 4));
        recorder.ready();
        recorder.run_all(&cycle(n, 5 * n));
        recorder.turn(n as u64 - 1);
    }
    recorder.show();
}

/// Work of one move each, by a table of ones and by none: every answer is the same.
fn ones(recorder: &mut Recorder, kind: u8) {
    for n in TASK_COUNTS {
        for works in [equal(1, n), Vec::new()] {
            recorder.fresh_works(kind, n, &works);
            recorder.run_all(&each((0..n as u8).rev(), 3));
            recorder.ready();
            recorder.run_all(&cycle(n, 2 * n + 9));
            recorder.turn(n as u64 - 1);
            if [1, 3, 64].contains(&n) {
                recorder.show();
            }
        }
    }
}

/// A start and a work table together.
fn with_starts(recorder: &mut Recorder) {
    for n in [2, 5, 64] {
        let (starts, works) = (starts::next(n), unequal(n));
        let tables = Tables { parents: &[], starts: &starts, works: &works };
        recorder.fresh_with(SYMMETRIC.into(), n as u64, 5, tables);
        recorder.show();
        recorder.run_all(&cycle(n, 12 * n));
        recorder.show();
    }
}

/// The parents of every shape and a work table together.
fn with_parents(recorder: &mut Recorder) {
    for shape in 0..=3 {
        let (parents, works) = (parents::of_shape(shape, 8), unequal(8));
        let tables = Tables { parents: &parents, starts: &[], works: &works };
        recorder.fresh_with(TREE.into(), 8, 0, tables);
        recorder.show();
        recorder.run_all(&each((0..8).rev(), 5).repeat(6));
        recorder.show();
    }
}

// ---- limits ----

/// A run that the allowance ends within the work, and what is left of the schedule.
fn spent(recorder: &mut Recorder, kind: u8) {
    let schedule = cycle(2, 14);
    for allowance in 0..=14 {
        recorder.fresh_works(kind, 2, &[4, 2]);
        recorder.run(allowance, 28, &schedule);
        recorder.ready();
        if allowance % 4 == 1 {
            recorder.show();
        }
        recorder.run_all(&schedule[allowance as usize..]);
    }
    recorder.show();
}

/// A full tally refuses a move of the work, of which nothing is made.
fn full_tallies(recorder: &mut Recorder, kind: u8) {
    for moves in 0..=4 {
        recorder.fresh_works(kind, 2, &[3, 2]);
        recorder.set(MOVES, 0, u64::from(MAX_TALLY) - moves);
        recorder.ready();
        recorder.run_all(&[1, 0, 0, 1, 0, 0, 0]);
        recorder.turn(0);
        recorder.ready();
        recorder.show();
    }
}

/// A full count doesn't stand in the way of the work.
fn full_counts(recorder: &mut Recorder, kind: u8) {
    recorder.fresh_works(kind, 2, &[3, 2]);
    recorder.set(COUNT, 0, MAX_COUNT.into());
    for _ in 0..8 {
        recorder.ready();
        recorder.turn(0);
    }
    recorder.run_all(&cycle(2, 8));
    recorder.show();
}

// ---- edits ----

/// A task at 11 and one at its last line: each pair of a work length and moves left.
fn edited(recorder: &mut Recorder, kind: u8) {
    for line in [11, last_line(kind)] {
        for work in VALUES {
            for left in VALUES {
                recorder.fresh_works(kind, 3, &[2, 3, 4]);
                recorder.set(LINE, 1, line);
                pair(recorder, 1, [work, left]);
                asked(recorder, 1);
            }
        }
        recorder.show();
    }
    for left in [254, 255] {
        recorder.fresh_works(kind, 2, &[1, 254]);
        pair(recorder, 1, [254, left]);
        asked(recorder, 1);
        recorder.show();
    }
}

/// Sets the work length of a task and the moves left.
fn pair(recorder: &mut Recorder, task: usize, [work, left]: [u64; 2]) {
    recorder.set(WORK, task, work);
    recorder.set(LEFT, task, left);
}

/// Ready, single turns and a run in which a task has most of the turns.
fn asked(recorder: &mut Recorder, task: u8) {
    recorder.ready();
    recorder.turn(task.into());
    recorder.turn(0);
    recorder.run_all(&[task, task, 0, task]);
}

/// A task that isn't at 11 may have fewer moves left than its work takes: that many it makes when
/// it comes to 11. With none or too many it is out of range at any line.
fn edited_off_line_11(recorder: &mut Recorder, kind: u8) {
    for line in 12..=last_line(kind) {
        for left in 0..=4 {
            recorder.fresh_works(kind, 1, &[3]);
            recorder.set(LINE, 0, line);
            recorder.set(LEFT, 0, left);
            recorder.ready();
            recorder.turn(0);
            recorder.run_all(&repeat(0, 18));
        }
        recorder.set(LEFT, 0, 2);
        recorder.run_all(&repeat(0, 18));
        recorder.show();
    }
}

/// The work of tasks from N on is 0, and nothing is left of it.
fn edited_from_n_on(recorder: &mut Recorder, kind: u8) {
    for task in [2, 3, 63] {
        recorder.fresh_works(kind, 2, &[2, 1]);
        for [work, left] in [[1, 1], [1, 0], [0, 1], [255, 255], [255, 0], [0, 255], [0, 0]] {
            pair(recorder, task, [work, left]);
            asked(recorder, 1);
        }
        recorder.show();
    }
}
