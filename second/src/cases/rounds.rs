//! Rounds: where the least count rises, by single turns and by runs, in reached states and in
//! edited ones whose counts are spread.

use super::fields::{AIM, ARRIVALS, COUNT, LINE, OWN_SENSE, TAG};
use crate::machine::{counting_line, turn, Outcome, State, CENTRALIZED, FETCH_AND_INCREMENT};
use crate::machine::{KINDS, RING, SYMMETRIC, TREE};
use crate::parents;
use crate::recorder::Recorder;
use crate::schedules::{cycle, each, repeat};

/// Counts, and the tasks whose counts rise from there on, one after another.
type Rises = ([u64; 3], &'static [usize]);

const RISES: [Rises; 10] = [
    ([5, 7, 9], &[0, 0, 0, 0, 1, 1, 0, 1, 2]),
    ([9, 5, 7], &[0, 2, 1, 1, 1, 2, 1, 2, 2]),
    ([7, 9, 5], &[2, 2, 2, 0, 0, 2, 1, 0, 2]),
    ([5, 5, 9], &[0, 1, 0, 0, 1, 1, 1, 0, 2]),
    ([9, 5, 5], &[1, 1, 1, 2, 2, 2, 0, 2, 1]),
    ([5, 5, 5], &[2, 0, 1, 1, 1, 0, 2, 2, 0]),
    ([6, 5, 6], &[0, 2, 1, 1, 1, 1, 0, 2, 2]),
    ([0, 70_000, 1_000_000], &[0, 1, 0, 1, 0]),
    ([1_000_000, 999_998, 999_999], &[1, 1, 2, 1, 0, 2]),
    ([999_999, 1_000_000, 1_000_000], &[0, 0, 1]),
];

/// Counts from which whole rounds are run.
const RUNS: [[u64; 3]; 4] = [[5, 7, 9], [9, 5, 5], [6, 5, 6], [1, 70_000, 2]];

pub fn cases(recorder: &mut Recorder) {
    for kind in KINDS {
        one_task(recorder, kind);
        run_in_pieces(recorder, kind);
        pairs(recorder, kind);
        for (counts, tasks) in RISES {
            rises(recorder, kind, counts, tasks);
        }
        for counts in RUNS {
            cut_runs(recorder, &cycle(3, 60), |recorder| spread(recorder, kind, &counts));
        }
        after_a_closing_turn(recorder, kind);
        most_of_64(recorder, kind);
        stopped_by_the_limit(recorder, kind);
        refused_runs(recorder, kind);
    }
    one_alone(recorder);
    one_alone_of_64(recorder);
    for kind in [FETCH_AND_INCREMENT, CENTRALIZED] {
        input_of_the_sheet(recorder, kind);
        stopped_by_arrivals(recorder, kind);
    }
    too_long_run(recorder);
}

// ---- states and turns ----

/// A fresh state but for these counts.
fn spread(recorder: &mut Recorder, kind: u8, counts: &[u64]) {
    recorder.fresh_kind(kind, counts.len());
    for (task, &count) in counts.iter().enumerate() {
        recorder.set(COUNT, task, count);
    }
}

/// A turn of a task at the line where its count rises. No arrivals stand in its way.
fn rise(recorder: &mut Recorder, task: usize) {
    let kind = recorder.state().kind;
    recorder.set(LINE, task, counting_line(kind).into());
    recorder.set(ARRIVALS, 0, arrivals(kind, recorder.n() as u64, 0));
    recorder.turn(task as u64);
}

/// The shared number that says that so many of n tasks have arrived: kind 4 counts those that
/// haven't.
fn arrivals(kind: u8, n: u64, arrived: u64) -> u64 {
    match kind {
        CENTRALIZED => n - arrived,
        _ => arrived,
    }
}

/// A symmetric state in which one task never waits: the others' tags are never its old one.
fn never_waiting(recorder: &mut Recorder, task: usize, n: usize, own: u64, others: u64) {
    recorder.fresh(SYMMETRIC.into(), n as u64, 255, &[]);
    recorder.set(COUNT, task, own);
    for other in (0..n).filter(|&other| other != task) {
        recorder.set(COUNT, other, others);
        recorder.set(TAG, other, 200);
    }
}

/// The places of the turns that close a round.
pub fn closing_turns(mut state: State, schedule: &[u8]) -> Vec<usize> {
    let closing = Ok(Outcome::Moved { closed: true });
    let mut closes = |&place: &usize| turn(&mut state, schedule[place].into()) == closing;
    (0..schedule.len()).filter(|place| closes(place)).collect()
}

/// Runs of a schedule from one state: the whole; then, at each of the first closing turns, cut just
/// before it, with this turn alone in between, and cut just after it.
pub fn cut_runs(recorder: &mut Recorder, schedule: &[u8], begin: impl Fn(&mut Recorder)) {
    begin(recorder);
    let places = closing_turns(*recorder.state(), schedule);
    recorder.run_all(schedule);
    recorder.show();
    for place in places.into_iter().take(2) {
        let made = place as u64;
        let rest = &schedule[place + 1..];
        begin(recorder);
        recorder.run(made, 2 * made, schedule);
        recorder.turn(schedule[place].into());
        recorder.run_all(rest);
        begin(recorder);
        recorder.run(made + 1, 2 * made + 2, schedule);
        recorder.run_all(rest);
    }
}

// ---- reached states ----

/// One task: each rise of its count closes a round.
fn one_task(recorder: &mut Recorder, kind: u8) {
    recorder.fresh_kind(kind, 1);
    for _ in 0..15 {
        recorder.turn(0);
    }
    recorder.run_all(&[0; 30]);
    recorder.show();
    for allowance in 0..=9 {
        recorder.fresh_kind(kind, 1);
        recorder.run(allowance, 18, &[0; 9]);
    }
}

/// Runs that begin and end within rounds.
fn run_in_pieces(recorder: &mut Recorder, kind: u8) {
    recorder.fresh_kind(kind, 3);
    for piece in cycle(3, 90).chunks(7) {
        recorder.run_all(piece);
    }
    recorder.show();
}

/// The sheet's input, of kinds 1 and 4: turn by turn, and by runs of each allowance.
fn input_of_the_sheet(recorder: &mut Recorder, kind: u8) {
    let schedule = [0, 0, 0, 0, 1, 1, 1, 1, 1, 0];
    recorder.fresh_kind(kind, 2);
    for task in schedule {
        recorder.turn(task.into());
    }
    for allowance in 0..=10 {
        recorder.fresh_kind(kind, 2);
        recorder.run(allowance, 20, &schedule);
    }
}

// ---- spread counts ----

/// Two tasks, from two behind to two ahead: the rise of each.
fn pairs(recorder: &mut Recorder, kind: u8) {
    for other in 3..=7 {
        for task in 0..2 {
            spread(recorder, kind, &[5, other]);
            rise(recorder, task);
        }
    }
}

/// Rises of three tasks, one after another.
fn rises(recorder: &mut Recorder, kind: u8, counts: [u64; 3], tasks: &[usize]) {
    spread(recorder, kind, &counts);
    for &task in tasks {
        rise(recorder, task);
    }
    recorder.show();
}

/// After each closing turn: moves that close nothing, waits, refused turns, a run without rounds.
fn after_a_closing_turn(recorder: &mut Recorder, kind: u8) {
    spread(recorder, kind, &[3, 14, 16]);
    for task in [1, 0, 0, 2] {
        rise(recorder, 0);
        recorder.turn(task);
        recorder.turn(3);
        recorder.with(COUNT, 2, 1_000_001, |recorder| recorder.turn(0));
        recorder.ready();
        recorder.turn(2);
        recorder.run_all(&[1]);
    }
    recorder.show();
}

/// In a symmetric run one task's count rises again and again, until the others have it too.
fn one_alone(recorder: &mut Recorder) {
    for (task, own) in [(0, 5), (1, 8), (2, 5)] {
        let schedule = repeat(task as u8, 60);
        cut_runs(recorder, &schedule, |recorder| never_waiting(recorder, task, 3, own, 9));
    }
    never_waiting(recorder, 0, 3, 999_990, 1_000_000);
    recorder.run_all(&repeat(0, 120));
    recorder.show();
}

/// The same of 64 tasks.
fn one_alone_of_64(recorder: &mut Recorder) {
    never_waiting(recorder, 20, 64, 0, 4);
    recorder.run_all(&repeat(20, 300));
    recorder.run_all(&repeat(20, 400));
    recorder.show();
}

/// 64 tasks, each of whose counts rises once. A few are above the others, those at the ends too,
/// so that the round closes before the last turn.
fn most_of_64(recorder: &mut Recorder, kind: u8) {
    let schedule = match kind {
        SYMMETRIC => each(0..64, 2),
        TREE => each((0..64).rev(), 6),
        _ => each(0..64, 3),
    };
    cut_runs(recorder, &schedule, |recorder| {
        match kind {
            TREE => recorder.fresh(kind.into(), 64, 0, &parents::of_shape(1, 64)),
            _ => recorder.fresh_kind(kind, 64),
        }
        for (task, count) in [(0, 3), (31, 1), (63, 2)] {
            recorder.set(COUNT, task, count);
        }
    });
}

// ---- refusals ----

/// Runs that 11 stops keep the rounds before it.
fn stopped_by_the_limit(recorder: &mut Recorder, kind: u8) {
    for counts in [&[999_997][..], &[999_998, 999_999, 999_999], &[1_000_000, 999_998]] {
        spread(recorder, kind, counts);
        recorder.run_all(&cycle(counts.len(), 90));
        recorder.run_all(&cycle(counts.len(), 6));
        recorder.show();
    }
}

/// Runs that 7 stops at a turn keep the rounds before it; the refused turn closes none, even where
/// its task alone stands at the least count.
fn stopped_by_arrivals(recorder: &mut Recorder, kind: u8) {
    // The task of the last schedule doesn't wait at 16 and rises twice: what it awaits is there.
    let signal = if kind == CENTRALIZED { OWN_SENSE } else { AIM };
    for (counts, arrived, schedule) in [
        ([4, 6, 9], 1, &[0, 1, 2, 0][..]),
        ([4, 4, 9], 1, &[0, 1, 2, 0]),
        ([6, 4, 9], 2, &[0, 1]),
        ([6, 4, 9], 3, &[1, 0]),
        ([4, 9, 9], 1, &[0, 0, 0, 0, 0, 1]),
    ] {
        spread(recorder, kind, &counts);
        for task in 0..3 {
            recorder.set(LINE, task, 13);
            recorder.set(signal, task, 1);
        }
        recorder.set(ARRIVALS, 0, arrivals(kind, 3, arrived));
        recorder.run_all(schedule);
        recorder.show();
        for task in 0..3 {
            recorder.turn(task);
        }
    }
}

/// Refused runs close no round, though their first turn would.
fn refused_runs(recorder: &mut Recorder, kind: u8) {
    spread(recorder, kind, &[5, 7, 9]);
    recorder.set(LINE, 0, counting_line(kind).into());
    for (allowance, log, schedule) in [(2, 3, &[0, 1][..]), (1, 1, &[0]), (1, 2, &[0, 3])] {
        recorder.run(allowance, log, schedule);
    }
    recorder.with(COUNT, 2, 1_000_001, |recorder| recorder.run_all(&[0]));
    recorder.run(0, 0, &[0]);
    recorder.run_all(&[]);
    recorder.run_all(&[0]);
    recorder.show();
}

/// A schedule that is too long.
fn too_long_run(recorder: &mut Recorder) {
    spread(recorder, RING, &[5, 7]);
    recorder.set(LINE, 0, 13);
    recorder.run(1, 2, &repeat(0, 65_537));
    recorder.run_all(&[0]);
}
