//! Tallies: held against a plain count of the answers given, and 13 against what the same turn does
//! with tallies of 0.

use super::{begin, begin_any, number, play};
use crate::machine::{counting_line, in_range, ready, run, step_if, turn, Ending, Outcome, State};
use crate::machine::{CENTRALIZED, FETCH_AND_INCREMENT, KINDS, RING, SYMMETRIC, TREE};
use crate::machine::{MAX_COUNT, MAX_TALLY};
use crate::random::Random;
use crate::refusal::Refusal;
use crate::schedules::{self, repeat};

const MOVED: Result<Outcome, Refusal> = Ok(Outcome::Moved { closed: false });
const WAITED: Result<Outcome, Refusal> = Ok(Outcome::Waited);
const FULL: Result<Outcome, Refusal> = Err(Refusal::TallyLimit);

// ---- a plain count ----

/// How many answers of each sort every task was given: moved, and waited.
#[derive(Clone, Copy, Debug, PartialEq)]
pub struct Given {
    moved: [u32; 64],
    waited: [u32; 64],
}

impl Default for Given {
    fn default() -> Given {
        Given { moved: [0; 64], waited: [0; 64] }
    }
}

impl Given {
    /// Counts the answer to a single turn.
    pub fn count(&mut self, task: usize, answer: Result<Outcome, Refusal>) {
        match answer {
            Ok(Outcome::Moved { .. }) => self.moved[task] += 1,
            Ok(Outcome::Waited) => self.waited[task] += 1,
            Err(_) => {}
        }
    }

    /// Counts the turns of a run by what it wrote into the log; 255 is what it found there.
    fn count_logged(&mut self, schedule: &[u8], log: &[u8]) {
        for (&task, entry) in schedule.iter().zip(log.chunks_exact(2)) {
            match entry[1] {
                0 => self.waited[usize::from(task)] += 1,
                1 => self.moved[usize::from(task)] += 1,
                byte => assert_eq!(byte, 255),
            }
        }
    }

    /// The tallies of a state reached from a fresh one are what was counted.
    pub fn check(&self, state: &State) {
        assert_eq!(self.moved, state.tasks.map(|task| task.moves));
        assert_eq!(self.waited, state.tasks.map(|task| task.waits));
    }
}

/// A run that may be refused as a whole or spent; its turns are counted by its log.
fn any_run(random: &mut Random, state: &mut State, given: &mut Given) {
    let length = random.length(0, 150);
    let mut schedule = schedules::any(random, state.n.into(), length);
    if random.once_in(6) {
        schedule.push(state.n);
    }
    let mut log = vec![255; 2 * length - random.below(2).min(length as u64) as usize];
    let mut own = Given::default();
    let report = run(state, &schedule, random.below(200), &mut log);
    own.count_logged(&schedule, &log);
    given.count_logged(&schedule, &log);
    assert_eq!((report.moves, report.waits), (own.moved, own.waited));
}

/// Single turns and runs in any order from a fresh state, some of them refused.
#[test]
fn long_sessions() {
    let mut random = Random::new(4);
    for _ in 0..400 {
        let mut state = begin_any(&mut random);
        let mut given = Given::default();
        for _ in 0..40 {
            if random.once_in(4) {
                any_run(&mut random, &mut state, &mut given);
            } else {
                let task = random.below(u64::from(state.n) + 1);
                let answer = turn(&mut state, task);
                given.count(task as usize, answer);
            }
            given.check(&state);
        }
    }
}

/// The longest schedules, one after another.
#[test]
fn longest_runs() {
    let mut random = Random::new(5);
    for kind in KINDS {
        let parents = vec![0; if kind == TREE { 64 } else { 0 }];
        let mut state = begin(kind, 64, if kind == SYMMETRIC { 3 } else { 0 }, &parents);
        let mut given = Given::default();
        for _ in 0..3 {
            let schedule = schedules::any(&mut random, 64, 65_536);
            let mut log = vec![255; 131_072];
            assert_eq!(run(&mut state, &schedule, 65_536, &mut log).ending, Ending::Done);
            given.count_logged(&schedule, &log);
            given.check(&state);
        }
    }
}

/// The tallies of the first n tasks, moves and waits.
fn tallies(state: &State, n: usize) -> Vec<(u32, u32)> {
    state.tasks[..n].iter().map(|task| (task.moves, task.waits)).collect()
}

/// The scope's cases: its sheet, a ring's and a tree's wait, and the ring in reverse, whose task 0
/// moves at 11, 12 and 13 and the others at 11 alone.
#[test]
fn by_hand() {
    let mut state = begin(FETCH_AND_INCREMENT, 2, 0, &[]);
    play(&mut state, &[0, 0, 0, 0, 1, 1, 1, 1, 1, 0]);
    assert_eq!(tallies(&state, 2), [(4, 1), (5, 0)]);
    let mut state = begin(RING, 2, 0, &[]);
    play(&mut state, &[1, 1]);
    assert_eq!(tallies(&state, 2), [(0, 0), (1, 1)]);
    let mut state = begin(TREE, 2, 0, &[0, 0]);
    play(&mut state, &[0; 4]);
    assert_eq!(tallies(&state, 2), [(3, 1), (0, 0)]);
    let mut state = begin(RING, 3, 0, &[]);
    for task in [2, 1, 0] {
        run(&mut state, &repeat(task, 100), 100, &mut [255; 200]);
    }
    assert_eq!(tallies(&state, 4), [(3, 97), (1, 99), (1, 99), (0, 0)]);
}

// ---- 13 against the same turn without tallies ----

/// A random state in range, at lines that it may not reach so.
fn any_state(random: &mut Random) -> State {
    let mut state = begin_any(random);
    let schedule = schedules::any(random, state.n.into(), 60);
    run(&mut state, &schedule, random.below(61), &mut [255; 120]);
    let (kind, line) = (state.kind, counting_line(state.kind));
    for task in &mut state.tasks[..usize::from(state.n)] {
        let last = [14, 16, 15, 18, 16][usize::from(kind)];
        match random.below(4) {
            0 => task.line = random.length(11, last) as u8,
            1 => (task.line, task.count) = (line, random.pick(&[MAX_COUNT - 1, MAX_COUNT])),
            _ => {}
        }
    }
    match kind {
        FETCH_AND_INCREMENT if random.once_in(3) => state.arrivals = state.n,
        CENTRALIZED if random.once_in(3) => state.arrivals = 0,
        _ => {}
    }
    state
}

/// Gives every task tallies at the limit, near it or far from it.
fn fill(random: &mut Random, state: &mut State) {
    for task in &mut state.tasks[..usize::from(state.n)] {
        let tally = |random: &mut Random| match random.below(3) {
            0 => random.below(9) as u32,
            _ => MAX_TALLY - random.below(4) as u32,
        };
        (task.moves, task.waits) = (tally(random), tally(random));
    }
}

/// The state with all tallies 0.
fn emptied(mut state: State) -> State {
    for task in &mut state.tasks {
        (task.moves, task.waits) = (0, 0);
    }
    state
}

/// What the turn must do: what it does with tallies of 0, unless the tally to be raised is full.
fn expected(state: &State, task: usize) -> (Result<Outcome, Refusal>, State) {
    let mut next = emptied(*state);
    let answer = turn(&mut next, task as u64);
    let own = state.tasks[task];
    let (moves, waits) = match answer {
        Ok(Outcome::Moved { .. }) => (own.moves + 1, own.waits),
        Ok(Outcome::Waited) => (own.moves, own.waits + 1),
        Err(_) => return (answer, *state),
    };
    if moves > 4_000_000_000 || waits > 4_000_000_000 {
        return (FULL, *state);
    }
    for (after, before) in next.tasks.iter_mut().zip(&state.tasks) {
        (after.moves, after.waits) = (before.moves, before.waits);
    }
    (next.tasks[task].moves, next.tasks[task].waits) = (moves, waits);
    (answer, next)
}

#[test]
fn turns_and_ready_with_any_tallies() {
    let mut random = Random::new(6);
    let mut refused = [0; 14];
    for _ in 0..20_000 {
        let mut state = any_state(&mut random);
        fill(&mut random, &mut state);
        let mut moving = None;
        for task in 0..usize::from(state.n) {
            let mut next = state;
            let answer = turn(&mut next, task as u64);
            assert_eq!((answer, next), expected(&state, task));
            assert!(in_range(&next));
            refused[usize::from(number(answer))] += 1;
            if moving.is_none() && matches!(answer, Ok(Outcome::Moved { .. })) {
                moving = Some(task);
            }
        }
        assert_eq!(ready(&state), Ok(moving));
    }
    assert!([0, 7, 11, 13].iter().all(|&number| refused[number] > 1_000), "{refused:?}");
}

/// A turn that is made only if it moves, or only if it waits, is the turn or changes nothing.
#[test]
fn turns_made_on_a_condition() {
    let mut random = Random::new(9);
    let mut made = [[0; 2]; 2];
    for _ in 0..10_000 {
        let mut state = any_state(&mut random);
        fill(&mut random, &mut state);
        for task in 0..usize::from(state.n) {
            let (answer, after) = expected(&state, task);
            for moves in [false, true] {
                let fits = match answer {
                    Ok(outcome) => (outcome != Outcome::Waited) == moves,
                    Err(_) => false,
                };
                let mut next = state;
                assert_eq!(step_if(&mut next, task, moves), fits);
                assert_eq!(next, if fits { after } else { state });
                made[usize::from(moves)][usize::from(fits)] += 1;
            }
        }
    }
    assert!(made.concat().iter().all(|&times| times > 1_000), "{made:?}");
}

/// The answers to the turns up to the first that is refused, and what a log of 120 bytes must hold.
fn by_turns(state: &mut State, schedule: &[u8]) -> (Vec<Result<Outcome, Refusal>>, Vec<u8>) {
    let (mut answers, mut log) = (Vec::new(), Vec::new());
    for &task in schedule {
        let line = state.tasks[usize::from(task)].line;
        answers.push(turn(state, task.into()));
        match answers.last() {
            Some(Ok(outcome)) => log.extend([line, u8::from(*outcome != Outcome::Waited)]),
            _ => break,
        }
    }
    log.resize(120, 255);
    (answers, log)
}

/// A run is its turns up to the first that is refused, also where that is 13.
#[test]
fn runs_with_any_tallies() {
    let mut random = Random::new(7);
    let mut stopped = 0;
    for _ in 0..4_000 {
        let mut state = any_state(&mut random);
        fill(&mut random, &mut state);
        let schedule = schedules::any(&mut random, state.n.into(), 60);
        let allowance = random.length(0, 60);
        let mut other = state;
        let (answers, expected) = by_turns(&mut other, &schedule[..allowance]);
        let mut given = Given::default();
        for (&task, &answer) in schedule.iter().zip(&answers) {
            given.count(task.into(), answer);
        }
        let ending = match answers.last() {
            Some(Err(refusal)) => Ending::Stopped(*refusal),
            _ if allowance < 60 => Ending::Spent,
            _ => Ending::Done,
        };
        let closing = Ok(Outcome::Moved { closed: true });
        let rounds = answers.iter().filter(|&answer| *answer == closing).count();
        let turns = answers.iter().filter(|answer| answer.is_ok()).count();
        let mut log = vec![255; 120];
        let report = run(&mut state, &schedule, allowance as u64, &mut log);
        assert_eq!((report.ending, report.turns, report.rounds), (ending, turns, rounds));
        assert_eq!((report.moves, report.waits), (given.moved, given.waited));
        assert_eq!((state, log), (other, expected));
        stopped += u32::from(turns > 0 && answers.last() == Some(&FULL));
    }
    assert!(stopped > 500, "{stopped}");
}

// ---- 13 by hand ----

/// Task 1 of a ring at 11, where it moves, then at 12, where it waits.
#[test]
fn only_the_tally_that_rises() {
    let mut state = begin(RING, 2, 0, &[]);
    (state.tasks[1].moves, state.tasks[1].waits) = (MAX_TALLY, 0);
    assert_eq!(turn(&mut state, 1), FULL);
    assert_eq!(ready(&state), Ok(Some(0)));
    (state.tasks[1].moves, state.tasks[1].waits) = (MAX_TALLY - 1, MAX_TALLY);
    assert_eq!(turn(&mut state, 1), MOVED);
    assert_eq!(tallies(&state, 2), [(0, 0), (MAX_TALLY, MAX_TALLY)]);
    assert_eq!(turn(&mut state, 1), FULL);
    state.tasks[1].waits = MAX_TALLY - 1;
    assert_eq!(turn(&mut state, 1), WAITED);
    assert_eq!(tallies(&state, 2), [(0, 0), (MAX_TALLY, MAX_TALLY)]);
    let before = state;
    assert_eq!(turn(&mut state, 1), FULL);
    assert_eq!(state, before);
}

/// 7 of the range, 9, 7 of line 13 of kinds 1 and 4, 11, 13: each is given where the later ones
/// apply too.
#[test]
fn order_of_a_turn() {
    check_order(FETCH_AND_INCREMENT, 2);
    check_order(CENTRALIZED, 0);
}

/// The order where all have arrived with this number of arrivals.
fn check_order(kind: u8, all: u8) {
    let mut state = begin(kind, 2, 0, &[]);
    for task in &mut state.tasks[..2] {
        (task.line, task.count) = (13, MAX_COUNT);
        (task.moves, task.waits) = (MAX_TALLY, MAX_TALLY);
    }
    state.arrivals = 3;
    assert_eq!(turn(&mut state, 2), Err(Refusal::Range));
    state.arrivals = all;
    assert_eq!(turn(&mut state, 2), Err(Refusal::Task));
    assert_eq!(turn(&mut state, 1), Err(Refusal::Range));
    state.arrivals = 1;
    assert_eq!(turn(&mut state, 1), Err(Refusal::CountLimit));
    state.tasks[1].count -= 1;
    assert_eq!((turn(&mut state, 1), ready(&state)), (FULL, Ok(None)));
    state.tasks[1].moves -= 1;
    assert_eq!(ready(&state), Ok(Some(1)));
    assert_eq!(turn(&mut state, 1), Ok(Outcome::Moved { closed: true }));
}

/// Task 0 of each kind is alone, so that it never waits: a round has 5 turns, a tree's 7. Three
/// rounds fit the tally, and the next turn is refused.
#[test]
fn run_stopped_after_rounds() {
    for (kind, turns) in KINDS.into_iter().zip([5, 5, 5, 7, 5]) {
        let parents = vec![0; usize::from(kind == TREE)];
        let mut fresh = begin(kind, 1, if kind == SYMMETRIC { 3 } else { 0 }, &parents);
        fresh.tasks[0].moves = MAX_TALLY - 3 * turns;
        let made = 3 * turns as usize;
        for (allowance, ending) in [
            (made, Ending::Spent),
            (made + 1, Ending::Stopped(Refusal::TallyLimit)),
            (40, Ending::Stopped(Refusal::TallyLimit)),
        ] {
            let mut state = fresh;
            let mut log = [255; 80];
            let report = run(&mut state, &[0; 40], allowance as u64, &mut log);
            assert_eq!((report.ending, report.turns, report.rounds), (ending, made, 3));
            assert_eq!((report.moves[0], report.waits[0]), (3 * turns, 0));
            assert_eq!(tallies(&state, 2), [(MAX_TALLY, 0), (0, 0)]);
            assert!(log[..2 * made].iter().all(|&byte| byte != 255));
            assert!(log[2 * made..].iter().all(|&byte| byte == 255));
        }
    }
}

// ---- ranges ----

/// Every call that looks at the ranges refuses the state 7, or none does.
pub fn check_range(mut state: State, fits: bool) {
    assert_eq!(in_range(&state), fits);
    assert_eq!(number(ready(&state)), if fits { 0 } else { 7 });
    assert_eq!(number(turn(&mut state, 9)), if fits { 9 } else { 7 });
    let report = run(&mut state, &[9], 0, &mut []);
    let refusal = if fits { Refusal::TaskAt(0) } else { Refusal::Range };
    assert_eq!(report.ending, Ending::Refused(refusal));
}

#[test]
fn ranges_of_tallies() {
    for kind in KINDS {
        let parents = vec![0; if kind == TREE { 3 } else { 0 }];
        let fresh = begin(kind, 3, if kind == SYMMETRIC { 3 } else { 0 }, &parents);
        for task in 0..64 {
            for tally in [1, MAX_TALLY - 1, MAX_TALLY, MAX_TALLY + 1, u32::MAX] {
                let fits = task < 3 && tally <= 4_000_000_000;
                let (mut moves, mut waits) = (fresh, fresh);
                moves.tasks[task].moves = tally;
                waits.tasks[task].waits = tally;
                check_range(moves, fits);
                check_range(waits, fits);
            }
        }
    }
}
