//! The centralized barrier: its lines by hand and against a plain definition, and pairs with the
//! fetch-and-increment barrier, which it answers like from a fresh state on, under every schedule.

use super::reach::{self, key, lower};
use super::{all_rows, begin, begin_works, number, play};
use crate::cases;
use crate::machine::{in_range, ready, run, turn, Ending, Outcome, Report, State};
use crate::machine::{CENTRALIZED, FETCH_AND_INCREMENT, KINDS, MAX_COUNT, MAX_TALLY};
use crate::machine::{SYMMETRIC, TREE};
use crate::random::Random;
use crate::refusal::Refusal;
use crate::requests::Replay;
use crate::schedules;
use crate::setup::Setup;
use crate::sheet::sheet;
use crate::sheets::texts::{spaced, wide};
use crate::works::{equal, unequal, up_to};
use std::collections::HashSet;

// ---- by hand ----

/// Fresh arrivals are N, and so many tasks have an own sense of 1; no other kind has one.
#[test]
fn fresh_states() {
    for n in 1..=64 {
        let state = begin(CENTRALIZED, n, 0, &[]);
        assert_eq!((u64::from(state.arrivals), state.sense), (n, 1));
        for (number, task) in state.tasks.iter().enumerate() {
            let used = u8::from(number < n as usize);
            assert_eq!((task.sense, task.line, task.aim), (used, 11 * used, 0));
        }
    }
    for kind in KINDS.into_iter().filter(|&kind| kind != CENTRALIZED) {
        let parents = vec![0; if kind == TREE { 3 } else { 0 }];
        let state = begin(kind, 3, if kind == SYMMETRIC { 3 } else { 0 }, &parents);
        assert!(state.arrivals == 0 && state.tasks.iter().all(|task| task.sense == 0));
    }
}

/// The arrivals, the shared sense and the own senses of two tasks.
fn shared(state: &State) -> (u8, u8, [u8; 2]) {
    (state.arrivals, state.sense, [state.tasks[0].sense, state.tasks[1].sense])
}

/// Task 0 arrives first and waits until task 1 has set arrivals to N and then the shared sense;
/// task 1 arrives again before task 0 has left.
#[test]
fn two_rounds() {
    let mut state = begin(CENTRALIZED, 2, 0, &[]);
    assert_eq!(shared(&state), (2, 1, [1, 1]));
    assert_eq!(play(&mut state, &[0, 0]), [(1, 12), (1, 13)]);
    assert_eq!(shared(&state), (2, 1, [0, 1]));
    assert_eq!(play(&mut state, &[0, 0]), [(1, 16), (0, 16)]);
    assert_eq!(shared(&state), (1, 1, [0, 1]));
    assert_eq!(play(&mut state, &[1, 1, 1]), [(1, 12), (1, 13), (1, 14)]);
    assert_eq!(shared(&state), (0, 1, [0, 0]));
    assert_eq!(play(&mut state, &[0, 1, 0]), [(0, 16), (1, 15), (0, 16)]);
    assert_eq!(shared(&state), (2, 1, [0, 0]));
    assert_eq!(play(&mut state, &[1]), [(1, 11)]);
    assert_eq!(shared(&state), (2, 0, [0, 0]));
    assert_eq!(play(&mut state, &[1, 1, 1, 1]), [(1, 12), (1, 13), (1, 16), (0, 16)]);
    assert_eq!(shared(&state), (1, 0, [0, 1]));
    assert_eq!(play(&mut state, &[0, 0, 0, 0]), [(1, 11), (1, 12), (1, 13), (1, 14)]);
    assert_eq!(play(&mut state, &[0, 0, 1]), [(1, 15), (1, 11), (1, 11)]);
    assert_eq!(shared(&state), (2, 1, [1, 1]));
    assert_eq!([state.tasks[0].count, state.tasks[1].count], [2, 2]);
}

/// One task is always the last to arrive, and never comes to 16.
#[test]
fn one_task() {
    let mut state = begin(CENTRALIZED, 1, 0, &[]);
    let round = [(1, 12), (1, 13), (1, 14), (1, 15), (1, 11)];
    for sense in [0, 1, 0] {
        assert_eq!(play(&mut state, &[0; 5]), round);
        assert_eq!((state.arrivals, state.sense, state.tasks[0].sense), (1, sense, sense));
    }
}

/// A task at 13 is refused 7 with arrivals 0 and moves with any other number up to N.
#[test]
fn arrivals_at_13() {
    for n in [1, 2, 3, 63, 64] {
        for arrivals in 0..=n {
            let mut state = begin(CENTRALIZED, n.into(), 0, &[]);
            (state.tasks[0].line, state.arrivals) = (13, arrivals);
            let before = state;
            let answer = turn(&mut state, 0);
            if arrivals == 0 {
                assert_eq!((answer, state), (Err(Refusal::Range), before));
                let other = if n > 1 { Some(1) } else { None };
                assert_eq!(ready(&state), Ok(other));
            } else {
                assert_eq!(answer, Ok(Outcome::Moved { closed: n == 1 }));
                assert_eq!(state.arrivals, arrivals - 1);
                assert_eq!(state.tasks[0].line, if arrivals == 1 { 14 } else { 16 });
            }
        }
    }
}

// ---- a plain definition ----

/// What a turn of task 0 must leave; none where it is refused 7. The waits tell whether it waited.
fn plain(state: &State) -> Option<State> {
    let mut next = *state;
    let own = &mut next.tasks[0];
    match (own.line, state.arrivals) {
        (11, _) => own.line = 12,
        (12, _) => (own.line, own.sense) = (13, own.sense ^ 1),
        (13, 0) => return None,
        (13, arrivals) => {
            (own.line, own.count) = (if arrivals > 1 { 16 } else { 14 }, own.count + 1);
            next.arrivals = arrivals - 1;
        }
        (14, _) => (own.line, next.arrivals) = (15, state.n),
        (15, _) => (own.line, next.sense) = (11, own.sense),
        _ if own.sense == state.sense => own.line = 11,
        _ => {
            own.waits += 1;
            return Some(next);
        }
    }
    next.tasks[0].moves += 1;
    Some(next)
}

/// Every line with every number of arrivals and every pair of senses.
#[test]
fn every_line() {
    for n in [1, 2, 3, 4, 64] {
        for line in 11..=16 {
            for arrivals in 0..=n {
                for senses in all_rows(2, 2) {
                    let mut state = begin(CENTRALIZED, n.into(), 0, &[]);
                    (state.arrivals, state.sense) = (arrivals, senses[0]);
                    (state.tasks[0].line, state.tasks[0].sense) = (line, senses[1]);
                    let expected = plain(&state);
                    let answer = turn(&mut state, 0);
                    match expected {
                        None => assert_eq!(answer, Err(Refusal::Range)),
                        Some(next) => assert_eq!((answer.is_ok(), state), (true, next)),
                    }
                }
            }
        }
    }
}

// ---- pairs ----

/// A state of kind 1 and one of kind 4 after the same calls.
#[derive(Clone, Copy)]
struct Pair {
    up: State,
    down: State,
}

impl Pair {
    /// Fresh states with the same work table.
    fn new(works: &[u8]) -> Pair {
        let [up, down] = [FETCH_AND_INCREMENT, CENTRALIZED].map(|kind| begin_works(kind, works));
        Pair { up, down }
    }

    /// The same change of both.
    fn change(&mut self, change: impl Fn(&mut State)) {
        change(&mut self.up);
        change(&mut self.down);
    }

    /// The same turn of both: the answers are equal, round flags and refusals too.
    fn turn(&mut self, task: u64) -> Result<Outcome, Refusal> {
        let answer = turn(&mut self.up, task);
        assert_eq!(turn(&mut self.down, task), answer);
        answer
    }

    /// The same run of both: the reports and the logs are equal.
    fn run(&mut self, schedule: &[u8], allowance: u64, length: usize) -> Report {
        let (mut up, mut down) = (vec![255; length], vec![255; length]);
        let report = run(&mut self.up, schedule, allowance, &mut up);
        assert_eq!(run(&mut self.down, schedule, allowance, &mut down), report);
        assert_eq!(up, down);
        report
    }

    /// What holds of the two states.
    fn check(&self) {
        let Pair { up, down } = self;
        let n = usize::from(up.n);
        assert!(in_range(up) && in_range(down), "{up:?} {down:?}");
        assert_eq!((up.arrivals + down.arrivals, up.sense), (up.n, down.sense));
        assert_eq!(ready(up), ready(down));
        for (up, down) in up.tasks[..n].iter().zip(&down.tasks[..n]) {
            assert_eq!((up.line, up.count, up.left), (down.line, down.count, down.left));
            assert_eq!((up.moves, up.waits, up.work), (down.moves, down.waits, down.work));
            assert!(!(13..=16).contains(&up.line) || up.aim == down.sense, "{up:?} {down:?}");
            assert_eq!((up.sense, down.aim), (0, 0));
        }
    }

    /// The fields by which reached pairs differ, but the tallies.
    fn key(&self) -> Vec<u8> {
        [key(&self.up), key(&self.down)].concat()
    }
}

/// Visits every pair that turns reach from fresh states, and from each one makes every run of so
/// many turns. Gives the number of pairs.
fn visit(works: &[u8], length: u32) -> usize {
    let n = works.len();
    let fresh = Pair::new(works);
    let mut seen = HashSet::from([fresh.key()]);
    let mut open = vec![fresh];
    while let Some(pair) = open.pop() {
        pair.check();
        for schedule in all_rows(n, length) {
            let mut next = pair;
            next.run(&schedule, u64::MAX, 2 * schedule.len());
            next.check();
        }
        for task in 0..n as u64 {
            let mut next = pair;
            assert!(next.turn(task).is_ok());
            next.change(lower);
            if seen.insert(next.key()) {
                open.push(next);
            }
        }
    }
    seen.len()
}

/// Kind 1's state says which the other one is, so that the pairs are as many as its reached states.
/// Those of kind 4 are fewer: a task's own sense is 1 when it is fresh as after two rounds, where
/// kind 1's aim is 0 and then 1.
fn check_pairs(works: &[u8], length: u32) {
    let pairs = visit(works, length);
    let [up, down] = [FETCH_AND_INCREMENT, CENTRALIZED].map(|kind| begin_works(kind, works));
    assert_eq!(pairs, reach::visit(up), "{works:?}");
    assert!(pairs > reach::visit(down), "{works:?}");
}

#[test]
fn all_pairs_of_a_few_tasks() {
    for (n, length) in [(1, 6), (2, 4), (3, 3), (4, 1), (5, 0)] {
        check_pairs(&equal(1, n), length);
    }
}

#[test]
fn all_pairs_with_work() {
    for row in all_rows(3, 2) {
        check_pairs(&[row[0] + 1, row[1] + 1], 3);
    }
    for works in [[2, 1, 3], [1, 4, 1], [3, 2, 2]] {
        check_pairs(&works, 1);
    }
}

/// A call of both: a turn, which may name no task, or a run, which may be refused or spent. Gives
/// the refusal's number, or 0.
fn call(random: &mut Random, pair: &mut Pair) -> u8 {
    let n = usize::from(pair.up.n);
    if random.once_in(3) {
        let more = u64::from(random.once_in(9));
        return number(pair.turn(random.below(n as u64 + more)));
    }
    let length = random.length(0, 30 + 6 * n);
    let mut schedule = schedules::any(random, n, length);
    if random.once_in(9) {
        schedule.push(n as u8);
    }
    let allowance = random.below(2 * length as u64 + 1);
    let log = (2 * length).saturating_sub(random.below(5) as usize / 4);
    match pair.run(&schedule, allowance, log).ending {
        Ending::Stopped(refusal) | Ending::Refused(refusal) => refusal.number(),
        Ending::Done | Ending::Spent => 0,
    }
}

/// Random turns and runs of up to 64 tasks. Now and then counts or tallies come near their limits,
/// of both alike, so that 11 and 13 are met too.
#[test]
fn random_pairs() {
    let mut random = Random::new(12);
    let mut refused = [0; 14];
    for _ in 0..1_500 {
        let n = random.pick(&[1, 2, 3, 4, 5, 8, 12, 31, 63, 64]);
        let most = random.pick(&[1, 1, 3, 9]);
        let mut pair = Pair::new(&up_to(&mut random, most, n));
        let (count, tally) = (random.below(9) as u32, random.below(60) as u32);
        match random.below(6) {
            0 => pair.change(|state| state.tasks[n - 1].count = MAX_COUNT - count),
            1 => pair.change(|state| state.tasks[0].moves = MAX_TALLY - tally),
            2 => pair.change(|state| state.tasks[n / 2].waits = MAX_TALLY - tally),
            _ => {}
        }
        for _ in 0..12 {
            refused[usize::from(call(&mut random, &mut pair))] += 1;
            pair.check();
        }
    }
    assert!([0, 9, 10, 11, 13].iter().all(|&number| refused[number] > 100), "{refused:?}");
    assert_eq!(refused[7], 0);
}

/// The longest schedules, so that many tasks make many rounds.
#[test]
fn longest_runs() {
    let mut random = Random::new(13);
    for (n, rounds) in [(2, 1_000), (12, 100), (64, 10)] {
        let mut pair = Pair::new(&equal(1, n));
        for _ in 0..3 {
            let schedule = schedules::uniform(&mut random, n, 65_536);
            let report = pair.run(&schedule, u64::MAX, 131_072);
            assert_eq!(report.ending, Ending::Done);
            assert!(report.rounds > rounds, "{}", report.rounds);
            pair.check();
        }
    }
}

/// The sheets of both kinds are the same, and so are their traces.
#[test]
fn sheets_and_traces() {
    let mut random = Random::new(14);
    for _ in 0..200 {
        let n = random.length(1, 64);
        let length = random.length(0, 20 * n);
        let schedule = schedules::any(&mut random, n, length);
        let [up, down] = [1, 4].map(|kind| {
            let text = spaced(&[vec![kind, n as u64, 0], wide(&schedule)].concat());
            let setup = Setup { kind, n: n as u64, works: unequal(n), ..Setup::default() };
            (sheet(text.as_bytes()), setup.trace(&schedule))
        });
        assert!(up.0.starts_with("task") && up == down, "{} {}", up.0, down.0);
    }
}

// ---- the stored cases ----

/// The request with kinds 1 and 4 in each other's place, if it makes a fresh state of one of them.
fn of_the_other_kind(request: &[u8]) -> Option<String> {
    let (number, rest) = str::from_utf8(request).ok()?.split_once(' ')?;
    let (kind, rest) = rest.split_once(' ')?;
    let other = match kind {
        "1" => "4",
        "4" => "1",
        _ => return None,
    };
    ["1", "10", "11"].contains(&number).then(|| format!("{number} {other} {rest}"))
}

/// Every stored request of a state that wasn't edited, with the two kinds in each other's place, is
/// answered as it was. Only the states that are shown differ.
#[test]
fn stored_requests_of_the_other_kind() {
    let stored = cases::stored();
    let requests = stored.requests().split(|&byte| byte == b'\n');
    let answers = stored.answers().split(|&byte| byte == b'\n');
    let mut replay = Replay::default();
    let (mut edited, mut changed) = (false, 0);
    for (request, answer) in requests.zip(answers).take(stored.count()) {
        let other = of_the_other_kind(request).filter(|_| answer != b"bad line");
        let given = match &other {
            Some(other) => replay.answer(other.as_bytes()),
            None => replay.answer(request),
        };
        // Only a changed field is answered so. A fresh state of these kinds is a new beginning.
        edited = other.is_none() && (edited || answer == b"ok");
        changed += usize::from(other.is_some());
        if !edited && request != b"5" {
            assert!(given.as_bytes() == answer, "{}", String::from_utf8_lossy(request));
        }
    }
    assert!(changed > 2_000, "{changed}");
}

// ---- what the pairs stand on ----

/// Kind 1's 12 reads the shared sense, kind 4's the own one: from states that no fresh one leads
/// to, the two may part.
#[test]
fn edited_states_may_part() {
    for (own, aim) in [(0, 1), (1, 0)] {
        let mut pair = Pair::new(&[1]);
        pair.change(|state| (state.tasks[0].line, state.sense) = (12, 0));
        pair.down.tasks[0].sense = own;
        assert!(pair.turn(0).is_ok());
        assert_eq!((pair.up.tasks[0].aim, pair.down.tasks[0].sense), (1, aim));
    }
}
