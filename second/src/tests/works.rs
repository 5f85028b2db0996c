//! Own work: rounds by hand, every work length, turns against a plain definition, the refusals and
//! ranges, a table of ones against none, and how many passes raise the least count.

use super::tallies::check_range;
use super::{begin, begin_any, begin_works, least, number, play, tables_number};
use crate::cases;
use crate::machine::{fresh, in_range, ready, run, turn, Ending, Outcome, State, Tables};
use crate::machine::{CENTRALIZED, FETCH_AND_INCREMENT, KINDS, RING, SYMMETRIC, TREE};
use crate::machine::{MAX_COUNT, MAX_TALLY};
use crate::playback::{self, Verdict};
use crate::random::Random;
use crate::recorder::line;
use crate::refusal::Refusal;
use crate::requests::Replay;
use crate::schedules::{self, repeat};
use crate::setup::Setup;
use crate::traces;
use crate::works::{equal, unequal, up_to};

const MOVED: Result<Outcome, Refusal> = Ok(Outcome::Moved { closed: false });

// ---- by hand ----

/// The line, the work length, the moves left and the tally of moves.
fn at(state: &State, task: usize) -> (u8, u8, u8, u32) {
    let own = &state.tasks[task];
    (own.line, own.work, own.left, own.moves)
}

/// A ring of two whose work takes three moves and one.
#[test]
fn three_moves_and_one() {
    let mut state = begin_works(RING, &[3, 1]);
    assert_eq!((at(&state, 0), at(&state, 1)), ((11, 3, 3, 0), (11, 1, 1, 0)));
    assert_eq!(at(&state, 2), (0, 0, 0, 0));
    assert_eq!(play(&mut state, &[0, 1, 1, 0]), [(1, 11), (1, 12), (0, 12), (1, 11)]);
    assert_eq!((at(&state, 0), at(&state, 1)), ((11, 3, 1, 2), (12, 1, 1, 1)));
    assert_eq!(play(&mut state, &[0, 0, 0]), [(1, 12), (1, 13), (1, 14)]);
    assert_eq!(at(&state, 0), (14, 3, 3, 5));
    play(&mut state, &[1, 1, 0, 0, 0]);
    assert_eq!((at(&state, 0), state.tasks[0].count), ((11, 3, 2, 8), 1));
}

/// Without a table, and with request 1, every work length is 1; tasks from N on have none.
#[test]
fn no_table() {
    for kind in KINDS {
        let parents = vec![0; if kind == TREE { 3 } else { 0 }];
        let state = begin(kind, 3, if kind == SYMMETRIC { 3 } else { 0 }, &parents);
        assert_eq!(state, begin_works(kind, &[1, 1, 1]));
        for (number, task) in state.tasks.iter().enumerate() {
            let work = u8::from(number < 3);
            assert_eq!((task.work, task.left), (work, work));
        }
    }
}

/// One task with every work length: in each of two rounds it moves so often at 11 and at the other
/// lines as without a table. Only the line that counts closes a round.
#[test]
fn every_work_length() {
    for (kind, others) in KINDS.into_iter().zip([4, 4, 4, 6, 4]) {
        for work in 1..=255 {
            let mut state = begin_works(kind, &[work]);
            let work = usize::from(work);
            let mut log = vec![255; 4 * (work + others)];
            let report = run(&mut state, &repeat(0, log.len() / 2), u64::MAX, &mut log);
            assert_eq!((report.ending, report.rounds), (Ending::Done, 2));
            assert_eq!(at(&state, 0), (11, work as u8, work as u8, log.len() as u32 / 2));
            for round in log.chunks(2 * (work + others)) {
                let (own, rest) = round.split_at(2 * work);
                assert!(own.chunks(2).all(|entry| entry == [11, 1]));
                assert!(rest[..2] == [12, 1] && rest.chunks(2).all(|entry| entry[0] > 11));
            }
        }
    }
}

/// A full tally refuses a move of the work, and nothing is made of it; a full count doesn't matter.
#[test]
fn limits() {
    for kind in KINDS {
        let mut state = begin_works(kind, &[3, 3]);
        (state.tasks[0].moves, state.tasks[1].count) = (MAX_TALLY - 1, MAX_COUNT);
        assert_eq!(turn(&mut state, 0), MOVED);
        let before = state;
        assert_eq!(turn(&mut state, 0), Err(Refusal::TallyLimit));
        assert_eq!((ready(&state), state), (Ok(Some(1)), before));
        assert_eq!(play(&mut state, &[1, 1, 1]), [(1, 11), (1, 11), (1, 12)]);
    }
}

// ---- a plain definition ----

/// A barrier without work, and for each task the moves left before it leaves 11.
struct Plain {
    bare: State,
    works: Vec<u8>,
    left: Vec<u8>,
    /// The moves at 11 that the barrier without work hasn't made.
    more: Vec<u32>,
}

impl Plain {
    /// The same fresh state without work.
    fn new(state: &State) -> Plain {
        let n = usize::from(state.n);
        let works: Vec<u8> = state.tasks[..n].iter().map(|task| task.work).collect();
        let mut bare = *state;
        for task in &mut bare.tasks[..n] {
            (task.work, task.left) = (1, 1);
        }
        Plain { bare, left: works.clone(), works, more: vec![0; n] }
    }

    fn turn(&mut self, task: usize) -> Result<Outcome, Refusal> {
        let works = self.bare.tasks[task].line == 11;
        if works && self.left[task] > 1 {
            self.left[task] -= 1;
            self.more[task] += 1;
            return MOVED;
        }
        if works {
            self.left[task] = self.works[task];
        }
        turn(&mut self.bare, task as u64)
    }

    /// The state with its work.
    fn state(&self) -> State {
        let mut state = self.bare;
        for (number, task) in state.tasks[..self.works.len()].iter_mut().enumerate() {
            (task.work, task.left) = (self.works[number], self.left[number]);
            task.moves += self.more[number];
        }
        state
    }
}

#[test]
fn turns_of_random_barriers() {
    let mut random = Random::new(10);
    for _ in 0..400 {
        let mut state = begin_any(&mut random);
        let mut plain = Plain::new(&state);
        let length = random.length(0, 400);
        for task in schedules::any(&mut random, state.n.into(), length) {
            assert_eq!(turn(&mut state, task.into()), plain.turn(task.into()));
            assert_eq!(state, plain.state());
            assert!(in_range(&state));
        }
    }
}

// ---- a table of ones ----

/// The request with a table of ones, if it makes a fresh state without a work table.
fn with_ones(request: &[u8]) -> Option<String> {
    let words = request.split(|&byte| byte == b' ');
    let numbers: Option<Vec<u64>> =
        words.map(|word| str::from_utf8(word).ok()?.parse().ok()).collect();
    let numbers = numbers?;
    let (head, entries) = match &numbers[..] {
        [1, kind, n, modulus, parents @ ..] => {
            ([10, *kind, *n, *modulus, parents.len() as u64, 0], parents)
        }
        [request @ (10 | 11), kind, n, modulus, parents, starts, 0, entries @ ..] => {
            ([*request, *kind, *n, *modulus, *parents, *starts], entries)
        }
        _ => return None,
    };
    // A larger N is refused, whatever the table's length.
    let n = head[2].min(65);
    let (before, after) = entries.split_at((head[4] + head[5]) as usize);
    Some(line(&[&head, &[n][..], before, &vec![1; n as usize], after].concat(), &[]))
}

/// Every stored request, with a table of ones where it has none, is answered as it was.
#[test]
fn ones_are_no_table() {
    let stored = cases::stored();
    let requests = stored.requests().split(|&byte| byte == b'\n');
    let answers = stored.answers().split(|&byte| byte == b'\n');
    let mut replay = Replay::default();
    let mut changed = 0;
    for (request, answer) in requests.zip(answers).take(stored.count()) {
        let other = if answer == b"bad line" { None } else { with_ones(request) };
        changed += usize::from(other.is_some());
        let given = match &other {
            Some(other) => replay.answer(other.as_bytes()),
            None => replay.answer(request),
        };
        assert!(given.as_bytes() == answer, "{}", String::from_utf8_lossy(request));
    }
    assert!(changed > 4_000, "{changed}");
}

// ---- refusals and ranges ----

/// The refusal's number of a fresh state of a kind that is accepted if its work table is.
fn works_number(kind: u8, n: usize, works: &[u8]) -> u8 {
    let modulus = if kind == SYMMETRIC { 3 } else { 0 };
    let parents = vec![0; if kind == TREE { n } else { 0 }];
    let tables = Tables { parents: &parents, starts: &[], works };
    tables_number(kind.into(), n as u64, modulus, tables)
}

#[test]
fn lengths_and_entries() {
    for kind in KINDS {
        for n in [1, 2, 63, 64] {
            for length in [0, 1, n - 1, n, n + 1, 256, 256 + n] {
                let fits = length == 0 || length == n;
                assert_eq!(works_number(kind, n, &equal(1, length)), if fits { 0 } else { 15 });
            }
            for task in [0, n / 2, n - 1] {
                for work in 0..=255 {
                    let mut works = unequal(n);
                    works[task] = work;
                    assert_eq!(works_number(kind, n, &works), if work > 0 { 0 } else { 15 });
                }
            }
        }
    }
}

#[test]
fn works_come_after_the_other_tables() {
    for (kind, n, modulus, [parents, starts, works], expected) in [
        (5, 2, 0, [&[][..], &[], &[0]], 2),
        (4, 2, 0, [&[0], &[], &[0]], 5),
        (4, 2, 0, [&[], &[0, 0], &[0]], 12),
        (4, 2, 0, [&[], &[], &[1, 0]], 15),
        (2, 0, 0, [&[], &[], &[0]], 3),
        (2, 65, 0, [&[], &[], &[0; 65]], 3),
        (2, 2, 3, [&[], &[], &[0]], 4),
        (2, 2, 0, [&[0], &[], &[0]], 5),
        (3, 2, 0, [&[0, 1], &[], &[0]], 6),
        (2, 2, 0, [&[], &[0, 0], &[0]], 12),
        (0, 2, 3, [&[], &[0, 2], &[0, 1]], 12),
        (0, 2, 3, [&[], &[0, 1], &[0, 1]], 15),
        (3, 2, 0, [&[0, 0], &[], &[1]], 15),
    ] {
        let tables = Tables { parents, starts, works };
        assert_eq!(tables_number(kind, n, modulus, tables), expected);
    }
    let mut state = begin_works(RING, &[2, 3]);
    let tables = Tables { works: &[2, 0], ..Tables::default() };
    assert_eq!(fresh(&mut state, 2, 2, 0, tables), Err(Refusal::Works));
    assert_eq!(state, State::ZERO);
}

/// Every pair of a work length and moves left, at 11 and at the kind's last line; and of a task
/// from N on.
#[test]
fn ranges() {
    for (kind, last) in KINDS.into_iter().zip([14, 16, 15, 18, 16]) {
        for work in 0..=255 {
            for left in 0..=255 {
                let mut state = begin_works(kind, &[2, 1, 4]);
                state.tasks[1].line = if (work ^ left) % 2 == 0 { 11 } else { last };
                (state.tasks[1].work, state.tasks[1].left) = (work, left);
                assert_eq!(in_range(&state), left >= 1 && left <= work, "{work} {left}");
            }
        }
        for (task, work, left) in [(3, 1, 1), (3, 1, 0), (3, 0, 1), (63, 0, 1), (63, 255, 0)] {
            let mut state = begin_works(kind, &[2, 1, 4]);
            (state.tasks[task].work, state.tasks[task].left) = (work, left);
            check_range(state, false);
        }
    }
}

/// A task that isn't at 11 has fewer moves left: so many it makes when it comes to 11, and then its
/// whole work again.
#[test]
fn fewer_left_elsewhere() {
    for kind in KINDS {
        for left in 1..=5 {
            let mut state = begin_works(kind, &[5]);
            play(&mut state, &[0; 6]);
            state.tasks[0].left = left;
            let lines: Vec<u8> = play(&mut state, &[0; 40]).iter().map(|&(_, line)| line).collect();
            let stays = lines.split(|&line| line > 11).map(<[u8]>::len);
            let stays: Vec<usize> = stays.filter(|&stay| stay > 0).collect();
            assert_eq!(stays[..2], [usize::from(left), 5], "kind {kind}");
        }
    }
}

// ---- play-back ----

/// A task leaves 11 a move too early or too late: its next triple differs.
#[test]
fn early_and_late() {
    for worked in traces::worked() {
        let ends = worked.ends_of_work();
        assert!(ends.len() >= 2 * worked.setup.n as usize);
        for index in ends {
            let (before, from) = worked.trace.split_at(3 * index);
            let late = [before, &from[..3], from].concat();
            check_differs(&worked.setup, &late, index + 1);
            let early = [before, &from[3..]].concat();
            let next = early[3 * index..].chunks(3).position(|triple| triple[0] == from[0]);
            assert!(next.is_some());
            check_differs(&worked.setup, &early, index + next.unwrap_or(0));
        }
    }
}

/// The trace differs at this triple.
fn check_differs(setup: &Setup, trace: &[u8], index: usize) {
    let (kind, n, modulus) = (setup.kind, setup.n, setup.modulus);
    let mut state = State::ZERO;
    let verdict = playback::play(&mut state, kind, n, modulus, setup.tables(), trace);
    assert_eq!(verdict, Ok(Verdict::Differs(index)));
}

// ---- progress ----

/// M of the progress rule.
fn passes_of_a_round(state: &State) -> usize {
    let n = usize::from(state.n);
    let lines = match state.kind {
        SYMMETRIC => n * (2 * n + 3),
        FETCH_AND_INCREMENT | RING | CENTRALIZED => 5 * n,
        _ => 10 * n - 3,
    };
    let work: usize = state.tasks[..n].iter().map(|task| usize::from(task.work)).sum();
    lines + work - n
}

/// So many turns of random tasks that every task is named.
fn pass(random: &mut Random, state: &mut State) {
    let everyone = u64::MAX >> (64 - state.n);
    let mut named = 0_u64;
    while named != everyone {
        let task = random.below(state.n.into());
        named |= 1 << task;
        assert_eq!(number(turn(state, task)), 0);
    }
}

/// From any reached state, twice M passes raise the least count.
#[test]
fn passes_raise_the_least_count() {
    let mut random = Random::new(11);
    for round in 0..300 {
        let mut state = begin_any(&mut random);
        if round % 10 == 0 {
            state = begin_works(random.pick(&KINDS), &up_to(&mut random, 255, 2));
        }
        for _ in 0..random.length(0, 60) {
            pass(&mut random, &mut state);
        }
        let before = least(&state);
        for _ in 0..2 * passes_of_a_round(&state) {
            pass(&mut random, &mut state);
        }
        assert!(least(&state) > before, "{state:?}");
    }
}
