//! Play-back: traces worked out by hand, all short traces and random ones against a plain
//! definition, the refusals, and the named traces among the stored cases.

use super::{all_rows, begin, least, number};
use crate::cases;
use crate::machine::{fresh, turn, Outcome, State, Tables, KINDS};
use crate::parents;
use crate::playback::{play, Verdict};
use crate::random::Random;
use crate::refusal::Refusal;
use crate::schedules::{self, repeat};
use crate::setup::Setup;
use crate::traces::{self, Named};
use crate::works;
use std::collections::HashSet;

// ---- by hand ----

/// A setup without starts: a flat tree has its parents.
fn setup(kind: u8, n: usize) -> Setup {
    let modulus = if kind == 0 { 3 } else { 0 };
    let parents = vec![0; if kind == 3 { n } else { 0 }];
    Setup { kind: kind.into(), n: n as u64, modulus, parents, ..Setup::default() }
}

/// A play-back from a state that says nothing about it.
fn played(setup: &Setup, trace: &[u8]) -> (Result<Verdict, Refusal>, State) {
    let mut state = begin(2, 5, 0, &[]);
    state.tasks[7].waits = 9;
    let tables = setup.tables();
    let answer = play(&mut state, setup.kind, setup.n, setup.modulus, tables, trace);
    (answer, state)
}

/// The scope's cases for the table, as triples; its sheet as of kind 4 too.
fn by_hand() -> [(Setup, Vec<[u8; 3]>); 6] {
    let sheet = [[0, 11, 1], [0, 12, 1], [0, 13, 1], [0, 16, 0], [1, 11, 1]];
    let sheet = [sheet, [[1, 12, 1], [1, 13, 1], [1, 14, 1], [1, 15, 1], [0, 16, 1]]].concat();
    let alone =
        [[0, 11, 1], [0, 12, 1], [0, 13, 1], [0, 15, 1], [0, 16, 1], [0, 17, 1], [0, 18, 1]];
    [
        (setup(0, 1), vec![[0, 11, 1], [0, 12, 1], [0, 13, 1], [0, 14, 1], [0, 13, 1]]),
        (setup(1, 2), sheet.clone()),
        (setup(2, 2), vec![[1, 11, 1], [1, 12, 0]]),
        (setup(3, 2), vec![[0, 11, 1], [0, 12, 1], [0, 13, 1], [0, 14, 0]]),
        (setup(3, 1), alone.to_vec()),
        (setup(4, 2), sheet),
    ]
}

#[test]
fn scope_cases_agree() {
    let ends = by_hand().map(|(setup, triples)| {
        let (answer, state) = played(&setup, &triples.concat());
        assert_eq!(answer, Ok(Verdict::Agrees));
        let tasks = [0, 1].map(|task: usize| {
            let task = &state.tasks[task];
            (task.line, task.count, task.moves, task.waits)
        });
        (tasks, state.tasks[0].tag, state.sense)
    });
    assert_eq!(ends[0], ([(11, 1, 5, 0), (0, 0, 0, 0)], 1, 0));
    assert_eq!(ends[1], ([(11, 1, 4, 1), (11, 1, 5, 0)], 0, 0));
    assert_eq!(ends[2], ([(11, 0, 0, 0), (12, 0, 1, 1)], 0, 0));
    assert_eq!(ends[3], ([(14, 0, 3, 1), (11, 0, 0, 0)], 0, 0));
    assert_eq!(ends[4], ([(11, 1, 7, 0), (0, 0, 0, 0)], 0, 0));
    assert_eq!(ends[5], ends[1]);
}

/// A triple is changed: nothing of its turn is made, and those before it are.
#[test]
fn scope_cases_changed() {
    for (setup, triples) in by_hand() {
        for (index, [task, line, outcome]) in triples.iter().copied().enumerate() {
            let before = played(&setup, &triples[..index].concat());
            assert_eq!(before.0, Ok(Verdict::Agrees));
            for changed in [
                [setup.n as u8, line, outcome],
                [255, line, outcome],
                [task, line + 1, outcome],
                [task, 0, outcome],
                [task, line, 1 - outcome],
                [task, line, 2],
                [task, line, 255],
                [255, 255, 255],
            ] {
                let mut triples = triples.clone();
                triples[index] = changed;
                let expected = (Ok(Verdict::Differs(index)), before.1);
                assert_eq!(played(&setup, &triples.concat()), expected);
                triples.truncate(index + 1);
                assert_eq!(played(&setup, &triples.concat()), expected);
            }
        }
    }
}

// ---- a plain definition ----

/// What a play-back must give: whole states are kept, and each triple is held against what the turn
/// does.
fn plain(setup: &Setup, trace: &[u8]) -> (Result<Verdict, Refusal>, State) {
    let mut state = State::ZERO;
    let accepted = fresh(&mut state, setup.kind, setup.n, setup.modulus, setup.tables());
    let refusal = match accepted {
        Err(refusal) => Some(refusal),
        Ok(()) if trace.len() > 65_536 => Some(Refusal::ScheduleLength),
        Ok(()) if trace.len() % 3 != 0 => Some(Refusal::TraceLength),
        Ok(()) => None,
    };
    if let Some(refusal) = refusal {
        return (Err(refusal), State::ZERO);
    }
    for (index, triple) in trace.chunks(3).enumerate() {
        let mut next = state;
        let line = state.tasks.get(usize::from(triple[0])).map_or(0, |task| task.line);
        let outcome = match turn(&mut next, triple[0].into()) {
            Ok(Outcome::Moved { .. }) => 1,
            Ok(Outcome::Waited) => 0,
            Err(_) => return (Ok(Verdict::Differs(index)), state),
        };
        if triple[1..] != [line, outcome] {
            return (Ok(Verdict::Differs(index)), state);
        }
        state = next;
    }
    (Ok(Verdict::Agrees), state)
}

/// All traces of two triples of these bytes, and of all shorter lengths.
#[test]
fn all_short_traces() {
    let bytes = [0, 1, 2, 11, 12, 255];
    for (kind, n) in [(0, 1), (1, 2), (2, 1), (2, 2), (3, 2), (4, 1), (4, 2)] {
        let setup = setup(kind, n);
        let mut agree = 0;
        for length in 0..=6 {
            for row in all_rows(bytes.len(), length) {
                let trace: Vec<u8> = row.iter().map(|&byte| bytes[usize::from(byte)]).collect();
                let answer = played(&setup, &trace);
                assert_eq!(answer, plain(&setup, &trace), "{trace:?}");
                agree += u32::from(answer.0 == Ok(Verdict::Agrees));
            }
        }
        // None; each task's first turn; two turns of the same task or of two.
        assert_eq!(agree as usize, 1 + n + n * n);
    }
}

/// A random setup of up to 64 tasks, now and then one that is refused.
fn any_setup(random: &mut Random) -> Setup {
    let n = if random.once_in(4) { random.length(1, 64) } else { random.length(1, 6) };
    let mut setup = setup(random.pick(&KINDS), n);
    match setup.kind {
        0 if random.once_in(2) => setup.starts = schedules::uniform(random, n, n),
        3 => setup.parents = parents::any(random, n),
        _ => {}
    }
    if random.once_in(2) {
        setup.works = works::any(random, n);
    }
    if random.once_in(20) {
        setup.starts.push(0);
    } else if random.once_in(20) {
        setup.works.push(0);
    }
    setup
}

#[test]
fn random_traces() {
    let mut random = Random::new(8);
    let (mut agree, mut differ, mut refused) = (0, 0, 0);
    for _ in 0..20_000 {
        let setup = any_setup(&mut random);
        let length = random.length(0, 90);
        let mut trace = setup.trace(&schedules::any(&mut random, setup.n as usize, length));
        for _ in 0..random.below(3) {
            if !trace.is_empty() {
                let place = random.length(0, trace.len() - 1);
                let near = [0, 1, 2, 12, 255, setup.n as u8, trace[place].wrapping_add(1)];
                trace[place] = random.pick(&near);
            }
        }
        if random.once_in(6) {
            trace.truncate(random.length(0, trace.len()));
        }
        let answer = played(&setup, &trace);
        assert_eq!(answer, plain(&setup, &trace), "{setup:?} {trace:?}");
        match answer.0 {
            Ok(Verdict::Agrees) => agree += 1,
            Ok(Verdict::Differs(_)) => differ += 1,
            Err(_) => refused += 1,
        }
    }
    assert!(agree > 5_000 && differ > 5_000 && refused > 1_000, "{agree} {differ} {refused}");
}

// ---- refusals ----

#[test]
fn lengths() {
    let setup = setup(2, 1);
    let trace = setup.trace(&repeat(0, 30_000));
    for (length, expected) in [
        (0, 0),
        (1, 14),
        (2, 14),
        (3, 0),
        (65_534, 14),
        (65_535, 0),
        (65_536, 14),
        (65_537, 8),
        (65_538, 8),
        (90_000, 8),
    ] {
        let (answer, state) = played(&setup, &trace[..length]);
        assert_eq!((length, number(answer)), (length, expected));
        assert_eq!(state == State::ZERO, expected != 0);
    }
    let mut trace = trace[..65_535].to_vec();
    let (_, end) = played(&setup, &trace);
    assert_eq!((end.tasks[0].count, end.tasks[0].moves), (4_369, 21_845));
    trace[65_534] = 0;
    let (answer, before) = played(&setup, &trace);
    assert_eq!((answer, before.tasks[0].moves), (Ok(Verdict::Differs(21_844)), 21_844));
}

#[test]
fn order_of_a_play_back() {
    let (long, cut) = (repeat(9, 65_537), [9]);
    let good = Tables::of_parents(&[0, 0]);
    for (kind, n, modulus, [parents, starts, works], expected) in [
        (5, 0, 1, [&[1][..], &[9], &[0]], 2),
        (4, 65, 1, [&[1], &[9], &[0]], 3),
        (4, 2, 1, [&[1], &[9], &[0]], 4),
        (4, 2, 0, [&[0, 0], &[9], &[0]], 5),
        (4, 2, 0, [&[], &[0, 0], &[0]], 12),
        (4, 2, 0, [&[], &[], &[1, 0]], 15),
        (3, 0, 1, [&[1], &[9], &[0]], 3),
        (3, 2, 1, [&[1], &[9], &[0]], 4),
        (3, 2, 0, [&[1], &[9], &[0]], 5),
        (3, 2, 0, [&[0, 1], &[9], &[0]], 6),
        (3, 2, 0, [&[0, 0], &[0, 0], &[0]], 12),
        (0, 2, 3, [&[], &[0, 2], &[1, 0]], 12),
        (3, 2, 0, [&[0, 0], &[], &[0]], 15),
        (0, 2, 3, [&[], &[0, 1], &[1, 0]], 15),
    ] {
        let tables = Tables { parents, starts, works };
        for trace in [&long[..], &cut, &[9, 9, 9], &[0, 11, 1], &[]] {
            let mut state = begin(1, 3, 0, &[]);
            let answer = play(&mut state, kind, n, modulus, tables, trace);
            assert_eq!((number(answer), state), (expected, State::ZERO));
        }
    }
    for (trace, expected) in [(&long[..], 8), (&cut, 14), (&[9, 9, 9], 0)] {
        let mut state = State::ZERO;
        assert_eq!(number(play(&mut state, 3, 2, 0, good, trace)), expected);
    }
}

// ---- the named traces ----

/// Each agrees and closes at least two rounds; it has waits if there is anybody to wait for.
#[test]
fn named_traces_have_rounds_and_waits() {
    for named in traces::all().into_iter().chain(traces::worked()) {
        let (answer, state) = played(&named.setup, &named.trace);
        assert_eq!(answer, Ok(Verdict::Agrees));
        assert!(least(&state) >= 2, "{}", named.name);
        let waits = state.tasks.iter().any(|task| task.waits > 0);
        assert_eq!(waits, named.setup.n > 1, "{}", named.name);
    }
}

#[test]
fn named_traces_of_every_sort() {
    let (named, worked) = (traces::all(), traces::worked());
    let names: HashSet<_> = named.iter().chain(&worked).map(|named| named.name).collect();
    assert_eq!(names.len(), named.len() + worked.len());
    assert!(named.iter().all(|named| named.setup.works.is_empty()));
    assert!(worked.iter().all(|worked| worked.setup.works.iter().any(|&work| work > 1)));
    assert!(worked.iter().map(|worked| worked.setup.kind).eq(0..=4));
    for kind in 0..=4 {
        let mut counts = named.iter().filter(|named| named.setup.kind == kind);
        assert!(counts.clone().count() >= 2 && counts.any(|named| named.setup.n == 1));
    }
    let rows = traces::table();
    let relying = named.iter().filter(|named| named.relies_on_the_start());
    assert!(rows.lines().count() == relying.count() && rows.lines().count() >= 2);
    let row = "| `symmetric-alone` | `11 0 1 3 0 0 0` | 20 | one task";
    assert!(rows.starts_with(row), "{rows}");
}

/// A changed byte is found at its own triple, unless the changed task's turn happens to fit; the
/// state is then the one before.
#[test]
fn changes_are_found() {
    for named in traces::all().into_iter().chain(traces::worked()) {
        for changed in named.changes() {
            let (answer, state) = played(&named.setup, &changed.trace);
            assert_eq!((answer, state), plain(&named.setup, &changed.trace));
            if !changed.name.ends_with("another-task") {
                assert_eq!(answer, Ok(Verdict::Differs(changed.index)), "{}", changed.name);
                let (_, before) = played(&named.setup, &named.trace[..3 * changed.index]);
                assert_eq!(state, before);
            }
        }
    }
}

/// Whether the numbers are those of a request 11 that plays this trace, or a first part of it, with
/// at most one byte changed.
pub fn is_variant(named: &Named, numbers: &[u64]) -> bool {
    let head = named.setup.head();
    let mut same = numbers[7..].iter().zip(&named.trace);
    let changed = same.by_ref().filter(|&(number, &byte)| *number != u64::from(byte)).count();
    numbers[1..7] == head && numbers[7..].len() <= named.trace.len() && changed <= 1
}

/// A change of the default start must know the stored play-backs that rely on it. Where this fails,
/// a random line may have become one: another seed of the stored cases will do.
#[test]
fn stored_play_backs_without_starts_are_named() {
    let stored = cases::stored();
    let requests = stored.requests().split(|&byte| byte == b'\n');
    let answers = stored.answers().split(|&byte| byte == b'\n');
    let named = traces::all();
    let mut found = HashSet::new();
    for (request, answer) in requests.zip(answers) {
        if !(answer.starts_with(b"agrees") || answer.starts_with(b"differs")) {
            continue;
        }
        let words = request.split(|&byte| byte == b' ').map(String::from_utf8_lossy);
        let numbers: Vec<u64> = words.map(|word| word.parse().unwrap_or(u64::MAX)).collect();
        if (numbers[1], numbers[5]) != (0, 0) {
            continue;
        }
        let named = named.iter().find(|named| is_variant(named, &numbers));
        assert!(named.is_some(), "{}", String::from_utf8_lossy(request));
        found.extend(named.map(|named| named.name));
    }
    let relying = named.iter().filter(|named| named.relies_on_the_start());
    assert_eq!(found, relying.map(|named| named.name).collect());
}
