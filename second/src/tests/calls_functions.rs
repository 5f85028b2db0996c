//! The exported functions by hand, as requests with their answers, and runs cut into several.

use crate::calls::caller::Caller;
use crate::calls::list::{place, state_of, COUNT, LENGTH, MOVES};
use crate::machine::{least_count, KINDS, SYMMETRIC, TREE};
use crate::parents;
use crate::random::Random;
use crate::recorder::line;
use crate::schedules;
use crate::setup::Setup;
use crate::starts;
use crate::works;

/// The answer to a request.
pub fn ask(caller: &mut Caller, request: &str) -> String {
    caller.answer(request.as_bytes()).unwrap_or_else(|| "no request".to_string())
}

/// The numbers of an answer.
pub fn numbers(answer: &str) -> Vec<u64> {
    answer.split(' ').map(|word| word.parse().unwrap_or(u64::MAX)).collect()
}

/// The first numbers of an answer; the whole of it where it has no more.
pub fn first(answer: &str, count: usize) -> String {
    answer.split(' ').take(count).collect::<Vec<_>>().join(" ")
}

/// Asks a new caller each request and compares the first numbers of the answer with those given.
pub fn check(rows: &[(&str, &str)]) {
    for (request, expected) in rows {
        let answer = ask(&mut Caller::default(), request);
        assert_eq!(first(&answer, expected.split(' ').count()), *expected, "{request}");
    }
}

/// The same for answers of which nothing is left out.
pub fn check_whole(rows: &[(&str, &str)]) {
    for (request, expected) in rows {
        assert_eq!(ask(&mut Caller::default(), request), *expected, "{request}");
    }
}

// ---- the scope's example ----

const EXAMPLE: &str = "0 0 0 0 1 1 1 1 1 0";
const LOG: &str = "11 1 12 1 13 1 16 0 11 1 12 1 13 1 14 1 15 1 16 1";

#[test]
fn example_as_a_run() {
    for kind in [1, 4] {
        let request = format!("2 {kind} 2 0 0 0 0 10 20 8 {EXAMPLE}");
        let expected = format!("0 10 0 1 {LOG} 11 1 4 1 11 1 5 0");
        check_whole(&[(&request, &expected)]);
    }
    let request = format!("2 1 2 0 0 0 0 6 15 10 {EXAMPLE}");
    let expected = "0 6 0 0 11 1 12 1 13 1 16 0 11 1 12 1 255 255 255 \
        16 1 3 1 13 0 2 0 4294967295 4294967295";
    check_whole(&[(&request, expected)]);
}

#[test]
fn example_as_rows() {
    let mut caller = Caller::default();
    ask(&mut caller, "1 1 2 0 0 0 0 1029");
    let answer = ask(&mut caller, &format!("10 10 21 61 {EXAMPLE}"));
    let rows = "0 11 1 0 0 0 0 12 1 0 0 0 0 13 1 1 0 0 0 16 0 1 0 0 1 11 1 0 0 0 \
        1 12 1 0 0 0 1 13 1 1 1 1 1 14 1 1 1 0 1 15 1 1 1 0 0 16 1 1 1 0";
    let expected = format!("0 10 0 1 {LOG} 255 {rows} 4294967295 1 2 0 0 0");
    assert_eq!(first(&answer, 4 + 21 + 61 + 5), expected);
    let list = numbers(&answer).split_off(4 + 21 + 61);
    assert_eq!(list, caller.list());
    assert_eq!(
        list[place(0, 0)..place(2, 0)],
        [
            [11, 1, 0, 0, 0, 0, 0, 0, 0, 0, 4, 1, 1, 1, 0],
            [11, 1, 0, 0, 0, 0, 0, 0, 0, 0, 5, 0, 1, 1, 0],
        ]
        .concat()
    );
}

#[test]
fn example_as_a_text() {
    let text = line(&[], b"1 2 0 0 0 0 0 1 1 1 1 1 0");
    check_whole(&[(&format!("12 1 11 {text}"), &format!("0 0 1 2 0 0 10 255 {EXAMPLE} 255"))]);
    let sheet = b"task line count moves waits\n0 11 1 4 1\n1 11 1 5 0\npasses 2 least 1\n";
    let answer = ask(&mut Caller::default(), &format!("13 {text}"));
    let mut expected = vec![sheet.len() as u64];
    expected.extend(sheet.iter().map(|&byte| u64::from(byte)));
    expected.resize(1 + 2_048, 0);
    assert_eq!(numbers(&answer), expected);
}

// ---- by hand ----

#[test]
fn fresh_states() {
    let mut caller = Caller::default();
    let answer = ask(&mut caller, "1 0 3 7 0 3 3 1030 2 0 1 4 5 6");
    assert_eq!(first(&answer, 6), "0 0 3 7 0 0");
    let list = caller.list();
    assert_eq!(list.len(), LENGTH + 1);
    assert_eq!(list[place(2, 0)..place(3, 0)], [11, 0, 0, 0, 0, 0, 0, 0, 0, 1, 0, 0, 6, 6, 0]);
    assert!(list[place(3, 0)..LENGTH].iter().all(|&number| number == 0));
    assert_eq!(list[LENGTH], u64::MAX);
    let answer = ask(&mut caller, "1 4 2 0 0 0 0 1029");
    assert_eq!(first(&answer, 6), "0 4 2 0 2 1");
    assert_eq!(caller.list()[place(1, 0)..][..15], [11, 0, 0, 0, 0, 0, 0, 0, 0, 0, 0, 0, 1, 1, 1]);
    ask(&mut caller, "1 3 3 0 3 0 0 1029 0 0 1");
    assert_eq!(caller.list()[..8], [3, 3, 0, 0, 0, 0, 0, 1]);
}

#[test]
fn reasons_of_a_fresh_state() {
    check_whole(&[
        ("1 5 0 1 1 1 1 0 9 9 0", "2"),
        ("1 3 0 1 1 1 1 0 9 9 0", "3"),
        ("1 3 2 1 1 1 1 0 9 9 0", "4"),
        ("1 3 2 0 1 1 1 0 9 9 0", "5"),
        ("1 3 2 0 2 1 1 0 9 9 9 0", "6"),
        ("1 3 2 0 2 1 1 0 0 0 9 0", "12"),
        ("1 3 2 0 2 0 1 0 0 0 0", "15"),
        ("1 3 2 0 2 0 0 0 0 0", "10"),
        ("1 3 2 1 2 0 0 2 0 0", "4 18446744073709551615 18446744073709551615"),
        ("1 3 2 0 2 0 0 1 0 0", "10 18446744073709551615"),
    ]);
    check(&[("1 3 2 0 2 0 0 1028 0 0", "10"), ("1 3 2 0 2 0 0 1029 0 0", "0 3 2 0 0 0 0 0")]);
}

#[test]
fn reasons_of_a_run() {
    let too_long = format!("2 2 2 0 0 0 0 1 0 0{}", " 9".repeat(65_537));
    check_whole(&[
        ("2 5 2 0 0 0 0 1 1 1 9", "2 0 0 0 255 4294967295"),
        ("2 2 2 0 0 0 1 1 1 1 0 9", "15 0 0 0 255 4294967295"),
        (&too_long, "8 0 0 0"),
        ("2 2 2 0 0 0 0 1 1 1 0 0 2 3", "9 0 2 0 255 4294967295"),
        ("2 2 2 0 0 0 0 1 1 8 0 0", &format!("10 0 0 0 255{}", " 4294967295".repeat(8))),
        ("2 2 1 0 0 0 0 1 2 3 0 0", "10 0 0 0 255 255 4294967295 4294967295 4294967295"),
        ("2 2 1 0 0 0 0 1 2 4 0 0", "0 1 0 0 11 1 12 0 1 0"),
        ("2 2 1 0 0 0 0 0 0 4 0 0", "0 0 0 0 11 0 0 0"),
        ("2 2 1 0 0 0 0 3 4 4 0 0", "0 2 0 0 11 1 12 1 13 0 2 0"),
    ]);
}

#[test]
fn limits() {
    check_whole(&[
        ("11 2 12 0", "0 120"),
        ("11 1 12 0", "0 120"),
        ("11 4 12 0", "0 120"),
        ("11 0 4 0", "0 88"),
        ("11 3 7 0", "0 134"),
        ("11 0 1 0", "0 10"),
        ("11 3 1 0", "0 14"),
        ("11 0 64 0", "0 16768"),
        ("11 2 3 3 1 1 1", "0 30"),
        ("11 2 3 3 1 5 2", "0 40"),
        ("11 3 1 1 255", "0 522"),
        ("11 5 0 1 0", "2 0"),
        ("11 4 0 1 0", "3 0"),
        ("11 4 65 0", "3 0"),
        ("11 4 2 1 1", "15 0"),
        ("11 4 2 2 1 0", "15 0"),
    ]);
}

#[test]
fn texts() {
    let read = |room: &str, text: &str| {
        ask(&mut Caller::default(), &format!("12 {room} {}", line(&[], text.as_bytes())))
    };
    for (room, text, expected) in [
        ("3 2", "3 2 0 0 0 1", "0 0 3 2 0 2 1 0 0 255 1 255"),
        ("2 1", "00003\n2 0 0 00000 1\n", "0 0 3 2 0 2 1 0 0 1"),
        ("1 1", "3 2 0 0 0 1", "10 0 0 0 0 0 0 255 255"),
        ("2 0", "3 2 0 0 0 1", "10 0 0 0 0 0 0 255 255"),
        ("0 1", "3 2 0 0 0 1 2", "9 1 0 0 0 0 0 255"),
        ("0 1", "3 2 0 0 0 1 256", "9 1 0 0 0 0 0 255"),
        ("0 1", "3 2 0 0 256 9", "6 0 0 0 0 0 0 255"),
        ("0 1", "3 2 0 0", "5 0 0 0 0 0 0 255"),
        ("0 0", "0 2 2 9", "4 0 0 0 0 0 0"),
        ("0 0", "0 65 2 9", "3 0 0 0 0 0 0"),
        ("0 0", "5 65 2 9", "2 0 0 0 0 0 0"),
        ("0 0", "5 65", "1 0 0 0 0 0 0"),
        ("0 0", "5 65 2 100000", "1 0 0 0 0 0 0"),
        ("0 0", "0 2 255", "0 0 0 2 255 0 0"),
    ] {
        assert_eq!(read(room, text), expected, "{text}");
    }
}

#[test]
fn the_other_functions() {
    check_whole(&[
        ("6 2 5 0 0 1 0 1 1", "0 2 0 0 3 3 2 4294967295"),
        ("6 2 3 0 0 1 0 1 1", "10 0 0 4294967295 4294967295 4294967295"),
        ("6 2 1 0 0 2", "9 0 2 4294967295"),
        ("6 65 0 70", "3 0 0"),
        ("7 2 0 0 0 1 0 1 1", "3"),
        ("7 2 3 0 0 1 0 1 1", "2"),
        ("7 2 5 0 0 1 0 1 1", "0"),
        ("7 2 1 9 1 0", "2"),
        ("7 2 0 1 0 9", "0"),
        ("8 2 6 7", "0 0 0 0 1 1 2 255"),
        ("8 3 6 6", "0 0 0 0 2 0 4"),
        ("8 3 6 5", "10 255 255 255 255 255"),
        ("8 4 0 1", "2 255"),
        ("8 3 0 1", "3 255"),
        ("9 2 2 0 0 0 0 1 11 1 1 12 0", "0 1 0"),
        ("9 2 2 0 0 0 0 1 11 1 1 12 1", "0 0 1"),
        ("9 2 2 0 0 0 0 1 11", "14 0 0"),
        ("9 2 2 1 0 0 0 1 11", "4 0 0"),
    ]);
}

#[test]
fn turns_and_ready() {
    let mut caller = Caller::default();
    ask(&mut caller, "1 2 2 0 0 0 0 1029");
    for (request, expected) in [
        ("5", "0 0"),
        ("4 1", "0 1 0 2 2"),
        ("4 1", "0 0 0 2 2"),
        ("4 2", "9 0 0 2 2"),
        ("14 0 5", "ok"),
        ("4 2", "7 0 0 5 2"),
        ("5", "7 0"),
        ("14 0 258", "ok"),
        ("5", "7 0"),
        ("15 1028", "ok"),
        ("4 2", "10 0 0 258 2"),
        ("5", "10 0"),
        ("15 1029", "ok"),
        ("14 0 2", "ok"),
        ("5", "7 0"),
        ("14 1028 0", "ok"),
        ("5", "0 0"),
        ("14 79 4000000000", "ok"),
        ("5", "0 64"),
        ("4 0", "13 0 0 2 2"),
        ("14 1029 0", "no request"),
        ("15 1101", "no request"),
    ] {
        let answer = ask(&mut caller, request);
        assert_eq!(first(&answer, expected.split(' ').count()), expected, "{request}");
    }
    assert_eq!(caller.list()[place(1, MOVES)..][..2], [1, 1]);
}

/// A whole round by single turns: the last of the two to rise closes it.
#[test]
fn a_turn_that_closes_a_round() {
    let mut caller = Caller::default();
    ask(&mut caller, "1 2 2 0 0 0 0 1029");
    let turns = [0, 0, 0, 1, 1, 1, 0, 0, 1, 1];
    for (number, task) in turns.into_iter().enumerate() {
        let closed = u8::from(number == 5);
        let answer = ask(&mut caller, &format!("4 {task}"));
        assert_eq!(first(&answer, 3), format!("0 1 {closed}"));
    }
}

/// Task 1 is at 13, its count at the limit; what was made before it stands.
#[test]
fn stopped_runs() {
    let begin = || {
        let mut caller = Caller::default();
        ask(&mut caller, "1 1 2 0 0 0 0 1029");
        ask(&mut caller, "3 2 4 8 1 1");
        ask(&mut caller, &format!("14 {} 1000000", place(1, COUNT)));
        caller
    };
    let mut caller = begin();
    let answer = ask(&mut caller, "3 3 6 9 0 1 0");
    assert_eq!(
        first(&answer, 22),
        "11 1 0 0 11 1 255 255 255 255 12 0 1 0 13 1000000 0 0 4294967295 1 2 0"
    );
    let mut caller = begin();
    let answer = ask(&mut caller, "10 3 6 18 0 1 0");
    let filled = "4294967295 ".repeat(12);
    let expected = format!("11 1 0 0 11 1 255 255 255 255 0 11 1 0 0 0 {filled}1 2");
    assert_eq!(first(&answer, 30), expected);
    ask(&mut caller, "14 3 2");
    assert_eq!(first(&ask(&mut caller, "3 1 2 8 1"), 6), "7 0 0 0 255 255");
    assert_eq!(first(&ask(&mut caller, "4 1"), 3), "7 0 0");
    ask(&mut caller, &format!("14 {} 3999999999", place(0, MOVES)));
    assert_eq!(first(&ask(&mut caller, "3 2 4 8 0 0"), 8), "7 1 0 0 12 1 255 255");
    ask(&mut caller, "14 3 0");
    assert_eq!(first(&ask(&mut caller, "3 2 4 8 0 0"), 8), "13 0 0 0 255 255 255 255");
}

// ---- sessions ----

/// A setup with tables of any manner.
pub fn any_setup(random: &mut Random, kind: u8, n: usize) -> Setup {
    Setup {
        kind: kind.into(),
        n: n as u64,
        modulus: if kind == SYMMETRIC { 3 } else { 0 },
        parents: if kind == TREE { parents::any(random, n) } else { Vec::new() },
        starts: if kind == SYMMETRIC { starts::any(random, n) } else { Vec::new() },
        works: works::any(random, n),
    }
}

/// A caller with the setup's fresh state.
pub fn begin(setup: &Setup) -> Caller {
    let mut caller = Caller::default();
    let head = [&[1][..], &setup.head(), &[LENGTH as u64]].concat();
    assert_eq!(first(&ask(&mut caller, &line(&head, &setup.entries())), 1), "0");
    caller
}

/// What a run of the state in the list gives: its turns and rounds, the log and the tasks list.
pub fn resume(caller: &mut Caller, n: usize, schedule: &[u8]) -> ([u64; 2], Vec<u64>, Vec<u64>) {
    let (length, list) = (schedule.len(), 4 * n);
    let head = [3, length as u64, 2 * length as u64, list as u64];
    let answer = numbers(&ask(caller, &line(&head, schedule)));
    assert_eq!((answer[0], answer[2]), (0, 0));
    assert_eq!(answer[4 + 2 * length + list..], *caller.list());
    let (log, tasks) = answer[4..4 + 2 * length + list].split_at(2 * length);
    ([answer[1], answer[3]], log.to_vec(), tasks.to_vec())
}

/// The turns, rounds, moves and waits of two runs make up those of one, and so do the logs.
#[test]
fn two_runs_are_one() {
    let mut random = Random::new(11);
    for kind in KINDS {
        for n in [1, 2, 3, 7, 64] {
            let setup = any_setup(&mut random, kind, n);
            let schedule = schedules::any(&mut random, n, 40 + 10 * n);
            let (mut one, mut two) = (begin(&setup), begin(&setup));
            let whole = resume(&mut one, n, &schedule);
            let (before, after) = schedule.split_at(random.length(0, schedule.len()));
            let (first, second) = (resume(&mut two, n, before), resume(&mut two, n, after));
            assert_eq!(one.list(), two.list());
            assert_eq!(whole.0, [first.0[0] + second.0[0], first.0[1] + second.0[1]]);
            assert_eq!(whole.1, [first.1, second.1].concat());
            for task in 0..n {
                let [whole, first, second] =
                    [&whole.2, &first.2, &second.2].map(|tasks| &tasks[4 * task..][..4]);
                assert_eq!(whole[..2], second[..2]);
                assert_eq!(whole[2..], [first[2] + second[2], first[3] + second[3]]);
            }
        }
    }
}

/// The log and the state of the rows are a run's, and each row is what single turns show.
#[test]
fn rows_are_turns() {
    let mut random = Random::new(12);
    for kind in KINDS {
        for n in [1, 2, 3, 7] {
            let setup = any_setup(&mut random, kind, n);
            let schedule = schedules::any(&mut random, n, 60 + 10 * n);
            let (mut one, mut two, mut three) = (begin(&setup), begin(&setup), begin(&setup));
            let run = resume(&mut one, n, &schedule);
            let length = schedule.len() as u64;
            let request = line(&[10, length, 2 * length, 6 * length], &schedule);
            let answer = numbers(&ask(&mut two, &request));
            assert_eq!([answer[1], answer[3]], run.0);
            let (log, rows) = answer[4..].split_at(2 * schedule.len());
            assert_eq!((log, two.list()), (&run.1[..], one.list()));
            for (row, &task) in rows.chunks_exact(6).zip(&schedule) {
                check_row(&mut three, row, task);
            }
            assert_eq!(one.list(), three.list());
        }
    }
}

/// Makes the turn and holds the row against what it shows.
fn check_row(caller: &mut Caller, row: &[u64], task: u8) {
    let line = caller.list()[place(task.into(), 0)];
    let answer = numbers(&ask(caller, &format!("4 {task}")));
    let count = caller.list()[place(task.into(), COUNT)];
    let least = state_of(caller.list()).map_or(0, |state| least_count(&state));
    let expected = [task.into(), line, answer[1], count, least.into(), answer[2]];
    assert_eq!(row, expected);
}
