//! Play-backs that keep their state: by hand, against runs of the same turns, and what the written
//! calls have of them.

use super::calls_functions::{any_setup, ask, begin, check, check_whole, first, numbers, resume};
use super::calls_written::{asked, Asked};
use crate::calls::caller::Caller;
use crate::calls::list::{place, LENGTH};
use crate::machine::KINDS;
use crate::random::Random;
use crate::recorder::line;
use crate::schedules;
use crate::setup::Setup;
use std::collections::HashSet;

// ---- by hand ----

/// Task 1 of a ring moves and waits; then that it moved again, which it can't; then no trace.
#[test]
fn kept_states() {
    let mut caller = Caller::default();
    let answer = ask(&mut caller, "16 2 2 0 0 0 0 1030 1 11 1 1 12 0");
    assert_eq!(first(&answer, 8), "0 1 0 2 2 0 0 0");
    assert_eq!(numbers(&answer)[3..], *caller.list());
    assert_eq!((caller.list().len(), caller.list()[LENGTH]), (1_030, u64::MAX));
    let tasks = |caller: &Caller| caller.list()[place(0, 0)..place(2, 0)].to_vec();
    let fresh = [11, 0, 0, 0, 0, 0, 0, 0, 0, 0, 0, 0, 1, 1, 0];
    let one = |waits| [12, 0, 0, 0, 0, 0, 0, 0, 0, 0, 1, waits, 1, 1, 0];
    assert_eq!(tasks(&caller), [fresh, one(1)].concat());
    assert!(caller.list()[place(2, 0)..LENGTH].iter().all(|&number| number == 0));
    let answer = ask(&mut caller, "16 2 2 0 0 0 0 1029 1 11 1 1 12 1 1 12 0");
    assert_eq!(first(&answer, 8), "0 0 1 2 2 0 0 0");
    assert_eq!(tasks(&caller), [fresh, one(0)].concat());
    let answer = ask(&mut caller, "16 2 2 0 0 0 0 1029");
    assert_eq!(first(&answer, 8), "0 1 0 2 2 0 0 0");
    assert_eq!(tasks(&caller), [fresh, fresh].concat());
    let answer = ask(&mut caller, "16 4 2 0 0 0 2 1029 3 1 2 11 1");
    assert_eq!(first(&answer, 8), "0 0 0 4 2 0 2 1");
    assert_eq!(caller.list()[place(0, 0)..][..15], [11, 0, 0, 0, 0, 0, 0, 0, 0, 0, 0, 0, 3, 3, 1]);
}

/// Every triple that differs at its first byte, its second or its third, and a turn from there.
#[test]
fn triples_that_differ() {
    for triple in ["2 12 0", "255 12 0", "0 12 0", "1 11 0", "1 13 0", "1 12 1", "1 12 2"] {
        let mut caller = Caller::default();
        let request = format!("16 2 2 0 0 0 0 1029 1 11 1 {triple} 0 11 1");
        assert_eq!(first(&ask(&mut caller, &request), 5), "0 0 1 2 2", "{triple}");
        assert_eq!(ask(&mut caller, "5"), "0 0");
        assert_eq!(first(&ask(&mut caller, "4 1"), 5), "0 0 0 2 2");
        assert_eq!(first(&ask(&mut caller, "3 1 2 8 0"), 14), "0 1 0 0 11 1 12 0 1 0 12 0 0 0");
        assert_eq!(first(&ask(&mut caller, "10 1 2 6 0"), 12), "0 1 0 0 12 1 0 12 1 0 0 0");
    }
}

#[test]
fn reasons_of_a_kept_play_back() {
    let long = |length, bytes: usize| format!("16 3 2 0 2 0 0 {length} 0 0{}", " 9".repeat(bytes));
    let filled = u64::MAX;
    check_whole(&[
        ("16 5 0 1 1 1 1 0 9 9 0 9", "2 0 0"),
        ("16 3 0 1 1 1 1 0 9 9 0 9", "3 0 0"),
        ("16 3 2 1 1 1 1 0 9 9 0 9", "4 0 0"),
        ("16 3 2 0 1 1 1 0 9 9 0 9", "5 0 0"),
        ("16 3 2 0 2 1 1 0 9 9 9 0 9", "6 0 0"),
        ("16 3 2 0 2 1 1 0 0 0 9 0 9", "12 0 0"),
        ("16 3 2 0 2 0 1 0 0 0 0 9", "15 0 0"),
        ("16 3 2 0 2 0 1 1 0 0 0 9", &format!("15 0 0 {filled}")),
        (&long(0, 65_537), "8 0 0"),
        (&long(2, 65_538), &format!("8 0 0 {filled} {filled}")),
        (&long(0, 65_536), "14 0 0"),
        ("16 3 2 0 2 0 0 0 0 0 9", "14 0 0"),
        ("16 3 2 0 2 0 0 1 0 0 9 9", &format!("14 0 0 {filled}")),
        // Triples that differ, and such as agree.
        ("16 3 2 0 2 0 0 0 0 0 9 9 9", "10 0 0"),
        ("16 3 2 0 2 0 0 1 0 0 1 11 1 9 9 9", &format!("10 0 0 {filled}")),
        ("16 3 2 0 2 0 0 1 0 0 1 11 1", &format!("10 0 0 {filled}")),
        ("16 3 2 0 2 0 0 0 0 0", "10 0 0"),
    ]);
    check(&[
        (
            "16 3 2 0 2 0 0 1028 0 0 1 11 1",
            &format!("10 0 0{}", format!(" {filled}").repeat(1_028)),
        ),
        ("16 3 2 0 2 0 0 1029 0 0 9", &format!("14 0 0{}", format!(" {filled}").repeat(1_029))),
        ("16 3 2 0 2 0 0 1029 0 0 1 11 1", "0 1 0 3 2 0 0 0 0 0"),
        ("16 3 2 0 2 0 0 1100 0 0 1 11 1", "0 1 0 3 2 0 0 0 0 0"),
        ("16 3 2 0 2 0 0 1101 0 0 1 11 1", "no request"),
        ("16 3 2 0 2 0 0 1029 0", "no request"),
        ("16 3 2 0 2 0 0 1029 0 0 1 11 256", "no request"),
        ("16 3 2 0 2 0 0", "no request"),
    ]);
}

/// Whatever the list held is gone; a line that is no request leaves it.
#[test]
fn lists_are_made_anew() {
    let mut caller = Caller::default();
    ask(&mut caller, "1 2 2 0 0 0 0 1029");
    assert_eq!(ask(&mut caller, "16 2 2 0 0 0 0 1029 1 11 256"), "no request");
    assert_eq!(ask(&mut caller, "5"), "0 0");
    ask(&mut caller, "16 2 2 0 0 0 0 1029 1");
    assert_eq!(caller.list(), [u64::MAX; 1_029]);
    assert_eq!(ask(&mut caller, "5"), "7 0");
    ask(&mut caller, "1 2 2 0 0 0 0 1029");
    ask(&mut caller, "16 2 2 0 0 0 0 3 1 11 1");
    assert_eq!(caller.list(), [u64::MAX; 3]);
    assert_eq!(ask(&mut caller, "5"), "10 0");
}

// ---- against runs ----

/// Request 16 with a list of just enough numbers; the first three numbers are request 9's.
fn play_kept(caller: &mut Caller, setup: &Setup, trace: &[u8]) -> Vec<u64> {
    let (head, rest) = (setup.head(), [&setup.entries()[..], trace].concat());
    let answer = ask(caller, &line(&[&[16][..], &head, &[LENGTH as u64]].concat(), &rest));
    let plain = ask(&mut Caller::default(), &line(&[&[9][..], &head].concat(), &rest));
    assert_eq!(first(&answer, 3), plain);
    numbers(&answer)[..3].to_vec()
}

/// The state that is kept is the one that a run of the same turns leaves, and the turns from there on
/// lead where a run of all leads.
#[test]
fn kept_states_are_those_of_runs() {
    let mut random = Random::new(13);
    for kind in KINDS {
        for n in [1, 2, 3, 7, 64] {
            let setup = any_setup(&mut random, kind, n);
            let schedule = schedules::any(&mut random, n, 40 + 10 * n);
            let trace = setup.trace(&schedule);
            let (mut whole, mut kept) = (begin(&setup), Caller::default());
            resume(&mut whole, n, &schedule);
            assert_eq!(play_kept(&mut kept, &setup, &trace), [0, 1, 0]);
            assert_eq!(kept.list(), whole.list());
            for index in [0, random.length(1, schedule.len() - 2), schedule.len() - 1] {
                let mut other = trace.clone();
                other[3 * index + 2] ^= 1;
                assert_eq!(play_kept(&mut kept, &setup, &other), [0, 0, index as u64]);
                let mut before = begin(&setup);
                resume(&mut before, n, &schedule[..index]);
                assert_eq!(kept.list(), before.list());
                resume(&mut kept, n, &schedule[index..]);
                assert_eq!(kept.list(), whole.list());
            }
        }
    }
}

// ---- what the written calls have ----

/// The play-backs of the written calls that keep their state.
fn kept() -> impl Iterator<Item = &'static Asked> {
    asked().iter().filter(|asked| asked.request[0] == 16)
}

/// The bytes of a trace.
fn trace(asked: &Asked) -> &[u64] {
    &asked.request[8 + asked.request[4..7].iter().sum::<u64>() as usize..]
}

/// Every kind has a trace that agrees, and such as differ at the first triple, between and at the
/// last, at each of its three bytes.
#[test]
fn every_difference_is_met() {
    let mut met = HashSet::new();
    for asked in kept().filter(|asked| asked.answer[0] == 0) {
        let (kind, n, trace) = (asked.request[1], asked.request[2], trace(asked));
        if asked.answer[1] == 1 {
            met.insert((kind, if trace.is_empty() { "empty" } else { "agrees" }));
            continue;
        }
        let index = asked.answer[2] as usize;
        met.insert((
            kind,
            match index {
                0 => "first",
                _ if 3 * index + 3 == trace.len() => "last",
                _ => "between",
            },
        ));
        // The line before is that of the state that is kept.
        let triple = &trace[3 * index..][..3];
        let line = |task: u64| asked.answer[3 + place(task as usize, 0)];
        met.insert((
            kind,
            match triple {
                [task, ..] if *task >= n => "task",
                [task, other, _] if *other != line(*task) => "line",
                [.., outcome] if *outcome > 1 => "outcome",
                _ => "other outcome",
            },
        ));
    }
    for kind in 0..=4 {
        for what in ["empty", "agrees", "first", "between", "last", "task", "line", "outcome"] {
            assert!(met.contains(&(kind, what)), "{kind} {what}");
        }
        assert!(met.contains(&(kind, "other outcome")), "{kind}");
    }
}

/// Each reason with a list that is long enough and with one that isn't, and both sides of the length.
#[test]
fn every_length_is_met() {
    let met: HashSet<(u64, u64)> =
        kept().map(|asked| (asked.answer[0], asked.request[7])).collect();
    for reason in [2, 3, 4, 5, 6, 8, 12, 14, 15] {
        let of = |long: bool| {
            let fits = |&&(other, length): &&(u64, u64)| {
                other == reason && (length >= LENGTH as u64) == long
            };
            met.iter().filter(fits).count()
        };
        assert!(of(false) > 0 && of(true) > 0, "{reason}");
    }
    for (reason, length) in [(10, 0), (10, 1_028), (0, 1_029), (0, 1_030), (0, 1_100)] {
        assert!(met.contains(&(reason, length)), "{reason} {length}");
    }
}

/// Each call that reads the list is accepted for a state that a play-back has left there, of a trace
/// that agrees and of one that differs.
#[test]
fn kept_states_are_read() {
    let mut met = HashSet::new();
    let mut agrees = None;
    for Asked { request, answer } in asked() {
        match (request[0], answer[0]) {
            (16, 0) => agrees = Some(answer[1]),
            (1 | 16, _) => agrees = None,
            (function @ (3 | 4 | 5 | 10), 0) => _ = met.insert((agrees, function)),
            _ => {}
        }
    }
    for agrees in [0, 1] {
        for function in [3, 4, 5, 10] {
            assert!(met.contains(&(Some(agrees), function)), "{agrees} {function}");
        }
    }
}
