//! The calls that are written: every reason of every function, both sides of the limits, and that
//! what is refused has written nothing.

use crate::calls;
use crate::calls::caller::Caller;
use crate::calls::reasons::{Met, REASONS, TOLD};
use crate::calls::recorder::Recorder;
use crate::lines::MAX_LINE;
use crate::recorder::line;
use std::collections::HashSet;
use std::sync::OnceLock;

/// A request and its answer, as numbers.
pub struct Asked {
    pub request: Vec<u64>,
    pub answer: Vec<u64>,
}

/// All calls, which are made once for all tests.
fn all() -> &'static Recorder {
    static ALL: OnceLock<Recorder> = OnceLock::new();
    ALL.get_or_init(calls::all)
}

/// All requests of the calls proper, likewise.
pub fn asked() -> &'static [Asked] {
    static ASKED: OnceLock<Vec<Asked>> = OnceLock::new();
    ASKED.get_or_init(|| asked_of(all()))
}

/// The requests of the calls proper.
pub fn asked_of(calls: &Recorder) -> Vec<Asked> {
    let lines = calls.requests().lines().zip(calls.answers().lines());
    let asked = |(request, answer)| Asked {
        request: numbers(request).unwrap_or_default(),
        answer: numbers(answer).unwrap_or_default(),
    };
    lines.map(asked).filter(|asked| !matches!(asked.request[0], 14 | 15)).collect()
}

/// The numbers of a line.
fn numbers(line: &str) -> Option<Vec<u64>> {
    line.split(' ').map(|word| word.parse().ok()).collect()
}

// ---- reasons ----

#[test]
fn every_reason_is_met() {
    assert_eq!(all().met().check(), Ok(()));
}

#[test]
fn a_missing_and_another_reason_are_told() {
    let mut met = Met::default();
    for (function, reasons) in REASONS {
        for reason in reasons {
            assert!(met.check().is_err());
            met.take(&format!("{function} 0"), &format!("{reason} 0"));
        }
    }
    for (function, place) in TOLD {
        for told in [0, 1] {
            assert!(met.check().is_err_and(|words| words.ends_with("told always or never")));
            let mut answer = [0; 4];
            answer[place] = told;
            met.take(&format!("{function} 0"), &line(&answer, &[]));
        }
    }
    assert_eq!(met.check(), Ok(()));
    met.take("13 1", "99 1");
    met.take("7 1", "99");
    met.take("14 1 1", "ok");
    assert_eq!(met.check(), Ok(()));
    met.take("5", "8 0");
    assert_eq!(met.check(), Err("function 5 gave [0, 7, 8, 10], not [0, 7, 10]".to_string()));
}

/// The sheets are refused for each of their reasons, and one is a table.
#[test]
fn every_sheet_is_met() {
    let sheets = asked().iter().filter(|asked| asked.request[0] == 13);
    let text = |asked: &Asked| -> String {
        let printed = &asked.answer[1..][..asked.answer[0] as usize];
        printed.iter().map(|&byte| byte as u8 as char).collect()
    };
    let sheets: Vec<String> = sheets.map(text).collect();
    for begin in ["task", "refused 1\n", "refused 2\n", "refused 3\n", "refused 4\n", "refused 5\n"]
        .into_iter()
        .chain(["refused 6\n", "refused 9 place 0\n", "refused 9 place 3\n"])
    {
        assert!(sheets.iter().any(|sheet| sheet.starts_with(begin)), "{begin}");
    }
}

/// A turn stops runs and rows for each of its three reasons, at the first turn and after some.
#[test]
fn every_stop_is_met() {
    let asked = asked();
    for function in [3, 10] {
        for reason in [7, 11, 13] {
            for stands in [false, true] {
                let fits = |asked: &Asked| {
                    asked.request[0] == function
                        && asked.answer[0] == reason
                        && (asked.answer[1] > 0) == stands
                };
                assert!(asked.iter().any(fits), "{function} {reason} {stands}");
            }
        }
    }
}

/// Every kind has an accepted run of every N.
#[test]
fn kinds_and_counts_are_met() {
    let asked = asked();
    for kind in 0..=4 {
        let runs = asked.iter().filter(|asked| asked.request.starts_with(&[2, kind]));
        let accepted = runs.filter(|asked| asked.answer[0] == 0);
        let counts: HashSet<u64> = accepted.map(|asked| asked.request[2]).collect();
        assert_eq!(counts.len(), 64, "{kind}");
    }
}

// ---- limits ----

/// The number of turns, or of bytes, of a request.
fn length(request: &[u64]) -> usize {
    let entries = |head: usize| head + request[4..7].iter().sum::<u64>() as usize;
    match request[0] {
        2 => request.len() - entries(10),
        3 | 10 => request.len() - 4,
        6 | 7 | 12 => request.len() - 3,
        9 => request.len() - entries(7),
        16 => request.len() - entries(8),
        _ => request.len() - 1,
    }
}

#[test]
fn both_sides_of_the_longest() {
    let mut met = HashSet::new();
    for Asked { request, answer } in asked() {
        if matches!(request[0], 2 | 3 | 6 | 9 | 10 | 12 | 16) {
            met.insert((request[0], length(request), answer[0]));
        }
    }
    for function in [2, 3, 6, 10] {
        assert!(met.contains(&(function, 65_536, 0)), "{function}");
        assert!(met.contains(&(function, 65_537, 8)), "{function}");
    }
    for (length, reason) in [(65_535, 0), (65_536, 14), (65_537, 8), (65_538, 8)] {
        for function in [9, 16] {
            assert!(met.contains(&(function, length, reason)), "{function} {length}");
        }
    }
    assert!(met.contains(&(12, 65_536, 0)) && met.contains(&(12, 65_537, 1)));
}

#[test]
fn sizes() {
    let calls = all();
    assert!(calls.requests().len() + calls.answers().len() < 18_000_000);
    assert!(calls.requests().lines().all(|line| line.len() <= MAX_LINE));
    assert_eq!(calls.requests().lines().count(), calls.count());
    assert_eq!(calls.answers().lines().count(), calls.count());
}

// ---- what is refused ----

/// The numbers of an answer that come before what was lent; the first is the reason.
fn answered(function: u64) -> usize {
    match function {
        2 | 3 | 10 => 4,
        4 | 6 | 9 | 16 => 3,
        5 | 11 => 2,
        12 => 7,
        _ => 1,
    }
}

/// Whether the call as a whole was refused: not where a turn stopped a run.
fn refused(asked: &Asked) -> bool {
    match (asked.request[0], asked.answer[0]) {
        (7 | 13, _) | (_, 0) => false,
        (3 | 10, reason) => matches!(reason, 8..=10),
        _ => true,
    }
}

#[test]
fn refused_calls_answer_zeros() {
    check_answers(asked());
}

/// Every number of a refused call is 0, but the place of a 9.
pub fn check_answers(asked: &[Asked]) {
    for asked in asked.iter().filter(|asked| refused(asked)) {
        let function = asked.request[0];
        let mut numbers = asked.answer[1..answered(function)].to_vec();
        match (function, asked.answer[0]) {
            (2 | 3 | 6 | 10, 9) => numbers[1] = 0,
            (12, 9) => numbers[0] = 0,
            _ => {}
        }
        assert!(numbers.iter().all(|&number| number == 0), "{:?}", &asked.answer[..4]);
    }
}

#[test]
fn refused_calls_write_nothing() {
    let met = check_lent(all());
    assert!(met > 1_500, "{met}");
}

/// What a refused call was lent is filled as it was, and the state list is the one before. Gives the
/// number of refused calls.
pub fn check_lent(calls: &Recorder) -> usize {
    let mut caller = Caller::default();
    let mut met = 0;
    for (request, answer) in calls.requests().lines().zip(calls.answers().lines()) {
        let before = caller.list().to_vec();
        assert_eq!(caller.answer(request.as_bytes()).as_deref(), Some(answer));
        if let (Some(request), Some(answer)) = (numbers(request), numbers(answer)) {
            let asked = Asked { request, answer };
            met += usize::from(refused(&asked));
            check_lent_of(&asked, &before, caller.list());
        }
    }
    met
}

/// The same of one call, with the state list before and after it.
fn check_lent_of(asked: &Asked, before: &[u64], after: &[u64]) {
    let function = asked.request[0];
    if !refused(asked) {
        return;
    }
    // Two make the list anew.
    if !matches!(function, 1 | 16) {
        assert_eq!(after, before);
    }
    let shown = if matches!(function, 3 | 4 | 10) { before.len() } else { 0 };
    let lent = &asked.answer[answered(function)..asked.answer.len() - shown];
    let filled = [u8::MAX.into(), u32::MAX.into(), u64::MAX];
    assert!(lent.iter().all(|number| filled.contains(number)), "{:?}", asked.request);
}
