//! The caller: reads requests, fills what it lends, makes the calls, and gives one answer line for
//! each. It keeps the state list.

use super::answer::Answer;
use super::functions::{self, Turns, PAGE};
use crate::lines::{append, append_bytes, append_words, bytes, numbers};
use crate::requests::{first_tables, lent};
use crate::requests::{MAX_REQUEST_TRACE, MAX_REQUEST_TURNS, MAX_TABLE};
use crate::setup::Setup;

/// The most numbers of the state list, and of what else is lent.
const MAX_LIST: u64 = 1_100;
const MAX_LOG: u64 = 131_100;
const MAX_NUMBERS: u64 = 70_000;
const MAX_ROWS: u64 = 420_000;

/// What a lent byte, a lent number of 32 bits and one of 64 bits is before a call.
const BYTE: u8 = u8::MAX;
const NUMBER: u32 = u32::MAX;
const LONG_NUMBER: u64 = u64::MAX;

/// A caller with its state list, which has no number at first.
#[derive(Default)]
pub struct Caller {
    list: Vec<u64>,
}

impl Caller {
    /// The state list.
    pub fn list(&self) -> &[u64] {
        &self.list
    }

    /// The answer to one line, or none if it is no request; both are without a line feed.
    pub fn answer(&mut self, line: &[u8]) -> Option<String> {
        let numbers = numbers(line)?;
        match numbers[..] {
            [1, ref rest @ ..] => self.fresh(rest),
            [2, ref rest @ ..] => run(rest),
            [3, allowance, log, tasks, ref turns @ ..] => self.resume(allowance, log, tasks, turns),
            [4, task] => Some(self.turn(task)),
            [5] => Some(self.ready()),
            [6, n, pairs, ref turns @ ..] => passes(n, pairs, turns),
            [7, n, place, ref turns @ ..] => first_pass(n, place, turns),
            [8, number, n, table] => shape(number, n, table),
            [9, ref rest @ ..] => play(rest),
            [10, allowance, log, rows, ref turns @ ..] => self.rows(allowance, log, rows, turns),
            [11, kind, n, works, ref entries @ ..] => limit(kind, n, works, entries),
            [12, parents, turns, ref text @ ..] => read(parents, turns, text),
            [13, ref text @ ..] => sheet(text),
            [14, index, value] => self.change(index, value),
            [15, length] => self.lengthen(length),
            [16, ref rest @ ..] => self.play_state(rest),
            _ => None,
        }
    }

    /// Request 1.
    fn fresh(&mut self, numbers: &[u64]) -> Option<String> {
        let (&[kind, n, modulus, parents, starts, works, length], entries) =
            numbers.split_first_chunk::<7>()?;
        let lengths = [parents, starts, works];
        let (setup, rest) = setup([kind, n, modulus], lengths, entries)?;
        if !rest.is_empty() {
            return None;
        }
        self.list = lent(length, MAX_LIST, LONG_NUMBER)?;
        let mut answer = Answer::filled();
        functions::fresh(&setup, &mut self.list, &mut answer);
        Some(self.with_list(start(&answer)))
    }

    /// Request 3.
    fn resume(&mut self, allowance: u64, log: u64, tasks: u64, turns: &[u64]) -> Option<String> {
        let schedule = bytes(turns, MAX_REQUEST_TURNS)?;
        let turns = Turns { schedule: &schedule, allowance };
        let (mut log, mut tasks) = (lent(log, MAX_LOG, BYTE)?, lent(tasks, MAX_NUMBERS, NUMBER)?);
        let mut answer = Answer::filled();
        functions::resume(&mut self.list, turns, &mut log, &mut tasks, &mut answer);
        Some(self.with_list(run_line(&answer, &log, &tasks)))
    }

    /// Request 4.
    fn turn(&mut self, task: u64) -> String {
        let mut answer = Answer::filled();
        functions::turn(&mut self.list, task, &mut answer);
        self.with_list(start(&answer))
    }

    /// Request 5.
    fn ready(&self) -> String {
        let mut answer = Answer::filled();
        functions::ready(&self.list, &mut answer);
        start(&answer)
    }

    /// Request 10.
    fn rows(&mut self, allowance: u64, log: u64, rows: u64, turns: &[u64]) -> Option<String> {
        let schedule = bytes(turns, MAX_REQUEST_TURNS)?;
        let turns = Turns { schedule: &schedule, allowance };
        let (mut log, mut rows) = (lent(log, MAX_LOG, BYTE)?, lent(rows, MAX_ROWS, NUMBER)?);
        let mut answer = Answer::filled();
        functions::rows(&mut self.list, turns, &mut log, &mut rows, &mut answer);
        Some(self.with_list(run_line(&answer, &log, &rows)))
    }

    /// Request 14.
    fn change(&mut self, index: u64, value: u64) -> Option<String> {
        *self.list.get_mut(usize::try_from(index).ok()?)? = value;
        Some("ok".to_string())
    }

    /// Request 15.
    fn lengthen(&mut self, length: u64) -> Option<String> {
        if length > MAX_LIST {
            return None;
        }
        self.list.resize(length as usize, LONG_NUMBER);
        Some("ok".to_string())
    }

    /// Request 16.
    fn play_state(&mut self, numbers: &[u64]) -> Option<String> {
        let (&[kind, n, modulus, parents, starts, works, length], entries) =
            numbers.split_first_chunk::<7>()?;
        let (setup, trace) = setup([kind, n, modulus], [parents, starts, works], entries)?;
        let trace = bytes(trace, MAX_REQUEST_TRACE)?;
        self.list = lent(length, MAX_LIST, LONG_NUMBER)?;
        let mut answer = Answer::filled();
        functions::play_state(&setup, &trace, &mut self.list, &mut answer);
        Some(self.with_list(start(&answer)))
    }

    /// The line with the whole state list after it.
    fn with_list(&self, mut line: String) -> String {
        append(&mut line, &self.list);
        line
    }
}

/// Request 2.
fn run(numbers: &[u64]) -> Option<String> {
    let (&[kind, n, modulus, parents, starts, works, allowance, log, tasks], entries) =
        numbers.split_first_chunk::<9>()?;
    let (setup, turns) = setup([kind, n, modulus], [parents, starts, works], entries)?;
    let schedule = bytes(turns, MAX_REQUEST_TURNS)?;
    let turns = Turns { schedule: &schedule, allowance };
    let (mut log, mut tasks) = (lent(log, MAX_LOG, BYTE)?, lent(tasks, MAX_NUMBERS, NUMBER)?);
    let mut answer = Answer::filled();
    functions::run(&setup, turns, &mut log, &mut tasks, &mut answer);
    Some(run_line(&answer, &log, &tasks))
}

/// Request 6.
fn passes(n: u64, pairs: u64, turns: &[u64]) -> Option<String> {
    let schedule = bytes(turns, MAX_REQUEST_TURNS)?;
    let mut pairs = lent(pairs, MAX_NUMBERS, NUMBER)?;
    let mut answer = Answer::filled();
    functions::passes(n, &schedule, &mut pairs, &mut answer);
    let mut line = start(&answer);
    append_words(&mut line, &pairs);
    Some(line)
}

/// Request 7.
fn first_pass(n: u64, place: u64, turns: &[u64]) -> Option<String> {
    let schedule = bytes(turns, MAX_REQUEST_TURNS)?;
    Some(functions::first_pass(n, &schedule, place).to_string())
}

/// Request 8.
fn shape(number: u64, n: u64, table: u64) -> Option<String> {
    let mut table = lent(table, MAX_TABLE, BYTE)?;
    let mut answer = Answer::filled();
    functions::shape(number, n, &mut table, &mut answer);
    let mut line = start(&answer);
    append_bytes(&mut line, &table);
    Some(line)
}

/// Request 9.
fn play(numbers: &[u64]) -> Option<String> {
    let (&[kind, n, modulus, parents, starts, works], entries) =
        numbers.split_first_chunk::<6>()?;
    let (setup, trace) = setup([kind, n, modulus], [parents, starts, works], entries)?;
    let mut answer = Answer::filled();
    functions::play(&setup, &bytes(trace, MAX_REQUEST_TRACE)?, &mut answer);
    Some(start(&answer))
}

/// Request 11.
fn limit(kind: u64, n: u64, works: u64, entries: &[u64]) -> Option<String> {
    let ([_, _, works], rest) = first_tables(entries, [0, 0, works])?;
    if !rest.is_empty() {
        return None;
    }
    let mut answer = Answer::filled();
    functions::limit(kind, n, &works, &mut answer);
    Some(start(&answer))
}

/// Request 12.
fn read(parents: u64, turns: u64, text: &[u64]) -> Option<String> {
    let text = bytes(text, MAX_REQUEST_TURNS)?;
    let (mut parents, mut turns) =
        (lent(parents, MAX_TABLE, BYTE)?, lent(turns, MAX_NUMBERS, BYTE)?);
    let mut answer = Answer::filled();
    functions::read(&text, &mut parents, &mut turns, &mut answer);
    let mut line = start(&answer);
    append_bytes(&mut line, &parents);
    append_bytes(&mut line, &turns);
    Some(line)
}

/// Request 13.
fn sheet(text: &[u64]) -> Option<String> {
    let text = bytes(text, MAX_REQUEST_TURNS)?;
    let mut page = [BYTE; PAGE];
    let mut line = functions::sheet(&text, &mut page).to_string();
    append_bytes(&mut line, &page);
    Some(line)
}

/// The setup that a head and the first entries say, and the entries after it.
fn setup(
    [kind, n, modulus]: [u64; 3],
    lengths: [u64; 3],
    entries: &[u64],
) -> Option<(Setup, &[u64])> {
    let ([parents, starts, works], rest) = first_tables(entries, lengths)?;
    Some((Setup { kind, n, modulus, parents, starts, works }, rest))
}

/// The start of an answer line: the reason and the answer's numbers.
fn start<const NUMBERS: usize>(answer: &Answer<NUMBERS>) -> String {
    let mut line = answer.reason.to_string();
    append(&mut line, &answer.numbers);
    line
}

/// The answer line of a run.
fn run_line(answer: &Answer<3>, log: &[u8], list: &[u32]) -> String {
    let mut line = start(answer);
    append_bytes(&mut line, log);
    append_words(&mut line, list);
    line
}
