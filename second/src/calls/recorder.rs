//! Records requests together with the answers that the caller gives to them.

use super::caller::Caller;
use super::functions::{NUMBERS_OF_A_ROW, NUMBERS_OF_A_TASK};
use super::list::LENGTH;
use super::reasons::Met;
use crate::recorder::line;
use crate::setup::Setup;

#[derive(Default)]
pub struct Recorder {
    caller: Caller,
    requests: String,
    answers: String,
    count: usize,
    met: Met,
}

/// What a run is lent: its allowance, and the lengths of its log and of its tasks list or rows.
#[derive(Clone, Copy)]
pub struct Lent {
    pub allowance: u64,
    pub log: u64,
    pub list: u64,
}

impl Lent {
    /// Just enough for so many turns and four numbers a task.
    pub fn tasks(n: usize, turns: usize) -> Lent {
        Lent::of(turns, NUMBERS_OF_A_TASK * n)
    }

    /// Just enough for so many turns and a row of each.
    pub fn rows(turns: usize) -> Lent {
        Lent::of(turns, NUMBERS_OF_A_ROW * turns)
    }

    fn of(turns: usize, list: usize) -> Lent {
        Lent { allowance: turns as u64, log: 2 * turns as u64, list: list as u64 }
    }

    fn numbers(self) -> [u64; 3] {
        [self.allowance, self.log, self.list]
    }
}

impl Recorder {
    /// The request lines so far.
    pub fn requests(&self) -> &str {
        &self.requests
    }

    /// The answer lines so far.
    pub fn answers(&self) -> &str {
        &self.answers
    }

    /// The number of requests so far.
    pub fn count(&self) -> usize {
        self.count
    }

    /// The reasons so far.
    pub fn met(&self) -> &Met {
        &self.met
    }

    /// The state list.
    pub fn list(&self) -> &[u64] {
        self.caller.list()
    }

    /// Asks with a line, which must be a request.
    fn ask(&mut self, line: &str) {
        let Some(answer) = self.caller.answer(line.as_bytes()) else {
            unreachable!("no request: {line:.150}");
        };
        self.met.take(line, &answer);
        for (lines, line) in [(&mut self.requests, line), (&mut self.answers, &answer)] {
            lines.push_str(line);
            lines.push('\n');
        }
        self.count += 1;
    }

    /// Request 1.
    pub fn fresh(&mut self, setup: &Setup, length: usize) {
        let numbers = [&[1][..], &setup.head(), &[length as u64]].concat();
        self.ask(&line(&numbers, &setup.entries()));
    }

    /// Request 1 with a state list of just enough numbers.
    pub fn begin(&mut self, setup: &Setup) {
        self.fresh(setup, LENGTH);
    }

    /// Request 2.
    pub fn run(&mut self, setup: &Setup, lent: Lent, schedule: &[u8]) {
        let numbers = [&[2][..], &setup.head(), &lent.numbers()].concat();
        self.ask(&line(&numbers, &[&setup.entries(), schedule].concat()));
    }

    /// Request 3.
    pub fn resume(&mut self, lent: Lent, schedule: &[u8]) {
        self.ask(&line(&[&[3][..], &lent.numbers()].concat(), schedule));
    }

    /// Request 3 of the whole schedule, lent just enough for so many tasks.
    pub fn resume_all(&mut self, n: usize, schedule: &[u8]) {
        self.resume(Lent::tasks(n, schedule.len()), schedule);
    }

    /// Request 4.
    pub fn turn(&mut self, task: u64) {
        self.ask(&line(&[4, task], &[]));
    }

    /// Request 5.
    pub fn ready(&mut self) {
        self.ask("5");
    }

    /// Request 6.
    pub fn passes(&mut self, n: u64, pairs: u64, schedule: &[u8]) {
        self.ask(&line(&[6, n, pairs], schedule));
    }

    /// Request 7.
    pub fn first_pass(&mut self, n: u64, place: u64, schedule: &[u8]) {
        self.ask(&line(&[7, n, place], schedule));
    }

    /// Request 8.
    pub fn shape(&mut self, shape: u64, n: u64, table: u64) {
        self.ask(&line(&[8, shape, n, table], &[]));
    }

    /// Request 9.
    pub fn play(&mut self, setup: &Setup, trace: &[u8]) {
        let numbers = [&[9][..], &setup.head()].concat();
        self.ask(&line(&numbers, &[&setup.entries(), trace].concat()));
    }

    /// Request 10.
    pub fn rows(&mut self, lent: Lent, schedule: &[u8]) {
        self.ask(&line(&[&[10][..], &lent.numbers()].concat(), schedule));
    }

    /// Request 10 of the whole schedule, lent just enough.
    pub fn rows_all(&mut self, schedule: &[u8]) {
        self.rows(Lent::rows(schedule.len()), schedule);
    }

    /// Request 11.
    pub fn limit(&mut self, kind: u64, n: u64, works: &[u8]) {
        self.ask(&line(&[11, kind, n, works.len() as u64], works));
    }

    /// Request 12.
    pub fn read(&mut self, parents: u64, turns: u64, text: &[u8]) {
        self.ask(&line(&[12, parents, turns], text));
    }

    /// Request 13.
    pub fn sheet(&mut self, text: &[u8]) {
        self.ask(&line(&[13], text));
    }

    /// Request 14.
    pub fn set(&mut self, index: usize, value: u64) {
        self.ask(&line(&[14, index as u64, value], &[]));
    }

    /// Request 14 for the time of some requests that leave the state list as it is.
    pub fn with(&mut self, index: usize, value: u64, ask: impl FnOnce(&mut Recorder)) {
        let before = self.list()[index];
        self.set(index, value);
        ask(self);
        self.set(index, before);
    }

    /// Request 15.
    pub fn lengthen(&mut self, length: usize) {
        self.ask(&line(&[15, length as u64], &[]));
    }

    /// Request 16.
    pub fn play_state(&mut self, setup: &Setup, length: usize, trace: &[u8]) {
        let numbers = [&[16][..], &setup.head(), &[length as u64]].concat();
        self.ask(&line(&numbers, &[&setup.entries(), trace].concat()));
    }

    /// Request 16 with a state list of just enough numbers.
    pub fn play_kept(&mut self, setup: &Setup, trace: &[u8]) {
        self.play_state(setup, LENGTH, trace);
    }
}
