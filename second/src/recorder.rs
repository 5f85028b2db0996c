//! Records requests together with the answers that the replay gives to them.

use super::machine::{State, Tables, SYMMETRIC, TREE};
use super::requests::{field_value, Replay};
use super::setup::Setup;

#[derive(Default)]
pub struct Recorder {
    replay: Replay,
    requests: Vec<u8>,
    answers: Vec<u8>,
    count: usize,
}

impl Recorder {
    /// The request lines so far.
    pub fn requests(&self) -> &[u8] {
        &self.requests
    }

    /// The answer lines so far.
    pub fn answers(&self) -> &[u8] {
        &self.answers
    }

    /// The number of requests so far.
    pub fn count(&self) -> usize {
        self.count
    }

    /// The state that the replay keeps.
    pub fn state(&self) -> &State {
        self.replay.state()
    }

    /// The task count of the kept state.
    pub fn n(&self) -> usize {
        usize::from(self.state().n)
    }

    /// Asks with any line; it has no line feed.
    pub fn ask(&mut self, line: impl AsRef<[u8]>) {
        let line = line.as_ref();
        self.requests.extend_from_slice(line);
        self.requests.push(b'\n');
        self.answers.extend(self.replay.answer(line).into_bytes());
        self.answers.push(b'\n');
        self.count += 1;
    }

    /// Request 1.
    pub fn fresh(&mut self, kind: u64, n: u64, modulus: u64, parents: &[u8]) {
        self.ask(line(&[1, kind, n, modulus], parents));
    }

    /// Request 1 of a kind, with R 3 if it is symmetric and as a flat tree.
    pub fn fresh_kind(&mut self, kind: u8, n: usize) {
        let modulus = if kind == SYMMETRIC { 3 } else { 0 };
        let parents = vec![0; if kind == TREE { n } else { 0 }];
        self.fresh(kind.into(), n as u64, modulus, &parents);
    }

    /// Request 10 with the tables.
    pub fn fresh_with(&mut self, kind: u64, n: u64, modulus: u64, tables: Tables) {
        let tables = [tables.parents, tables.starts, tables.works];
        let lengths = tables.map(|table| table.len() as u64);
        let numbers = [&[10, kind, n, modulus][..], &lengths].concat();
        self.ask(line(&numbers, &tables.concat()));
    }

    /// Request 10 of a setup.
    pub fn fresh_setup(&mut self, setup: &Setup) {
        self.fresh_with(setup.kind, setup.n, setup.modulus, setup.tables());
    }

    /// Request 10 of a symmetric barrier with R 3 and these starts.
    pub fn fresh_starts(&mut self, n: u64, starts: &[u8]) {
        self.fresh_with(SYMMETRIC.into(), n, 3, Tables { starts, ..Tables::default() });
    }

    /// Request 10 of a kind with a work table; otherwise as `fresh_kind` makes it.
    pub fn fresh_works(&mut self, kind: u8, n: usize, works: &[u8]) {
        let parents = vec![0; if kind == TREE { n } else { 0 }];
        let modulus = if kind == SYMMETRIC { 3 } else { 0 };
        let tables = Tables { parents: &parents, starts: &[], works };
        self.fresh_with(kind.into(), n as u64, modulus, tables);
    }

    /// Request 2.
    pub fn turn(&mut self, task: u64) {
        self.ask(line(&[2, task], &[]));
    }

    /// Request 3.
    pub fn ready(&mut self) {
        self.ask("3");
    }

    /// Request 4.
    pub fn run(&mut self, allowance: u64, log: u64, schedule: &[u8]) {
        self.ask(line(&[4, allowance, log], schedule));
    }

    /// Request 4 with just enough allowance and log for the whole schedule.
    pub fn run_all(&mut self, schedule: &[u8]) {
        let length = schedule.len() as u64;
        self.run(length, 2 * length, schedule);
    }

    /// Request 5.
    pub fn show(&mut self) {
        self.ask("5");
    }

    /// Request 2 for each task, the state shown after each.
    pub fn turns(&mut self, tasks: &[u8]) {
        for &task in tasks {
            self.turn(task.into());
            self.show();
        }
    }

    /// Request 6.
    pub fn change(&mut self, field: u64, task: u64, value: u64) {
        self.ask(line(&[6, field, task, value], &[]));
    }

    /// Request 6, unless the field has the value already.
    pub fn set(&mut self, field: u64, task: usize, value: u64) {
        if field_value(self.state(), field, task) != value {
            self.change(field, task as u64, value);
        }
    }

    /// Changes a field for the time of some requests that don't change the state.
    pub fn with(&mut self, field: u64, task: usize, value: u64, ask: impl FnOnce(&mut Recorder)) {
        let before = field_value(self.state(), field, task);
        self.change(field, task as u64, value);
        ask(self);
        self.change(field, task as u64, before);
    }

    /// Request 7.
    pub fn passes(&mut self, n: u64, list: u64, schedule: &[u8]) {
        self.ask(line(&[7, n, list], schedule));
    }

    /// Request 8.
    pub fn first_pass(&mut self, n: u64, place: u64, schedule: &[u8]) {
        self.ask(line(&[8, n, place], schedule));
    }

    /// Request 9.
    pub fn shape(&mut self, shape: u64, n: u64, table: u64) {
        self.ask(line(&[9, shape, n, table], &[]));
    }

    /// Request 11.
    pub fn play(&mut self, setup: &Setup, trace: &[u8]) {
        let numbers = [&[11][..], &setup.head()].concat();
        self.ask(line(&numbers, &[&setup.entries()[..], trace].concat()));
    }
}

/// A request line of numbers and bytes.
pub fn line(numbers: &[u64], bytes: &[u8]) -> String {
    let numbers = numbers.iter().map(u64::to_string);
    let bytes = bytes.iter().map(u8::to_string);
    numbers.chain(bytes).collect::<Vec<_>>().join(" ")
}
