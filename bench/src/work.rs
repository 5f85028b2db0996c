//! What is measured: runs of schedules, with numbers for each task or rows for each turn, their passes, play-backs of traces, and the reading and
//! the sheets of texts, each done by the library and by the baseline.

use crate::library::{
    self, Passes, Played, Ran, Read, MAX_TASKS, PAGE, ROW_LENGTH, STATE, TASK_LENGTH,
};
use crate::measured::machine::{
    fresh, least_count, run, step, Ending, Outcome, State, Tables, SYMMETRIC, TREE,
};
use crate::measured::playback::{self, Verdict};
use crate::measured::random::Random;
use crate::measured::{passes, schedules, shapes, sheet};
use crate::start::Start;

pub const TURNS: usize = 65_536;

/// The kinds, by number and name.
pub const KINDS: [(u8, &str); 5] =
    [(0, "symmetric"), (1, "fetch-and-increment"), (2, "ring"), (3, "tree"), (4, "centralized")];

/// The manners of a schedule.
#[derive(Clone, Copy, PartialEq, Eq)]
pub enum Manner {
    Random,
    RoundRobin,
}

impl Manner {
    pub const ALL: [Manner; 2] = [Manner::Random, Manner::RoundRobin];

    pub fn name(self) -> &'static str {
        match self {
            Manner::Random => "random",
            Manner::RoundRobin => "round robin",
        }
    }

    /// A schedule of this manner.
    pub fn schedule(self, n: usize, turns: usize) -> Vec<u8> {
        match self {
            Manner::Random => schedules::uniform(&mut Random::new(1), n, turns),
            Manner::RoundRobin => schedules::cycle(n, turns),
        }
    }
}

/// Two ways to do one piece of work.
pub trait Work {
    /// Clears what the work writes to.
    fn clear(&mut self);
    fn library(&mut self);
    fn baseline(&mut self);
    /// Ends the program if the two have not given the same.
    fn compare(&self);
}

/// A run from a fresh state, with its log and its numbers for each task.
pub struct Run {
    pub start: Start,
    ours: (Ran, Vec<u8>, Vec<u32>),
    theirs: (Ran, Vec<u8>, Vec<u32>),
}

impl Run {
    pub fn new(kind: u8, n: usize, schedule: Vec<u8>) -> Run {
        let buffers = || (UNDONE, vec![0; 2 * schedule.len()], vec![0; TASK_LENGTH * n]);
        let (ours, theirs) = (buffers(), buffers());
        Run { start: start(kind, n, schedule), ours, theirs }
    }
}

/// What stands for an answer before the work is done.
const UNDONE: Ran = Ran { reason: 255, turns: 0, place: 0, rounds: 0 };

/// The least modulus for the symmetric barrier, the binary tree, and no other table.
fn start(kind: u8, n: usize, schedule: Vec<u8>) -> Start {
    let modulus = if kind == SYMMETRIC { 3 } else { 0 };
    let (parents, starts, works) = (parents(kind, n), Vec::new(), Vec::new());
    Start { kind: kind.into(), n, modulus, parents, starts, works, schedule }
}

/// The binary tree's table for a tree, and none for another kind.
fn parents(kind: u8, n: usize) -> Vec<u8> {
    let mut table = vec![0; if kind == TREE { n } else { 0 }];
    if kind == TREE {
        shapes::shape(2, n as u64, &mut table).expect("a shape for 1 to 64 tasks");
    }
    table
}

/// The baseline's fresh state.
fn fresh_state(start: &Start) -> Option<State> {
    let Start { kind, n, modulus, parents, starts, works, .. } = start;
    let tables = Tables { parents, starts, works };
    let mut state = State::ZERO;
    fresh(&mut state, *kind as u64, *n as u64, *modulus as u64, tables).ok().map(|()| state)
}

impl Work for Run {
    fn clear(&mut self) {
        for (ran, log, tasks) in [&mut self.ours, &mut self.theirs] {
            *ran = UNDONE;
            log.fill(0);
            tasks.fill(0);
        }
    }

    fn library(&mut self) {
        let (ran, log, tasks) = &mut self.ours;
        let schedule = &self.start.schedule;
        *ran = library::run(&self.start.setup(), schedule, schedule.len(), log, tasks);
    }

    fn baseline(&mut self) {
        let (ran, log, tasks) = &mut self.theirs;
        let schedule = &self.start.schedule;
        let Some(mut state) = fresh_state(&self.start) else {
            return;
        };
        let report = run(&mut state, schedule, schedule.len() as u64, log);
        if report.ending != Ending::Done {
            return;
        }
        for (number, told) in tasks.chunks_exact_mut(TASK_LENGTH).enumerate() {
            let (line, count) = (state.tasks[number].line.into(), state.tasks[number].count);
            told.copy_from_slice(&[line, count, report.moves[number], report.waits[number]]);
        }
        *ran = Ran { reason: 0, turns: report.turns, place: 0, rounds: report.rounds as u32 };
    }

    fn compare(&self) {
        assert!(self.ours.0.reason == 0 && self.ours == self.theirs, "the runs differ");
    }
}

/// A run from a state that is kept, with its log and a row for each turn. Both sides begin with a fresh state.
pub struct Rows {
    start: Start,
    list: Vec<u64>,
    state: State,
    ours: (Ran, Vec<u8>, Vec<u32>),
    theirs: (Ran, Vec<u8>, Vec<u32>),
}

impl Rows {
    pub fn new(kind: u8, n: usize, schedule: Vec<u8>) -> Rows {
        let buffers =
            || (UNDONE, vec![0; 2 * schedule.len()], vec![0; ROW_LENGTH * schedule.len()]);
        let (ours, theirs) = (buffers(), buffers());
        let start = start(kind, n, schedule);
        Rows { start, list: vec![0; STATE], state: State::ZERO, ours, theirs }
    }
}

impl Work for Rows {
    fn clear(&mut self) {
        for (ran, log, rows) in [&mut self.ours, &mut self.theirs] {
            *ran = UNDONE;
            log.fill(0);
            rows.fill(0);
        }
        assert!(library::fresh(&self.start.setup(), &mut self.list) == 0);
        self.state = fresh_state(&self.start).expect("a fresh state for 1 to 64 tasks");
    }

    fn library(&mut self) {
        let (ran, log, rows) = &mut self.ours;
        let schedule = &self.start.schedule;
        *ran = library::rows(&mut self.list, schedule, schedule.len(), log, rows);
    }

    /// Turn by turn. The least count is asked for only where a round is closed.
    fn baseline(&mut self) {
        let (ran, log, rows) = &mut self.theirs;
        let mut least = least_count(&self.state);
        let mut made = Ran { reason: 0, ..UNDONE };
        let places = log.chunks_exact_mut(2).zip(rows.chunks_exact_mut(ROW_LENGTH));
        for (&task, (entry, row)) in self.start.schedule.iter().zip(places) {
            let number = usize::from(task);
            let line = self.state.tasks[number].line;
            let Ok(outcome) = step(&mut self.state, number) else {
                return;
            };
            let moved = u8::from(outcome != Outcome::Waited);
            let closed = u32::from(outcome == Outcome::Moved { closed: true });
            least += closed;
            made.turns += 1;
            made.rounds += closed;
            entry.copy_from_slice(&[line, moved]);
            let count = self.state.tasks[number].count;
            row.copy_from_slice(&[task.into(), line.into(), moved.into(), count, least, closed]);
        }
        *ran = made;
    }

    fn compare(&self) {
        assert!(self.ours.0.reason == 0 && self.ours == self.theirs, "the rows differ");
    }
}

/// The passes of a schedule, with their pairs.
pub struct Cut {
    n: usize,
    schedule: Vec<u8>,
    ours: (Passes, Vec<u32>),
    theirs: (Passes, Vec<u32>),
}

impl Cut {
    pub fn new(n: usize, schedule: Vec<u8>) -> Cut {
        let lists = || (UNCUT, vec![0; 2 * schedule.len()]);
        Cut { n, ours: lists(), theirs: lists(), schedule }
    }
}

/// What stands for an answer before the work is done.
const UNCUT: Passes = Passes { reason: 255, count: 0, place: 0 };

impl Work for Cut {
    fn clear(&mut self) {
        for (passes, pairs) in [&mut self.ours, &mut self.theirs] {
            *passes = UNCUT;
            pairs.fill(0);
        }
    }

    fn library(&mut self) {
        self.ours.0 = library::passes(self.n, &self.schedule, &mut self.ours.1);
    }

    fn baseline(&mut self) {
        let counted = passes::passes(self.n as u64, &self.schedule, &mut self.theirs.1);
        self.theirs.0 = counted.map_or(UNCUT, |count| Passes { reason: 0, count, place: 0 });
    }

    fn compare(&self) {
        assert!(self.ours.0.reason == 0 && self.ours == self.theirs, "the passes differ");
    }
}

/// The play-back of a trace.
pub struct Play {
    start: Start,
    trace: Vec<u8>,
    ours: Played,
    theirs: Played,
}

/// The most triples of a trace.
pub const TRIPLES: usize = playback::MAX_TRACE / 3;

impl Play {
    /// The trace of so many turns as there can be triples, of a random schedule. With `differs` the outcome of the last one is another.
    pub fn new(kind: u8, n: usize, differs: bool) -> Play {
        let mut run = Run::new(kind, n, Manner::Random.schedule(n, TRIPLES));
        run.baseline();
        let rows = run.theirs.1.chunks_exact(2);
        let mut trace: Vec<u8> = run
            .start
            .schedule
            .iter()
            .zip(rows)
            .flat_map(|(&task, row)| [task, row[0], row[1]])
            .collect();
        if differs {
            trace[3 * TRIPLES - 1] ^= 1;
        }
        Play { start: run.start, trace, ours: UNPLAYED, theirs: UNPLAYED }
    }
}

/// What stands for an answer before the work is done.
const UNPLAYED: Played = Played { reason: 255, agrees: 0, index: 0 };

impl Work for Play {
    fn clear(&mut self) {
        (self.ours, self.theirs) = (UNPLAYED, UNPLAYED);
    }

    fn library(&mut self) {
        self.ours = library::play(&self.start.setup(), &self.trace);
    }

    fn baseline(&mut self) {
        let Start { kind, n, modulus, parents, starts, works, .. } = &self.start;
        let tables = Tables { parents, starts, works };
        let (kind, n, modulus) = (*kind as u64, *n as u64, *modulus as u64);
        let verdict =
            playback::play(&mut State::ZERO.clone(), kind, n, modulus, tables, &self.trace);
        self.theirs = match verdict {
            Ok(Verdict::Agrees) => Played { reason: 0, agrees: 1, index: 0 },
            Ok(Verdict::Differs(index)) => Played { reason: 0, agrees: 0, index },
            Err(_) => UNPLAYED,
        };
    }

    fn compare(&self) {
        assert!(self.ours.reason == 0 && self.ours == self.theirs, "the play-backs differ");
    }
}

/// The reading of a sheet's text.
pub struct Reading {
    pub text: Vec<u8>,
    ours: (Read, Vec<u8>, Vec<u8>),
    theirs: (Read, Vec<u8>, Vec<u8>),
}

impl Reading {
    pub fn new(text: Vec<u8>) -> Reading {
        let buffers = || (UNREAD, vec![0; MAX_TASKS], vec![0; sheet::MAX_TEXT / 2]);
        Reading { text, ours: buffers(), theirs: buffers() }
    }
}

/// What stands for an answer before the work is done.
const UNREAD: Read =
    Read { reason: 255, place: 0, kind: 0, n: 0, modulus: 0, parents: 0, turns: 0 };

impl Work for Reading {
    fn clear(&mut self) {
        for (read, parents, schedule) in [&mut self.ours, &mut self.theirs] {
            *read = UNREAD;
            parents.fill(0);
            schedule.fill(0);
        }
    }

    fn library(&mut self) {
        let (read, parents, schedule) = &mut self.ours;
        *read = library::read(&self.text, parents, schedule);
    }

    fn baseline(&mut self) {
        let (read, parents, schedule) = &mut self.theirs;
        let Ok((setup, turns)) = sheet::read(&self.text) else {
            return;
        };
        parents[..setup.parents.len()].copy_from_slice(&setup.parents);
        schedule[..turns.len()].copy_from_slice(&turns);
        let [kind, n, modulus] = [setup.kind, setup.n, setup.modulus].map(|number| number as usize);
        let (parents, turns) = (setup.parents.len(), turns.len());
        *read = Read { reason: 0, place: 0, kind, n, modulus, parents, turns };
    }

    fn compare(&self) {
        assert!(self.ours.0.reason == 0 && self.ours == self.theirs, "what is read differs");
    }
}

/// The sheet of a text.
pub struct Sheet {
    pub text: Vec<u8>,
    ours: ([u8; PAGE], usize),
    theirs: String,
}

impl Sheet {
    pub fn new(text: Vec<u8>) -> Sheet {
        Sheet { text, ours: ([0; PAGE], 0), theirs: String::new() }
    }
}

impl Work for Sheet {
    fn clear(&mut self) {
        self.ours = ([0; PAGE], 0);
        self.theirs.clear();
    }

    fn library(&mut self) {
        self.ours.1 = library::sheet(&self.text, &mut self.ours.0);
    }

    fn baseline(&mut self) {
        self.theirs = sheet::sheet(&self.text);
    }

    fn compare(&self) {
        let printed = &self.ours.0[..self.ours.1];
        assert!(!printed.is_empty() && printed == self.theirs.as_bytes(), "the sheets differ");
    }
}

/// The longest text, of 65,536 bytes at most, for a random schedule of a kind. With `last` it ends in that number.
pub fn text(kind: u8, n: usize, last: &str) -> Vec<u8> {
    let mut numbers = vec![usize::from(kind), n, if kind == SYMMETRIC { 3 } else { 0 }];
    numbers.extend(parents(kind, n).into_iter().map(usize::from));
    let schedule = Manner::Random.schedule(n, sheet::MAX_TEXT / 2);
    numbers.extend(schedule.into_iter().map(usize::from));
    let mut text = String::new();
    for number in numbers {
        let word = format!("{number} ");
        if text.len() + word.len() + last.len() > sheet::MAX_TEXT {
            break;
        }
        text.push_str(&word);
    }
    text.push_str(last);
    text.into_bytes()
}
