//! The replay: reads request lines, keeps one state, and gives one answer line for each.

use super::lines::{append, append_bytes, append_words, bytes, numbers};
use super::machine::{fresh, ready, run, turn, Ending, Outcome, Report, State, Tables, Task};
use super::passes::{first_pass, passes};
use super::playback::play;
use super::shapes::shape;

/// The most entries of each part of a request.
pub const MAX_REQUEST_TURNS: usize = 70_000;
pub const MAX_REQUEST_TABLE: usize = 4_096;
pub const MAX_REQUEST_TRACE: usize = 70_000;
const MAX_LOG: u64 = 131_072;
const MAX_LIST: u64 = 131_072;
pub const MAX_TABLE: u64 = 4_096;

/// The numbers of a task's fields in request 6. Request 5 shows them in this order.
pub const TASK_FIELDS: [u64; 15] = [0, 1, 2, 3, 4, 5, 6, 7, 8, 15, 16, 17, 18, 19, 20];

/// The answer to a line that is no request.
const BAD_LINE: &str = "bad line";

/// A replay with the state it keeps.
pub struct Replay {
    state: State,
}

/// A replay that begins with a state of zeros.
impl Default for Replay {
    fn default() -> Replay {
        Replay { state: State::ZERO }
    }
}

impl Replay {
    /// The kept state.
    pub fn state(&self) -> &State {
        &self.state
    }

    /// The answer to one line; the line and the answer are without a line feed.
    pub fn answer(&mut self, line: &[u8]) -> String {
        let answer = numbers(line).and_then(|numbers| self.request(&numbers));
        answer.unwrap_or_else(|| BAD_LINE.to_string())
    }

    /// The answer to one request, or none if there is no such request.
    fn request(&mut self, numbers: &[u64]) -> Option<String> {
        match numbers {
            [1, kind, n, modulus, parents @ ..] => {
                self.fresh_with_parents([*kind, *n, *modulus], parents)
            }
            [2, task] => Some(self.turn(*task)),
            [3] => Some(self.ready()),
            [4, allowance, length, turns @ ..] => self.run(*allowance, *length, turns),
            [5] => Some(self.show()),
            [6, field, task, value] => self.change(*field, *task, *value),
            [7, n, length, turns @ ..] => answer_passes(*n, *length, turns),
            [8, n, place, turns @ ..] => answer_first_pass(*n, *place, turns),
            [9, shape, n, length] => answer_shape(*shape, *n, *length),
            [10, kind, n, modulus, parents, starts, works, entries @ ..] => {
                self.fresh_with_tables([*kind, *n, *modulus], [*parents, *starts, *works], entries)
            }
            [11, kind, n, modulus, parents, starts, works, entries @ ..] => {
                self.play([*kind, *n, *modulus], [*parents, *starts, *works], entries)
            }
            _ => None,
        }
    }

    /// Request 1.
    fn fresh_with_parents(&mut self, head: [u64; 3], parents: &[u64]) -> Option<String> {
        let parents = bytes(parents, MAX_REQUEST_TABLE)?;
        Some(self.fresh(head, Tables::of_parents(&parents)))
    }

    /// Request 10: the entries are a parent, a start and a work table of these lengths and nothing
    /// else.
    fn fresh_with_tables(
        &mut self,
        head: [u64; 3],
        lengths: [u64; 3],
        entries: &[u64],
    ) -> Option<String> {
        let ([parents, starts, works], rest) = first_tables(entries, lengths)?;
        let tables = Tables { parents: &parents, starts: &starts, works: &works };
        rest.is_empty().then(|| self.fresh(head, tables))
    }

    /// Request 11: the entries are a parent, a start and a work table of these lengths, then the
    /// trace.
    fn play(
        &mut self,
        [kind, n, modulus]: [u64; 3],
        lengths: [u64; 3],
        entries: &[u64],
    ) -> Option<String> {
        let ([parents, starts, works], rest) = first_tables(entries, lengths)?;
        let tables = Tables { parents: &parents, starts: &starts, works: &works };
        let trace = bytes(rest, MAX_REQUEST_TRACE)?;
        Some(match play(&mut self.state, kind, n, modulus, tables, &trace) {
            Ok(verdict) => verdict.to_string(),
            Err(refusal) => refusal.to_string(),
        })
    }

    /// A fresh state of a kind, N and R; it is kept.
    fn fresh(&mut self, [kind, n, modulus]: [u64; 3], tables: Tables) -> String {
        match fresh(&mut self.state, kind, n, modulus, tables) {
            Ok(()) => "0".to_string(),
            Err(refusal) => refusal.to_string(),
        }
    }

    /// Request 2.
    fn turn(&mut self, task: u64) -> String {
        match turn(&mut self.state, task) {
            Ok(Outcome::Moved { closed }) => format!("1 {}", u8::from(closed)),
            Ok(Outcome::Waited) => "0".to_string(),
            Err(refusal) => refusal.to_string(),
        }
    }

    /// Request 3.
    fn ready(&self) -> String {
        match ready(&self.state) {
            Ok(Some(task)) => format!("task {task}"),
            Ok(None) => "none".to_string(),
            Err(refusal) => refusal.to_string(),
        }
    }

    /// Request 4.
    fn run(&mut self, allowance: u64, length: u64, turns: &[u64]) -> Option<String> {
        let schedule = bytes(turns, MAX_REQUEST_TURNS)?;
        let mut log = lent(length, MAX_LOG, 255_u8)?;
        let report = run(&mut self.state, &schedule, allowance, &mut log);
        Some(report_line(&report, &log))
    }

    /// Request 5.
    fn show(&self) -> String {
        let mut line = String::new();
        append(&mut line, &all_fields(&self.state));
        line
    }

    /// Request 6.
    fn change(&mut self, field: u64, task: u64, value: u64) -> Option<String> {
        let task = usize::try_from(task).ok()?;
        change_field(&mut self.state, field, task, value)?;
        Some("ok".to_string())
    }
}

/// All fields of a state in the order of request 5.
pub fn all_fields(state: &State) -> Vec<u64> {
    let shared = shared_fields(state).into_iter().chain(state.parents).map(u64::from);
    shared.chain(state.tasks.iter().flat_map(task_fields)).collect()
}

/// Changes a field by its number in request 6, if it is there and the value fits its type.
pub fn change_field(state: &mut State, field: u64, task: usize, value: u64) -> Option<()> {
    match field {
        0..=8 | 15..=20 => change_task(state.tasks.get_mut(task)?, field, value)?,
        9..=13 if task == 0 => *shared_field(state, field) = byte(value)?,
        14 => *state.parents.get_mut(task)? = byte(value)?,
        _ => return None,
    }
    Some(())
}

/// The fields of a task in the order of their numbers.
fn task_fields(task: &Task) -> [u64; TASK_FIELDS.len()] {
    [
        task.line.into(),
        task.count.into(),
        task.tag.into(),
        task.old.into(),
        task.list,
        task.looked.into(),
        task.aim.into(),
        task.toggle.into(),
        task.flag.into(),
        task.start.into(),
        task.moves.into(),
        task.waits.into(),
        task.work.into(),
        task.left.into(),
        task.sense.into(),
    ]
}

/// The value of a field by its number in request 6. Fields 9 to 14 are no task's.
pub fn field_value(state: &State, field: u64, task: usize) -> u64 {
    match field {
        0..=8 => task_fields(&state.tasks[task])[field as usize],
        9..=13 => shared_fields(state)[field as usize - 9].into(),
        14 => state.parents[task].into(),
        _ => task_fields(&state.tasks[task])[field as usize - 6],
    }
}

/// The fields that aren't a task's, but the parents, in the order of requests 5 and 6.
fn shared_fields(state: &State) -> [u8; 5] {
    [state.kind, state.n, state.modulus, state.arrivals, state.sense]
}

/// Changes one of a task's fields if the value fits its type.
fn change_task(task: &mut Task, field: u64, value: u64) -> Option<()> {
    match field {
        0 => task.line = byte(value)?,
        1 => task.count = word(value)?,
        2 => task.tag = byte(value)?,
        3 => task.old = byte(value)?,
        4 => task.list = value,
        5 => task.looked = byte(value)?,
        6 => task.aim = byte(value)?,
        7 => task.toggle = byte(value)?,
        8 => task.flag = byte(value)?,
        15 => task.start = byte(value)?,
        16 => task.moves = word(value)?,
        17 => task.waits = word(value)?,
        18 => task.work = byte(value)?,
        19 => task.left = byte(value)?,
        _ => task.sense = byte(value)?,
    }
    Some(())
}

/// One of fields 9 to 13.
fn shared_field(state: &mut State, field: u64) -> &mut u8 {
    match field {
        9 => &mut state.kind,
        10 => &mut state.n,
        11 => &mut state.modulus,
        12 => &mut state.arrivals,
        _ => &mut state.sense,
    }
}

/// Request 7.
fn answer_passes(n: u64, length: u64, turns: &[u64]) -> Option<String> {
    let schedule = bytes(turns, MAX_REQUEST_TURNS)?;
    let mut pairs = lent(length, MAX_LIST, u32::MAX)?;
    let mut line = match passes(n, &schedule, &mut pairs) {
        Ok(number) => number.to_string(),
        Err(refusal) => refusal.to_string(),
    };
    append_words(&mut line, &pairs);
    Some(line)
}

/// Request 8.
fn answer_first_pass(n: u64, place: u64, turns: &[u64]) -> Option<String> {
    let schedule = bytes(turns, MAX_REQUEST_TURNS)?;
    let pass = first_pass(n, &schedule, place);
    let mut line = pass.len().to_string();
    append_bytes(&mut line, pass);
    Some(line)
}

/// Request 9.
fn answer_shape(number: u64, n: u64, length: u64) -> Option<String> {
    let mut table = lent(length, MAX_TABLE, 255_u8)?;
    let mut line = match shape(number, n, &mut table) {
        Ok(()) => "ok".to_string(),
        Err(refusal) => refusal.to_string(),
    };
    append_bytes(&mut line, &table);
    Some(line)
}

/// The answer line of a run.
fn report_line(report: &Report, log: &[u8]) -> String {
    let mut line = ending(report.ending);
    append(&mut line, &[report.turns, report.rounds].map(|number| number as u64));
    append_words(&mut line, &report.moves);
    append_words(&mut line, &report.waits);
    append_bytes(&mut line, log);
    line
}

/// The words of an ending.
fn ending(ending: Ending) -> String {
    match ending {
        Ending::Done => "done".to_string(),
        Ending::Spent => "spent".to_string(),
        Ending::Stopped(refusal) => format!("stopped {}", refusal.number()),
        Ending::Refused(refusal) => refusal.to_string(),
    }
}

/// The number as a byte, if it fits.
fn byte(number: u64) -> Option<u8> {
    u8::try_from(number).ok()
}

/// The number as 32 bits, if it fits.
fn word(number: u64) -> Option<u32> {
    u32::try_from(number).ok()
}

/// The first entries as a parent, a start and a work table of so many bytes, and the entries after
/// them.
pub fn first_tables(entries: &[u64], lengths: [u64; 3]) -> Option<([Vec<u8>; 3], &[u64])> {
    let (parents, rest) = first_table(entries, lengths[0])?;
    let (starts, rest) = first_table(rest, lengths[1])?;
    let (works, rest) = first_table(rest, lengths[2])?;
    Some(([parents, starts, works], rest))
}

/// The first entries as a table of so many bytes, and the entries after it.
fn first_table(entries: &[u64], length: u64) -> Option<(Vec<u8>, &[u64])> {
    let (table, rest) = entries.split_at_checked(usize::try_from(length).ok()?)?;
    Some((bytes(table, MAX_REQUEST_TABLE)?, rest))
}

/// A buffer to lend, filled with one value, if it isn't too long.
pub fn lent<T: Clone>(length: u64, most: u64, value: T) -> Option<Vec<T>> {
    (length <= most).then(|| vec![value; length as usize])
}
