//! The sheet: a text of numbers in, the table of a whole run or a refusal out. What a text says is a
//! call of its own, and the numbers of a text are read for the setup of a play too.

use super::machine::{fresh, least_count, run, Ending, Report, State, TREE};
use super::passes::Passes;
use super::refusal::{check_schedule, Refusal};
use super::setup::Setup;
use std::fmt::Write;

/// The most bytes of a text.
pub const MAX_TEXT: usize = 65_536;

/// The most digits of a number.
pub const MAX_DIGITS: usize = 5;

/// The sheet that the text asks for.
pub fn sheet(text: &[u8]) -> String {
    match whole_run(text) {
        Ok(sheet) => sheet,
        Err(refusal) => format!("{refusal}\n"),
    }
}

/// Reads the text, runs its schedule from a fresh state and writes the table.
fn whole_run(text: &[u8]) -> Result<String, Refusal> {
    let (setup, schedule) = read(text)?;
    let mut state = State::ZERO;
    fresh(&mut state, setup.kind, setup.n, setup.modulus, setup.tables())?;
    let mut log = vec![0; 2 * schedule.len()];
    let report = run(&mut state, &schedule, schedule.len() as u64, &mut log);
    match report.ending {
        Ending::Stopped(refusal) | Ending::Refused(refusal) => Err(refusal),
        Ending::Done | Ending::Spent => Ok(table(&state, &report, &schedule)),
    }
}

/// Reads kind, N, R and parents, then the schedule. Checks 1 to 6, then 9. No text has too many
/// turns for 8.
pub fn read(text: &[u8]) -> Result<(Setup, Vec<u8>), Refusal> {
    let numbers = numbers(text)?;
    let [kind, n, modulus, rest @ ..] = &numbers[..] else {
        return Err(Refusal::Text);
    };
    let entries = if *kind == u64::from(TREE) { *n } else { 0 };
    let (parents, schedule) = rest.split_at(entries.min(rest.len() as u64) as usize);
    let (kind, n, modulus, parents) = (*kind, *n, *modulus, bytes(parents));
    let setup = Setup { kind, n, modulus, parents, ..Setup::default() };
    let mut state = State::ZERO;
    fresh(&mut state, kind, n, modulus, setup.tables())?;
    let schedule = bytes(schedule);
    check_schedule(n as usize, &schedule)?;
    Ok((setup, schedule))
}

/// Check 1 but for how many numbers there are, and the numbers of the text.
pub fn numbers(text: &[u8]) -> Result<Vec<u64>, Refusal> {
    if text.len() > MAX_TEXT || !text.iter().all(is_known) {
        return Err(Refusal::Text);
    }
    text.split(|byte| !byte.is_ascii_digit())
        .filter(|digits| !digits.is_empty())
        .map(number)
        .collect()
}

/// Whether a text can have the byte.
pub fn is_known(byte: &u8) -> bool {
    byte.is_ascii_digit() || *byte == b' ' || *byte == b'\n'
}

/// The number that the digits write.
fn number(digits: &[u8]) -> Result<u64, Refusal> {
    if digits.len() > MAX_DIGITS {
        return Err(Refusal::Text);
    }
    let append = |number, &digit: &u8| 10 * number + u64::from(digit - b'0');
    Ok(digits.iter().fold(0, append))
}

/// The numbers as bytes. One that is too large becomes 255, which is no parent, start or task.
pub fn bytes(numbers: &[u64]) -> Vec<u8> {
    numbers.iter().map(|&number| number.min(255) as u8).collect()
}

/// The table of a run that made all its turns.
fn table(state: &State, report: &Report, schedule: &[u8]) -> String {
    let n = usize::from(state.n);
    let mut text = String::from("task line count moves waits\n");
    for (number, task) in state.tasks[..n].iter().enumerate() {
        let (moves, waits) = (report.moves[number], report.waits[number]);
        let (line, count) = (task.line, task.count);
        let _ = writeln!(text, "{number} {line} {count} {moves} {waits}");
    }
    let passes = Passes::new(n, schedule).count();
    let least = least_count(state);
    let _ = writeln!(text, "passes {passes} least {least}");
    text
}
