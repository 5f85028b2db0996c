//! The rows of a sheet's text: what the library reads of it, and what its turns do. Nothing here is computed but the numbers' places.

use crate::finding::{self, Form};
use crate::kinds;
use crate::mend;
use crate::settings;
use crate::stop::{accepted, accepted_or, Stop};
use crate::tungwaff::{self, reason, Setup, MAX_TASKS, MAX_TURNS, ROW_LENGTH, STATE, TREE};
use crate::words;

/// One turn, as `tungwaff_rows` tells it.
#[derive(Clone, Copy, Debug, PartialEq, Eq)]
pub struct Row {
    pub task: usize,
    /// The line before the turn.
    pub line: u32,
    pub moved: bool,
    /// The task's count, and the least count, after the turn.
    pub count: u32,
    pub least: u32,
    /// Whether the turn closed a round.
    pub closed: bool,
}

impl Row {
    fn of(numbers: &[u32]) -> Row {
        Row {
            task: numbers[0] as usize,
            line: numbers[1],
            moved: numbers[2] == 1,
            count: numbers[3],
            least: numbers[4],
            closed: numbers[5] == 1,
        }
    }

    pub fn answer(&self) -> &'static str {
        if self.moved {
            "moved"
        } else {
            "waited"
        }
    }
}

/// A run told turn by turn, with what it is of in words.
pub struct Told {
    pub kind: usize,
    pub n: usize,
    pub setting: String,
    pub rows: Vec<Row>,
    pub rounds: u32,
}

/// What the library reads of a sheet's text.
pub struct Sheet {
    pub kind: usize,
    pub n: usize,
    pub modulus: usize,
    pub parents: Vec<u8>,
    pub schedule: Vec<u8>,
}

/// Reads a text. The name is for the command that mends it.
pub fn read(text: &[u8], name: &str) -> Result<Sheet, Stop> {
    let mut parents = vec![0; MAX_TASKS];
    let mut schedule = vec![0; MAX_TURNS];
    let read = tungwaff::read(text, &mut parents, &mut schedule);
    if read.reason != 0 {
        return Err(refused_text(text, name, read.reason, read.place));
    }
    parents.truncate(read.parents);
    schedule.truncate(read.turns);
    Ok(Sheet { kind: read.kind, n: read.n, modulus: read.modulus, parents, schedule })
}

fn refused_text(text: &[u8], name: &str, reason: u8, place: usize) -> Stop {
    let words = finding::of_text(Form::Sheet, text, reason, place)
        .unwrap_or_else(|| tungwaff::reason_text(reason).to_string());
    let is_text = reason == reason::TEXT;
    let mend = if is_text { mend::line(Form::Sheet, text, name) } else { None };
    Stop::Refused { reason, words, mend }
}

/// The turns of a sheet from a fresh state with these tables.
pub fn tell(sheet: &Sheet, starts: &[u8], works: &[u8]) -> Result<Told, Stop> {
    let Sheet { kind, n, modulus, ref parents, ref schedule } = *sheet;
    let mut state = vec![0; STATE];
    fresh(&Setup { kind, n, modulus, parents, starts, works }, &mut state)?;
    let turns = schedule.len();
    let mut log = vec![0; 2 * turns];
    let mut rows = vec![0; ROW_LENGTH * turns];
    let ran = tungwaff::rows(&mut state, schedule, turns, &mut log, &mut rows);
    accepted(ran.reason)?;
    let rows = rows.chunks_exact(ROW_LENGTH).take(ran.turns).map(Row::of).collect();
    let setting = format!("{}, {}", name(sheet), settings::heading(n, starts, works));
    Ok(Told { kind, n, setting, rows, rounds: ran.rounds })
}

/// Writes the fresh state; a refusal says which number it was.
pub fn fresh(setup: &Setup, state: &mut [u64]) -> Result<(), Stop> {
    let refusal = tungwaff::fresh(setup, state);
    accepted_or(refusal, || settings::refused(refusal, setup))
}

/// The barrier's name, with its modulus or its shape.
fn name(sheet: &Sheet) -> String {
    let name = kinds::name(sheet.kind);
    if sheet.modulus != 0 {
        return format!("{name} (R {})", sheet.modulus);
    }
    let is_shape =
        |shape: &usize| parents(*shape, sheet.n).is_ok_and(|table| table == sheet.parents);
    match (0..kinds::SHAPES.len()).find(is_shape) {
        Some(shape) if sheet.kind == TREE => format!("{name} ({})", kinds::SHAPES[shape]),
        _ => name,
    }
}

/// The parents of a shape, from the library.
pub fn parents(shape: usize, n: usize) -> Result<Vec<u8>, Stop> {
    let mut table = vec![0; MAX_TASKS];
    let refusal = tungwaff::shape(shape, n, &mut table);
    accepted_or(refusal, || match refusal {
        reason::KIND => words::must("the shape", shape, "0 to 3"),
        _ => settings::refused(refusal, &Setup { n, ..Setup::default() }),
    })?;
    table.truncate(n);
    Ok(table)
}
