//! The names of the kinds and shapes, and what each line does, in the words of 01 and 02. docs/lines.md is printed from here.

use crate::arguments::{number, usage};
use crate::stop::Stop;
use crate::tungwaff::{CENTRALIZED, INCREMENT, RING, SYMMETRIC, TREE};

pub const KINDS: [&str; 5] = ["symmetric", "fetch-and-increment", "ring", "tree", "centralized"];

pub const SHAPES: [&str; 4] = ["flat", "linear", "binary", "low-power"];

/// A line: its number, what it does, and the line that a move leads to.
pub struct Line {
    pub number: u32,
    pub does: &'static str,
    pub then: &'static str,
}

const fn line(number: u32, does: &'static str, then: &'static str) -> Line {
    Line { number, does, then }
}

const OWN_WORK: Line = line(11, "own work", "12, when all of its moves are made");

const SYMMETRIC_LINES: &[Line] = &[
    OWN_WORK,
    line(12, "old := tag; tag := (old + 1) mod R; count + 1; list := all tasks", "13"),
    line(
        13,
        "look at the first task on the list, from the own start on, going round",
        "14; 11 if the list is empty",
    ),
    line(14, "await tag of looked-at != own old; take it off the list", "13"),
];

const INCREMENT_LINES: &[Line] = &[
    OWN_WORK,
    line(12, "aim := not sense", "13"),
    line(13, "arrivals + 1; count + 1", "14 for the last of the N to arrive; 16 for the others"),
    line(14, "arrivals := 0", "15"),
    line(15, "sense := aim", "11"),
    line(16, "await sense = aim", "11"),
];

const RING_LINES: &[Line] = &[
    OWN_WORK,
    line(12, "await own toggle = nz", "13"),
    line(13, "toggle of the next task := 1; count + 1", "14"),
    line(14, "await own toggle != nz", "15"),
    line(15, "toggle of the next task := 0", "11"),
];

const TREE_LINES: &[Line] = &[
    OWN_WORK,
    line(12, "list := own children", "13"),
    line(13, "look at the least child on the list", "14; 15 if the list is empty"),
    line(14, "await flag of looked-at = 1; take it off the list", "13"),
    line(15, "own flag := 1 unless task 0; count + 1", "16"),
    line(16, "await own flag = 0 unless task 0", "17"),
    line(17, "list := own children", "18"),
    line(
        18,
        "clear the flag of the least child on the list; take it off",
        "18; 11 if the list was empty before, with nothing cleared",
    ),
];

const CENTRALIZED_LINES: &[Line] = &[
    OWN_WORK,
    line(12, "own sense := not own sense", "13"),
    line(13, "arrivals - 1; count + 1", "14 for the last of the N to arrive; 16 for the others"),
    line(14, "arrivals := N", "15"),
    line(15, "sense := own sense", "11"),
    line(16, "await sense = own sense", "11"),
];

/// The lines of a kind; none for a number that is no kind.
pub fn lines(kind: usize) -> &'static [Line] {
    match kind {
        SYMMETRIC => SYMMETRIC_LINES,
        INCREMENT => INCREMENT_LINES,
        RING => RING_LINES,
        TREE => TREE_LINES,
        CENTRALIZED => CENTRALIZED_LINES,
        _ => &[],
    }
}

/// What a line does.
pub fn does(kind: usize, number: u32) -> &'static str {
    lines(kind).iter().find(|line| line.number == number).map_or("", |line| line.does)
}

/// A line's number and what it does.
pub fn in_words(kind: usize, number: u32) -> String {
    format!("{number} {}", does(kind, number))
}

/// A kind's name; its number where it has none.
pub fn name(kind: usize) -> String {
    KINDS.get(kind).map_or_else(|| format!("kind {kind}"), |name| name.to_string())
}

/// A kind by its number or its name. Whether there is a kind of that number, the library says.
pub fn kind(word: &str) -> Result<usize, Stop> {
    by_name(word, "increment", INCREMENT, &KINDS, "--kind")
}

/// A shape by its number or its name.
pub fn shape(word: &str) -> Result<usize, Stop> {
    by_name(word, "low power", 3, &SHAPES, "--shape")
}

fn by_name(
    word: &str,
    also: &str,
    also_is: usize,
    names: &[&str],
    option: &str,
) -> Result<usize, Stop> {
    if word == also {
        return Ok(also_is);
    }
    if let Some(place) = names.iter().position(|name| *name == word) {
        return Ok(place);
    }
    number(word, option).map_err(|_| {
        let last = names.len() - 1;
        usage(format!("{option} is 0 to {last} or one of {}, not '{word}'", names.join(", ")))
    })
}
