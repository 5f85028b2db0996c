//! The words for a number that isn't what it must be, as docs/refusals.md fixes them: behind a place in a text, or alone for a word of the call.

/// What a number is, and what it must be.
pub fn must(name: &str, value: usize, range: &str) -> String {
    format!("{name} is {value}, and must be {range}")
}

pub fn kind(value: usize) -> String {
    must("the kind", value, "0 to 4")
}

pub fn tasks(value: usize) -> String {
    must("N", value, "1 to 64")
}

pub fn modulus(kind: usize, value: usize) -> String {
    match kind {
        0 => must("R", value, "3 to 255 for kind 0"),
        _ => must("R", value, &format!("0 for kind {kind}")),
    }
}

/// Of a task's entry in a table.
pub fn entry(name: &str, task: usize, value: usize, range: &str) -> String {
    must(&format!("the {name} of task {task}"), value, range)
}

pub fn below(limit: usize) -> String {
    format!("below {limit}")
}

/// What a work length must be.
pub const WORK: &str = "1 to 255";
