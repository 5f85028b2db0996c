//! `barrier lines`: what each line of each kind does, as the table in docs/lines.md.

use crate::arguments::{one_too_many, Arguments};
use crate::kinds::{lines, KINDS};
use crate::output;
use crate::stop::Stop;
use std::ffi::OsString;

pub fn command(words: &[OsString]) -> Result<(), Stop> {
    let given = Arguments::of(words, &[], &[])?;
    if let Some(word) = given.others()?.first() {
        return Err(one_too_many(word.as_ref()));
    }
    let head = "| kind | line | what it does | a move leads to |\n|---|---|---|---|\n";
    let kinds: String = (0..KINDS.len()).map(rows).collect();
    output::print(&format!("{head}{kinds}"))
}

fn rows(kind: usize) -> String {
    let mut page = String::new();
    for line in lines(kind) {
        let (name, number, does, then) = (KINDS[kind], line.number, line.does, line.then);
        page.push_str(&format!("| {kind} {name} | {number} | {does} | {then} |\n"));
    }
    page
}
