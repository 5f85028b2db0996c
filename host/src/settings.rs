//! The words for an option or a number of the call that the library refused, where there is no place in a text to name; and for what a barrier was
//! given, in a heading.

use crate::table::counted;
use crate::tungwaff::{reason, reason_text, Setup};
use crate::words;

/// The words for a refusal of what a fresh state is made from, or of a part of it.
pub fn refused(refusal: u8, setup: &Setup) -> String {
    match refusal {
        reason::KIND => words::kind(setup.kind),
        reason::N => words::tasks(setup.n),
        reason::MODULUS => words::modulus(setup.kind, setup.modulus),
        reason::STARTS if setup.kind != 0 => {
            format!("a start table is for kind 0, and this is kind {}", setup.kind)
        }
        reason::STARTS => {
            let wrong = setup.starts.iter().position(|&start| usize::from(start) >= setup.n);
            entry(setup.n, setup.starts, "start", wrong, &words::below(setup.n))
        }
        reason::WORKS => {
            let wrong = setup.works.iter().position(|&work| work == 0);
            entry(setup.n, setup.works, "work length", wrong, words::WORK)
        }
        _ => reason_text(refusal).to_string(),
    }
}

fn entry(n: usize, table: &[u8], name: &str, wrong: Option<usize>, range: &str) -> String {
    match wrong {
        Some(task) if table.len() == n => words::entry(name, task, table[task].into(), range),
        _ => format!("the table of {name}s has length {}, and must have {n}", table.len()),
    }
}

/// The tasks, and the tables that were given besides; a long table is only named.
pub fn heading(n: usize, starts: &[u8], works: &[u8]) -> String {
    format!("{}{}{}", counted(n, "task"), given("starts", starts), given("work", works))
}

fn given(name: &str, table: &[u8]) -> String {
    match table.len() {
        0 => String::new(),
        1..=16 => {
            let entries: Vec<String> = table.iter().map(u8::to_string).collect();
            format!(", {name} {}", entries.join(","))
        }
        _ => format!(", {name} as given"),
    }
}
