//! The rows as a row of characters a task, a column a turn, in bands that fit a screen.

use crate::rows::{Row, Told};
use crate::table::summary;

/// The turns of a band, and of them those between two numbers of the ruler above it.
const BAND: usize = 100;
const STEP: usize = 10;

pub fn drawn(told: &Told) -> String {
    let mut page = format!("{}\n", summary(told));
    for (index, rows) in told.rows.chunks(BAND).enumerate() {
        page.push('\n');
        page.push_str(&ruler(index * BAND, rows.len()));
        page.extend((0..told.n).map(|task| lane(task, rows)));
        page.push_str(&closings(rows));
    }
    page
}

/// The numbers of turns, above their columns.
fn ruler(first: usize, turns: usize) -> String {
    let marks: String =
        (0..turns).step_by(STEP).map(|turn| format!("{:<STEP$}", first + turn)).collect();
    labelled("turn", &marks)
}

/// A task's turns: the last digit of the line that it moved from, `-` where it waited; a dot in the other tasks' turns.
fn lane(task: usize, rows: &[Row]) -> String {
    let mark = |row: &Row| match (row.task == task, row.moved) {
        (false, _) => '.',
        (true, false) => '-',
        (true, true) => char::from_digit(row.line % 10, 10).unwrap_or('?'),
    };
    labelled(&format!("task {task}"), &rows.iter().map(mark).collect::<String>())
}

/// A stroke under every turn that closed a round.
fn closings(rows: &[Row]) -> String {
    let mark = |row: &Row| if row.closed { '|' } else { ' ' };
    labelled("round", &rows.iter().map(mark).collect::<String>())
}

fn labelled(label: &str, marks: &str) -> String {
    format!("{}\n", format!("{label:8}{marks}").trim_end())
}
