//! The rows as a table for the eye, and as comma-separated values for a spreadsheet.

use crate::kinds;
use crate::rows::{Row, Told};

/// Over the lines before the turns, with what they do.
const HEAD: &str = "line before";

/// An aligned row a turn, then what the turns come to.
pub fn aligned(told: &Told) -> String {
    let words = kinds::lines(told.kind).iter().map(|line| line.does.len() + 3).max();
    let width = words.unwrap_or(0).max(HEAD.len());
    let mut page = format!(" turn  task  {HEAD:width$}  answer  count  least\n");
    for (turn, row) in told.rows.iter().enumerate() {
        page.push_str(&aligned_row(told.kind, turn, row, width));
    }
    page.push_str(&summary(told));
    page.push('\n');
    page
}

fn aligned_row(kind: usize, turn: usize, row: &Row, width: usize) -> String {
    let words = kinds::in_words(kind, row.line);
    let closed = if row.closed { format!("  closed round {}", row.least) } else { String::new() };
    let (task, answer) = (row.task, row.answer());
    format!(
        "{turn:5}  {task:4}  {words:width$}  {answer:6}  {:5}  {:5}{closed}\n",
        row.count, row.least
    )
}

/// How many turns there are, and how many of them moved, waited and closed a round.
pub fn summary(told: &Told) -> String {
    let turns = told.rows.len();
    let moved = told.rows.iter().filter(|row| row.moved).count();
    let waited = turns - moved;
    format!(
        "{}: {}, {moved} moved and {waited} waited; {} closed",
        told.setting,
        counted(turns, "turn"),
        counted(told.rounds as usize, "round")
    )
}

pub fn counted(count: usize, what: &str) -> String {
    format!("{count} {what}{}", if count == 1 { "" } else { "s" })
}

/// A head, then a row a turn.
pub fn csv(told: &Told) -> String {
    let mut page = "turn,task,line,does,answer,count,least,closed\n".to_string();
    for (turn, row) in told.rows.iter().enumerate() {
        let (does, answer) = (kinds::does(told.kind, row.line), row.answer());
        let closed = u8::from(row.closed);
        let Row { task, line, count, least, .. } = row;
        page.push_str(&format!(
            "{turn},{task},{line},\"{does}\",{answer},{count},{least},{closed}\n"
        ));
    }
    page
}
