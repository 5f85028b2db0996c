//! `barrier compare`: every kind on the same schedule.

use crate::arguments::{number, text, Arguments};
use crate::bounds::promised;
use crate::kinds::{KINDS, SHAPES};
use crate::orders::{pass_count, Order};
use crate::output;
use crate::rows::{self, parents, Row, Sheet, Told};
use crate::settings;
use crate::stop::Stop;
use crate::table::counted;
use crate::tungwaff::{MAX_TURNS, SYMMETRIC, TREE};
use std::ffi::OsString;

/// The modulus that the symmetric barrier is compared with, the least that it may have.
const MODULUS: usize = 3;

const HEAD: &str =
    "barrier              rounds   waits  turns a round  longest wait  passes a round  passes promised";

pub fn command(words: &[OsString]) -> Result<(), Stop> {
    let given = Arguments::of(words, &["--slow", "--turns", "--work"], &[])?;
    let n = number(text(given.only("the number of tasks")?)?, "N")?;
    let order = given.value("--slow")?.map_or(Ok(Order::RoundRobin), Order::slow)?;
    let turns = given.value("--turns")?.map_or(Ok(MAX_TURNS), |turns| number(turns, "--turns"))?;
    let works = given.table("--work")?;
    let schedule = order.turns(n, turns)?;
    let passes = pass_count(n, &schedule)?;
    let mut page = format!(
        "{}, {}: {}, {}\n\n{HEAD}\n",
        settings::heading(n, &[], &works),
        in_words(&order),
        counted(schedule.len(), "turn"),
        if passes == 1 { "1 pass".to_string() } else { format!("{passes} passes") }
    );
    for (name, sheet) in barriers(n, &schedule)? {
        let told = rows::tell(&sheet, &[], &works)?;
        let promised = promised(sheet.kind, n, &works)?;
        page.push_str(&compared(&name, &told, &schedule, promised)?);
    }
    output::print(&page)
}

fn in_words(order: &Order) -> String {
    match order {
        Order::Slow { task, every } => {
            format!("round robin that names task {task} in one circuit of {every}")
        }
        _ => "round robin".to_string(),
    }
}

/// Each kind, the tree in each shape, with the schedule.
fn barriers(n: usize, schedule: &[u8]) -> Result<Vec<(String, Sheet)>, Stop> {
    let mut barriers = Vec::new();
    for (kind, name) in KINDS.iter().enumerate() {
        let modulus = if kind == SYMMETRIC { MODULUS } else { 0 };
        let sheet = |parents| Sheet { kind, n, modulus, parents, schedule: schedule.to_vec() };
        match kind {
            TREE => {
                barriers.extend(shapes(n)?.into_iter().map(|(tree, table)| (tree, sheet(table))))
            }
            SYMMETRIC => barriers.push((format!("{name}, R {MODULUS}"), sheet(Vec::new()))),
            _ => barriers.push((name.to_string(), sheet(Vec::new()))),
        }
    }
    Ok(barriers)
}

/// The name and the parents of the tree in each shape.
fn shapes(n: usize) -> Result<Vec<(String, Vec<u8>)>, Stop> {
    let named = |(shape, name): (usize, &&str)| Ok((format!("tree, {name}"), parents(shape, n)?));
    SHAPES.iter().enumerate().map(named).collect()
}

fn compared(name: &str, told: &Told, schedule: &[u8], promised: usize) -> Result<String, Stop> {
    let turns = told.rows.len();
    let waits = told.rows.iter().filter(|row| !row.moved).count();
    let longest = longest_wait(&told.rows, told.n);
    let (turns_a_round, passes_a_round) = match between_closings(&told.rows) {
        Some((first, last, rounds)) => {
            let passes = pass_count(told.n, &schedule[first..last])?;
            (tenths(last - first, rounds), tenths(passes, rounds))
        }
        None => ("-".to_string(), "-".to_string()),
    };
    Ok(format!(
        "{name:19}  {:6}  {:>6}  {turns_a_round:>13}  {:>12}  {passes_a_round:>14}  {promised:15}\n",
        told.rounds,
        percent(waits, turns),
        longest.map_or("-".to_string(), |wait| wait.to_string()),
    ))
}

/// The turns from behind the first that closed a round up to and with the last, and how many rounds they closed: neither the first round, which
/// begins fresh, nor what is left open at the end.
fn between_closings(rows: &[Row]) -> Option<(usize, usize, usize)> {
    let closings = || (0..rows.len()).filter(|&turn| rows[turn].closed);
    let (first, last) = (closings().next()?, closings().next_back()?);
    let rounds = closings().count() - 1;
    (rounds > 0).then_some((first + 1, last + 1, rounds))
}

/// The most turns, of whichever task, between two moves of a task, one after the other; none where no task moved twice.
fn longest_wait(rows: &[Row], n: usize) -> Option<usize> {
    let mut last = vec![None; n];
    let mut longest = None;
    for (turn, row) in rows.iter().enumerate().filter(|(_, row)| row.moved) {
        if let Some(before) = last[row.task] {
            longest = longest.max(Some(turn - before - 1));
        }
        last[row.task] = Some(turn);
    }
    longest
}

/// A share to a tenth of a percent, rounded.
fn percent(part: usize, whole: usize) -> String {
    if whole == 0 {
        return "-".to_string();
    }
    let tenths = (2000 * part + whole) / (2 * whole);
    format!("{}.{}%", tenths / 10, tenths % 10)
}

/// A quotient to a tenth, rounded; by no 0.
fn tenths(part: usize, whole: usize) -> String {
    let tenths = (20 * part + whole) / (2 * whole);
    format!("{}.{}", tenths / 10, tenths % 10)
}

#[cfg(test)]
mod tests {
    use super::*;

    fn row(task: usize, moved: bool) -> Row {
        Row { task, line: 11, moved, count: 0, least: 0, closed: false }
    }

    #[test]
    fn whole_rounds_lie_between_closings() {
        let closing = |closed: &bool| Row { closed: *closed, ..row(0, true) };
        let between =
            |closed: &[bool]| between_closings(&closed.iter().map(closing).collect::<Vec<Row>>());
        assert_eq!(between(&[false, true, false, false, true, true, false]), Some((2, 6, 2)));
        assert_eq!(between(&[false, true, false]), None);
        assert_eq!(between(&[]), None);
    }

    #[test]
    fn a_longest_wait_is_between_two_moves_of_one_task() {
        let rows =
            [row(0, true), row(1, true), row(1, false), row(1, true), row(0, true), row(0, false)];
        assert_eq!(longest_wait(&rows, 2), Some(3));
        assert_eq!(longest_wait(&rows[..4], 2), Some(1));
        assert_eq!(longest_wait(&rows[..3], 2), None);
        assert_eq!(longest_wait(&[row(0, true), row(0, true)], 1), Some(0));
    }

    #[test]
    fn shares_and_quotients_are_rounded() {
        assert_eq!(percent(1, 3), "33.3%");
        assert_eq!(percent(2, 3), "66.7%");
        assert_eq!(percent(0, 5), "0.0%");
        assert_eq!(percent(0, 0), "-");
        assert_eq!(tenths(10, 4), "2.5");
        assert_eq!(tenths(5, 3), "1.7");
    }
}
