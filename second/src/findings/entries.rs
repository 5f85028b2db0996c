//! The causes after the head: parents, starts, work lengths and turns. Of several that are wrong
//! the first is given. A value is the one that the text writes, whether it fits a byte or not.

use super::text::{Number, Text};
use super::{Cause, HEAD_OF_A_SETUP, HEAD_OF_A_SHEET};
use crate::machine::TREE;

/// The cause of 5 in a sheet's text, which ends before its parents do.
pub fn missing_parents(text: &Text) -> Cause {
    let (count, n) = (text.numbers.len() - HEAD_OF_A_SHEET, text.number(2).value);
    let words = format!("the text ends here with {count} parents, and must have {n}");
    Cause::new(text.bytes.len(), words)
}

/// The cause of 6: the first wrong one of the N parents after the head.
pub fn wrong_parent(text: &Text, head: usize) -> Option<Cause> {
    let fits = |task: u64, parent: u64| if task == 0 { parent == 0 } else { parent < task };
    let (task, parent) = first_wrong(text, head, text.number(2).value, fits)?;
    let range = if task == 0 { "0".into() } else { format!("below {task}") };
    let words = format!("the parent of task {task} is {}, and must be {range}", parent.value);
    Some(Cause::new(parent.at, words))
}

/// A cause of 12: the first wrong one of the starts, which follow NP parents.
pub fn wrong_start(text: &Text) -> Option<Cause> {
    let (n, parents) = (text.number(2).value, text.number(4).value as usize);
    let first = HEAD_OF_A_SETUP + parents;
    let fits = |_, start| start < n;
    let (task, start) = first_wrong(text, first, text.number(5).value, fits)?;
    let words = format!("the start of task {task} is {}, and must be below {n}", start.value);
    Some(Cause::new(start.at, words))
}

/// A cause of 15: the first wrong one of the work lengths, which follow NP parents and NS starts.
pub fn wrong_work(text: &Text) -> Option<Cause> {
    let [parents, starts] = [4, 5].map(|place| text.number(place).value as usize);
    let first = HEAD_OF_A_SETUP + parents + starts;
    let fits = |_, work| (1..=255).contains(&work);
    let (task, work) = first_wrong(text, first, text.number(6).value, fits)?;
    let words = format!("the work length of task {task} is {}, and must be 1 to 255", work.value);
    Some(Cause::new(work.at, words))
}

/// The cause of 9, a turn by its place in the schedule, from 0. A tree's schedule follows its
/// parents.
pub fn wrong_turn(text: &Text, place: usize) -> Cause {
    let (kind, n) = (text.number(1).value, text.number(2).value);
    let parents = if kind == u64::from(TREE) { n as usize } else { 0 };
    let turn = &text.numbers[HEAD_OF_A_SHEET + parents + place];
    Cause::new(turn.at, format!("turn {place} is {}, and must be below {n}", turn.value))
}

/// The first entry of a table that doesn't fit, with its task. The table is there as a whole, from
/// a number on.
fn first_wrong<'a>(
    text: &'a Text,
    first: usize,
    length: u64,
    fits: impl Fn(u64, u64) -> bool,
) -> Option<(u64, &'a Number)> {
    let table = &text.numbers[first..][..length as usize];
    (0..).zip(table).find(|&(task, entry)| !fits(task, entry.value))
}
