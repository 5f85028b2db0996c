//! Texts around reasons 5 and 6: short parent tables, wrong roots and parents, and tree shapes.

use super::texts::{spaced, wide, Texts, LARGE};
use crate::parents::of_shape;
use crate::schedules::cycle;

pub fn add(texts: &mut Texts) {
    for n in [1, 3, 64] {
        short_tables(texts, n);
        roots(texts, n);
    }
    parents(texts);
    several(texts);
    shapes(texts);
}

/// A tree's text with this table and one turn of each task.
fn tree(n: usize, parents: &[u64]) -> String {
    spaced(&[&[3, n as u64, 0], parents, &wide(&cycle(n, n))].concat())
}

/// The flat table with one entry changed.
fn flat_but(n: usize, task: usize, parent: u64) -> Vec<u64> {
    let mut parents = vec![0; n];
    parents[task] = parent;
    parents
}

/// Texts that end within the parents, and one that ends with the last.
fn short_tables(texts: &mut Texts, n: usize) {
    let mut lengths = vec![0, 1, n / 2, n - 1];
    lengths.sort_unstable();
    lengths.dedup();
    lengths.retain(|&length| length < n);
    for length in lengths {
        let text = spaced(&[vec![3, n as u64, 0], vec![0; length]].concat());
        texts.add(format!("refused-5-n-{n}-parents-{length}"), text);
    }
    let text = spaced(&[vec![3, n as u64, 0], vec![0; n]].concat());
    texts.add(format!("taken-n-{n}-parents-{n}"), text);
}

/// The root's entry is not 0.
fn roots(texts: &mut Texts, n: usize) {
    for entry in [1, 63, 64].into_iter().chain(LARGE) {
        let text = tree(n, &flat_but(n, 0, entry));
        texts.add(format!("refused-6-n-{n}-root-{entry}"), text);
    }
}

/// One task's parent at and beyond the end of what it can be.
fn parents(texts: &mut Texts) {
    for (n, task) in [(2, 1), (3, 2), (64, 1), (64, 63)] {
        lower_parents(texts, n, task);
        other_parents(texts, n, task);
    }
}

/// The parent is 0, or the highest that is lower than the task's own number.
fn lower_parents(texts: &mut Texts, n: usize, task: usize) {
    let highest = task as u64 - 1;
    texts.add(format!("taken-n-{n}-task-{task}-parent-0"), tree(n, &flat_but(n, task, 0)));
    if highest > 0 {
        let text = tree(n, &flat_but(n, task, highest));
        texts.add(format!("taken-n-{n}-task-{task}-parent-{highest}"), text);
    }
}

/// The parent is the task itself or a higher number.
fn other_parents(texts: &mut Texts, n: usize, task: usize) {
    let own = task as u64;
    for parent in [own, own + 1].into_iter().chain(LARGE) {
        let text = tree(n, &flat_but(n, task, parent));
        texts.add(format!("refused-6-n-{n}-task-{task}-parent-{parent}"), text);
    }
}

/// More than one wrong parent, and tables whose end can be taken for turns.
fn several(texts: &mut Texts) {
    texts.add("refused-6-all-parents-99999", "3 3 0 99999 99999 99999 0");
    texts.add("refused-6-own-numbers", "3 4 0 0 1 2 3 0 1 2 3");
    texts.add("refused-6-first-and-last", "3 4 0 1 0 0 3 0");
    texts.add("taken-turns-after-two-parents", "3 2 0 0 0 1 1 0 1");
    texts.add("taken-turns-after-three-parents", "3 3 0 0 0 1 1 0 1");
    texts.add("refused-5-turns-taken-for-parents", "3 6 0 0 0 1 1 0");
    texts.add("taken-turns-of-kind-4-are-no-parents", "4 2 0 1 1 0");
    texts.add("taken-one-turn-of-kind-4-is-no-parent", "4 3 0 2");
}

/// All four shapes.
fn shapes(texts: &mut Texts) {
    for number in 0..=3 {
        shape(texts, number);
    }
}

/// The tables of a shape, with turns for some rounds.
fn shape(texts: &mut Texts, number: u64) {
    for n in [1, 6, 12, 64] {
        let turns = wide(&cycle(n, 40 * n));
        let parents = wide(&of_shape(number, n));
        let text = spaced(&[vec![3, n as u64, 0], parents, turns].concat());
        texts.add(format!("taken-shape-{number}-n-{n}"), text);
    }
}
