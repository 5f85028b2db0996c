//! Texts of the scope: its example, its cases for the table and its trap of the ring, as sheets.
//! The example is there of kind 4 too, whose sheets are those of kind 1.

use super::texts::{spaced, wide, Texts};
use crate::schedules::repeat;
use crate::traces;

/// The scope's example.
const EXAMPLE: &str = "1 2 0 0 0 0 0 1 1 1 1 1 0";

pub fn add(texts: &mut Texts) {
    texts.add("taken-example", EXAMPLE);
    texts.add("taken-example-line-feed", format!("{EXAMPLE}\n"));
    texts.add("taken-example-of-kind-4", EXAMPLE.replacen('1', "4", 1));
    texts.add("taken-centralized-five-turns", "4 1 0 0 0 0 0 0");
    for kind in [1, 4] {
        texts.add(format!("taken-overtaking-of-kind-{kind}"), overtaking(kind));
    }
    texts.add("taken-symmetric-five-turns", "0 1 3 0 0 0 0 0");
    texts.add("taken-ring-second-turn-waits", "2 2 0 1 1");
    texts.add("taken-ring-whole-round", "2 2 0 0 0 0 1 1 1 0 0 1 1");
    texts.add("taken-tree-fourth-turn-waits", "3 2 0 0 0 0 0 0 0");
    texts.add("taken-tree-of-one-seven-turns", "3 1 0 0 0 0 0 0 0 0 0");
    texts.add("taken-two-passes-and-a-tail", "2 2 0 0 0 1 0 1 1");
    texts.add("taken-tree-binary", "3 6 0 0 0 0 1 1 2 5 5 5 5 0 1 2 3 4");
    texts.add("taken-tree-low-power", "3 6 0 0 0 0 2 0 4 5 5 5 5 0 1 2 3 4");
    texts.add("taken-ring-turns-without-passes", turns_without_passes());
    texts.add("taken-symmetric-one-round-ahead", one_round_ahead());
}

/// One task enters the second round while the other is still in the first.
fn overtaking(kind: u64) -> String {
    spaced(&[vec![kind, 2, 0], wide(&traces::overtaking())].concat())
}

/// A hundred turns of each task of a ring raise task 0's count alone.
fn turns_without_passes() -> String {
    let schedule = [repeat(2, 100), repeat(1, 100), repeat(0, 100)].concat();
    spaced(&[vec![2, 3, 0], wide(&schedule)].concat())
}

/// Task 0 goes one round ahead, and task 1 still leaves line 14.
fn one_round_ahead() -> String {
    let round = [repeat(0, 4), repeat(1, 5), repeat(0, 12), repeat(1, 12)].concat();
    spaced(&[vec![0, 2, 3], wide(&round.repeat(4))].concat())
}
