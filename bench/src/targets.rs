//! What is aimed at: the highest ratios of the library's time to the baseline's, and of its times for other numbers of tasks.

use crate::measured::machine::TREE;
use crate::work::Manner;

/// A run, median over the kinds.
pub fn run(manner: Manner) -> f64 {
    match manner {
        Manner::Random => 2.0,
        Manner::RoundRobin => 2.5,
    }
}

/// Passes and the sheet, every row.
pub const PASSES: f64 = 1.2;
pub const SHEET: f64 = 1.3;

/// A play-back, median over the kinds: of a trace that agrees, and of one that differs at the last triple, whose part is run twice.
pub fn play(differs: bool) -> f64 {
    if differs {
        5.0
    } else {
        3.0
    }
}

/// A kind's longest time a turn by its shortest, over the numbers of tasks.
pub fn flat(kind: u8) -> f64 {
    if kind == TREE {
        1.6
    } else {
        1.3
    }
}

/// The ratio, the target, and whether it is met by the ratio as printed.
pub fn verdict(ratio: f64, target: f64) -> String {
    let ratio = (ratio * 100.0).round() / 100.0;
    let word = if ratio <= target { "met" } else { "missed" };
    format!("{ratio:.2}, target {target:.1}: {word}")
}
