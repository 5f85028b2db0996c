//! The reasons that each function can give, and those that the requests have met.

use std::collections::BTreeSet;

/// Every function that answers a reason, with all of its reasons. From a fresh state no run of
/// 65,536 turns can be stopped, so that a `run` is never refused 7, 11 or 13.
pub const REASONS: [(u64, &[u64]); 12] = [
    (1, &[0, 2, 3, 4, 5, 6, 10, 12, 15]),
    (2, &[0, 2, 3, 4, 5, 6, 8, 9, 10, 12, 15]),
    (3, &[0, 7, 8, 9, 10, 11, 13]),
    (4, &[0, 7, 9, 10, 11, 13]),
    (5, &[0, 7, 10]),
    (6, &[0, 3, 8, 9, 10]),
    (8, &[0, 2, 3, 10]),
    (9, &[0, 2, 3, 4, 5, 6, 8, 12, 14, 15]),
    (10, &[0, 7, 8, 9, 10, 11, 13]),
    (11, &[0, 2, 3, 15]),
    (12, &[0, 1, 2, 3, 4, 5, 6, 9, 10]),
    (16, &[0, 2, 3, 4, 5, 6, 8, 10, 12, 14, 15]),
];

/// Functions with a number that must be 0 in some of their accepted answers and not in others, and
/// its place there: whether rounds closed, a trace agreed, and there was a pass.
pub const TOLD: [(u64, usize); 7] = [(2, 3), (3, 3), (10, 3), (4, 2), (9, 1), (16, 1), (7, 0)];

/// Functions with reasons that they have given, and with what they have told: false for a 0.
#[derive(Default)]
pub struct Met {
    pairs: BTreeSet<(u64, u64)>,
    told: BTreeSet<(u64, bool)>,
}

impl Met {
    /// Takes in a request and its answer, if it is of a function that answers a reason or tells
    /// what must be told.
    pub fn take(&mut self, request: &str, answer: &str) {
        let word =
            |line: &str, place| line.split(' ').nth(place).and_then(|word| word.parse().ok());
        let (Some(function), Some(reason)) = (word(request, 0), word(answer, 0)) else {
            return;
        };
        if REASONS.iter().any(|&(other, _)| other == function) {
            self.pairs.insert((function, reason));
        }
        // A first pass has no reason.
        let accepted = reason == 0 || function == 7;
        for (_, place) in TOLD.into_iter().filter(|&(other, _)| other == function && accepted) {
            self.told.insert((function, word(answer, place).unwrap_or(0) != 0));
        }
    }

    /// The reasons that a function has given.
    pub fn of(&self, function: u64) -> Vec<u64> {
        let own = self.pairs.iter().filter(|&&(other, _)| other == function);
        own.map(|&(_, reason)| reason).collect()
    }

    /// Whether each function has given each of its reasons and no other, and has told both what it
    /// must tell and a 0; the words say which hasn't.
    pub fn check(&self) -> Result<(), String> {
        for (function, reasons) in REASONS {
            let met = self.of(function);
            if met != reasons {
                return Err(format!("function {function} gave {met:?}, not {reasons:?}"));
            }
        }
        let told_both = |(function, _): &(u64, usize)| {
            [false, true].iter().all(|&told| self.told.contains(&(*function, told)))
        };
        match TOLD.iter().find(|told| !told_both(told)) {
            Some((function, _)) => Err(format!("function {function} told always or never")),
            None => Ok(()),
        }
    }
}
