//! The limit: how many passes raise the least count for certain.

use crate::machine::{works_fit, LAST_KIND, SYMMETRIC, TREE};
use crate::refusal::{check_task_count, Refusal};

/// Twice M, with the work that is beyond one move a task. Checks 2, 3 and 15.
pub fn limit(kind: u64, n: u64, works: &[u8]) -> Result<u64, Refusal> {
    if kind > u64::from(LAST_KIND) {
        return Err(Refusal::Kind);
    }
    let tasks = check_task_count(n)?;
    if !works_fit(tasks, works) {
        return Err(Refusal::Works);
    }
    Ok(2 * (bound(kind as u8, n) + more_work(works)))
}

/// M where all own work is one move.
fn bound(kind: u8, n: u64) -> u64 {
    match kind {
        SYMMETRIC => n * (2 * n + 3),
        TREE => 10 * n - 3,
        // Both that count their arrivals, and the ring.
        _ => 5 * n,
    }
}

/// The sum of all work lengths less N; no table is one of ones.
fn more_work(works: &[u8]) -> u64 {
    works.iter().map(|&work| u64::from(work) - 1).sum()
}
