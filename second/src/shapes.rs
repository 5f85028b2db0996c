//! The four tree shapes, as tables of parents.

use super::refusal::{check_task_count, Refusal};

/// The highest shape. The highest kind is another limit.
const LAST_SHAPE: u64 = 3;

/// Writes the parents of a shape's tasks 0 to n - 1 to the first n bytes of the table.
pub fn shape(shape: u64, n: u64, table: &mut [u8]) -> Result<(), Refusal> {
    if shape > LAST_SHAPE {
        return Err(Refusal::Kind);
    }
    let n = check_task_count(n)?;
    if table.len() < n {
        return Err(Refusal::Buffer);
    }
    for (task, entry) in table[..n].iter_mut().enumerate() {
        *entry = parent(shape, task) as u8;
    }
    Ok(())
}

/// The parent of a task; the root's entry is 0.
fn parent(shape: u64, task: usize) -> usize {
    match (shape, task) {
        (_, 0) | (0, _) => 0,
        (1, _) => task - 1,
        (2, _) => (task - 1) / 2,
        _ => task - (1 << task.trailing_zeros()),
    }
}
