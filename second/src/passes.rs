//! Passes: cutting a schedule into stretches that each name every task.

use super::refusal::{check_schedule, check_task_count, Refusal};

/// The passes of a schedule, written as pairs of offset and length. Gives their number.
pub fn passes(n: u64, schedule: &[u8], pairs: &mut [u32]) -> Result<usize, Refusal> {
    let n = check_task_count(n)?;
    check_schedule(n, schedule)?;
    let number = Passes::new(n, schedule).count();
    if pairs.len() < 2 * number {
        return Err(Refusal::Buffer);
    }
    let passes = Passes::new(n, schedule);
    for ((offset, length), pair) in passes.zip(pairs.chunks_exact_mut(2)) {
        pair.copy_from_slice(&[offset as u32, length as u32]);
    }
    Ok(number)
}

/// The first whole pass that begins at the place; empty if there is none, the place is past the
/// end, N isn't 1 to 64, or a byte from the place to the schedule's end is no task.
pub fn first_pass(n: u64, schedule: &[u8], place: u64) -> &[u8] {
    let Ok(n) = check_task_count(n) else {
        return &[];
    };
    if place > schedule.len() as u64 {
        return &[];
    }
    let rest = &schedule[place as usize..];
    if rest.iter().any(|&task| usize::from(task) >= n) {
        return &[];
    }
    &rest[..whole_pass(n, rest).unwrap_or(0)]
}

/// The passes of a schedule that names tasks 0 to n - 1 alone, as offsets and lengths.
pub struct Passes<'a> {
    n: usize,
    schedule: &'a [u8],
    offset: usize,
}

impl Passes<'_> {
    pub fn new(n: usize, schedule: &[u8]) -> Passes<'_> {
        Passes { n, schedule, offset: 0 }
    }
}

impl Iterator for Passes<'_> {
    type Item = (usize, usize);

    fn next(&mut self) -> Option<(usize, usize)> {
        let length = whole_pass(self.n, &self.schedule[self.offset..])?;
        let pass = (self.offset, length);
        self.offset += length;
        Some(pass)
    }
}

/// The length of the pass that begins where the turns begin, if it is whole.
fn whole_pass(n: usize, turns: &[u8]) -> Option<usize> {
    let mut missing = u64::MAX >> (64 - n);
    for (place, &task) in turns.iter().enumerate() {
        missing &= !(1 << task);
        if missing == 0 {
            return Some(place + 1);
        }
    }
    None
}
