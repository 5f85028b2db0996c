//! Random requests beside those of a barrier: passes, first passes, shapes, and lines that are
//! almost requests.

use super::values::{any_task_count, near, near_length, spoil};
use crate::passes::Passes;
use crate::random::Random;
use crate::recorder::{line, Recorder};
use crate::schedules;
use crate::spelling::misspell;

/// The bytes of which a misspelt line is made.
const OTHER_BYTES: &[u8] = b" 0123456789-+,.x\t\r\0\xff";

/// Passes of random schedules.
pub fn any_passes(recorder: &mut Recorder, random: &mut Random) {
    for _ in 0..random.length(1, 6) {
        let n = any_task_count(random);
        let length = random.length(0, 40 + 4 * n);
        let mut schedule = schedules::any(random, n, length);
        let enough = 2 * Passes::new(n, &schedule).count() as u64;
        spoil(random, &mut schedule, n);
        let n = if random.once_in(10) { near(random) } else { n as u64 };
        recorder.passes(n, near_length(random, enough), &schedule);
    }
}

/// First passes of random schedules.
pub fn any_first_pass(recorder: &mut Recorder, random: &mut Random) {
    for _ in 0..random.length(1, 6) {
        let n = any_task_count(random);
        let length = random.length(0, 20 + 4 * n);
        let mut schedule = schedules::any(random, n, length);
        spoil(random, &mut schedule, n);
        let n = if random.once_in(10) { near(random) } else { n as u64 };
        let place = match random.below(8) {
            0 => near(random),
            1 => length as u64,
            _ => random.below(length as u64 / 2 + 1),
        };
        recorder.first_pass(n, place, &schedule);
    }
}

/// Shapes.
pub fn any_shape(recorder: &mut Recorder, random: &mut Random) {
    let shape = if random.once_in(8) { near(random) } else { random.below(4) };
    let n = if random.once_in(4) { near(random) } else { 1 + random.below(64) };
    recorder.shape(shape, n, near_length(random, n.min(70)));
}

/// Lines that are almost requests.
pub fn misspelt(recorder: &mut Recorder, random: &mut Random) {
    for _ in 0..random.length(1, 6) {
        let request = if random.once_in(4) { any_tables(random) } else { any_line(random) };
        let mut text = request.into_bytes();
        for _ in 0..random.length(0, 2) {
            misspell(random, &mut text, OTHER_BYTES);
        }
        recorder.ask(text);
    }
}

/// A request of random numbers, a few with zeros before them.
fn any_line(random: &mut Random) -> String {
    let length = random.length(1, 8);
    let mut numbers = vec![random.below(13)];
    for _ in 1..length {
        let number = if random.once_in(3) { near(random) } else { random.below(6) };
        numbers.push(number.min(1 << 32));
    }
    // A play-back of kind 0 is left to the plays, which know when to give a start table.
    if numbers.starts_with(&[11, 0]) {
        numbers[1] = 2;
    }
    if matches!(numbers[0], 4 | 7 | 9) {
        let last = numbers.len().min(if numbers[0] == 9 { 4 } else { 3 }) - 1;
        numbers[last] = numbers[last].min(300);
    }
    let words = numbers.iter().map(|number| {
        let width = if random.once_in(12) { random.length(18, 22) } else { 1 };
        format!("{number:0width$}")
    });
    words.collect::<Vec<_>>().join(" ")
}

/// Request 10 or 11 with lengths of tables that may be wrong, and about as many entries as they
/// say.
fn any_tables(random: &mut Random) -> String {
    let lengths = [0; 3].map(|_| if random.once_in(6) { near(random) } else { random.below(4) });
    let works = if random.once_in(2) { lengths[2] } else { 0 };
    let modulus = random.pick(&[0, 3]);
    let n = random.length(1, 3) as u64;
    let (mut numbers, trace) = match random.below(3) {
        0 => (vec![11, 1 + random.below(4), n, modulus], 3 * random.below(3)),
        _ => (vec![10, random.below(5), n, modulus], 0),
    };
    numbers.extend([lengths[0], lengths[1], works]);
    let entries = [lengths[0], lengths[1], works].map(|length| length % 256 % 70);
    for _ in 0..near_length(random, entries.iter().sum::<u64>() + trace) {
        numbers.push(if random.once_in(20) { near(random) } else { random.below(3) });
    }
    line(&numbers, &[])
}
