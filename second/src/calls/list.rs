//! The state list: a state as 1,029 numbers of 64 bits, in the order of the replay's request 5.

use crate::machine::{in_range, State};
use crate::refusal::{Refusal, MAX_TASKS};
use crate::requests::{all_fields, change_field, TASK_FIELDS};

/// The places of the numbers that aren't a task's.
pub const KIND: usize = 0;
pub const COUNT_OF_TASKS: usize = 1;
pub const MODULUS: usize = 2;
pub const ARRIVALS: usize = 3;
pub const SENSE: usize = 4;
pub const PARENTS: usize = 5;

/// The place of task 0's first number.
const TASKS: usize = PARENTS + MAX_TASKS;

/// The numbers of a state. What a list has beyond them is neither read nor written.
pub const LENGTH: usize = TASKS + MAX_TASKS * TASK_FIELDS.len();

/// The fields of a task, by their place among its fifteen numbers.
pub const LINE: usize = 0;
pub const COUNT: usize = 1;
pub const LIST: usize = 4;
pub const MOVES: usize = 10;
pub const WAITS: usize = 11;
pub const WORK: usize = 12;
pub const LEFT: usize = 13;

/// The place of a task's field.
pub fn place(task: usize, field: usize) -> usize {
    TASKS + TASK_FIELDS.len() * task + field
}

/// The state that the list holds. Refused 10 if the list is too short, then 7 if a number is too
/// large for its field, or a field out of range.
pub fn state_of(list: &[u64]) -> Result<State, Refusal> {
    check_length(list)?;
    let mut state = State::ZERO;
    for (place, &number) in list[..LENGTH].iter().enumerate() {
        put(&mut state, place, number).ok_or(Refusal::Range)?;
    }
    if !in_range(&state) {
        return Err(Refusal::Range);
    }
    Ok(state)
}

/// Check 10 of the list.
pub fn check_length(list: &[u64]) -> Result<(), Refusal> {
    if list.len() < LENGTH {
        return Err(Refusal::Buffer);
    }
    Ok(())
}

/// Writes the state to the list, which is long enough.
pub fn write_state(state: &State, list: &mut [u64]) {
    list[..LENGTH].copy_from_slice(&all_fields(state));
}

/// Puts the number of a place to its field, if the field's type holds it.
fn put(state: &mut State, place: usize, number: u64) -> Option<()> {
    match place {
        KIND..=SENSE => change_field(state, 9 + place as u64, 0, number),
        PARENTS..TASKS => change_field(state, 14, place - PARENTS, number),
        _ => {
            let (task, field) =
                ((place - TASKS) / TASK_FIELDS.len(), (place - TASKS) % TASK_FIELDS.len());
            change_field(state, TASK_FIELDS[field], task, number)
        }
    }
}
