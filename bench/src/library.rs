//! The proved library, by the binding that programs in Rust share.

#[path = "../../include/tungwaff.rs"]
mod tungwaff;

pub use tungwaff::{
    first_pass, fresh, limit, passes, play, play_state, read, ready, resume, rows, run, shape,
    sheet, turn, Passes, Played, Ran, Read, Setup, MAX_TASKS, PAGE, ROW_LENGTH, STATE, SYMMETRIC, TASK_LENGTH,
};
