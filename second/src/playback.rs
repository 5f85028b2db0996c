//! Play-back: holds a trace, three bytes a turn, against the turns from a fresh state on.

use super::machine::{fresh, step_if, State, Tables};
use super::refusal::Refusal;
use std::fmt;

/// The most bytes of a trace.
pub const MAX_TRACE: usize = 65_536;

/// What a play-back that isn't refused found.
#[derive(Clone, Copy, Debug, PartialEq, Eq)]
pub enum Verdict {
    /// Every triple is what its turn does. The state is the one after the last turn.
    Agrees,
    /// The triple of this index is the first that isn't. The state is the one before its turn.
    Differs(usize),
}

/// Writes `agrees`, or `differs 4`.
impl fmt::Display for Verdict {
    fn fmt(&self, out: &mut fmt::Formatter<'_>) -> fmt::Result {
        match self {
            Verdict::Agrees => write!(out, "agrees"),
            Verdict::Differs(index) => write!(out, "differs {index}"),
        }
    }
}

/// Plays the trace from a fresh state on, which takes the place of the state given. Where this is
/// refused, all fields are 0.
pub fn play(
    state: &mut State,
    kind: u64,
    n: u64,
    modulus: u64,
    tables: Tables,
    trace: &[u8],
) -> Result<Verdict, Refusal> {
    fresh(state, kind, n, modulus, tables)?;
    if let Err(refusal) = check_trace(trace) {
        *state = State::ZERO;
        return Err(refusal);
    }
    for (index, triple) in trace.chunks_exact(3).enumerate() {
        if !follow(state, triple) {
            return Ok(Verdict::Differs(index));
        }
    }
    Ok(Verdict::Agrees)
}

/// Checks 8 and 14.
fn check_trace(trace: &[u8]) -> Result<(), Refusal> {
    if trace.len() > MAX_TRACE {
        return Err(Refusal::ScheduleLength);
    }
    if trace.len() % 3 != 0 {
        return Err(Refusal::TraceLength);
    }
    Ok(())
}

/// Makes the triple's turn if it does what the triple says: task, line before, 1 moved or 0 waited.
/// Gives whether it does. Nothing of a turn that does something else is made, so that no copy of
/// the state is needed to have it back.
fn follow(state: &mut State, triple: &[u8]) -> bool {
    let (task, line, outcome) = (usize::from(triple[0]), triple[1], triple[2]);
    task < usize::from(state.n)
        && line == state.tasks[task].line
        && outcome <= 1
        && step_if(state, task, outcome == 1)
}
