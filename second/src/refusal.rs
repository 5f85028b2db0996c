//! The reasons for turning a call away, with their numbers, and checks that several calls share.

use std::fmt;

/// The most tasks that a state has.
pub const MAX_TASKS: usize = 64;

/// The most turns that a schedule has.
pub const MAX_TURNS: usize = 65_536;

/// Why a call is turned away.
#[derive(Clone, Copy, Debug, PartialEq, Eq)]
pub enum Refusal {
    /// 1: the text of a sheet or of a setup is too long, has another byte, too long a number, or
    /// not the numbers it needs.
    Text,
    /// 2: the kind isn't 0 to 4, or the shape isn't 0 to 3.
    Kind,
    /// 3: N isn't 1 to 64.
    TaskCount,
    /// 4: R doesn't fit the kind.
    Modulus,
    /// 5: the parent table's length doesn't fit the kind.
    TableLength,
    /// 6: a parent isn't a lower number than its child, or the root's entry isn't 0.
    Parent,
    /// 7: a field is out of range, or a task arrives where all have arrived.
    Range,
    /// 8: the schedule has too many turns, or the trace too many bytes.
    ScheduleLength,
    /// 9: a single turn names no task.
    Task,
    /// 9: the schedule's turn at this place is its first that names no task.
    TaskAt(usize),
    /// 10: a lent buffer is too short.
    Buffer,
    /// 11: the turn would raise a count that is at its limit.
    CountLimit,
    /// 12: the start table's length doesn't fit the kind, or an entry is no task.
    Starts,
    /// 13: the turn would raise a tally that is at its limit.
    TallyLimit,
    /// 14: the trace's length is no multiple of three.
    TraceLength,
    /// 15: the work table's length is neither 0 nor N, or an entry is 0.
    Works,
}

impl Refusal {
    /// The number of the reason.
    pub fn number(self) -> u8 {
        match self {
            Refusal::Text => 1,
            Refusal::Kind => 2,
            Refusal::TaskCount => 3,
            Refusal::Modulus => 4,
            Refusal::TableLength => 5,
            Refusal::Parent => 6,
            Refusal::Range => 7,
            Refusal::ScheduleLength => 8,
            Refusal::Task | Refusal::TaskAt(_) => 9,
            Refusal::Buffer => 10,
            Refusal::CountLimit => 11,
            Refusal::Starts => 12,
            Refusal::TallyLimit => 13,
            Refusal::TraceLength => 14,
            Refusal::Works => 15,
        }
    }
}

/// Writes `refused 3`, or `refused 9 place 4` for a schedule's turn.
impl fmt::Display for Refusal {
    fn fmt(&self, out: &mut fmt::Formatter<'_>) -> fmt::Result {
        write!(out, "refused {}", self.number())?;
        if let Refusal::TaskAt(place) = self {
            write!(out, " place {place}")?;
        }
        Ok(())
    }
}

/// Check 3. Gives N back as a length.
pub fn check_task_count(n: u64) -> Result<usize, Refusal> {
    if (1..=MAX_TASKS as u64).contains(&n) {
        Ok(n as usize)
    } else {
        Err(Refusal::TaskCount)
    }
}

/// Checks 8 and 9 of a schedule for tasks 0 to n - 1.
pub fn check_schedule(n: usize, schedule: &[u8]) -> Result<(), Refusal> {
    if schedule.len() > MAX_TURNS {
        return Err(Refusal::ScheduleLength);
    }
    match schedule.iter().position(|&task| usize::from(task) >= n) {
        Some(place) => Err(Refusal::TaskAt(place)),
        None => Ok(()),
    }
}
