//! The exported functions of the proved library, for programs in Rust. A program takes this file as a module (`#[path = ".."] mod tungwaff;`)
//! and links target/staticlib/libtungwaff.a. What each function does, and in which order it checks its reasons, stands in tungwaff.h.
//!
//! Every function here is safe: its addresses and lengths are those of slices and of its own numbers, so that none is null, none is lent twice
//! and all live through the call. It still needs the stack that tungwaff.h tells.
//!
//! It is for the editions 2021 and 2024, from Rust 1.82 on.

// A program that calls a part of it has no warning for the rest.
#![allow(dead_code)]

#[cfg(not(all(target_arch = "x86_64", target_pointer_width = "64", target_os = "linux")))]
compile_error!(
    "tungwaff: the library is compiled for 64-bit x86 Linux, and is not for the machine that this is compiled for"
);

/// The kinds of barrier.
pub const SYMMETRIC: usize = 0;
pub const INCREMENT: usize = 1;
pub const RING: usize = 2;
pub const TREE: usize = 3;
pub const CENTRALIZED: usize = 4;

/// The shapes of a tree.
pub const FLAT: usize = 0;
pub const LINEAR: usize = 1;
pub const BINARY: usize = 2;
pub const LOW_POWER: usize = 3;

/// The most tasks, and what `ready` tells where none can move.
pub const MAX_TASKS: usize = 64;
pub const NOBODY: usize = 64;

/// The most turns of a schedule, bytes of a trace and bytes of a text.
pub const MAX_TURNS: usize = 65_536;

/// The bytes of a page, which a sheet is printed to.
pub const PAGE: usize = 2048;

/// The numbers of a state list, where its tasks begin, and the numbers of each.
pub const STATE: usize = 1029;
pub const STATE_TASKS: usize = 69;
pub const FIELDS: usize = 15;

/// The numbers that `rows` tells of each turn: task, line before, 1 moved or 0 waited, count after, least count after, 1 if it closed a round.
pub const ROW_LENGTH: usize = 6;

/// The numbers that `run` and `resume` tell of each task: line, count, moves, waits.
pub const TASK_LENGTH: usize = 4;

/// Where a task's number stands in a state list; the fields are in the order of tungwaff.h.
pub const fn field(task: usize, field: usize) -> usize {
    STATE_TASKS + FIELDS * task + field
}

/// The reasons, by the names of tungwaff.h.
pub mod reason {
    pub const DONE: u8 = 0;
    pub const TEXT: u8 = 1;
    pub const KIND: u8 = 2;
    pub const N: u8 = 3;
    pub const MODULUS: u8 = 4;
    pub const PARENTS_LENGTH: u8 = 5;
    pub const PARENTS: u8 = 6;
    pub const RANGE: u8 = 7;
    pub const TOO_LONG: u8 = 8;
    pub const NO_TASK: u8 = 9;
    pub const SHORT: u8 = 10;
    pub const COUNT_LIMIT: u8 = 11;
    pub const STARTS: u8 = 12;
    pub const TALLY_LIMIT: u8 = 13;
    pub const TRACE_LENGTH: u8 = 14;
    pub const WORKS: u8 = 15;
}

/// A reason in a few words, as tungwaff.h has it.
pub fn reason_text(reason: u8) -> &'static str {
    match reason {
        reason::DONE => "done",
        reason::TEXT => "the text is too long or isn't made of numbers that can be read",
        reason::KIND => "there is no such kind or shape",
        reason::N => "the number of tasks isn't 1 to 64",
        reason::MODULUS => "the modulus doesn't fit the kind",
        reason::PARENTS_LENGTH => "the parent table's length doesn't fit the kind",
        reason::PARENTS => "a parent isn't a lower number, or the root's entry isn't 0",
        reason::RANGE => "a field of the state is out of range",
        reason::TOO_LONG => "the schedule or trace is too long",
        reason::NO_TASK => "a task number is N or more",
        reason::SHORT => "a lent buffer is too short",
        reason::COUNT_LIMIT => "the turn would raise a count past 1,000,000",
        reason::STARTS => "the start table doesn't fit the kind, or an entry is no task",
        reason::TALLY_LIMIT => "the turn would raise a tally past 4,000,000,000",
        reason::TRACE_LENGTH => "the trace's length is no multiple of three",
        reason::WORKS => "the work table's length doesn't fit, or an entry is 0",
        _ => "no reason of the library",
    }
}

/// What a fresh state is made from; a table of no bytes is none.
#[derive(Clone, Copy, Debug, Default)]
pub struct Setup<'a> {
    pub kind: usize,
    pub n: usize,
    pub modulus: usize,
    pub parents: &'a [u8],
    pub starts: &'a [u8],
    pub works: &'a [u8],
}

// The answers. Before a call each number is the greatest of its type, which no function tells: one that was not written would show.

/// Of `run`, `resume` and `rows`. The place is that of the first turn that is no task, for reason 9 alone.
#[derive(Clone, Copy, Debug, PartialEq, Eq)]
pub struct Ran {
    pub reason: u8,
    pub turns: usize,
    pub place: usize,
    pub rounds: u32,
}

/// Of `turn`: 1 if it moved, 1 if it closed a round.
#[derive(Clone, Copy, Debug, PartialEq, Eq)]
pub struct Turned {
    pub reason: u8,
    pub moved: u8,
    pub closed: u8,
}

/// Of `ready`: the least task that can move, or `NOBODY`.
#[derive(Clone, Copy, Debug, PartialEq, Eq)]
pub struct Ready {
    pub reason: u8,
    pub task: usize,
}

/// Of `passes`: how many there are, and for reason 9 the place.
#[derive(Clone, Copy, Debug, PartialEq, Eq)]
pub struct Passes {
    pub reason: u8,
    pub count: usize,
    pub place: usize,
}

/// Of `play` and `play_state`: 1 if the trace agrees, else the index of the first triple that differs.
#[derive(Clone, Copy, Debug, PartialEq, Eq)]
pub struct Played {
    pub reason: u8,
    pub agrees: u8,
    pub index: usize,
}

/// Of `limit`: so many passes raise the least count.
#[derive(Clone, Copy, Debug, PartialEq, Eq)]
pub struct Limit {
    pub reason: u8,
    pub passes: usize,
}

/// Of `read`: the head of the text, how many parents and turns it has, and for reason 9 the place.
#[derive(Clone, Copy, Debug, PartialEq, Eq)]
pub struct Read {
    pub reason: u8,
    pub place: usize,
    pub kind: usize,
    pub n: usize,
    pub modulus: usize,
    pub parents: usize,
    pub turns: usize,
}

mod raw {
    use super::PAGE;

    // SAFETY: the functions are declared as tungwaff.h has them; what each is owed is seen to where it is called.
    unsafe extern "C" {
        pub fn tungwaff_fresh(
            kind: usize,
            n: usize,
            modulus: usize,
            parents: *const u8,
            parents_len: usize,
            starts: *const u8,
            starts_len: usize,
            works: *const u8,
            works_len: usize,
            state: *mut u64,
            state_len: usize,
        ) -> u8;
        pub fn tungwaff_run(
            kind: usize,
            n: usize,
            modulus: usize,
            parents: *const u8,
            parents_len: usize,
            starts: *const u8,
            starts_len: usize,
            works: *const u8,
            works_len: usize,
            schedule: *const u8,
            schedule_len: usize,
            allowance: usize,
            log: *mut u8,
            log_len: usize,
            tasks: *mut u32,
            tasks_len: usize,
            turns: *mut usize,
            place: *mut usize,
            rounds: *mut u32,
        ) -> u8;
        pub fn tungwaff_resume(
            state: *mut u64,
            state_len: usize,
            schedule: *const u8,
            schedule_len: usize,
            allowance: usize,
            log: *mut u8,
            log_len: usize,
            tasks: *mut u32,
            tasks_len: usize,
            turns: *mut usize,
            place: *mut usize,
            rounds: *mut u32,
        ) -> u8;
        pub fn tungwaff_rows(
            state: *mut u64,
            state_len: usize,
            schedule: *const u8,
            schedule_len: usize,
            allowance: usize,
            log: *mut u8,
            log_len: usize,
            rows: *mut u32,
            rows_len: usize,
            turns: *mut usize,
            place: *mut usize,
            rounds: *mut u32,
        ) -> u8;
        pub fn tungwaff_turn(
            state: *mut u64,
            state_len: usize,
            task: usize,
            moved: *mut u8,
            closed: *mut u8,
        ) -> u8;
        pub fn tungwaff_ready(state: *const u64, state_len: usize, task: *mut usize) -> u8;
        pub fn tungwaff_passes(
            n: usize,
            schedule: *const u8,
            schedule_len: usize,
            pairs: *mut u32,
            pairs_len: usize,
            count: *mut usize,
            place: *mut usize,
        ) -> u8;
        pub fn tungwaff_first_pass(
            n: usize,
            schedule: *const u8,
            schedule_len: usize,
            place: usize,
        ) -> usize;
        pub fn tungwaff_shape(shape: usize, n: usize, table: *mut u8, table_len: usize) -> u8;
        pub fn tungwaff_play(
            kind: usize,
            n: usize,
            modulus: usize,
            parents: *const u8,
            parents_len: usize,
            starts: *const u8,
            starts_len: usize,
            works: *const u8,
            works_len: usize,
            trace: *const u8,
            trace_len: usize,
            agrees: *mut u8,
            index: *mut usize,
        ) -> u8;
        pub fn tungwaff_play_state(
            kind: usize,
            n: usize,
            modulus: usize,
            parents: *const u8,
            parents_len: usize,
            starts: *const u8,
            starts_len: usize,
            works: *const u8,
            works_len: usize,
            trace: *const u8,
            trace_len: usize,
            state: *mut u64,
            state_len: usize,
            agrees: *mut u8,
            index: *mut usize,
        ) -> u8;
        pub fn tungwaff_limit(
            kind: usize,
            n: usize,
            works: *const u8,
            works_len: usize,
            passes: *mut usize,
        ) -> u8;
        pub fn tungwaff_read(
            text: *const u8,
            text_len: usize,
            parents: *mut u8,
            parents_len: usize,
            schedule: *mut u8,
            schedule_len: usize,
            kind: *mut usize,
            n: *mut usize,
            modulus: *mut usize,
            parent_count: *mut usize,
            turn_count: *mut usize,
            place: *mut usize,
        ) -> u8;
        pub fn tungwaff_sheet(text: *const u8, text_len: usize, page: *mut [u8; PAGE]) -> usize;
    }
}

/// A call of a function that begins with a fresh state: what that is made from, and then what else the function takes.
macro_rules! from_setup {
    ($function:path, $setup:expr, $($more:expr),+ $(,)?) => {
        // SAFETY: the addresses and lengths are those of slices that live through the call; what it writes to is lent to it alone.
        unsafe {
            $function(
                $setup.kind,
                $setup.n,
                $setup.modulus,
                $setup.parents.as_ptr(),
                $setup.parents.len(),
                $setup.starts.as_ptr(),
                $setup.starts.len(),
                $setup.works.as_ptr(),
                $setup.works.len(),
                $($more),+
            )
        }
    };
}

/// A run from the state in a list; with rows for each turn or numbers for each task.
macro_rules! from_state {
    ($function:path, $state:expr, $schedule:expr, $allowance:expr, $log:expr, $list:expr) => {{
        let mut ran = UNTOLD;
        // SAFETY: as above.
        ran.reason = unsafe {
            $function(
                $state.as_mut_ptr(),
                $state.len(),
                $schedule.as_ptr(),
                $schedule.len(),
                $allowance,
                $log.as_mut_ptr(),
                $log.len(),
                $list.as_mut_ptr(),
                $list.len(),
                &mut ran.turns,
                &mut ran.place,
                &mut ran.rounds,
            )
        };
        ran
    }};
}

/// A run's answer before the call.
const UNTOLD: Ran = Ran { reason: u8::MAX, turns: usize::MAX, place: usize::MAX, rounds: u32::MAX };

/// Gives the reason.
pub fn fresh(setup: &Setup, state: &mut [u64]) -> u8 {
    from_setup!(raw::tungwaff_fresh, setup, state.as_mut_ptr(), state.len())
}

pub fn run(
    setup: &Setup,
    schedule: &[u8],
    allowance: usize,
    log: &mut [u8],
    tasks: &mut [u32],
) -> Ran {
    let mut ran = UNTOLD;
    ran.reason = from_setup!(
        raw::tungwaff_run,
        setup,
        schedule.as_ptr(),
        schedule.len(),
        allowance,
        log.as_mut_ptr(),
        log.len(),
        tasks.as_mut_ptr(),
        tasks.len(),
        &mut ran.turns,
        &mut ran.place,
        &mut ran.rounds,
    );
    ran
}

pub fn resume(
    state: &mut [u64],
    schedule: &[u8],
    allowance: usize,
    log: &mut [u8],
    tasks: &mut [u32],
) -> Ran {
    from_state!(raw::tungwaff_resume, state, schedule, allowance, log, tasks)
}

pub fn rows(
    state: &mut [u64],
    schedule: &[u8],
    allowance: usize,
    log: &mut [u8],
    rows: &mut [u32],
) -> Ran {
    from_state!(raw::tungwaff_rows, state, schedule, allowance, log, rows)
}

pub fn turn(state: &mut [u64], task: usize) -> Turned {
    let (mut moved, mut closed) = (u8::MAX, u8::MAX);
    // SAFETY: as above.
    let reason = unsafe {
        raw::tungwaff_turn(state.as_mut_ptr(), state.len(), task, &mut moved, &mut closed)
    };
    Turned { reason, moved, closed }
}

pub fn ready(state: &[u64]) -> Ready {
    let mut task = usize::MAX;
    // SAFETY: as above.
    let reason = unsafe { raw::tungwaff_ready(state.as_ptr(), state.len(), &mut task) };
    Ready { reason, task }
}

pub fn passes(n: usize, schedule: &[u8], pairs: &mut [u32]) -> Passes {
    let (mut count, mut place) = (usize::MAX, usize::MAX);
    // SAFETY: as above.
    let reason = unsafe {
        raw::tungwaff_passes(
            n,
            schedule.as_ptr(),
            schedule.len(),
            pairs.as_mut_ptr(),
            pairs.len(),
            &mut count,
            &mut place,
        )
    };
    Passes { reason, count, place }
}

/// Gives the length of the pass that begins at the place, 0 if there is none.
pub fn first_pass(n: usize, schedule: &[u8], place: usize) -> usize {
    // SAFETY: as above.
    unsafe { raw::tungwaff_first_pass(n, schedule.as_ptr(), schedule.len(), place) }
}

/// Gives the reason.
pub fn shape(shape: usize, n: usize, table: &mut [u8]) -> u8 {
    // SAFETY: as above.
    unsafe { raw::tungwaff_shape(shape, n, table.as_mut_ptr(), table.len()) }
}

pub fn play(setup: &Setup, trace: &[u8]) -> Played {
    let (mut agrees, mut index) = (u8::MAX, usize::MAX);
    let reason = from_setup!(
        raw::tungwaff_play,
        setup,
        trace.as_ptr(),
        trace.len(),
        &mut agrees,
        &mut index,
    );
    Played { reason, agrees, index }
}

pub fn play_state(setup: &Setup, trace: &[u8], state: &mut [u64]) -> Played {
    let (mut agrees, mut index) = (u8::MAX, usize::MAX);
    let reason = from_setup!(
        raw::tungwaff_play_state,
        setup,
        trace.as_ptr(),
        trace.len(),
        state.as_mut_ptr(),
        state.len(),
        &mut agrees,
        &mut index,
    );
    Played { reason, agrees, index }
}

pub fn limit(kind: usize, n: usize, works: &[u8]) -> Limit {
    let mut passes = usize::MAX;
    // SAFETY: as above.
    let reason = unsafe { raw::tungwaff_limit(kind, n, works.as_ptr(), works.len(), &mut passes) };
    Limit { reason, passes }
}

pub fn read(text: &[u8], parents: &mut [u8], schedule: &mut [u8]) -> Read {
    let most = usize::MAX;
    let mut read = Read {
        reason: u8::MAX,
        place: most,
        kind: most,
        n: most,
        modulus: most,
        parents: most,
        turns: most,
    };
    // SAFETY: as above.
    read.reason = unsafe {
        raw::tungwaff_read(
            text.as_ptr(),
            text.len(),
            parents.as_mut_ptr(),
            parents.len(),
            schedule.as_mut_ptr(),
            schedule.len(),
            &mut read.kind,
            &mut read.n,
            &mut read.modulus,
            &mut read.parents,
            &mut read.turns,
            &mut read.place,
        )
    };
    read
}

/// Gives the sheet's length.
pub fn sheet(text: &[u8], page: &mut [u8; PAGE]) -> usize {
    // SAFETY: as above.
    unsafe { raw::tungwaff_sheet(text.as_ptr(), text.len(), page) }
}
