//! The barrier machine: the state, the lines of the five kinds, the least count, the ranges of the
//! fields, and the calls fresh, turn, ready and run. Every call changes the state in place.

use super::refusal::{check_schedule, check_task_count, Refusal, MAX_TASKS};

/// The five kinds. The last one is the older centralized form of the second: its arrivals count
/// down from N, and each task keeps its own sense.
pub const SYMMETRIC: u8 = 0;
pub const FETCH_AND_INCREMENT: u8 = 1;
pub const RING: u8 = 2;
pub const TREE: u8 = 3;
pub const CENTRALIZED: u8 = 4;

/// The highest kind. The highest shape of a tree is another limit, which no kind moves.
pub const LAST_KIND: u8 = CENTRALIZED;

/// All kinds.
pub const KINDS: [u8; 5] = [SYMMETRIC, FETCH_AND_INCREMENT, RING, TREE, CENTRALIZED];

/// The highest count.
pub const MAX_COUNT: u32 = 1_000_000;

/// The highest tally.
pub const MAX_TALLY: u32 = 4_000_000_000;

/// The fields of one task. Those that its kind doesn't use are 0.
#[derive(Clone, Copy, Debug, PartialEq, Eq)]
pub struct Task {
    /// Symmetric and tree: the tasks still to be dealt with, one bit each.
    pub list: u64,
    pub count: u32,
    /// The tallies: how many of the task's turns since the fresh state moved, and how many waited.
    pub moves: u32,
    pub waits: u32,
    pub line: u8,
    /// Own work: how many moves it takes at 11 each time, and how many of them are left; all of
    /// them as long as the task is elsewhere, unless somebody changed that.
    pub work: u8,
    pub left: u8,
    /// Symmetric: what the others read, and its value before the round.
    pub tag: u8,
    pub old: u8,
    /// Symmetric and tree: the looked-at task.
    pub looked: u8,
    /// Fetch-and-increment: the sense that the task waits for.
    pub aim: u8,
    /// Ring: set and cleared by the task before.
    pub toggle: u8,
    /// Tree: set by the task, cleared by its parent.
    pub flag: u8,
    /// Symmetric: the task from which line 13 looks for the next one.
    pub start: u8,
    /// Centralized: the task's own sense, which it inverts in every round.
    pub sense: u8,
}

impl Task {
    pub const ZERO: Task = Task {
        list: 0,
        count: 0,
        moves: 0,
        waits: 0,
        line: 0,
        work: 0,
        left: 0,
        tag: 0,
        old: 0,
        looked: 0,
        aim: 0,
        toggle: 0,
        flag: 0,
        start: 0,
        sense: 0,
    };
}

/// One barrier: its kind, N and R, what its tasks share, and tasks 0 to N - 1.
#[derive(Clone, Copy, Debug, PartialEq, Eq)]
pub struct State {
    pub kind: u8,
    pub n: u8,
    pub modulus: u8,
    /// Fetch-and-increment and centralized: the shared number and the shared bit.
    pub arrivals: u8,
    pub sense: u8,
    /// Tree: each task's parent.
    pub parents: [u8; MAX_TASKS],
    pub tasks: [Task; MAX_TASKS],
}

impl State {
    pub const ZERO: State = State {
        kind: 0,
        n: 0,
        modulus: 0,
        arrivals: 0,
        sense: 0,
        parents: [0; MAX_TASKS],
        tasks: [Task::ZERO; MAX_TASKS],
    };
}

/// What a turn that isn't refused did.
#[derive(Clone, Copy, Debug, PartialEq, Eq)]
pub enum Outcome {
    Waited,
    /// The line was carried out.
    Moved {
        /// Whether the least count rose, which closes a round.
        closed: bool,
    },
}

// ---- fresh ----

/// The tables that a fresh state is given; none of them by default.
#[derive(Clone, Copy, Debug, Default)]
pub struct Tables<'a> {
    /// A tree's parents; empty for the other kinds.
    pub parents: &'a [u8],
    /// The starts of a symmetric barrier, or empty: then every start is 0.
    pub starts: &'a [u8],
    /// The work lengths, or empty: then every one is 1.
    pub works: &'a [u8],
}

impl Tables<'_> {
    /// No table but the parents.
    pub fn of_parents(parents: &[u8]) -> Tables<'_> {
        Tables { parents, ..Tables::default() }
    }
}

/// Makes the state fresh. Where this is refused, all fields are 0.
pub fn fresh(
    state: &mut State,
    kind: u64,
    n: u64,
    modulus: u64,
    tables: Tables,
) -> Result<(), Refusal> {
    *state = State::ZERO;
    check_fresh(kind, n, modulus, tables)?;
    state.kind = kind as u8;
    state.n = n as u8;
    state.modulus = modulus as u8;
    (state.arrivals, state.sense) = match state.kind {
        FETCH_AND_INCREMENT => (0, 1),
        CENTRALIZED => (n as u8, 1),
        _ => (0, 0),
    };
    state.parents[..tables.parents.len()].copy_from_slice(tables.parents);
    for (number, task) in state.tasks[..n as usize].iter_mut().enumerate() {
        task.line = 11;
        task.start = tables.starts.get(number).copied().unwrap_or(0);
        task.work = tables.works.get(number).copied().unwrap_or(1);
        task.left = task.work;
        task.sense = u8::from(state.kind == CENTRALIZED);
    }
    Ok(())
}

/// Checks 2 to 6, then 12 and 15.
fn check_fresh(kind: u64, n: u64, modulus: u64, tables: Tables) -> Result<(), Refusal> {
    if kind > u64::from(LAST_KIND) {
        return Err(Refusal::Kind);
    }
    let n = check_task_count(n)?;
    let kind = kind as u8;
    if !modulus_fits(kind, modulus) {
        return Err(Refusal::Modulus);
    }
    if tables.parents.len() != if kind == TREE { n } else { 0 } {
        return Err(Refusal::TableLength);
    }
    if !parents_fit(tables.parents) {
        return Err(Refusal::Parent);
    }
    if !starts_fit(kind, n, tables.starts) {
        return Err(Refusal::Starts);
    }
    if !works_fit(n, tables.works) {
        return Err(Refusal::Works);
    }
    Ok(())
}

/// R is 3 to 255 for symmetric, and 0 for the other kinds.
fn modulus_fits(kind: u8, modulus: u64) -> bool {
    if kind == SYMMETRIC {
        (3..=255).contains(&modulus)
    } else {
        modulus == 0
    }
}

/// The root's entry is 0, and every other parent is a lower number than its child.
fn parents_fit(parents: &[u8]) -> bool {
    parents.iter().enumerate().all(|(task, &parent)| usize::from(parent) < task.max(1))
}

/// There is no start table, or it has an entry below n for each task of a symmetric barrier.
fn starts_fit(kind: u8, n: usize, starts: &[u8]) -> bool {
    let whole = kind == SYMMETRIC && starts.len() == n;
    starts.is_empty() || (whole && starts.iter().all(|&start| usize::from(start) < n))
}

/// There is no work table, or it has an entry from 1 on for each task.
pub fn works_fit(n: usize, works: &[u8]) -> bool {
    works.is_empty() || (works.len() == n && works.iter().all(|&work| work > 0))
}

// ---- turn ----

/// A turn: checks 7, 9, 11 and 13, then carries out the task's line or waits at it.
pub fn turn(state: &mut State, task: u64) -> Result<Outcome, Refusal> {
    if !in_range(state) {
        return Err(Refusal::Range);
    }
    if task >= u64::from(state.n) {
        return Err(Refusal::Task);
    }
    step(state, task as usize)
}

/// A turn of one of the tasks of a state that is in range; it keeps the state in range.
pub fn step(state: &mut State, task: usize) -> Result<Outcome, Refusal> {
    step_with(state, task, is_least)
}

/// The same. Only where the task's count rises, it asks whether the least count rose with it; the
/// question gets the state after the turn and the count that the task has now. Always inlined: the
/// run's loop is faster with it.
#[inline(always)]
fn step_with(
    state: &mut State,
    task: usize,
    closes: impl FnOnce(&State, u32) -> bool,
) -> Result<Outcome, Refusal> {
    check_step(state, task)?;
    if must_wait(state, task) {
        tally(&mut state.tasks[task].waits)?;
        return Ok(Outcome::Waited);
    }
    tally(&mut state.tasks[task].moves)?;
    let before = state.tasks[task].count;
    carry_out(state, task);
    let count = state.tasks[task].count;
    Ok(Outcome::Moved { closed: count > before && closes(state, count) })
}

/// A turn of one of the tasks of a state that is in range, made only if it moves or only if it
/// waits. Gives whether it was made; where it wasn't, the state is as it was. It doesn't ask
/// whether the least count rose.
pub fn step_if(state: &mut State, task: usize, moves: bool) -> bool {
    if check_step(state, task).is_err() || must_wait(state, task) == moves {
        return false;
    }
    let own = &mut state.tasks[task];
    let made = tally(if moves { &mut own.moves } else { &mut own.waits }).is_ok();
    if made && moves {
        carry_out(state, task);
    }
    made
}

/// The half of 7 that is due at a turn, then 11.
fn check_step(state: &State, task: usize) -> Result<(), Refusal> {
    let own = &state.tasks[task];
    if own.line != counting_line(state.kind) {
        return Ok(());
    }
    if all_arrived(state) {
        return Err(Refusal::Range);
    }
    if own.count == MAX_COUNT {
        return Err(Refusal::CountLimit);
    }
    Ok(())
}

/// Whether all tasks have arrived already, as far as the kind counts arrivals: up to N, or down
/// to 0. No fresh state leads a task to its arrival then.
fn all_arrived(state: &State) -> bool {
    match state.kind {
        FETCH_AND_INCREMENT => state.arrivals == state.n,
        CENTRALIZED => state.arrivals == 0,
        _ => false,
    }
}

/// Check 13, then raises the tally by one.
fn tally(tally: &mut u32) -> Result<(), Refusal> {
    if *tally == MAX_TALLY {
        return Err(Refusal::TallyLimit);
    }
    *tally += 1;
    Ok(())
}

/// The line at which the kind's count rises.
pub fn counting_line(kind: u8) -> u8 {
    match kind {
        SYMMETRIC => 12,
        FETCH_AND_INCREMENT | RING | CENTRALIZED => 13,
        _ => 15,
    }
}

/// Whether the task's line is an await whose condition is false. Always inlined: it has several
/// callers, and the loops of the run and the play-back are faster with it.
#[inline(always)]
fn must_wait(state: &State, task: usize) -> bool {
    let own = &state.tasks[task];
    match (state.kind, own.line) {
        (SYMMETRIC, 14) => state.tasks[usize::from(own.looked)].tag == own.old,
        (FETCH_AND_INCREMENT, 16) => state.sense != own.aim,
        (RING, 12) => own.toggle != nonzero(task),
        (RING, 14) => own.toggle == nonzero(task),
        (TREE, 14) => state.tasks[usize::from(own.looked)].flag != 1,
        (TREE, 16) => task != 0 && own.flag != 0,
        (CENTRALIZED, 16) => state.sense != own.sense,
        _ => false,
    }
}

/// Carries out the task's line, which doesn't have to wait. Always inlined, as the step is.
#[inline(always)]
fn carry_out(state: &mut State, task: usize) {
    match state.kind {
        SYMMETRIC => symmetric(state, task),
        FETCH_AND_INCREMENT => fetch_and_increment(state, task),
        RING => ring(state, task),
        TREE => tree(state, task),
        _ => centralized(state, task),
    }
}

/// Carries out a line of the symmetric barrier.
fn symmetric(state: &mut State, task: usize) {
    let everyone = all_tasks(state.n);
    let own = &mut state.tasks[task];
    match own.line {
        11 => own_work(own),
        12 => {
            own.old = own.tag;
            own.tag = ((u16::from(own.old) + 1) % u16::from(state.modulus)) as u8;
            own.count += 1;
            own.list = everyone;
            own.line = 13;
        }
        13 => {
            let start = own.start;
            look(own, start, 11);
        }
        14 => take_off(own),
        line => no_such_line(line),
    }
}

/// Carries out a line of the fetch-and-increment barrier.
fn fetch_and_increment(state: &mut State, task: usize) {
    let own = &mut state.tasks[task];
    match own.line {
        11 => own_work(own),
        12 => {
            own.aim = 1 - state.sense;
            own.line = 13;
        }
        13 => {
            let before = state.arrivals;
            state.arrivals += 1;
            own.count += 1;
            own.line = if before == state.n - 1 { 14 } else { 16 };
        }
        14 => {
            state.arrivals = 0;
            own.line = 15;
        }
        15 => {
            state.sense = own.aim;
            own.line = 11;
        }
        16 => own.line = 11,
        line => no_such_line(line),
    }
}

/// Carries out a line of the ring barrier.
fn ring(state: &mut State, task: usize) {
    let next = if task + 1 < usize::from(state.n) { task + 1 } else { 0 };
    match state.tasks[task].line {
        11 => own_work(&mut state.tasks[task]),
        12 => state.tasks[task].line = 13,
        13 => {
            state.tasks[next].toggle = 1;
            state.tasks[task].count += 1;
            state.tasks[task].line = 14;
        }
        14 => state.tasks[task].line = 15,
        15 => {
            state.tasks[next].toggle = 0;
            state.tasks[task].line = 11;
        }
        line => no_such_line(line),
    }
}

/// Carries out a line of the tree barrier.
fn tree(state: &mut State, task: usize) {
    match state.tasks[task].line {
        11 => own_work(&mut state.tasks[task]),
        12 => list_children(state, task, 13),
        13 => look(&mut state.tasks[task], 0, 15),
        14 => take_off(&mut state.tasks[task]),
        15 => {
            let own = &mut state.tasks[task];
            if task != 0 {
                own.flag = 1;
            }
            own.count += 1;
            own.line = 16;
        }
        16 => state.tasks[task].line = 17,
        17 => list_children(state, task, 18),
        18 => release(state, task),
        line => no_such_line(line),
    }
}

/// Carries out a line of the centralized barrier.
fn centralized(state: &mut State, task: usize) {
    let own = &mut state.tasks[task];
    match own.line {
        11 => own_work(own),
        12 => {
            own.sense = 1 - own.sense;
            own.line = 13;
        }
        13 => {
            let before = state.arrivals;
            state.arrivals -= 1;
            own.count += 1;
            own.line = if before == 1 { 14 } else { 16 };
        }
        14 => {
            state.arrivals = state.n;
            own.line = 15;
        }
        15 => {
            state.sense = own.sense;
            own.line = 11;
        }
        16 => own.line = 11,
        line => no_such_line(line),
    }
}

/// Line 11: one move of the task's own work. The last one leads on, and all are left again.
fn own_work(own: &mut Task) {
    if own.left > 1 {
        own.left -= 1;
    } else {
        own.left = own.work;
        own.line = 12;
    }
}

/// Looks at the first listed task from the start on. Where none is listed, leaves the loop for the
/// line given.
fn look(own: &mut Task, start: u8, exit: u8) {
    match first_from(start, own.list) {
        Some(task) => {
            own.looked = task;
            own.line = 14;
        }
        None => own.line = exit,
    }
}

/// Takes the looked-at task off the list and goes back to look for another.
fn take_off(own: &mut Task) {
    own.list &= !(1 << own.looked);
    own.line = 13;
}

/// Lists the task's own children and goes to the line given.
fn list_children(state: &mut State, task: usize, line: u8) {
    state.tasks[task].list = children(state, task);
    state.tasks[task].line = line;
}

/// Line 18 of the tree: clears the least listed child's flag, or ends the round.
fn release(state: &mut State, task: usize) {
    let own = &mut state.tasks[task];
    if own.list == 0 {
        own.line = 11;
        return;
    }
    let child = least(own.list);
    own.list &= !(1 << child);
    state.tasks[child].flag = 0;
}

/// A state in range has no line but its kind's.
fn no_such_line(line: u8) {
    unreachable!("line {line}");
}

/// nz of the ring: 1 for every task but 0.
fn nonzero(task: usize) -> u8 {
    u8::from(task != 0)
}

/// The first listed task at or above the start, going round to 0 after the last.
fn first_from(start: u8, list: u64) -> Option<u8> {
    let above = list & u64::MAX.checked_shl(u32::from(start)).unwrap_or(0);
    let listed = if above != 0 { above } else { list };
    (listed != 0).then(|| least(listed) as u8)
}

/// The least task on a list that isn't empty.
fn least(list: u64) -> usize {
    list.trailing_zeros() as usize
}

/// The list of tasks 0 to n - 1.
fn all_tasks(n: u8) -> u64 {
    u64::MAX >> (MAX_TASKS as u32 - u32::from(n))
}

/// The list of a task's children; each is a higher number than the task.
fn children(state: &State, task: usize) -> u64 {
    let mut list = 0;
    for child in task + 1..usize::from(state.n) {
        list |= u64::from(usize::from(state.parents[child]) == task) << child;
    }
    list
}

// ---- the least count ----

/// The counts of tasks 0 to N - 1.
fn counts(state: &State) -> impl Iterator<Item = u32> + '_ {
    state.tasks[..usize::from(state.n)].iter().map(|task| task.count)
}

/// The lowest of the counts.
pub fn least_count(state: &State) -> u32 {
    counts(state).min().unwrap_or(0)
}

/// Whether no count is below this one. If it is one that just rose by 1, then exactly if the least
/// count rose: any other task at the old least count or below it would still stand there.
fn is_least(state: &State, count: u32) -> bool {
    counts(state).all(|other| other >= count)
}

/// The least count and the number of tasks that stand at it, kept over the turns of a run.
struct Least {
    count: u32,
    tasks: usize,
}

impl Least {
    fn new(state: &State) -> Least {
        let count = least_count(state);
        Least { count, tasks: standing_at(state, count) }
    }

    /// Takes in that a task's count rose to this one. Gives whether the least count rose with it:
    /// then this task was the last at the old one, and the new one is its count.
    fn rise(&mut self, state: &State, count: u32) -> bool {
        if count - 1 != self.count {
            return false;
        }
        self.tasks -= 1;
        if self.tasks > 0 {
            return false;
        }
        *self = Least { count, tasks: standing_at(state, count) };
        true
    }
}

/// The number of tasks whose count is this one. Not inlined: the run's loop is faster without it.
#[inline(never)]
fn standing_at(state: &State, count: u32) -> usize {
    counts(state).filter(|&other| other == count).count()
}

// ---- field ranges ----

/// Whether every field of the state is in range.
pub fn in_range(state: &State) -> bool {
    if !shared_in_range(state) {
        return false;
    }
    let n = usize::from(state.n);
    let highest = highest_fields(state);
    let lists = highest_lists(state);
    let used = state.tasks[..n].iter().zip(&lists);
    used.into_iter().all(|(task, &list)| task_in_range(task, &highest, list))
        && state.tasks[n..].iter().all(|task| *task == Task::ZERO)
}

/// The range of every field that isn't a task's.
fn shared_in_range(state: &State) -> bool {
    if state.kind > LAST_KIND || check_task_count(u64::from(state.n)).is_err() {
        return false;
    }
    let (arrivals, sense) = match state.kind {
        FETCH_AND_INCREMENT | CENTRALIZED => (state.n, 1),
        _ => (0, 0),
    };
    let entries = match state.kind {
        TREE => usize::from(state.n),
        _ => 0,
    };
    modulus_fits(state.kind, u64::from(state.modulus))
        && state.arrivals <= arrivals
        && state.sense <= sense
        && parents_fit(&state.parents[..entries])
        && state.parents[entries..].iter().all(|&parent| parent == 0)
}

/// The highest value of each field of a task but its list and its work; 0 where the kind doesn't
/// use it.
fn highest_fields(state: &State) -> Task {
    let mut highest = Task::ZERO;
    highest.count = MAX_COUNT;
    highest.moves = MAX_TALLY;
    highest.waits = MAX_TALLY;
    match state.kind {
        SYMMETRIC => {
            highest.line = 14;
            highest.tag = state.modulus - 1;
            highest.old = state.modulus - 1;
            highest.looked = state.n - 1;
            highest.start = state.n - 1;
        }
        FETCH_AND_INCREMENT => {
            highest.line = 16;
            highest.aim = 1;
        }
        RING => {
            highest.line = 15;
            highest.toggle = 1;
        }
        TREE => {
            highest.line = 18;
            highest.looked = state.n - 1;
            highest.flag = 1;
        }
        _ => {
            highest.line = 16;
            highest.sense = 1;
        }
    }
    highest
}

/// The tasks that each task's list may hold: all of them, its children, or none.
fn highest_lists(state: &State) -> [u64; MAX_TASKS] {
    let mut lists = [0; MAX_TASKS];
    match state.kind {
        SYMMETRIC => lists = [all_tasks(state.n); MAX_TASKS],
        TREE => {
            for child in 1..usize::from(state.n) {
                lists[usize::from(state.parents[child])] |= 1 << child;
            }
        }
        _ => {}
    }
    lists
}

/// Whether every field of a task is in range.
fn task_in_range(task: &Task, highest: &Task, list: u64) -> bool {
    (11..=highest.line).contains(&task.line)
        && task.count <= highest.count
        && task.moves <= highest.moves
        && task.waits <= highest.waits
        // The moves left are from 1 on, so that the work length is too.
        && (1..=task.work).contains(&task.left)
        && task.tag <= highest.tag
        && task.old <= highest.old
        && task.looked <= highest.looked
        && task.aim <= highest.aim
        && task.toggle <= highest.toggle
        && task.flag <= highest.flag
        && task.start <= highest.start
        && task.sense <= highest.sense
        && task.list & !list == 0
}

// ---- ready ----

/// The least task whose turn would answer moved, if there is one.
pub fn ready(state: &State) -> Result<Option<usize>, Refusal> {
    if !in_range(state) {
        return Err(Refusal::Range);
    }
    Ok((0..usize::from(state.n)).find(|&task| would_move(state, task)))
}

/// Whether the turn of one of the tasks of a state that is in range would answer moved.
fn would_move(state: &State, task: usize) -> bool {
    let tallied = state.tasks[task].moves < MAX_TALLY;
    tallied && check_step(state, task).is_ok() && !must_wait(state, task)
}

// ---- run ----

/// How a run ended.
#[derive(Clone, Copy, Debug, PartialEq, Eq)]
pub enum Ending {
    /// Every turn of the schedule was made.
    Done,
    /// The allowance is used up and the schedule is longer.
    Spent,
    /// A turn was refused, 7, 11 or 13; the turns before it stand.
    Stopped(Refusal),
    /// The whole run was refused.
    Refused(Refusal),
}

/// What a run answers.
#[derive(Clone, Debug, PartialEq, Eq)]
pub struct Report {
    pub ending: Ending,
    pub turns: usize,
    /// How many of the moves closed a round.
    pub rounds: usize,
    pub moves: [u32; MAX_TASKS],
    pub waits: [u32; MAX_TASKS],
}

impl Report {
    /// A report of no turns.
    fn new(ending: Ending) -> Report {
        Report { ending, turns: 0, rounds: 0, moves: [0; MAX_TASKS], waits: [0; MAX_TASKS] }
    }

    /// Counts one turn.
    fn count(&mut self, outcome: Outcome) {
        self.turns += 1;
        self.rounds += usize::from(outcome == Outcome::Moved { closed: true });
    }

    /// Takes each task's moves and waits from its tallies before and after the run.
    fn count_tallies(&mut self, before: &[Task], after: &[Task]) {
        for (number, (before, after)) in before.iter().zip(after).enumerate() {
            self.moves[number] = after.moves - before.moves;
            self.waits[number] = after.waits - before.waits;
        }
    }
}

/// A run: makes the schedule's turns as far as the allowance goes and logs two bytes for each. It
/// goes over the counts at its beginning and where it closes a round, and over the tallies at its
/// end, not at every turn.
pub fn run(state: &mut State, schedule: &[u8], allowance: u64, log: &mut [u8]) -> Report {
    let limit = match check_run(state, schedule, allowance, log) {
        Ok(limit) => limit,
        Err(refusal) => return Report::new(Ending::Refused(refusal)),
    };
    let whole = limit == schedule.len();
    let mut report = Report::new(if whole { Ending::Done } else { Ending::Spent });
    let mut least = Least::new(state);
    let before = state.tasks;
    for (&task, entry) in schedule[..limit].iter().zip(log.chunks_exact_mut(2)) {
        let task = usize::from(task);
        let line = state.tasks[task].line;
        match step_with(state, task, |state, count| least.rise(state, count)) {
            Ok(outcome) => {
                entry.copy_from_slice(&[line, u8::from(outcome != Outcome::Waited)]);
                report.count(outcome);
            }
            Err(refusal) => {
                report.ending = Ending::Stopped(refusal);
                break;
            }
        }
    }
    report.count_tallies(&before, &state.tasks);
    report
}

/// Checks 7 to 10 of a run. Gives the most turns that the run can make.
pub fn check_run(
    state: &State,
    schedule: &[u8],
    allowance: u64,
    log: &[u8],
) -> Result<usize, Refusal> {
    if !in_range(state) {
        return Err(Refusal::Range);
    }
    check_schedule(usize::from(state.n), schedule)?;
    let limit = allowance.min(schedule.len() as u64) as usize;
    if log.len() < 2 * limit {
        return Err(Refusal::Buffer);
    }
    Ok(limit)
}
