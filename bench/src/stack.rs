//! The stack that a call needs, found by trying: in a process of its own a thread fills its stack until so much is left, and makes the
//! call. Where that is too little the process ends there.

use crate::library::{self, MAX_TASKS, PAGE, ROW_LENGTH, STATE, SYMMETRIC, TASK_LENGTH};
use crate::start::Start;
use crate::work::{Manner, Run, KINDS, TRIPLES, TURNS};
use std::hint::black_box;
use std::process::{Command, Stdio};
use std::thread;

/// The calls that are tried.
pub const CALLS: [&str; 14] = [
    "fresh",
    "run",
    "resume",
    "turn",
    "ready",
    "passes",
    "first_pass",
    "shape",
    "play",
    "play_state",
    "rows",
    "limit",
    "read",
    "sheet",
];

/// A stack that is left for every call, in KiB, and what a thread has beside it.
const MOST: usize = 1024;
const BESIDE: usize = 64;

/// The least stack, in KiB, with which a call completes.
pub fn least(call: &str) -> usize {
    let (mut too_little, mut enough) = (0, MOST);
    assert!(completes(call, enough), "a stack of {enough} KiB is too little for {call}");
    while enough - too_little > 1 {
        let middle = (too_little + enough) / 2;
        if completes(call, middle) {
            enough = middle;
        } else {
            too_little = middle;
        }
    }
    enough
}

/// Whether a process of its own completes the call with so many KiB of stack.
fn completes(call: &str, kib: usize) -> bool {
    let program = std::env::current_exe().expect("this program has a path");
    let mut command = Command::new(program);
    command.args(["stack", call, &kib.to_string()]).stdout(Stdio::null()).stderr(Stdio::null());
    command.status().expect("this program runs").success()
}

/// Makes a call with N 64 for every kind, each with so many KiB of stack.
pub fn complete(call: &str, kib: usize) {
    for (kind, _) in KINDS {
        let mut work = work(call, kind);
        let stack = thread::Builder::new().stack_size((MOST + BESIDE) * 1024);
        let thread = stack.spawn(move || leave(lowest(), kib * 1024, &mut *work));
        thread.expect("a thread can be had").join().expect("the call completes");
    }
}

/// A call that is made later.
type Call = Box<dyn FnMut() + Send>;

/// The call, with the longest input and all that it takes in the heap.
fn work(call: &str, kind: u8) -> Call {
    let start = longest(kind);
    match call {
        "fresh" | "resume" | "turn" | "ready" | "rows" => with_list(call, start),
        "read" | "sheet" => with_text(call, fullest(start.kind, start.modulus)),
        "run" => {
            let (mut log, mut tasks) = (vec![0; 2 * TURNS], vec![0; TASK_LENGTH * MAX_TASKS]);
            Box::new(move || {
                let schedule = &start.schedule;
                let ran = library::run(&start.setup(), schedule, TURNS, &mut log, &mut tasks);
                accepted(ran.reason);
            })
        }
        "passes" => {
            let mut pairs = vec![0; 2 * TURNS];
            Box::new(move || accepted(library::passes(64, &start.schedule, &mut pairs).reason))
        }
        "first_pass" => Box::new(move || assert!(library::first_pass(64, &start.schedule, 0) > 0)),
        "shape" => {
            let mut table = vec![0; MAX_TASKS];
            Box::new(move || accepted(library::shape(2, 64, &mut table)))
        }
        "play" => {
            let trace = trace(&start);
            Box::new(move || accepted(library::play(&start.setup(), &trace).reason))
        }
        "play_state" => {
            let (trace, mut list) = (trace(&start), vec![0; STATE]);
            Box::new(move || {
                accepted(library::play_state(&start.setup(), &trace, &mut list).reason)
            })
        }
        _ => Box::new(move || accepted(library::limit(start.kind, 64, &[255; 64]).reason)),
    }
}

/// The longest schedule, of 64 tasks, with every table that the kind takes.
fn longest(kind: u8) -> Start {
    let mut start = Run::new(kind, 64, Manner::Random.schedule(64, TURNS)).start;
    start.works = vec![255; 64];
    if start.kind == SYMMETRIC {
        start.starts = (0..64).rev().collect();
    }
    start
}

/// The longest trace of a schedule, which agrees but for the outcome of its last triple.
fn trace(start: &Start) -> Vec<u8> {
    let schedule = &start.schedule[..TRIPLES];
    let (mut log, mut tasks) = (vec![0; 2 * TRIPLES], vec![0; TASK_LENGTH * MAX_TASKS]);
    accepted(library::run(&start.setup(), schedule, TRIPLES, &mut log, &mut tasks).reason);
    let turns = schedule.iter().zip(log.chunks_exact(2));
    let mut trace: Vec<u8> = turns.flat_map(|(&task, row)| [task, row[0], row[1]]).collect();
    trace[3 * TRIPLES - 1] ^= 1;
    trace
}

/// The longest text, with as many numbers as one can have: but for N each has one digit, and one space stands between two of them.
fn fullest(kind: usize, modulus: usize) -> Vec<u8> {
    let mut text = format!("{kind} 64 {modulus}");
    for place in 0..(TURNS - text.len()) / 2 {
        // the parents of a tree are all 0
        let number = if place < 64 { 0 } else { place % 10 };
        text.push_str(&format!(" {number}"));
    }
    assert!(text.len() == TURNS);
    text.into_bytes()
}

/// A call that reads or writes a state list.
fn with_list(call: &str, start: Start) -> Call {
    let mut list = vec![0; STATE];
    accepted(library::fresh(&start.setup(), &mut list));
    let mut log = vec![0; 2 * TURNS];
    let mut numbers = vec![0; ROW_LENGTH * TURNS];
    match call {
        "fresh" => Box::new(move || accepted(library::fresh(&start.setup(), &mut list))),
        "turn" => Box::new(move || accepted(library::turn(&mut list, 63).reason)),
        "ready" => Box::new(move || accepted(library::ready(&list).reason)),
        "rows" => Box::new(move || {
            let schedule = &start.schedule;
            accepted(library::rows(&mut list, schedule, TURNS, &mut log, &mut numbers).reason);
        }),
        _ => Box::new(move || {
            let schedule = &start.schedule;
            accepted(library::resume(&mut list, schedule, TURNS, &mut log, &mut numbers).reason);
        }),
    }
}

/// A call that takes a text.
fn with_text(call: &str, text: Vec<u8>) -> Call {
    if call == "read" {
        let (mut parents, mut schedule) = (vec![0; MAX_TASKS], vec![0; TURNS / 2]);
        return Box::new(move || {
            accepted(library::read(&text, &mut parents, &mut schedule).reason)
        });
    }
    let mut page = Box::new([0; PAGE]);
    Box::new(move || {
        library::sheet(&text, &mut page);
        assert!(page.starts_with(b"task"));
    })
}

fn accepted(reason: u8) {
    assert!(reason == 0);
}

/// Goes deeper until so many bytes of stack are left above its lowest address, and does the work there.
#[inline(never)]
fn leave(lowest: usize, left: usize, work: &mut dyn FnMut()) {
    let filled = black_box([0u8; 128]);
    if filled.as_ptr() as usize - lowest > left {
        leave(lowest, left, work);
    } else {
        work();
    }
    black_box(filled);
}

/// The lowest address of this thread's stack, as Linux gives it.
fn lowest() -> usize {
    let here = 0u8;
    let here = &here as *const u8 as usize;
    let maps = std::fs::read_to_string("/proc/self/maps").expect("Linux tells of a process");
    let low = maps.lines().find_map(|line| {
        let (low, rest) = line.split_once('-')?;
        let (high, _) = rest.split_once(' ')?;
        let [low, high] = [low, high].map(|end| usize::from_str_radix(end, 16).ok());
        (low? <= here && here < high?).then_some(low?)
    });
    low.expect("the stack is mapped")
}
