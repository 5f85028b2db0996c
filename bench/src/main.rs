//! Measures the library against the second program, which changes its state in place, on the same schedules and texts, and prints the tables
//! of docs/performance.md.

mod library;
mod measure;
mod memory;
mod stack;
mod start;
mod tables;
mod targets;
mod work;

// The second program, of which not all functions are called.
mod measured;

use std::process::ExitCode;

const USAGE: &str = "\
usage:
  bench [ROUNDS]    measure, and print the tables; ROUNDS is 1 or more, 31 if none is given
  bench stack       print the memory that a process and the stack that a call needs
";

fn main() -> ExitCode {
    let words: Vec<String> = std::env::args().skip(1).collect();
    let words: Vec<&str> = words.iter().map(String::as_str).collect();
    match words[..] {
        [] => tables::print(31),
        ["peak", side] => memory::print_own(side),
        ["stack"] => tables::print_memory(),
        ["stack", call, kib] => match kib.parse() {
            Ok(kib) if stack::CALLS.contains(&call) => stack::complete(call, kib),
            _ => return wrong(),
        },
        [rounds] => match rounds.parse() {
            Ok(rounds) if rounds > 0 => tables::print(rounds),
            _ => return wrong(),
        },
        _ => return wrong(),
    }
    ExitCode::SUCCESS
}

fn wrong() -> ExitCode {
    eprint!("{USAGE}");
    ExitCode::from(2)
}
