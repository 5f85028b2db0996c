//! barrier: one command for the desk, over the proved library. It computes nothing about barriers: rows, bounds, passes and refusals are the
//! library's. What it derives from them (shares, quotients, longest waits), its help marks as derived.

mod arguments;
mod bounds;
mod compare;
/// A setup's findings are for the program `explain`, which shares this file.
#[allow(dead_code)]
mod finding;
mod kinds;
mod lines;
mod mend;
mod numbers;
mod orders;
mod output;
mod picture;
mod rows;
mod schedule;
mod settings;
mod stop;
mod table;
mod timeline;
mod trace;
mod words;

/// The library.
#[path = "../../include/tungwaff.rs"]
mod tungwaff;

use std::ffi::OsString;
use std::process::ExitCode;
use stop::Stop;

const HELP: &str = include_str!("../help/barrier");

/// What a command is called by, what it does with the words behind its name, and its help.
type Command = (&'static str, fn(&[OsString]) -> Result<(), Stop>, &'static str);

const COMMANDS: [Command; 5] = [
    ("trace", trace::command, include_str!("../help/trace")),
    ("compare", compare::command, include_str!("../help/compare")),
    ("bounds", bounds::command, include_str!("../help/bounds")),
    ("schedule", schedule::command, include_str!("../help/schedule")),
    ("lines", lines::command, include_str!("../help/lines")),
];

fn is_help(word: &OsString) -> bool {
    word == "--help" || word == "-h"
}

/// A call without a command's name: its help, or what is wrong with it.
fn unnamed(words: &[OsString]) -> Result<(), Stop> {
    match words.first() {
        None => Err(arguments::usage("a command is needed".to_string())),
        Some(word) if is_help(word) => output::print(HELP),
        Some(word) => Err(arguments::usage(format!("no such command: {}", word.to_string_lossy()))),
    }
}

fn main() -> ExitCode {
    let words: Vec<OsString> = std::env::args_os().skip(1).collect();
    let named = COMMANDS.iter().find(|(name, _, _)| words.first().is_some_and(|word| word == name));
    let result = match named {
        None => unnamed(&words),
        Some((_, _, help)) if words.iter().any(is_help) => output::print(help),
        Some((_, command, _)) => command(&words[1..]),
    };
    let Err(stop) = result else {
        return ExitCode::SUCCESS;
    };
    let page = named.map_or(String::new(), |(name, _, _)| format!(" {name}"));
    for line in stop.lines(&page) {
        output::say(&line);
    }
    ExitCode::from(stop.status())
}
