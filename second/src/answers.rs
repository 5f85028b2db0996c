//! The part of the second program that answers, as a program by itself. `second/try` builds its wrong
//! variants of this part alone, since most of the rest writes cases.

extern crate lines;

mod against;
mod calls {
    pub mod answer;
    pub mod caller;
    pub mod functions;
    pub mod limit;
    pub mod list;
}
mod commands;
mod findings;
mod machine;
mod passes;
mod play;
mod playback;
mod refusal;
mod requests;
mod setup;
mod shapes;
mod sheet;

use std::io;
use std::process::ExitCode;

fn main() -> ExitCode {
    let arguments: Vec<String> = std::env::args().skip(1).collect();
    let arguments: Vec<&str> = arguments.iter().map(String::as_str).collect();
    if let ["against", what, folders @ ..] = &arguments[..] {
        return tell(against::difference(what, folders));
    }
    match commands::answering(&arguments) {
        Some(Ok(())) => ExitCode::SUCCESS,
        _ => ExitCode::FAILURE,
    }
}

/// Prints a difference. Ends with 1 where there is one, and with 2 where none can be looked for.
fn tell(difference: io::Result<Option<String>>) -> ExitCode {
    match difference {
        Ok(None) => ExitCode::SUCCESS,
        Ok(Some(difference)) => {
            print!("{difference}");
            ExitCode::FAILURE
        }
        Err(error) => {
            eprintln!("against: {error}");
            ExitCode::from(2)
        }
    }
}
