//! The exported functions as calls: requests of the text format for their test, one call a line,
//! this program's answers to them, and the files both are written to.

pub mod answer;
pub mod caller;
mod cases;
pub mod compare;
pub mod functions;
pub mod limit;
pub mod list;
pub mod random;
pub mod reasons;
pub mod recorder;

use recorder::Recorder;
use std::fs;
use std::io;
use std::path::Path;

/// The names of the files in a folder.
pub const REQUESTS: &str = "requests";
pub const ANSWERS: &str = "answers";

/// Writes the requests and their answers. Gives the number of requests. It is an error if a
/// function hasn't given each of its reasons.
pub fn write(calls: &Recorder, folder: &Path) -> io::Result<usize> {
    calls.met().check().map_err(io::Error::other)?;
    fs::create_dir_all(folder)?;
    fs::write(folder.join(REQUESTS), calls.requests())?;
    fs::write(folder.join(ANSWERS), calls.answers())?;
    Ok(calls.count())
}

/// All requests that go through every function and reason, with their answers.
pub fn all() -> Recorder {
    let mut recorder = Recorder::default();
    cases::add(&mut recorder);
    recorder
}
