//! The program behind bin/sheet and bin/playback that says which cause a refusal had and where it stands. It needs the texts and what the
//! proved program printed, and not the library.
//!
//!     explain sheet REFUSAL TEXT [NAME]
//!     explain playback REFUSAL SETUP TRACE [NAME]
//!
//! REFUSAL is the line that was printed, `refused 9 place 4`; NAME is what the user calls the text, if not by its file, `-` for standard input.
//! It prints `refused 9: ` and the finding of docs/refusals.md, and a line with the command that mends a byte, where one does.

mod finding;
mod mend;
mod numbers;
mod words;

use finding::Form;
use std::ffi::{OsStr, OsString};
use std::fs::File;
use std::io::{self, Read, Write};
use std::process::ExitCode;

/// The number of a refusal, and the place of a 9.
fn refusal(line: &str) -> Option<(u8, usize)> {
    let words: Vec<&str> = line.split_whitespace().collect();
    match words[..] {
        ["refused", number] => Some((number.parse().ok()?, 0)),
        ["refused", number, "place", place] => Some((number.parse().ok()?, place.parse().ok()?)),
        _ => None,
    }
}

/// No more of a file than shows that it is too long.
fn bytes(path: &OsStr) -> Result<Vec<u8>, String> {
    let mut bytes = Vec::new();
    File::open(path)
        .and_then(|file| file.take(finding::MOST as u64 + 1).read_to_end(&mut bytes))
        .map_err(|error| format!("cannot read '{}': {error}", path.to_string_lossy()))?;
    Ok(bytes)
}

/// The lines to print for a refusal; the files are a text and, of a play-back, a trace, and then what the user calls the text.
fn explained(form: Form, line: &str, files: &[OsString]) -> Result<String, String> {
    let (reason, place) = refusal(line).ok_or(format!("'{line}' is no refusal"))?;
    let (path, trace, name) = match (form, files) {
        (Form::Sheet, [path, name @ ..]) => (path, path, name),
        (Form::Setup, [path, trace, name @ ..]) => (path, trace, name),
        _ => return Err("a file is missing".to_string()),
    };
    let text = bytes(path)?;
    let found = match reason {
        8 | 14 if form == Form::Setup => finding::of_trace(bytes(trace)?.len(), reason),
        _ => finding::of_text(form, &text, reason, place),
    };
    let found = found.ok_or(format!("the text shows no cause of {reason}"))?;
    let name = name.first().unwrap_or(path).to_str().unwrap_or("-");
    let mend = if reason == 1 { mend::line(form, &text, name) } else { None };
    let mend = mend.map(|line| format!("{line}\n")).unwrap_or_default();
    Ok(format!("refused {reason}: {found}\n{mend}"))
}

fn called(words: &[OsString]) -> Result<String, String> {
    let [form, line, files @ ..] = words else {
        return Err("a form, a refusal and files are needed".to_string());
    };
    let line = line.to_string_lossy();
    match form.to_str() {
        Some("sheet") => explained(Form::Sheet, &line, files),
        Some("playback") => explained(Form::Setup, &line, files),
        _ => Err("the form is sheet or playback".to_string()),
    }
}

fn main() -> ExitCode {
    let words: Vec<OsString> = std::env::args_os().skip(1).collect();
    let result = called(&words);
    let written = match &result {
        Ok(lines) => io::stdout().write_all(lines.as_bytes()),
        Err(message) => writeln!(io::stderr(), "explain: {message}"),
    };
    if result.is_ok() && written.is_ok() {
        ExitCode::SUCCESS
    } else {
        ExitCode::FAILURE
    }
}
