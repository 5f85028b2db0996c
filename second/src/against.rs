//! Holds the program to answers that are written already, all of them in one process, up to the
//! first that differs. A program that fails at one has given none.

use super::commands::{self, open};
use std::fs::{self, File};
use std::io::{self, Write};
use std::panic::{self, AssertUnwindSafe};
use std::path::{Path, PathBuf};

/// The most characters of an answer that are shown.
const SHOWN: usize = 150;

/// The first answer that isn't the one that the folders hold.
pub fn difference(what: &str, folders: &[&str]) -> io::Result<Option<String>> {
    panic::set_hook(Box::new(|_| ()));
    for folder in folders {
        let folder = Path::new(folder);
        let found = match what {
            "cases" => {
                lines(folder, ["stdin", "stdout"], |input, output| commands::answer(input, output))
            }
            "calls" => lines(folder, ["requests", "answers"], |input, output| {
                commands::call(input, output)
            }),
            "sheets" => files(folder, "sheet", sheet),
            "plays" => files(folder, "played", play),
            "findings" => files(folder, "finding", finding),
            _ => Err(io::Error::other("no such answers")),
        }?;
        if found.is_some() {
            return Ok(found);
        }
    }
    Ok(None)
}

// ---- one file of answers, a line each ----

/// Answers all requests of a file.
fn lines(
    folder: &Path,
    [requests, answers]: [&str; 2],
    answer: fn(File, &mut Expected) -> io::Result<()>,
) -> io::Result<Option<String>> {
    let requests = open(&folder.join(requests))?;
    let mut expected = Expected { bytes: fs::read(folder.join(answers))?, place: 0 };
    // It ends with an error or fails where it differs, and both show in how far it has come.
    let _ = panic::catch_unwind(AssertUnwindSafe(|| answer(requests, &mut expected)));
    Ok(expected.difference())
}

/// Takes what is printed as long as it is expected.
struct Expected {
    bytes: Vec<u8>,
    place: usize,
}

impl Write for Expected {
    fn write(&mut self, printed: &[u8]) -> io::Result<usize> {
        if !self.bytes[self.place..].starts_with(printed) {
            return Err(io::Error::other("a difference"));
        }
        self.place += printed.len();
        Ok(printed.len())
    }

    fn flush(&mut self) -> io::Result<()> {
        Ok(())
    }
}

impl Expected {
    /// The answer that wasn't printed, if there is one.
    fn difference(&self) -> Option<String> {
        if self.place == self.bytes.len() {
            return None;
        }
        let line = self.bytes[..self.place].iter().filter(|&&byte| byte == b'\n').count();
        Some(format!("a difference in answer {}\n", line + 1))
    }
}

// ---- a file for each answer ----

/// Gives the answer for each file with the extension, in the order of their names.
fn files(
    folder: &Path,
    extension: &str,
    answer: fn(&Path) -> io::Result<String>,
) -> io::Result<Option<String>> {
    let files: io::Result<Vec<PathBuf>> =
        fs::read_dir(folder)?.map(|entry| Ok(entry?.path())).collect();
    let mut files = files?;
    files.retain(|file| file.extension().is_some_and(|other| other == extension));
    files.sort();
    if files.is_empty() {
        return Err(io::Error::other(format!("{}: no .{extension}", folder.display())));
    }
    for file in files {
        let expected = fs::read(&file)?;
        let printed = panic::catch_unwind(|| answer(&file));
        let printed = printed.map_or(String::new(), |printed| printed.unwrap_or_default());
        if printed.as_bytes() != expected {
            let (expected, printed) = (shown(&expected), shown(printed.as_bytes()));
            let name = file.display();
            return Ok(Some(format!(
                "a difference in {name}\nexpected: {expected}\nprinted:  {printed}\n"
            )));
        }
    }
    Ok(None)
}

fn shown(answer: &[u8]) -> String {
    answer.escape_ascii().to_string().chars().take(SHOWN).collect()
}

fn sheet(file: &Path) -> io::Result<String> {
    commands::sheet_of(open(&file.with_extension("text"))?)
}

fn play(file: &Path) -> io::Result<String> {
    commands::play_of(&file.with_extension("setup"), &file.with_extension("trace"))
}

/// A text and a play lie in different folders.
fn finding(file: &Path) -> io::Result<String> {
    let text = file.with_extension("text");
    if text.exists() {
        let printed = fs::read_to_string(file.with_extension("sheet"))?;
        return commands::finding_of_sheet(printed.trim_end(), &text);
    }
    let (setup, trace) = (file.with_extension("setup"), file.with_extension("trace"));
    let printed = fs::read_to_string(file.with_extension("played"))?;
    commands::finding_of_play(printed.trim_end(), &setup, &trace)
}
