//! The commands that answer: requests, sheets, plays, findings and calls.

use super::{calls, findings, lines, play, playback, requests, sheet};
use std::fs::File;
use std::io::{self, BufReader, BufWriter, Read, Write};
use std::path::Path;

/// Carries out such a command; none if it is another.
pub fn answering(arguments: &[&str]) -> Option<io::Result<()>> {
    match arguments {
        ["answer"] => Some(answer(io::stdin().lock(), output())),
        ["sheet"] => Some(print(sheet_of(io::stdin().lock()))),
        ["play", setup, trace] => Some(print(play_of(Path::new(setup), Path::new(trace)))),
        ["explain", "sheet", printed, text] => {
            Some(print(finding_of_sheet(printed, Path::new(text))))
        }
        ["explain", "playback", printed, setup, trace] => {
            Some(print(finding_of_play(printed, Path::new(setup), Path::new(trace))))
        }
        ["call"] => Some(call(io::stdin().lock(), output())),
        _ => None,
    }
}

/// Answers the replay's requests.
pub fn answer(input: impl Read, mut output: impl Write) -> io::Result<()> {
    let mut replay = requests::Replay::default();
    lines::answer(&mut buffered(input), &mut output, &mut |line| replay.answer(line))
}

/// Answers the calls.
pub fn call(input: impl Read, mut output: impl Write) -> io::Result<()> {
    let mut caller = calls::caller::Caller::default();
    let mut answer = |line: &[u8]| caller.answer(line).unwrap_or_else(|| "bad line".into());
    lines::answer(&mut buffered(input), &mut output, &mut answer)
}

fn buffered<R: Read>(input: R) -> BufReader<R> {
    BufReader::with_capacity(1 << 16, input)
}

/// Standard output for many lines.
fn output() -> impl Write {
    BufWriter::with_capacity(1 << 16, io::stdout().lock())
}

/// The sheet of the text that the input holds.
pub fn sheet_of(text: impl Read) -> io::Result<String> {
    Ok(sheet::sheet(&read(text, sheet::MAX_TEXT)?))
}

/// What the play of two files shows.
pub fn play_of(setup: &Path, trace: &Path) -> io::Result<String> {
    let setup = read(open(setup)?, sheet::MAX_TEXT)?;
    let trace = read(open(trace)?, playback::MAX_TRACE)?;
    Ok(play::play(&setup, &trace))
}

/// The finding of the text in a file.
pub fn finding_of_sheet(printed: &str, text: &Path) -> io::Result<String> {
    let text = read(open(text)?, sheet::MAX_TEXT)?;
    finding(printed, &sheet::sheet(&text), findings::of_sheet(&text))
}

/// The finding of the play of two files.
pub fn finding_of_play(printed: &str, setup: &Path, trace: &Path) -> io::Result<String> {
    let setup = read(open(setup)?, sheet::MAX_TEXT)?;
    let trace = read(open(trace)?, playback::MAX_TRACE)?;
    finding(printed, &play::play(&setup, &trace), findings::of_play(&setup, &trace))
}

/// Gives a finding. It would be said of another refusal where the answer isn't the one printed.
fn finding(printed: &str, answer: &str, finding: Option<String>) -> io::Result<String> {
    match finding {
        Some(finding) if answer.strip_suffix('\n') == Some(printed) => Ok(finding),
        Some(_) => Err(io::Error::other(format!("it isn't '{printed}': {}", answer.trim_end()))),
        None => Err(io::Error::other("it isn't refused")),
    }
}

/// Opens a file; the error names it.
pub fn open(path: &Path) -> io::Result<File> {
    File::open(path).map_err(|error| io::Error::other(format!("{}: {error}", path.display())))
}

/// Reads the whole input, and of one that is longer than this no more than shows that it is.
fn read(input: impl Read, most: usize) -> io::Result<Vec<u8>> {
    let mut bytes = Vec::new();
    input.take(most as u64 + 1).read_to_end(&mut bytes)?;
    Ok(bytes)
}

/// Prints an answer, if there is one.
pub fn print(answer: io::Result<String>) -> io::Result<()> {
    io::stdout().write_all(answer?.as_bytes())
}
