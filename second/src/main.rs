//! The second program: the five barriers once more, to hold another program's answers against.
//! This file holds its commands; those that answer another's questions stand in commands.rs.

mod calls;
mod cases;
mod commands;
mod files;
mod findings;
mod lines;
mod machine;
mod parents;
mod passes;
mod play;
mod playback;
mod plays;
mod random;
mod recorder;
mod refusal;
mod requests;
mod schedules;
mod setup;
mod shapes;
mod sheet;
mod sheets;
mod soak;
mod spelling;
mod starts;
mod traces;
mod works;

#[cfg(test)]
mod tests;

use calls::recorder::Recorder;
use std::env;
use std::io::{self, BufWriter, Write};
use std::path::Path;
use std::process::ExitCode;
use std::time::Duration;

const USAGE: &str = "\
usage:
  second write DIR                write the stored cases to DIR/stdin and DIR/stdout
  second answer                   answer the requests on standard input
  second sheet                    print the sheet of the text on standard input
  second sheets DIR               write the sheet texts to DIR/NAME.text, their sheets to
                                  DIR/NAME.sheet, the findings of refused ones to DIR/NAME.finding
  second play SETUP TRACE         play the trace of one file from the setup of another
  second plays DIR                write setups, traces and what they show to DIR/NAME.setup,
                                  DIR/NAME.trace and DIR/NAME.played, findings as `sheets` does
  second explain sheet PRINTED TEXT
                                  print the finding of a text, whose sheet is the refusal PRINTED
  second explain playback PRINTED SETUP TRACE
                                  print the finding of a play, likewise
  second call                     answer the calls on standard input
  second calls DIR                write the calls to DIR/requests and their answers to DIR/answers
  second random-calls SEED ROUNDS DIR
                                  write random calls likewise, so many rounds of every kind and N
  second compare DIR FILE         compare the answers to the calls in a file with those in DIR
  second traces                   print the named traces of kind 0 that have no start table
  second random SEED COUNT        print so many random requests
  second soak MINUTES COMMAND..   hold random requests against another program
  second seek MINUTES COMMAND..   the same, but a difference isn't shrunk
";

fn main() -> ExitCode {
    let arguments: Option<Vec<String>> =
        env::args_os().skip(1).map(|argument| argument.into_string().ok()).collect();
    let arguments = arguments.unwrap_or_default();
    let arguments: Vec<&str> = arguments.iter().map(String::as_str).collect();
    match command(&arguments) {
        Ok(Ok(true)) => ExitCode::SUCCESS,
        Ok(Ok(false)) => ExitCode::FAILURE,
        Ok(Err(error)) => {
            eprintln!("second: {error}");
            ExitCode::FAILURE
        }
        Err(wrong) => {
            eprint!("second: {wrong}\n{USAGE}");
            ExitCode::from(2)
        }
    }
}

/// Carries out a command, which gives false if it found fault. Where the command is wrong,
/// nothing is done, and the words that say why are given.
fn command(arguments: &[&str]) -> Result<io::Result<bool>, &'static str> {
    if let Some(done) = commands::answering(arguments) {
        return Ok(done.map(|()| true));
    }
    match arguments {
        ["write", folder] => Ok(write(Path::new(folder)).map(|()| true)),
        ["sheets", folder] => Ok(sheets(Path::new(folder)).map(|()| true)),
        ["plays", folder] => Ok(plays(Path::new(folder)).map(|()| true)),
        ["calls", folder] => Ok(calls(&calls::all(), Path::new(folder)).map(|()| true)),
        ["random-calls", seed, rounds, folder] => {
            let (seed, rounds) = two_numbers(seed, rounds, "SEED and ROUNDS are whole numbers")?;
            let written = calls(&calls::random::calls(seed, rounds), Path::new(folder));
            Ok(written.map(|()| true))
        }
        ["compare", folder, answered] => Ok(compare(Path::new(folder), Path::new(answered))),
        ["traces"] => Ok(commands::print(Ok(traces::table())).map(|()| true)),
        ["random", seed, count] => {
            let (seed, count) = two_numbers(seed, count, "SEED and COUNT are whole numbers")?;
            Ok(random(seed, count).map(|()| true))
        }
        ["soak", minutes, other @ ..] if !other.is_empty() => {
            Ok(soak::soak(soak_time(minutes)?, other))
        }
        ["seek", minutes, other @ ..] if !other.is_empty() => {
            Ok(soak::seek(soak_time(minutes)?, other))
        }
        _ => Err("no such command"),
    }
}

/// Two numbers of a command, or the words for it that they aren't.
fn two_numbers(seed: &str, count: &str, wrong: &'static str) -> Result<(u64, usize), &'static str> {
    match (seed.parse(), count.parse()) {
        (Ok(seed), Ok(count)) => Ok((seed, count)),
        _ => Err(wrong),
    }
}

fn soak_time(minutes: &str) -> Result<Duration, &'static str> {
    soak::time(minutes).ok_or("MINUTES is a number above 0, such as 10 or 0.5")
}

fn write(folder: &Path) -> io::Result<()> {
    let count = cases::write(folder)?;
    println!("{count} requests");
    Ok(())
}

fn sheets(folder: &Path) -> io::Result<()> {
    let count = sheets::write(folder)?;
    println!("{count} texts");
    Ok(())
}

fn plays(folder: &Path) -> io::Result<()> {
    let count = plays::write(folder)?;
    println!("{count} plays");
    Ok(())
}

fn calls(calls: &Recorder, folder: &Path) -> io::Result<()> {
    let count = calls::write(calls, folder)?;
    println!("{count} requests");
    Ok(())
}

/// Gives whether the answers are the same.
fn compare(folder: &Path, answered: &Path) -> io::Result<bool> {
    let compared = calls::compare::compare(folder, answered)?;
    match &compared {
        Ok(count) => println!("calls: {count} requests agree"),
        Err(difference) => print!("{difference}"),
    }
    Ok(compared.is_ok())
}

fn random(seed: u64, count: usize) -> io::Result<()> {
    let mut recorder = recorder::Recorder::default();
    cases::scenes::requests(&mut recorder, &mut random::Random::new(seed), count);
    let lines = recorder.requests().split_inclusive(|&byte| byte == b'\n');
    let mut output = BufWriter::new(io::stdout().lock());
    for line in lines.take(count) {
        output.write_all(line)?;
    }
    output.flush()
}
