//! The soak: sends random requests through this program and another one until the time is up,
//! and shows the shortest requests it can find on which their answers differ, or names the batch.

mod programs;
mod shrink;

use super::cases::scenes;
use super::random::Random;
use super::recorder::Recorder;
use programs::{Difference, Programs, Requests};
use std::fmt;
use std::io::{self, IsTerminal, Write};
use std::time::{Duration, Instant, SystemTime, UNIX_EPOCH};

/// The requests of one batch.
const BATCH: usize = 2_000;

/// How often progress is told where there is no terminal.
const SELDOM: Duration = Duration::from_secs(30);

/// The time that so many minutes are; none unless they are a number above 0 that isn't endless.
pub fn time(minutes: &str) -> Option<Duration> {
    let minutes: f64 = minutes.parse().ok()?;
    if minutes > 0.0 {
        Duration::try_from_secs_f64(60.0 * minutes).ok()
    } else {
        None
    }
}

/// Soaks for some time, and shows the shortest requests. Gives whether all answers were the same.
pub fn soak(time: Duration, other: &[&str]) -> io::Result<bool> {
    soaked(time, other, |programs, requests| {
        println!("shrinking it");
        report(programs, &shrink::shrink(programs, requests)?)
    })
}

/// Soaks for some time, and names a batch alone. Gives whether all answers were the same.
pub fn seek(time: Duration, other: &[&str]) -> io::Result<bool> {
    soaked(time, other, |_, _| Ok(()))
}

/// Sends batches through both programs until their answers differ; then tells of it.
fn soaked(
    time: Duration,
    other: &[&str],
    tell: impl FnOnce(&Programs, Requests) -> io::Result<()>,
) -> io::Result<bool> {
    let programs = Programs::new(other)?;
    let mut progress = Progress::new(time);
    let first_seed = seed_of_the_clock();
    while !progress.is_over() {
        let seed = first_seed.wrapping_add(progress.batches);
        let requests = batch(seed);
        if programs.difference(&requests)?.is_some() {
            progress.end_line();
            println!("a difference in the batch `second random {seed} {BATCH}`");
            tell(&programs, requests)?;
            println!("soak: {progress}, a difference");
            return Ok(false);
        }
        progress.count(requests.len());
    }
    progress.end_line();
    println!("soak: {progress}, no difference");
    Ok(true)
}

/// A seed that is another one each time.
fn seed_of_the_clock() -> u64 {
    let since = SystemTime::now().duration_since(UNIX_EPOCH);
    since.map_or(0, |since| since.as_micros() as u64)
}

/// The requests of a batch.
fn batch(seed: u64) -> Requests {
    let mut recorder = Recorder::default();
    scenes::requests(&mut recorder, &mut Random::new(seed), BATCH);
    let lines = recorder.requests().split(|&byte| byte == b'\n');
    lines.take(BATCH).map(Vec::from).collect()
}

/// Prints the requests, and the answers at which the programs differ.
fn report(programs: &Programs, requests: &[Vec<u8>]) -> io::Result<()> {
    let mut out = io::stdout().lock();
    writeln!(out, "requests:")?;
    for request in requests {
        out.write_all(request)?;
        writeln!(out)?;
    }
    match programs.difference(requests)? {
        Some(difference) => report_answers(&mut out, &difference),
        None => writeln!(out, "this time the answers were the same"),
    }
}

/// Prints two answers and their first words that aren't the same.
fn report_answers(out: &mut impl Write, difference: &Difference) -> io::Result<()> {
    let (own, other) = (printable(&difference.own), printable(&difference.other));
    writeln!(out, "answers to request {}:", difference.place + 1)?;
    writeln!(out, "second: {own}")?;
    writeln!(out, "other:  {other}")?;
    let (own, other): (Vec<_>, Vec<_>) = (own.split(' ').collect(), other.split(' ').collect());
    let differs = |place: &usize| own.get(*place) != other.get(*place);
    if let Some(place) = (0..own.len().max(other.len())).find(differs) {
        let word = |words: &[&str]| words.get(place).map_or("nothing", |word| word).to_string();
        let (own, other) = (word(&own), word(&other));
        writeln!(out, "word {}: second {own}, other {other}", place + 1)?;
    }
    Ok(())
}

/// An answer without its line feed, other bytes escaped.
fn printable(answer: &[u8]) -> String {
    let answer = answer.strip_suffix(b"\n").unwrap_or(answer);
    answer.escape_ascii().to_string()
}

/// What was done so far, and until when it goes on.
struct Progress {
    begin: Instant,
    time: Duration,
    batches: u64,
    requests: usize,
    told: Instant,
}

impl Progress {
    fn new(time: Duration) -> Progress {
        let begin = Instant::now();
        Progress { begin, time, batches: 0, requests: 0, told: begin }
    }

    /// Whether the time is up. One batch is sent in any case: a soak of nothing would say nothing.
    fn is_over(&self) -> bool {
        self.batches > 0 && self.begin.elapsed() >= self.time
    }

    /// Counts a batch and tells of it: on one line of a terminal, elsewhere now and then.
    fn count(&mut self, requests: usize) {
        self.batches += 1;
        self.requests += requests;
        if io::stderr().is_terminal() {
            eprint!("\r{self} of {} s", self.time.as_secs());
        } else if self.told.elapsed() >= SELDOM {
            self.told = Instant::now();
            eprintln!("{self} of {} s", self.time.as_secs());
        }
    }

    /// Ends the terminal's line.
    fn end_line(&self) {
        if self.batches > 0 && io::stderr().is_terminal() {
            eprintln!();
        }
    }
}

/// Writes the counts and the seconds so far.
impl fmt::Display for Progress {
    fn fmt(&self, out: &mut fmt::Formatter<'_>) -> fmt::Result {
        let (batches, requests) = (self.batches, self.requests);
        let seconds = self.begin.elapsed().as_secs();
        write!(out, "{batches} batches, {requests} requests, {seconds} s")
    }
}

#[test]
fn minutes_are_a_number_above_0() {
    for minutes in ["10", "0.5", ".5", "1e-9"] {
        assert!(time(minutes).is_some(), "{minutes}");
    }
    for minutes in ["", "x", "0", "-0", "-1", "nan", "-nan", "inf", "-inf", "1e300", "1 ", "10m"] {
        assert!(time(minutes).is_none(), "{minutes}");
    }
}
